#!/usr/bin/env python3
"""Times one call of the built programs, and `trace scenario` beside `enforce run` on the scenario of 10,000 events.

  bench/calls.py                  proves and builds what it runs; wants the toolchain's `rt`
  bench/calls.py ENFORCE TRACE    times these builds of crates/enforce and of crates/trace
"""

import json
import os
import shutil
import subprocess
import sys
import tempfile
import time

from bounds import check_bound
from worlds import TOP, built_program, least_seconds, scenario

CALLS = 100
EVENTS = 10_000


def milliseconds(words):
    """One call by the clock, the mean of a row of them."""
    subprocess.run(words, stdout=subprocess.DEVNULL, check=True)
    start = time.perf_counter()
    for _ in range(CALLS):
        subprocess.run(words, stdout=subprocess.DEVNULL, check=True)
    return (time.perf_counter() - start) / CALLS * 1e3


def most_memory(words, text):
    """The greatest memory of a program that reads a text, in MiB."""
    with tempfile.TemporaryFile() as given, open(os.devnull, "wb") as printed:
        given.write(text.encode())
        given.seek(0)
        started = subprocess.Popen(words, stdin=given, stdout=printed)
        _, status, usage = os.wait4(started.pid, 0)
    if status != 0:
        raise SystemExit(f"{words[0]} ended with status {status}")
    return usage.ru_maxrss / 1024


def main(words):
    enforce, trace = words if words else (built_program("enforce"), built_program("trace"))
    with tempfile.TemporaryDirectory() as folder:
        # as `./enforce --install` lays them
        shutil.copy(os.path.join(TOP, "enforce"), folder)
        shutil.copy(enforce, os.path.join(folder, "enforce.proved"))
        check_bound(
            "a call of an installed program", milliseconds([os.path.join(folder, "enforce"), "ripemd", "616263"]), 50, unit=" ms"
        )
    wrapper = os.path.join(TOP, "enforce")
    if "proved yes" in subprocess.run([wrapper, "--version"], capture_output=True, text=True, check=True).stdout:
        check_bound("a call of a built program", milliseconds([wrapper, "ripemd", "616263"]), 50, unit=" ms")
    else:
        print("a call of a built program: no proved build stands here (./enforce --build makes it)")
    text = json.dumps(scenario(EVENTS))
    played, traced = least_seconds([enforce, "run"], text), least_seconds([trace, "scenario"], text)
    print(f"{EVENTS:,} events: {played * 1e3:.0f} ms played, {traced * 1e3:.0f} ms traced")
    check_bound("trace scenario to enforce run, 10,000 events", traced / played, 2)
    check_bound("memory of trace scenario, 10,000 events", most_memory([trace, "scenario"], text), 64, unit=" MiB")


if __name__ == "__main__":
    main(sys.argv[1:])
