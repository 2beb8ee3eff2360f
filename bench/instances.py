#!/usr/bin/env python3
"""Times instances of patterns and checks of the same scripts in one run, and counts the bytes that each allocates with malloc.

For the to_local and the received HTLC script of BOLT 3: an instance fills the pattern, which was listed once; a check parses the script's bytes and lists its paths.
Wants the toolchain's `rt` and a C compiler: `.ci/program` proves and builds bench/programs/pattern_costs in a copy of the repository.
"""

import os
import subprocess
import tempfile
import time

from bounds import check_bound

TOP = os.path.dirname(os.path.dirname(os.path.abspath(__file__)))
TIMES, ROUNDS = 100_000, 7

KEYS = ["02" + byte * 32 for byte in ("11", "22")]
HASHES = [byte * 20 for byte in ("33", "44")]

# each form: its pattern, its fills, and the script
FORMS = {
    "to_local": (
        "63 key 67 num b275 key 68ac",
        f"key={KEYS[0]} num=144 key={KEYS[1]}",
        f"6321{KEYS[0]}67029000b27521{KEYS[1]}68ac",
    ),
    "received HTLC": (
        "76a9 hash 8763ac67 key 7c8201208763a9 hash 88527c key 52ae6775 num b175ac6868",
        f"hash={HASHES[0]} key={KEYS[0]} hash={HASHES[1]} key={KEYS[1]} num=500",
        f"76a914{HASHES[0]}8763ac6721{KEYS[0]}7c8201208763a914{HASHES[1]}88527c21{KEYS[1]}52ae677502f401b175ac6868",
    ),
}


def run(program, text, env=None):
    """The seconds that the program takes, and its output on both streams."""
    start = time.perf_counter()
    done = subprocess.run([program], input=text, capture_output=True, text=True, check=True, env=env)
    return time.perf_counter() - start, done.stdout, done.stderr


def lines(form, work, times):
    pattern, fills, script = FORMS[form]
    last = f"fill {times} {fills}" if work == "instance" else f"check {times} {script}"
    return f"pattern {pattern}\n{last}\n"


def nanoseconds(program, form, work):
    """The nanoseconds of one piece of work: the fastest round, without the program's start."""
    bytes_of = len(FORMS[form][2]) // 2 * TIMES
    best, start = 1e9, 1e9
    for _ in range(ROUNDS):
        start = min(start, run(program, lines(form, work, 0))[0])
        took, out, _ = run(program, lines(form, work, TIMES))
        assert out == f"pattern\nbytes {bytes_of}\n", out
        best = min(best, took)
    return (best - start) / TIMES * 1e9


def allocated_bytes(program, form, work, preload):
    """The bytes that one piece of work allocates with malloc."""
    env = dict(os.environ, LD_PRELOAD=preload)
    counts = [int(run(program, lines(form, work, times), env)[2].split()[-1]) for times in (1000, 2000)]
    return (counts[1] - counts[0]) / 1000


def main():
    built = subprocess.run([os.path.join(TOP, ".ci", "program"), "pattern_costs"], stdout=subprocess.PIPE, text=True, check=True)
    program = built.stdout.strip()
    with tempfile.TemporaryDirectory() as work:
        preload = os.path.join(work, "allocated.so")
        source = os.path.join(TOP, "bench", "allocated.c")
        subprocess.run([os.environ.get("CC", "cc"), "-O2", "-shared", "-fPIC", "-o", preload, source, "-ldl"], check=True)
        for form, (_, _, script) in FORMS.items():
            print(f"{form}, {len(script) // 2} bytes")
            took = {kind: nanoseconds(program, form, kind) for kind in ("instance", "check")}
            for kind, value in took.items():
                print(f"  {kind:9}{value:8.0f} ns {allocated_bytes(program, form, kind, preload):8.0f} bytes of malloc")
            check_bound(f"the check of the {form} script to an instance of its pattern", took["check"] / took["instance"], 1, least=True)


if __name__ == "__main__":
    main()
