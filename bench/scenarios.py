#!/usr/bin/env python3
"""Reads hostile scenarios of 4 MiB by `enforce run`: none takes more than two processor seconds or 256 MiB. The last is whole, and is played too.

  bench/scenarios.py            proves and builds what it runs; wants the toolchain's `rt`
  bench/scenarios.py PROGRAM    reads by this build of crates/enforce
"""

import json
import sys

from books import hostile_text, run
from bounds import check_bound
from worlds import TERMS, built_program

SEEDS = json.dumps(["0a" * 32, "0b" * 32])
CHANNEL = json.dumps(TERMS, separators=(",", ":"))
START = '{"seeds":' + SEEDS + ',"channels":[' + CHANNEL + '],"events":['
LOOK = '["look","A"]'
# a text: the part before, the middle, which is repeated, and the part after; and the expected line, the last one of those that are printed
HOSTILE = {
    "arrays in arrays, open": ("", "[", "", "refused NotJson"),
    "objects in objects, open": ("", '{"a":', "", "refused NotJson"),
    "one long string": ('"', "a", '"', "refused BadShape"),
    "a long string of escapes": ('"', "\\u0041", '"', "refused BadShape"),
    "one long number": ("", "9", "", "refused NotJson"),
    "many numbers": ("[0", ",0", "]", "refused BadShape"),
    "many empty arrays": ("[0", ",[]", "]", "refused BadShape"),
    "many arrays of one number": ("[0", ",[0]", "]", "refused BadShape"),
    "many empty objects": ("[0", ",{}", "]", "refused BadShape"),
    "many objects of one member": ("[0", ',{"":0}', "]", "refused BadShape"),
    "one member again and again": ('{"events":[]', ',"seeds":' + SEEDS, "}", "refused BadShape"),
    "many channels": ('{"seeds":' + SEEDS + ',"events":[],"channels":[' + CHANNEL, "," + CHANNEL, "]}", "refused OverLimit"),
    "many events": (START + LOOK, "," + LOOK, "]}", "refused OverLimit"),
    "many events of no name": (START + LOOK, ',["nothing"]', "]}", "refused BadShape"),
    "many signatures": (START + '["sign","A",0]', ',["sign","A",0]', "]}", "refused OverLimit"),
    "a long name of an event": (START + '["', "a", '"]]}', "refused BadShape"),
    "a long hash": (START + '["offer","A",0,1000000,"', "00", '",500]]}', "refused BadShape"),
    "10,000 events far apart": (START + LOOK + 9999 * ("," + 400 * " " + LOOK), " ", "]}", "B history 1"),
}


def main(words):
    (program,) = words or (built_program("enforce"),)
    for name, (before, middle, after, wanted) in HOSTILE.items():
        printed, took, memory = run(program, hostile_text(before, middle, after), "run")
        last = printed.splitlines()[-1]
        print(f"{name}: {last}")
        check_bound(f"a scenario of 4 MiB, {name}", took, 2, unit=" s")
        check_bound(f"a scenario of 4 MiB, {name}, memory", memory, 256, unit=" MiB")
        if last != wanted:
            raise SystemExit(f"scenarios: {name} gives {last}, and not {wanted}")


if __name__ == "__main__":
    main(sys.argv[1:])
