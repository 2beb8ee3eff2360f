#!/usr/bin/env python3
"""Bounds of the benchmarks: each script prints what it measured beside the bound, and bench/all.sh collects these lines into one table.

  bench/bounds.py WHAT LINE FIELD least|most BOUND ..   copies standard input, and bounds numbers of it: that of the line which has the text LINE, after the word FIELD
"""

import os
import re
import sys


def check_bound(what, value, bound, unit="", least=False):
    """Prints a measured number with its bound, and records both in the file that BOUNDS names, where it names one."""
    held = value >= bound if least else value <= bound
    sort = "at least" if least else "at most"
    print(f"{what}: {value:.2f}{unit} ({sort} {bound:g}{unit}){'' if held else '  PASSED THE BOUND'}", flush=True)
    if os.environ.get("BOUNDS"):
        with open(os.environ["BOUNDS"], "a", encoding="utf-8") as rows:
            rows.write(f"{what}\t{value:.2f}{unit}\t{sort} {bound:g}{unit}\t{'held' if held else 'PASSED'}\n")
    return held


def main(words):
    if not words or len(words) % 5:
        raise SystemExit(__doc__)
    text = sys.stdin.read()
    sys.stdout.write(text)
    for what, part, field, sort, bound in zip(*[iter(words)] * 5):
        found = [line for line in text.splitlines() if part in line]
        numbers = re.findall(rf"\b{re.escape(field)}\s+([\d.]+)", found[0]) if found else []
        if not numbers:
            raise SystemExit(f"bounds: no line has '{part}' and a number after '{field}'")
        check_bound(what, float(numbers[0]), float(bound), least=sort == "least")


if __name__ == "__main__":
    main(sys.argv[1:])
