#!/usr/bin/env python3
"""The ways through a script of IF ELSE ENDIF (636768), COUNT times, by what these three opcodes do.

  oracles/branches.py N    prints what `enforce paths` has to print of it

Each IF takes an item, and goes on into its first branch where that is true, and after its ELSE where it is false. Both branches are empty. So N IFs take N items, in either answer
each, and leave the last item, which has to be true. What stands after an IF comes before what stands after its ELSE.
"""
import itertools
import sys


def main(count):
    print(f"paths {2**count}")
    for number, answers in enumerate(itertools.product(("yes", "no"), repeat=count)):
        print(f"path {number} arity {count + 1} counted {3 * count} height {count + 1} lock - age -")
        for slot, answer in enumerate((*answers, "yes")):
            print(f"  truth {slot} {answer}")


if __name__ == "__main__":
    if len(sys.argv) != 2 or not sys.argv[1].isdigit():
        raise SystemExit(__doc__)
    main(int(sys.argv[1]))
