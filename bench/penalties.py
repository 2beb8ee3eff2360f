#!/usr/bin/env python3
"""Times the penalty set of a state with many HTLCs and SHA-256 of 1 MiB in one run, and prints both and their ratio. Then the same with half as many HTLCs, and what a tower
does with that state's commitment by its keys and HTLCs alone (`revoked`): its table is made anew each time, and its outputs claimed, without and with its HTLC transactions'.

Wants the toolchain's `rt`: `.ci/program` proves and builds bench/programs/penalty_costs in a copy of the repository.
"""

import os
import resource
import subprocess

from bounds import check_bound

TOP = os.path.dirname(os.path.dirname(os.path.abspath(__file__)))
SETS, HASHES, ROUNDS = 10, 40, 7


def seconds(program, text):
    """The processor time that the program takes for a line, and its output."""
    start = resource.getrusage(resource.RUSAGE_CHILDREN).ru_utime
    done = subprocess.run([program], input=text, capture_output=True, text=True, check=True)
    return resource.getrusage(resource.RUSAGE_CHILDREN).ru_utime - start, done.stdout


def milliseconds(program, line, times):
    """The milliseconds of one piece of work: the fastest round, without the program's start and the reading of the line."""
    best, start = 1e9, 1e9
    for _ in range(ROUNDS):
        start = min(start, seconds(program, line.format(0))[0])
        best = min(best, seconds(program, line.format(times))[0])
    return (best - start) / times * 1e3


def towers(program, penalties):
    """What a tower does with the commitment of a state with 483 HTLCs, beside its penalties."""
    for word, what in (("tower", "the commitment"), ("stages", "the commitment and its HTLC transactions")):
        line = word + " {} " + state(483) + "\n"
        print(seconds(program, line.format(1))[1].strip())
        took = milliseconds(program, line, SETS)
        print(f"a tower, 483 HTLCs    {took:8.2f} ms")
        check_bound(f"what a tower does with {what} of 483 HTLCs to the penalties", took / penalties, 1.5)


def state(htlcs):
    """A state of ten million satoshis, half of its HTLCs offered by each side."""
    words = [f"{'AB'[i % 2]}:{(2000 + i) * 1000}:{500 + i}:{i % 256}" for i in range(htlcs)]
    offered = sum((2000 + i) * 1000 for i in range(htlcs))
    return f"A 7 1000 {10_000_000_000 - offered} 0 " + " ".join(words)


def main():
    built = subprocess.run([os.path.join(TOP, ".ci", "program"), "penalty_costs"], stdout=subprocess.PIPE, text=True, check=True)
    program = built.stdout.strip()
    hashing = milliseconds(program, "hash {}\n", HASHES)
    print(f"SHA-256 of 1 MiB      {hashing:8.2f} ms")
    took = {}
    for htlcs in (483, 966):
        line = "repeat {} " + state(htlcs) + "\n"
        print(seconds(program, line.format(1))[1].strip())
        took[htlcs] = milliseconds(program, line, SETS)
        print(f"penalties, {htlcs} HTLCs {took[htlcs]:8.2f} ms")
    check_bound("the penalties of 966 HTLCs to SHA-256 of 1 MiB", took[966] / hashing, 4)
    check_bound("the penalties of 966 HTLCs to those of 483", took[966] / took[483], 2.4)
    towers(program, took[483])


if __name__ == "__main__":
    main()
