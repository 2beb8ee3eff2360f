#!/usr/bin/env python3
"""Times the least that a side has of a channel with 966 HTLCs, after few and after many rounds, beside SHA-256 of 1 MiB, in one run, in processor seconds. Wants the toolchain's `rt`: `.ci/program` proves and builds
bench/programs/least_costs in a copy of the repository."""

import os
import resource
import subprocess

from bounds import check_bound

TOP = os.path.dirname(os.path.dirname(os.path.abspath(__file__)))
TURNS = 9

# the work of a line, and how often it is done more
WORK = {"hash 1 MiB": ("hash", 100), "2 revoked commitments": ("ask 483 2", 10000), "20 revoked commitments": ("ask 483 20", 2000), "200 revoked commitments": ("ask 483 200", 500)}


def used_seconds():
    """The processor seconds of all child processes that ended."""
    usage = resource.getrusage(resource.RUSAGE_CHILDREN)
    return usage.ru_utime + usage.ru_stime


def seconds(program, line):
    start = used_seconds()
    subprocess.run([program], input=line, capture_output=True, text=True, check=True)
    return used_seconds() - start


def main():
    built = subprocess.run([os.path.join(TOP, ".ci", "program"), "least_costs"], stdout=subprocess.PIPE, text=True, check=True)
    program = built.stdout.strip()
    # the fastest turn of each, less the fastest of the program's start and the rounds
    spent = {}
    for _ in range(TURNS):
        for name, (line, times) in WORK.items():
            for asked in (1, times + 1):
                took = seconds(program, f"{line} {asked}\n")
                spent[name, asked] = min(spent.get((name, asked), took), took)
    cost = {name: (spent[name, times + 1] - spent[name, 1]) / times for name, (_, times) in WORK.items()}
    for name, took in cost.items():
        print(f"{name}: {took * 1e3:.3f} ms")
    check_bound("the least of a channel of 966 HTLCs to SHA-256 of 1 MiB", cost["2 revoked commitments"] / cost["hash 1 MiB"], 0.2)
    check_bound("the least after 200 revoked commitments to that after 20", cost["200 revoked commitments"] / cost["20 revoked commitments"], 25)


if __name__ == "__main__":
    main()
