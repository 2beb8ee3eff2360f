#!/usr/bin/env python3
"""Times commitments of few and of many HTLCs beside SHA-256 of 1 MiB, in one run, in processor seconds. Wants the toolchain's `rt`: `.ci/program` proves and builds bench/programs/commitment_costs in a copy of the repository."""

import os
import resource
import subprocess

from bounds import check_bound

TOP = os.path.dirname(os.path.dirname(os.path.abspath(__file__)))
ROUNDS = 15

# the work of a line, and how often it is done
WORK = {"hash 1 MiB": ("hash", 100), "96 HTLCs": ("build 48", 1000), "966 HTLCs": ("build 483", 100)}


def used_seconds():
    """The processor seconds of all child processes that ended."""
    usage = resource.getrusage(resource.RUSAGE_CHILDREN)
    return usage.ru_utime + usage.ru_stime


def seconds(program, line):
    start = used_seconds()
    subprocess.run([program], input=line, capture_output=True, text=True, check=True)
    return used_seconds() - start


def main():
    built = subprocess.run([os.path.join(TOP, ".ci", "program"), "commitment_costs"], stdout=subprocess.PIPE, text=True, check=True)
    program = built.stdout.strip()
    # the fastest round, without the program's start and the making of its view
    cost = {}
    for _ in range(ROUNDS):
        for name, (line, times) in WORK.items():
            took = seconds(program, f"{line} {times + 1}\n") - seconds(program, f"{line} 1\n")
            cost[name] = min(cost.get(name, took / times), took / times)
    for name, took in cost.items():
        print(f"{name}: {took * 1e3:.3f} ms")
    check_bound("a commitment of 966 HTLCs to SHA-256 of 1 MiB", cost["966 HTLCs"] / cost["hash 1 MiB"], 0.6)
    check_bound("a commitment of 966 HTLCs to one of 96", cost["966 HTLCs"] / cost["96 HTLCs"], 14)


if __name__ == "__main__":
    main()
