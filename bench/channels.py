#!/usr/bin/env python3
"""Times rounds of a channel beside SHA-256 of 1 MiB, in one run, in processor seconds. Wants the toolchain's `rt`: `.ci/program` proves and builds bench/programs/channel_costs in a copy of the repository."""

import os
import resource
import subprocess

from bounds import check_bound

TOP = os.path.dirname(os.path.dirname(os.path.abspath(__file__)))
TURNS = 9

# the work of a line, with its first and last round
WORK = {
    "hash 1 MiB": ("hash", 1, 101),
    "round of 483 HTLCs": ("sign 483", 1, 31),
    "round of few, 10 to 210": ("trade", 10, 210),
    "round of few, 1,000 to 1,200": ("trade", 1000, 1200),
    "a signature with 966 HTLCs again": ("again 483", 1, 31),
    "10,000 updates made and forgotten": ("forget 10000", 1, 11),
}


def used_seconds():
    """The processor seconds of all child processes that ended."""
    usage = resource.getrusage(resource.RUSAGE_CHILDREN)
    return usage.ru_utime + usage.ru_stime


def seconds(program, line):
    start = used_seconds()
    subprocess.run([program], input=line, capture_output=True, text=True, check=True)
    return used_seconds() - start


def main():
    built = subprocess.run([os.path.join(TOP, ".ci", "program"), "channel_costs"], stdout=subprocess.PIPE, text=True, check=True)
    program = built.stdout.strip()
    # the median of the turns, without the work before the first round
    cost = {name: [] for name in WORK}
    for _ in range(TURNS):
        for name, (line, first, last) in WORK.items():
            took = seconds(program, f"{line} {last}\n") - seconds(program, f"{line} {first}\n")
            cost[name].append(took / (last - first))
    cost = {name: sorted(times)[TURNS // 2] for name, times in cost.items()}
    for name, took in cost.items():
        print(f"{name}: {took * 1e3:.3f} ms")
    check_bound("a round of 483 HTLCs to SHA-256 of 1 MiB", cost["round of 483 HTLCs"] / cost["hash 1 MiB"], 6)
    check_bound("a signature with 966 HTLCs again to SHA-256 of 1 MiB", cost["a signature with 966 HTLCs again"] / cost["hash 1 MiB"], 6)
    check_bound("10,000 updates made and forgotten to SHA-256 of 1 MiB", cost["10,000 updates made and forgotten"] / cost["hash 1 MiB"], 1)
    check_bound("rounds 1,000 to 1,200 of a channel to rounds 10 to 210", cost["round of few, 1,000 to 1,200"] / cost["round of few, 10 to 210"], 1.2)


if __name__ == "__main__":
    main()
