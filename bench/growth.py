#!/usr/bin/env python3
"""Counts the bytes that live while a book does: after rounds over HTLCs that stand, beside what these took on the wire; before and after a penalty set is kept; and after floods of messages.

  bench/growth.py             proves and builds bench/programs/book_growth; wants the toolchain's `rt` and a C compiler
  bench/growth.py PROGRAM     counts in this build
"""

import os
import re
import subprocess
import sys
import tempfile
from typing import NamedTuple

from bounds import check_bound
from worlds import TOP, built_program

# by the HTLCs that stand, after how many rounds a book is looked at, and for how many it is estimated: those would take minutes and gigabytes
LOOKS = {0: ((10, 1000, 10_000), ()), 10: ((10, 1000, 10_000), ()), 966: ((10, 1000), (10_000,))}

# the most bytes that an HTLC which stands adds to a round: to both commitments, to the tokens on them, and to the penalties that are kept
FOR_AN_HTLC = 2400

# of kept sets: the HTLCs, and the most bytes of a claim. On 512 HTLCs there are 1,026 claims: a list that grows would just have doubled its room
KEPT = {966: 1024, 512: 1024, 10: 1024}

# the received messages of a round of each flood, the rounds after which a book is looked at (just after its lists have doubled their room, and late), and the most bytes of a message
FLOODS = {
    "fees": (1, (8193, 10_000), 1600),
    "offers": (1, (257, 483), 1600),
    "signatures": (2, (4096, 5000), 2048),
    "trades": (3, (1366, 5000), 5120),
}


class Look(NamedTuple):
    """What is printed of a book, and the bytes that live then."""

    live: int
    entries: int
    claims: int


def looks(program, preload, line):
    """What the program prints for a line, with the bytes that live at each print."""
    env = dict(os.environ, LD_PRELOAD=preload)
    done = subprocess.run([program], input=f"{line}\n", capture_output=True, text=True, check=True, env=env)
    live, printed = (re.findall(r"\d+", text) for text in (done.stderr, done.stdout))
    if not live or len(printed) != 2 * len(live):
        raise SystemExit(f"growth: '{line}' printed {done.stdout!r} and {done.stderr!r}")
    return [Look(*map(int, numbers)) for numbers in zip(live, printed[::2], printed[1::2])]


def wire_bytes(htlcs):
    """The bytes of a round by BOLT 2: update_fee, and of each side commitment_signed and revoke_and_ack, with their types."""
    return 38 + 2 * (100 + 64 * htlcs + 99)


def count_rounds(look):
    bare = None
    for htlcs, (played, estimated) in LOOKS.items():
        live = {rounds: look(f"rounds {rounds} {htlcs}")[0].live for rounds in played}
        for rounds, count in live.items():
            print(f"{htlcs} HTLCs, {rounds:,} commitments of each side: {count / 1e6:.2f} MB")
        first, last = played[0], played[-1]
        each = (live[last] - live[first]) / (last - first)
        print(f"{htlcs} HTLCs: {each:,.0f} bytes for one of each, of {wire_bytes(htlcs):,} on the wire: {each / wire_bytes(htlcs):.1f} times as many")
        if htlcs == 0:
            bare = each
        else:
            check_bound(f"what an HTLC that stands adds to a round, of {htlcs}", (each - bare) / htlcs, FOR_AN_HTLC, unit=" bytes")
        for rounds in estimated:
            print(f"{htlcs} HTLCs, {rounds:,} commitments of each side: not played; by these {(live[last] + (rounds - last) * each) / 1e6:,.0f} MB")


def count_kept_claims(look):
    for htlcs, most in KEPT.items():
        before, after = look(f"keep {htlcs}")
        claims = after.claims - before.claims
        check_bound(f"a kept claim, of {claims:,} on {htlcs} HTLCs", (after.live - before.live) / claims, most, unit=" bytes")


def count_floods(look):
    for flood, (messages, rounds, most) in FLOODS.items():
        start = look(f"{flood} 0")[0]
        each = {}
        for count in rounds:
            found = look(f"{flood} {count}")[0]
            each[count] = (found.live - start.live) / (messages * count)
            print(f"{flood}: {each[count]:,.0f} bytes for each of {messages * count:,} messages, {found.claims:,} claims kept")
        check_bound(f"a received message of a flood, {flood}", max(each.values()), most, unit=" bytes")


def main(words):
    program = words[0] if words else built_program("book_growth")
    with tempfile.TemporaryDirectory() as work:
        preload = os.path.join(work, "live.so")
        source = os.path.join(TOP, "bench", "live.c")
        subprocess.run([os.environ.get("CC", "cc"), "-O2", "-shared", "-fPIC", "-o", preload, source], check=True)
        for count in (count_rounds, count_kept_claims, count_floods):
            count(lambda line: looks(os.path.abspath(program), preload, line))


if __name__ == "__main__":
    main(sys.argv[1:])
