#!/usr/bin/env python3
"""Times how a side reads blocks after a revoked commitment closed a channel, in processor seconds, without the scenario up to there. Then how a reader of 1,000 open channels reads a block of 3,000
transactions, beside a reader of one, and sights of as many. And how a reader that knows 10,000 preimages reads a close and 100 empty blocks, beside one that knows ten of them.

  bench/looks.py                    proves and builds what it runs; wants the toolchain's `rt`
  bench/looks.py PROGRAM READER     times these builds of crates/enforce and of bench/programs/reader_costs
"""

import hashlib
import json
import subprocess
import sys

from bounds import check_bound
from worlds import TERMS, built_program, least_seconds, round_events

HTLCS = 480


def closing_events(htlcs):
    """A commits to this number of HTLCs, half of them its own, revokes that commitment, and broadcasts it."""
    hashes = [hashlib.sha256(b"%d" % number).hexdigest() for number in range(htlcs)]
    events = []
    for number, digest in enumerate(hashes):
        payer, payee = ("A", "B") if number % 2 else ("B", "A")
        events += [["offer", payer, 0, 10_000_000 + number, digest, 400_000], ["deliver", payee, 0]]
    rounds = [*signing_events(), ["keep", "A", 0, 0], ["keep", "B", 0, 0]]
    fee = [["fee", "A", 0, 1001], ["deliver", "B", 0]]
    return [*events, *rounds, *fee, *signing_events(), ["keep", "A", 0, 1], ["keep", "B", 0, 1], ["broadcast", "A", 0, 1]]


def signing_events():
    """Both sides sign what was delivered, and revoke."""
    return round_events("A", "B", 0)[1:]


def scenario(htlcs, looks):
    """The close, and then looks of B, each after this number of blocks."""
    events = closing_events(htlcs)
    for blocks, is_looked_at in looks:
        events.append(["blocks", blocks])
        if is_looked_at:
            events.append(["look", "B"])
    return json.dumps({"seeds": ["0a" * 32, "0b" * 32], "channels": [TERMS], "events": events})


def cost(program, htlcs, *blocks):
    """The processor seconds of looks after this number of blocks each, without mining the blocks."""
    looked = least_seconds([program, "run"], scenario(htlcs, [(count, True) for count in blocks]))
    passed = least_seconds([program, "run"], scenario(htlcs, [(count, False) for count in blocks]))
    return looked - passed


def numbers(program, line):
    """The numbers that the program prints for a line."""
    done = subprocess.run([program], input=f"{line}\n", capture_output=True, text=True, check=True)
    return [int(word) for word in done.stdout.split() if word.isdigit()]


def time_looks(program):
    """Looks over many blocks after the close, beside looks over few."""
    one = cost(program, HTLCS, 1)
    print(f"one look, {HTLCS} HTLCs, 1 block: {one * 1e3:.2f} ms")
    for blocks, most in ((10, 1.5), (100, 1.5), (1000, 1.5), (10_000, 3)):
        took = cost(program, HTLCS, blocks)
        print(f"one look, {blocks:,} blocks: {took * 1e3:.2f} ms")
        check_bound(f"a look over {blocks:,} blocks to one over 1", took / one, most)
    whole = cost(program, HTLCS, 1000)
    parts = cost(program, HTLCS, *10 * [100])
    print(f"ten looks of 100 blocks: {parts * 1e3:.2f} ms")
    check_bound("ten looks of 100 blocks to one of 1,000", parts / whole, 2)


def time_channels(reader):
    """A block of 3,000 transactions for a reader of this number of open channels."""
    alone, many = (numbers(reader, f"channels {channels}")[-1] for channels in (1, 1000))
    print(f"a block of 3,000 transactions, 1 open channel: {alone / 1e3:.1f} us, 1,000: {many / 1e3:.1f} us")
    check_bound("a block of 3,000 transactions for 1,000 open channels to one", many / alone, 3)


def time_preimages(reader):
    """A close with 480 HTLCs, where ten of their preimages are known, and then where 9,990 more are known that fit none. The times are of the closing block, and of 100 empty ones after it."""
    hashed = numbers(reader, "hashes 10000")[-1]
    few, few_after = numbers(reader, "preimages 10 1000")
    many, many_after = numbers(reader, "preimages 10000 1")
    print(f"10,000 hashes of 32 bytes: {hashed / 1e6:.2f} ms")
    print(f"a close, 10 known preimages: {few / 1e6:.2f} ms, 10,000: {many / 1e6:.2f} ms; 100 empty blocks after it: {few_after / 1e3:.1f} and {many_after / 1e3:.1f} us")
    check_bound("what 10,000 known preimages add to a close to 10,000 hashes", (many - few) / hashed, 3)
    check_bound("100 empty blocks after a close, with 10,000 known preimages to 10", many_after / few_after, 1.5)


def time_sights(reader):
    """Sights of a block of 3,000 transactions for 1,000 open channels, beside a reader. And of a close with 480 HTLCs and the empty blocks after it."""
    others, took = (numbers(reader, f"{word} 1000")[-1] for word in ("channels", "sights"))
    print(f"a block of 3,000 transactions, 1,000 open channels: {others / 1e3:.1f} us by a reader, {took / 1e3:.1f} us by sights")
    check_bound("a block of 3,000 transactions for 1,000 channels, by sights to by a reader", took / others, 1.2)
    one, many = (numbers(reader, f"after {blocks}")[-1] for blocks in (1, 1000))
    print(f"sights of a close, {HTLCS} HTLCs: {one / 1e3:.1f} us with 1 block after it, {many / 1e3:.1f} us with 1,000")
    check_bound("sights of 1,000 blocks after a close to one", many / one, 2)


def main(words):
    program, reader = words or (built_program("enforce"), built_program("reader_costs"))
    time_looks(program)
    time_channels(reader)
    time_preimages(reader)
    time_sights(reader)


if __name__ == "__main__":
    main(sys.argv[1:])
