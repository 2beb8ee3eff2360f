#!/usr/bin/env python3
"""Times `enforce run` of scenarios of 1,000 and of 10,000 events over 8 channels beside SHA-256 of 1 MiB, in processor seconds.

  bench/worlds.py                     proves and builds what it runs; wants the toolchain's `rt`
  bench/worlds.py PROGRAM HASHES      times these builds of crates/enforce and of bench/programs/commitment_costs
  bench/worlds.py --scenario EVENTS   prints the scenario of that length
"""

import hashlib
import json
import os
import resource
import subprocess
import sys
import tempfile

from bounds import check_bound

TOP = os.path.dirname(os.path.dirname(os.path.abspath(__file__)))
CHANNELS = 8
ROUNDS = 7
HASHES = 40
TERMS = {
    "capacity": 10_000_000,
    "opener": "A",
    "feerate": 1000,
    "dust": [546, 546],
    "delay": [144, 144],
    "minimum": [1000, 1000],
    "start": [5_000_000_000, 5_000_000_000],
}


def payment(payer, channel, number):
    """The events of one payment, with its number in its channel, from the offer to the last penalties that are kept."""
    payee = "AB"[payer == "A"]
    preimage = hashlib.sha256(b"%d %d" % (channel, number)).digest()
    # the commitments of each side that are revoked: by the offer, and by the fulfilment
    first, second = 2 * number, 2 * number + 1
    # ids count the HTLCs of one direction
    identity = number // 2
    return [
        ["offer", payer, channel, 10_000_000 + number, hashlib.sha256(preimage).hexdigest(), 400_000],
        *round_events(payer, payee, channel),
        *[["keep", side, channel, first] for side in (payer, payee)],
        ["fulfil", payee, channel, identity, preimage.hex()],
        *round_events(payee, payer, channel),
        *[["keep", side, channel, second] for side in (payer, payee)],
    ]


def round_events(updater, other, channel):
    """An update is delivered, and both sides sign and revoke."""
    return [
        ["deliver", other, channel],
        ["sign", updater, channel],
        ["deliver", other, channel],
        ["deliver", updater, channel],
        ["sign", other, channel],
        ["deliver", updater, channel],
        ["deliver", other, channel],
    ]


def closes():
    """One side closes each channel, and what is due is claimed."""
    events = [["close", "AB"[channel % 2], channel] for channel in range(CHANNELS)]
    events += [["blocks", 1], ["look", "A"], ["look", "B"]]
    for side in "AB":
        events += [["take", side, CHANNELS], *CHANNELS * [["release", side, 1]]]
    return [*events, ["blocks", 144], ["look", "A"], ["look", "B"]]


def scenario(length):
    """A scenario of this number of events: payments over the channels in turn, after every eight of them a block that both sides read, and closes at the end."""
    payments = CHANNELS * [0]
    events, turn = [], 0
    end = len(closes())
    while len(events) + 18 + 3 + end <= length:
        channel = turn % CHANNELS
        events += payment("AB"[payments[channel] % 2], channel, payments[channel])
        payments[channel] += 1
        turn += 1
        if turn % CHANNELS == 0:
            events += [["blocks", 1], ["look", "A"], ["look", "B"]]
    events += closes()
    events += (length - len(events)) * [["blocks", 0]]
    return {"seeds": ["0a" * 32, "0b" * 32], "channels": CHANNELS * [TERMS], "events": events}


def timed_output(words, text):
    """The output of a program for a text, and its processor seconds."""
    with tempfile.TemporaryFile() as given:
        given.write(text.encode())
        given.seek(0)
        before = resource.getrusage(resource.RUSAGE_CHILDREN)
        done = subprocess.run(words, stdin=given, capture_output=True, text=True, check=True)
        after = resource.getrusage(resource.RUSAGE_CHILDREN)
    return done.stdout, after.ru_utime + after.ru_stime - before.ru_utime - before.ru_stime


def least_seconds(words, text):
    return min(timed_output(words, text)[1] for _ in range(ROUNDS))


def built_program(name):
    """A program that is proved and built in a copy of the repository."""
    done = subprocess.run([os.path.join(TOP, ".ci", "program"), name], stdout=subprocess.PIPE, text=True, check=True)
    return done.stdout.strip()


def hash_seconds(program):
    """The processor seconds of SHA-256 of 1 MiB, without the start of the program."""
    many, one = (least_seconds([program], f"hash {times}\n") for times in (HASHES + 1, 1))
    return (many - one) / HASHES


def play(program, length):
    """The processor seconds of a scenario, whose events must all succeed."""
    text = json.dumps(scenario(length))
    printed, _ = timed_output([program, "run"], text)
    refused = [line for line in printed.splitlines() if " refused " in line]
    if refused:
        raise SystemExit(f"{len(refused)} events are refused, the first: {refused[0]}")
    return least_seconds([program, "run"], text)


def main(words):
    if words[:1] == ["--scenario"]:
        return print(json.dumps(scenario(int(words[1]))))
    enforce, hashes = words if words else (built_program("enforce"), built_program("commitment_costs"))
    hashed = hash_seconds(hashes)
    print(f"SHA-256 of 1 MiB: {hashed * 1e3:.2f} ms")
    few, many = play(enforce, 1000), play(enforce, 10_000)
    print(f"1,000 events: {few * 1e3:.0f} ms")
    print(f"10,000 events: {many * 1e3:.0f} ms")
    check_bound("a scenario of 10,000 events to SHA-256 of 1 MiB", many / hashed, 400)
    check_bound("an event of 10,000 to one of 1,000", many / few / 10, 1.2)


if __name__ == "__main__":
    main(sys.argv[1:])
