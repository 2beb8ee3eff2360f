#!/usr/bin/env python3
"""Plays random scenarios by `trace scenario`, and works out by BOLT 3 and BOLT 5 alone which claims stand after each event, from which block on each can be filled, and until when nobody else can take its output.

  oracles/deadlines.py [SCENARIOS [FIRST]]       this many scenarios (1,000), from the one of this number on
  oracles/deadlines.py --program PROGRAM ..      by this build of crates/trace
  oracles/deadlines.py --print NUMBER            prints a scenario

A scenario has one to three channels of unlike terms. Payments go both ways, some with one hash; some rounds end in the middle. Then commitments close channels, revoked ones and newest, with their HTLC transactions, claims, blocks,
reorganisations and late preimages. What the chain has is read from the lines (`show/check` judges those): this program keeps who holds which commitment, which are revoked and which preimages each side knows, and from that the rest.
"""
import functools
import hashlib
import json
import os
import random
import subprocess
import sys
from concurrent.futures import ThreadPoolExecutor

TOP = os.path.dirname(os.path.dirname(os.path.abspath(__file__)))
SIDES = ("A", "B")
# so few preimages that several HTLCs have one hash
PREIMAGES = [hashlib.sha256(b"preimage %d" % number).digest() for number in range(6)]
HASHES = {hashlib.sha256(it).hexdigest(): it.hex() for it in PREIMAGES}


def peer_of(side):
    return "AB"[side == "A"]


# ---- scenarios


class Writer:
    """Writes the events of a scenario."""

    def __init__(self, number):
        self.dice = random.Random(number)
        self.channels = [self.terms() for _ in range(self.dice.randint(1, 3))]
        self.offered = [{side: [] for side in SIDES} for _ in self.channels]
        self.rounds = [0 for _ in self.channels]
        self.events = []

    def terms(self):
        dice = self.dice
        capacity = dice.choice((200_000, 1_000_000))
        first = dice.randrange(capacity * 400, capacity * 600)
        dust, delay = [[dice.randint(low, high) for _ in SIDES] for low, high in ((354, 1000), (1, 12))]
        return {
            "capacity": capacity,
            "opener": dice.choice(SIDES),
            "feerate": dice.choice((253, 1000)),
            "dust": dust,
            "delay": delay,
            "minimum": [1000, 1000],
            "start": [first, capacity * 1000 - first],
        }

    def add(self, *words):
        self.events.append(list(words))

    def offer(self, channel, side):
        preimage = self.dice.choice(PREIMAGES)
        amount = self.dice.choice((500_000, 3_000_000, 5_000_000 + self.dice.randrange(9_000_000)))
        self.add("offer", side, channel, amount, hashlib.sha256(preimage).hexdigest(), self.dice.randint(1, 25))
        self.add("deliver", peer_of(side), channel)
        self.offered[channel][side].append(preimage)

    def remove(self, channel, side):
        """The side fulfils or fails an HTLC of its peer; the update may stay on its way."""
        offers = self.offered[channel][peer_of(side)]
        if offers:
            number = self.dice.randrange(len(offers))
            if self.dice.random() < 0.8:
                self.add("fulfil", side, channel, number, offers[number].hex())
            else:
                self.add("fail", side, channel, number)
            if self.dice.random() < 0.8:
                self.add("deliver", peer_of(side), channel)

    def round(self, channel, first, steps=99):
        """Both sides sign, as far as these many steps; both keep the penalties of what they revoked."""
        other = peer_of(first)
        whole = [
            ["sign", first, channel],
            ["deliver", other, channel],
            ["deliver", first, channel],
            ["sign", other, channel],
            ["deliver", first, channel],
            ["deliver", other, channel],
            *[["keep", side, channel, self.rounds[channel]] for side in SIDES],
        ]
        self.events += whole[:steps]
        if steps >= 6:
            self.rounds[channel] += 1

    def talk(self, channel):
        side = self.dice.choice(SIDES)
        for _ in range(self.dice.randint(1, 3)):
            self.dice.choice((self.offer, self.offer, self.remove))(channel, self.dice.choice(SIDES))
        self.round(channel, side, 99 if self.dice.random() < 0.85 else self.dice.randint(1, 7))

    def close(self, channel):
        side = self.dice.choice(SIDES)
        if self.dice.random() < 0.3:
            self.add("close", side, channel)
        else:
            self.add("broadcast", side, channel, max(0, self.rounds[channel] - self.dice.randint(-1, 2)))

    def follow(self):
        """Something on the chain, or a late message."""
        dice = self.dice
        channel, side = dice.randrange(len(self.channels)), dice.choice(SIDES)
        kind = dice.choice(("blocks", "blocks", "blocks", "htlc", "htlc", "htlc", "look", "look", "late", "reorg", "talk", "close"))
        if kind == "blocks":
            self.add("blocks", dice.choice((1, 1, 2, 3, 5, 13)))
        elif kind == "htlc":
            self.add("broadcast", side, channel, max(0, self.rounds[channel] - dice.randint(-1, 2)), dice.randrange(4))
        elif kind == "look":
            self.add("look", side)
            claims = dice.randint(1, 4)
            self.add("take", side, claims)
            while claims:
                together = dice.choice((1, 1, 1, claims))
                self.add("release", side, together)
                claims -= together
        elif kind == "late":
            self.remove(channel, side)
        elif kind == "reorg":
            self.add("reorg", dice.randint(1, 4), dice.randint(0, 3))
        elif kind == "talk":
            self.talk(channel)
        else:
            self.close(channel)

    def scenario(self):
        for _ in range(self.dice.randint(2, 5)):
            self.talk(self.dice.randrange(len(self.channels)))
        self.close(self.dice.randrange(len(self.channels)))
        for _ in range(self.dice.randint(6, 24)):
            self.follow()
        self.add("blocks", 3)
        return {"seeds": ["0a" * 32, "0b" * 32], "channels": self.channels, "events": self.events}


# ---- what stands


class World:
    """What each side knows, and the outputs on the chain with what they are."""

    def __init__(self, scenario):
        self.terms = scenario["channels"]
        self.unspent, self.mined, self.hashes = {}, [], {}
        channels = range(len(self.terms))
        self.newest = {(channel, side): 0 for channel in channels for side in SIDES}
        self.secrets = {(channel, side): set() for channel in channels for side in SIDES}
        self.preimages = {(channel, side): set() for channel in channels for side in SIDES}
        self.ways = {}

    def read(self, line, words):
        """What a line says that happened."""
        if "held" in line:
            self.newest[line["held"]["channel"], line["held"]["owner"]] = line["held"]["number"]
        if "revoked" in line:
            self.secrets[line["revoked"]["channel"], line["revoked"]["owner"]].add(line["revoked"]["number"])
        htlc = line.get("htlc", {})
        if htlc.get("stage") == "offered":
            self.hashes[htlc["channel"], htlc["offerer"], htlc["id"]] = htlc["hash"]
        if htlc.get("stage") in ("fulfilled", "fulfil_received"):
            self.preimages[htlc["channel"], words[1]].add(htlc["preimage"])
        for claim in line.get("claims", []):
            self.ways[claim["side"], claim["outpoint"]] = claim["by"]
        if "undone" in line:
            self.undo(line["undone"])
        for tx in line.get("mined", []):
            self.mine(tx)

    def undo(self, ids):
        for txid in ids:
            tx, spent = self.mined.pop()
            assert tx["txid"] == txid
            for output in tx["outputs"]:
                del self.unspent[output["outpoint"]]
            self.unspent.update(spent)

    def mine(self, tx):
        spent = {it: self.unspent.pop(it) for it in tx["spends"] if it in self.unspent}
        self.mined.append((tx, spent))
        closing = tx if tx["kind"] == "commitment" else next(iter(spent.values()))["closing"]
        for output in tx["outputs"]:
            self.unspent[output["outpoint"]] = {**output, "made": tx["height"], "closing": closing}

    def shown(self):
        """The preimages that inputs on the chain show."""
        found = set()
        for tx, spent in self.mined:
            for output in spent.values():
                if output["kind"] == "htlc" and self.by_preimage(tx, output):
                    found.add(HASHES[self.hash_of(output)])
        return found

    def by_preimage(self, tx, output):
        """An HTLC-success transaction is of a commitment's owner, on an HTLC that its peer offered (BOLT 3)."""
        if tx["kind"] == "htlc":
            return output["owner"] != tx["owner"]
        return self.ways.get((tx["owner"], output["outpoint"])) == "preimage"

    def hash_of(self, output):
        return self.hashes[output["closing"]["channel"], output["owner"], output["id"]]

    def standing(self):
        """All claims on outputs that stand, each with its value, its way, the first block that can have it, and the first in which somebody else can take the output."""
        shown = self.shown()
        found = {}
        for outpoint, output in self.unspent.items():
            closing = output["closing"]
            for side in SIDES:
                known = self.preimages[closing["channel"], side] | shown
                rule = self.own_claim if side == closing["owner"] else self.peers_claim
                claim = rule(side, closing, output, known) if output["kind"] != "wallet" else None
                if claim:
                    found[side, closing["channel"], outpoint] = (output["value"], *claim)
        return found

    def own_claim(self, side, closing, output, known):
        """Of one's own commitment (BOLT 5, "Unilateral Close Handling: Local Commitment Transaction"). One that one revoked is not one's own any more."""
        channel, made = closing["channel"], output["made"]
        if closing["number"] != self.newest[channel, side]:
            return None
        delay = self.terms[channel]["delay"][side == "B"]
        if output["kind"] in ("to_local", "second_stage"):
            return "delay", made + delay, None
        if output["kind"] != "htlc":
            return None
        expired = max(made, output["expiry"] + 1)
        if output["owner"] == side:
            return "timeout", expired, None
        # the peer takes it back once it expired
        return ("preimage", made, expired) if HASHES[self.hash_of(output)] in known else None

    def peers_claim(self, side, closing, output, known):
        """Of the peer's commitment (BOLT 5, "Remote Commitment Transaction", and "Revoked Transaction Close Handling")."""
        channel, owner, made = closing["channel"], closing["owner"], output["made"]
        expired = max(made, output["expiry"] + 1) if output["kind"] == "htlc" else None
        delay = self.terms[channel]["delay"][owner == "B"]
        if output["kind"] == "to_remote":
            return "key", made, None
        if closing["number"] in self.secrets[channel, owner]:
            # the owner has its HTLC-timeout transaction once it expired, its HTLC-success transaction at once, and all else after its delay
            if output["kind"] == "htlc":
                return "revocation", made, expired if output["owner"] == owner else made
            return "revocation", made, made + delay
        if output["kind"] != "htlc":
            return None
        if output["owner"] == side:
            return "timeout", expired, None
        return ("preimage", made, expired) if HASHES[self.hash_of(output)] in known else None


def told_of(line, told):
    """The claims that stand, after a line."""
    for claim in line.get("stands", []):
        told[claim["side"], claim["channel"], claim["outpoint"]] = tuple(claim[name] for name in ("value", "by", "due", "deadline"))
    for claim in line.get("gone", []):
        del told[claim["side"], claim["channel"], claim["outpoint"]]


def judge(program, number):
    """What a scenario's lines tell otherwise than it is, or nothing; and how many claims came to stand."""
    scenario = Writer(number).scenario()
    ran = subprocess.run([*program, "scenario"], input=json.dumps(scenario).encode(), capture_output=True, check=True)
    lines = [json.loads(line) for line in ran.stdout.splitlines()]
    world, told, wanted, count = World(scenario), {}, {}, 0
    for line, words in zip(lines[1:-1], scenario["events"], strict=True):
        world.read(line, words)
        told_of(line, told)
        before, wanted = wanted, world.standing()
        count += sum(before.get(it) != claim for it, claim in wanted.items())
        if told != wanted:
            differ = {it: (told.get(it), wanted.get(it)) for it in {**told, **wanted} if told.get(it) != wanted.get(it)}
            return f"scenario {number}, event {line['event']}: told and wanted {differ}", count
    return None, count


def main(words):
    if words[:1] == ["--print"]:
        print(json.dumps(Writer(int(words[1])).scenario()))
        return 0
    program = [f"{TOP}/trace"]
    if words[:1] == ["--program"]:
        program, words = [words[1]], words[2:]
    scenarios, first = [*map(int, words), *(1000, 0)[len(words) :]]
    with ThreadPoolExecutor(os.cpu_count()) as pool:
        judged = list(pool.map(functools.partial(judge, program), range(first, first + scenarios)))
    faults = [fault for fault, _ in judged if fault]
    for fault in faults:
        print(fault)
    print(f"deadlines: {scenarios} scenarios, {sum(count for _, count in judged)} claims, {len(faults)} differ")
    return 1 if faults else 0


if __name__ == "__main__":
    sys.exit(main(sys.argv[1:]))
