#!/usr/bin/env python3
"""Whether the bytes in crates/chain_examples are those of the channels and chains that are worked out there, and the four ends in crates/book_laws those of its history of two rounds.

They are worked out here from BOLT 3, BIP 143 and the stand-ins of docs/DECISIONS.md for keys and signatures, and no program of this repository is asked: ids of grants and of transactions, keys, scripts,
programs, what is signed, and the first four bytes of the hashes in the tables. The prover holds each to the definitions; here each is held to what stands outside of them.

Its last line is 'worked_chains: N tables, M wrong'. Wants Python 3.
"""
import os
import re
import sys
from collections import namedtuple

from bitcoin import (
    Transaction, hash160, key_program, key_script, little_endian, push, pushed_number, ripemd160, script_program,
    sha256, sha256d,
)

TOP = os.path.dirname(os.path.dirname(os.path.abspath(__file__)))
PROOFS = f"{TOP}/crates/chain_examples/proofs"
OTHER = {"A": "B", "B": "A"}
BASES = ("funding", "payment", "delayed", "htlc", "revocation")
DELAYS, LIMITS, RATE, CAPACITY = {"A": 144, "B": 2}, {"A": 546, "B": 546}, 1000, 100000
Htlc = namedtuple("Htlc", "satoshis byte expiry")
Output = namedtuple("Output", "value script program kind htlc")
# what is signed: a transaction, the script of the output that it spends, and that output's value
Signed = namedtuple("Signed", "tx code value")


def key(byte):
    return b"\x02" + bytes([byte]) * 32


def filled_bytes(byte):
    return bytes([byte]) * 32


def derived_key(word, base, point):
    return b"\x02" + sha256(word + base + point)


def point(secret):
    return b"\x02" + sha256(b"point" + secret)


class Tx(Transaction):
    """A transaction with one input, and its witness."""

    def __init__(self, outpoint, sequence, outputs, lock_time, witness=()):
        super().__init__([(outpoint[0] + little_endian(outpoint[1], 4), sequence)], outputs, lock_time)
        self.outpoint, self.witness = outpoint, list(witness)


def seed_secret(seed, number):
    return sha256(b"base" + seed + bytes([number]))


def secret_at(seed, n):
    """The per-commitment secret of a number (BOLT 3), from index 2^48 - 1 down."""
    index, secret = 2**48 - 1 - n, bytearray(seed_secret(seed, 5))
    for bit in reversed(range(48)):
        if index >> bit & 1:
            secret[bit // 8] ^= 1 << bit % 8
            secret = bytearray(sha256(bytes(secret)))
    return bytes(secret)


class Channel:
    def __init__(self, grant, mine, theirs, delays=DELAYS, limits=LIMITS, their_bases=None):
        self.grant, self.delays, self.limits = sha256d(b"grant" + little_endian(grant, 8)), delays, limits
        self.bases = {side: {name: key(first + at) for at, name in enumerate(BASES)} for side, first in (("A", mine), ("B", theirs))}
        self.bases["B"].update(their_bases or {})
        keys = sorted(self.bases[side]["funding"] for side in "AB")
        self.script = b"\x52" + push(keys[0]) + push(keys[1]) + b"\x52\xae"
        self.index, self.mask = 0, int.from_bytes(sha256(self.bases["A"]["payment"] + self.bases["B"]["payment"])[26:], "big")


def to_local_script(keys, delay):
    return b"\x63" + push(keys["revocation"]) + b"\x67" + pushed_number(delay) + b"\xb2\x75" + push(keys["delayed"]) + b"\x68\xac"


def htlc_script(keys, is_offered, htlc):
    begin = b"\x76\xa9" + push(hash160(keys["revocation"])) + b"\x87\x63\xac\x67" + push(keys["remote_htlc"]) + b"\x7c\x82" + pushed_number(32) + b"\x87"
    payment = push(ripemd160(sha256(filled_bytes(htlc.byte))))
    if is_offered:
        return begin + b"\x64\x75\x52\x7c" + push(keys["local_htlc"]) + b"\x52\xae\x67\xa9" + payment + b"\x88\xac\x68\x68"
    return begin + b"\x63\xa9" + payment + b"\x88\x52\x7c" + push(keys["local_htlc"]) + b"\x52\xae\x67\x75" + pushed_number(htlc.expiry) + b"\xb1\x75\xac\x68\x68"


class Commitment:
    """The owner's commitment; A opened the channel and pays the fee. Balances are in satoshis, without HTLCs."""

    def __init__(self, channel, owner, n, at, balances, offered):
        self.channel, self.owner, self.at, peer = channel, owner, at, channel.bases[OTHER[owner]]
        me = channel.bases[owner]
        self.keys = {
            "revocation": derived_key(b"revoke", peer["revocation"], at),
            "delayed": derived_key(b"derive", me["delayed"], at),
            "local_htlc": derived_key(b"derive", me["htlc"], at),
            "remote_htlc": derived_key(b"derive", peer["htlc"], at),
            "remote": peer["payment"],
        }
        self.delayed = to_local_script(self.keys, channel.delays[owner])
        self.outputs = self.sorted_outputs(balances, offered)
        hidden = n ^ channel.mask
        self.lock_time, self.sequence = 0x20000000 + hidden % 2**24, 0x80000000 + hidden // 2**24 % 2**24
        self.tx = Tx((channel.grant, channel.index), self.sequence, [(it.value, it.program) for it in self.outputs], self.lock_time)
        self.stages = {at: self.stage(at, it) for at, it in enumerate(self.outputs) if it.htlc}

    def sorted_outputs(self, balances, offered):
        owner, outputs, limit = self.owner, [], self.channel.limits[self.owner]
        for side in (owner, OTHER[owner]):
            for htlc in offered.get(side, []):
                if htlc.satoshis >= limit + (663 if side == owner else 703) * RATE // 1000:
                    script = htlc_script(self.keys, side == owner, htlc)
                    outputs.append(Output(htlc.satoshis, script, script_program(script), "Offered" if side == owner else "Received", htlc))
        fee = (724 + 172 * len(outputs)) * RATE // 1000
        left = {side: balances[side] - (fee if side == "A" else 0) for side in "AB"}
        remote = self.keys["remote"]
        paid = [Output(left[owner], self.delayed, script_program(self.delayed), "ToLocal", None), Output(left[OTHER[owner]], key_script(hash160(remote)), key_program(hash160(remote)), "ToRemote", None)]
        return sorted(outputs + [it for it in paid if it.value >= limit], key=lambda it: (it.value, it.program))

    def stage(self, at, output):
        """The HTLC transaction of an output."""
        is_offered = output.kind == "Offered"
        value = output.value - (663 if is_offered else 703) * RATE // 1000
        return Tx((self.tx.txid(), at), 0, [(value, script_program(self.delayed))], output.htlc.expiry if is_offered else 0)

    def signed_transaction(self):
        return Signed(self.tx, self.channel.script, CAPACITY)

    def signed_stage(self, at):
        return Signed(self.stages[at], self.outputs[at].script, self.outputs[at].value)

    def strings(self):
        """All that is hashed for the commitment."""
        peer = self.channel.bases[OTHER[self.owner]]
        found = [self.tx.stripped_bytes(), self.delayed, self.keys["remote"], b"revoke" + peer["revocation"] + self.at, b"derive" + peer["htlc"] + self.at]
        for at, tx in self.stages.items():
            found += [tx.stripped_bytes(), self.outputs[at].script]
        return found

    def locks(self):
        """The outputs that the commitment makes, by their outpoints."""
        found = {(self.tx.txid(), at): (it.script, it.value) for at, it in enumerate(self.outputs)}
        found.update({(tx.txid(), 0): (self.delayed, tx.outputs[0][0]) for tx in self.stages.values()})
        return found


CHANNELS = {"first": Channel(0, 0x10, 0x20), "second": Channel(1, 0x30, 0x40)}
SEVENS, EIGHTS, NINES = Htlc(10000, 7, 3), Htlc(12000, 8, 3), Htlc(12000, 9, 3)
EVEN = {"A": 80000, "B": 20000}
COMMITMENTS = {
    "first_opened": Commitment(CHANNELS["first"], "B", 0, point(filled_bytes(0x50)), EVEN, {}),
    "first_newest": Commitment(CHANNELS["first"], "B", 1, key(0x55), {"A": 60000, "B": 18000}, {"A": [SEVENS], "B": [EIGHTS]}),
    "first_own": Commitment(CHANNELS["first"], "A", 0, key(0x66), EVEN, {}),
    "second_opened": Commitment(CHANNELS["second"], "B", 0, point(filled_bytes(0x51)), {"A": 80000, "B": 8000}, {"B": [NINES]}),
    "second_newest": Commitment(CHANNELS["second"], "B", 1, key(0x57), EVEN, {}),
    "second_own": Commitment(CHANNELS["second"], "A", 0, key(0x67), EVEN, {}),
}


class Node:
    """A node's channels, and by channel the commitments of its peer and its own, with the number of its newest own."""

    def __init__(self, channels, peers, own, newest):
        self.channels, self.peers, self.own, self.newest = channels, peers, own, newest
        self.locks = {(it.grant, 0): (it.script, CAPACITY) for it in channels.values()}
        for name in channels:
            for each in peers[name] + own[name]:
                self.locks.update(COMMITMENTS[each].locks())

    def strings(self):
        return [text for name in self.channels for each in self.peers[name] for text in COMMITMENTS[each].strings()]

    def keys(self):
        found = []
        for name, it in self.channels.items():
            found.append(it.bases["A"]["funding"])
            for each in self.peers[name]:
                found += [COMMITMENTS[each].keys[word] for word in ("revocation", "remote_htlc", "remote")]
            for each in self.own[name]:
                found += [COMMITMENTS[each].keys[word] for word in ("delayed", "local_htlc")]
        return found

    def payments(self):
        return [sha256(filled_bytes(it.htlc.byte)) for name in self.channels for each in self.peers[name] for it in COMMITMENTS[each].outputs if it.htlc]

    def newest_commitments(self):
        return [COMMITMENTS[self.own[name][self.newest[name]]] for name in self.channels]

    def tables(self):
        """What is hashed for the peers' commitments, the node's keys and the payment hashes."""
        strings = self.strings()
        found = {"hashed": [byte for it in strings for byte in sha256(it)], "once_begin": begins(sha256, strings), "twice_begin": begins(sha256d, strings), "short_begin": begins(hash160, strings)}
        return {**found, "keys_begin": begins(hash160, self.keys()), "hashes_begin": begins(ripemd160, self.payments())}

    def own_tables(self):
        """The keys of the own commitments, the payment hashes, and what is hashed for the newest own commitments besides."""
        derived_for = [b"derive" + it.channel.bases[side]["htlc"] + it.at for it in self.newest_commitments() for side in "AB"]
        payments = [sha256(filled_bytes(each.htlc.byte)) for it in self.newest_commitments() for each in it.outputs if each.htlc]
        newer = [COMMITMENTS[each].keys[word] for name in self.channels for each in self.own[name] for word in ("delayed", "local_htlc")]
        found = {"new_keys_begin": begins(hash160, newer), "hashes_begin": begins(ripemd160, self.payments())}
        return {**found, "htlc_keys_begin": begins(sha256, derived_for), "revocations_begin": begins(hash160, [it.keys["revocation"] for it in self.newest_commitments()]), "own_hashes_begin": begins(ripemd160, payments)}


NODE = Node(CHANNELS, {"first": ["first_opened", "first_newest"], "second": ["second_opened", "second_newest"]}, {"first": ["first_own"], "second": ["second_own"]}, {"first": 0, "second": 0})

# two channels of one seed: the node closed the first with its commitment 0, and revoked that of the second
SEED, THEIR_SEED = filled_bytes(1), filled_bytes(2)
SEEDED = Channel(0, 0x10, 0x20, {"A": 2, "B": 2}, {"A": 546, "B": 1500}, {"revocation": point(seed_secret(THEIR_SEED, 4))})
POINTS = [point(secret_at(SEED, n)) for n in (0, 1)]
BACK, PAID, RECEIVED, TRIMMED = Htlc(2000, 7, 3), Htlc(3000, 10, 3), Htlc(12000, 8, 3), Htlc(600, 11, 3)
COMMITMENTS.update({
    "seeded_own": Commitment(SEEDED, "A", 0, POINTS[0], {"A": 60000, "B": 22399}, {"A": [BACK, PAID, TRIMMED], "B": [RECEIVED]}),
    "sibling_old": Commitment(CHANNELS["second"], "A", 0, POINTS[0], EVEN, {}),
    "sibling_own": Commitment(CHANNELS["second"], "A", 1, POINTS[1], EVEN, {}),
})
ONE_SEED = Node({"seeded": SEEDED, "sibling": CHANNELS["second"]}, {"seeded": ["first_opened"], "sibling": ["second_opened"]}, {"seeded": ["seeded_own"], "sibling": ["sibling_old", "sibling_own"]}, {"seeded": 0, "sibling": 1})


def begins(hashed, strings):
    return [int.from_bytes(hashed(it)[:4], "big") for it in strings]


def recorded_values(channels, names):
    found = {}
    for name, it in channels.items():
        found.update({f"{name}_grant": it.grant, f"{name}_funding": it.script, f"{name}_funding_program": script_program(it.script)})
        found.update({f"{name}_home_hash": hash160(it.bases["A"]["payment"]), f"{name}_away_hash": hash160(it.bases["B"]["payment"])})
    for name in names:
        it = COMMITMENTS[name]
        found.update({f"{name}_id": it.tx.txid(), f"{name}_digest": it.tx.digest(it.channel.script, CAPACITY)})
        found.update({f"{name}_delayed": it.delayed, f"{name}_delayed_program": script_program(it.delayed)})
        found.update({f"{name}_keys.{word}": it.keys[word] for word in ("revocation", "delayed", "local_htlc", "remote_htlc")})
        if it.stages:
            found[f"{name}_revocation_hash"] = hash160(it.keys["revocation"])
        for at, tx in it.stages.items():
            signed, output = it.signed_stage(at), it.outputs[at]
            found.update({f"{name}_stage_{at}_id": tx.txid(), f"{name}_stage_{at}_digest": tx.digest(signed.code, signed.value)})
            found.update({f"{name}_htlc_{at}": output.script, f"{name}_htlc_{at}_program": output.program, f"{name}_payment_{at}": ripemd160(sha256(filled_bytes(output.htlc.byte)))})
    return found


def seeded_values():
    """The points of the node's seed, the peer's base key, and what they make."""
    found = {"peer_base": SEEDED.bases["B"]["revocation"]}
    for n, at in enumerate(POINTS):
        found.update({f"secret_{n}": secret_at(SEED, n), f"point_{n}": at})
    return {**found, **recorded_values({}, ["seeded_own", "sibling_old", "sibling_own"])}


# ---- chains


class Chain:
    """Blocks of transactions, by their names. A token is the key, what is signed, and 01."""

    def __init__(self, node=NODE):
        self.node, self.blocks, self.own, self.given = node, [[]], {}, {name: [] for name in node.channels}

    def add_block(self):
        self.blocks.append([])

    def add(self, tx, code, value, witness):
        digest = tx.digest(code, value)
        tx.witness = [it if isinstance(it, bytes) else it[0] + digest + b"\x01" for it in witness]
        self.blocks[-1].append(tx)
        return tx

    def close(self, name):
        it = COMMITMENTS[name]
        self.add(it.tx, it.channel.script, CAPACITY, [b"", (it.channel.bases["A"]["funding"],), (it.channel.bases["B"]["funding"],), it.channel.script])

    def stage(self, name, at, item):
        it = COMMITMENTS[name]
        signed = it.signed_stage(at)
        self.add(signed.tx, signed.code, signed.value, [b"", (it.keys["remote_htlc"],), (it.keys["local_htlc"],), item, signed.code])

    def take(self, name, outpoint, outputs, witness, released=None, sequence=0, lock_time=0, spent=None):
        """A transaction that is named there: its id, and what its token is over."""
        code, value = spent or self.node.locks[outpoint]
        tx = self.add(Tx(outpoint, sequence, outputs, lock_time), code, value, witness)
        self.own.update({f"{name}_id": tx.txid(), f"{name}_digest": tx.digest(code, value)})
        if released:
            self.given[released].append(Signed(tx, code, value))
        return tx

    def tokens(self):
        """What the tokens of the node are over: of its peers' commitments, and of what it released or closed."""
        found = []
        for name in self.node.channels:
            for it in map(COMMITMENTS.get, self.node.peers[name]):
                found += [it.signed_transaction(), *map(it.signed_stage, it.stages)]
            found += self.given[name]
        return found

    def named_transactions(self):
        return [Signed(tx, *self.node.locks[tx.outpoint]) for block in reversed(self.blocks) for tx in reversed(block) if tx.outpoint in self.node.locks]

    def tables(self):
        named = self.named_transactions()
        items = [item for it in named for item in it.tx.witness]
        found = {**self.own, "items_hashed": [byte for it in items for byte in sha256(it)], "items_once": begins(sha256, items), "items_short": begins(hash160, items), "codes_once": begins(sha256, [it.code for it in named])}
        lists = {"lists": lambda it: it.tx.signed_message(it.code, it.value), "points": lambda it: it.tx.outpoints(), "ages": lambda it: it.tx.sequences(), "payments": lambda it: it.tx.payments()}
        for name, spelled in lists.items():
            found.update({f"{name}_shown": begins(sha256d, map(spelled, named)), f"{name}_given": begins(sha256d, map(spelled, self.tokens()))})
        return found


HOME = key_program(hash160(key(0x11)))
NEWEST, REVOKED = COMMITMENTS["first_newest"], COMMITMENTS["second_opened"]
TO_REMOTE, TO_LOCAL = (NEWEST.tx.txid(), 3), (REVOKED.tx.txid(), 0)


def peer_close():
    it = Chain()
    it.close("first_newest")
    it.close("second_opened")
    it.add_block()
    swept = it.take("swept", TO_REMOTE, [(58000, HOME)], [(key(0x11),), key(0x11)], "first")
    it.stage("first_newest", 0, filled_bytes(7))
    it.take("punished", TO_LOCAL, [(7000, HOME)], [(REVOKED.keys["revocation"],), b"\x01", REVOKED.delayed], "second")
    it.add_block()
    it.take("spent_on", (swept.txid(), 0), [(57000, b"")], [(key(0x11),), key(0x11)], spent=(key_script(hash160(key(0x11))), 58000))
    it.add_block()
    it.stage("first_newest", 1, b"")
    it.stage("second_opened", 1, b"")
    it.add_block()
    it.add_block()
    it.take("slept", (REVOKED.stages[1].txid(), 0), [(1000, b"")], [(REVOKED.keys["delayed"],), b"", REVOKED.delayed], sequence=2)
    return it.tables()


def own_close():
    it, remote, ids = Chain(), NEWEST.keys["remote_htlc"], NEWEST.tx.txid()
    it.close("first_newest")
    it.close("second_own")
    it.add_block()
    claimed = it.take("claimed", (ids, 1), [(11000, HOME)], [(remote,), filled_bytes(8), NEWEST.outputs[1].script])
    it.add_block()
    it.add_block()
    returned = it.take("returned", (ids, 0), [(9000, HOME)], [(remote,), b"", NEWEST.outputs[0].script], lock_time=3)
    it.given["first"] = [Signed(returned, *NODE.locks[ids, 0]), Signed(claimed, *NODE.locks[ids, 1])]
    it.given["second"] = [COMMITMENTS["second_own"].signed_transaction()]
    return it.tables()


def thefts():
    it, revocation = Chain(), NEWEST.keys["revocation"]
    it.close("first_newest")
    it.close("second_opened")
    it.add_block()
    it.take("takes_remote", TO_REMOTE, [(1000, b"")], [(key(0x11),), key(0x11)])
    it.take("takes_offered", (NEWEST.tx.txid(), 0), [(1000, b"")], [(revocation,), revocation, NEWEST.outputs[0].script])
    it.take("takes_local", TO_LOCAL, [(1000, b"")], [(REVOKED.keys["revocation"],), b"\x01", REVOKED.delayed])
    it.add_block()
    it.take("takes_received", (NEWEST.tx.txid(), 1), [(1000, b"")], [(revocation,), revocation, NEWEST.outputs[1].script])
    return it.tables()


OWN = COMMITMENTS["seeded_own"]


def one_seed():
    it, revocation = Chain(ONE_SEED), OWN.keys["revocation"]
    it.close("seeded_own")
    it.add_block()
    it.take("takes_local", (OWN.tx.txid(), 4), [(1000, b"")], [(revocation,), b"\x01", OWN.delayed])
    it.take("takes_back", (OWN.tx.txid(), 0), [(1000, b"")], [(revocation,), revocation, OWN.outputs[0].script])
    it.add_block()
    it.take("takes_received", (OWN.tx.txid(), 2), [(1000, b"")], [(revocation,), revocation, OWN.outputs[2].script])
    it.given["seeded"] = [OWN.signed_transaction()]
    return it.tables()


def own_stages():
    it, delayed, success = Chain(ONE_SEED), OWN.keys["delayed"], OWN.stages[2]
    it.close("seeded_own")
    it.add_block()
    it.stage("seeded_own", 2, filled_bytes(8))
    it.take("pays", (OWN.tx.txid(), 1), [(1000, b"")], [(OWN.keys["remote_htlc"],), filled_bytes(10), OWN.outputs[1].script])
    it.add_block()
    local = it.take("claims_local", (OWN.tx.txid(), 4), [(58000, HOME)], [(delayed,), b"", OWN.delayed], sequence=2)
    it.add_block()
    it.stage("seeded_own", 0, b"")
    second = it.take("claims_second", (success.txid(), 0), [(11000, HOME)], [(delayed,), b"", OWN.delayed], sequence=2)
    released = (success, OWN.stages[0], local, second)
    it.given["seeded"] = [*(Signed(tx, *ONE_SEED.locks[tx.outpoint]) for tx in released), OWN.signed_transaction()]
    return it.tables()


# ---- a history of two rounds, in crates/book_laws


def rounds_channel():
    """The channel: the node's base keys are of its seed, and the funding output is output 7 of a transaction that spends a grant."""
    it = Channel(0, 0x10, 0x20, {"A": 2, "B": 3}, {"A": 546, "B": 1500}, {"funding": b"\x03" + filled_bytes(0x20)})
    it.bases["A"] = {name: point(seed_secret(SEED, at)) for at, name in enumerate(BASES)}
    it.script = b"\x52" + b"".join(push(it.bases[side]["funding"]) for side in "AB") + b"\x52\xae"
    it.mask = int.from_bytes(sha256(it.bases["A"]["payment"] + it.bases["B"]["payment"])[26:], "big")
    opens = Tx((it.grant, 0), 0, [(1000, b"")] * 7 + [(CAPACITY, script_program(it.script))], 0)
    it.grant, it.index = opens.txid(), 7
    return it


def rounds_ends():
    """What the node claims at each of four ends, by the output's value; the first byte of the commitment's id beside it."""
    channel = rounds_channel()
    ours, theirs, trimmed, more = Htlc(10000, 7, 3), Htlc(12000, 8, 4), Htlc(1200, 10, 5), Htlc(4000, 9, 6)
    ends = {
        "revoked": Commitment(channel, "B", 1, point(filled_bytes(0x51)), {"A": 69999, "B": 20000}, {"A": [ours]}),
        "newest": Commitment(channel, "B", 2, key(0x52), {"A": 69999, "B": 7999}, {"A": [ours], "B": [theirs]}),
        "next": Commitment(channel, "B", 3, key(0x53), {"A": 68799, "B": 7999}, {"A": [ours, trimmed], "B": [theirs]}),
        "own": Commitment(channel, "A", 3, point(secret_at(SEED, 3)), {"A": 69999, "B": 3999}, {"A": [ours], "B": [theirs, more]}),
    }
    claims = {name: [it.value for it in k.outputs if name == "revoked" or it.kind != "ToLocal"] for name, k in ends.items()}
    claims["own"] = [it.value for it in ends["own"].outputs if it.kind == "ToLocal"] + [tx.outputs[0][0] for tx in ends["own"].stages.values()]
    return {**{f"{name}_claims": sorted(it) for name, it in claims.items()}, **{f"{name}_begins": [k.tx.txid()[0]] for name, k in ends.items()}, **rounds_own(channel, ends["own"])}


def rounds_own(channel, own):
    """The node's own commitment: its id, the first bytes of the other ids on its chain, and the second bytes of the keys in the witnesses there."""
    stages = {own.outputs[at].htlc.byte: tx.txid()[0] for at, tx in own.stages.items()}
    firsts = {"ours": stages[7], "theirs": stages[8], "more": stages[9], "grant": Channel(0, 0x10, 0x20).grant[0], "opens": channel.grant[0], "own_id": own.tx.txid()[0], "revocation": hash160(own.keys["revocation"])[0]}
    seconds = {"remote": own.keys["remote_htlc"], "local": own.keys["local_htlc"], "revocation": own.keys["revocation"], "funding": channel.bases["A"]["funding"]}
    return {"own_id": list(own.tx.txid()), **{f"{name}_begins": [n] for name, n in firsts.items()}, **{f"{name}_second": [it[1]] for name, it in seconds.items()}}


def rounds_facts():
    """The same as the facts say it."""
    found, byte = {}, r"^(?:pub )?(\w+_(?:begins|second)) : get_or .* ≡ (0x[0-9a-f]{2})$"
    forms = [("RoundsWorth", r"^(\w+_claims) : .* ≡ ([\d +]+)$")] + [(f"Rounds{it}", byte) for it in ("Chains", "Releases", "Stages", "Own")]
    for file, form in forms:
        with open(f"{TOP}/crates/book_laws/proofs/{file}.antt", encoding="utf-8") as it:
            found.update({name: sorted(int(n, 0) for n in row.split(" + ")) for name, row in re.findall(form, it.read(), re.M)})
    return {**found, "own_id": file_tables("RoundsChains", f"{TOP}/crates/book_laws/proofs")["own_id"]}


def file_tables(file, folder=PROOFS):
    """The tables that stand in a file, by their names."""
    with open(f"{folder}/{file}.antt", encoding="utf-8") as it:
        text = it.read()
    numbers = r"((?:0x[0-9a-f]+\s*∷\s*)+\[\])"
    found = {name: row for name, row in re.findall(rf"^abbrev (?:pub )?(\w+) : List ℕ\n\1 =\s*{numbers}\n", text, re.M)}
    found.update(dict(re.findall(r"^abbrev (\w+) : List \(List ℕ\)\n\1 =\s*((?:\((?:0x[0-9a-f]+\s*∷\s*)+\[\]\)\s*∷\s*)+\[\])\n", text, re.M)))
    for name, fields in re.findall(r"^(\w+) = record \{\n((?:  .*;\n)+)\}\n", text, re.M):
        found.update({f"{name}.{word}": row for word, row in re.findall(rf"^  (\w+) =\s*{numbers};", fields, re.M)})
    return {name: [int(it, 16) for it in re.findall(r"0x[0-9a-f]+", row)] for name, row in found.items()}


def main():
    count = wrong = 0
    first = ["first_opened", "first_newest", "first_own", "second_opened", "second_newest", "second_own"]
    for file, made in (
        ("Recorded", recorded_values(CHANNELS, first)), ("Tables", NODE.tables()), ("ClosedExamples", peer_close()), ("OwnCloseExamples", own_close()), ("TokenTheftExamples", thefts()),
        ("SeededRecorded", seeded_values()), ("SeededTables", ONE_SEED.own_tables()), ("OneSeedExamples", one_seed()), ("OwnStageExamples", own_stages()),
    ):
        stand = file_tables(file)
        for name in sorted({*made, *stand}):
            count += 1
            if list(made.get(name, ())) != stand.get(name):
                wrong += 1
                print(f"{file}: {name} {'is another' if name in made and name in stand else 'stands nowhere' if name in made else 'is not worked out'}")
    made, stand = rounds_ends(), rounds_facts()
    for name in sorted({*made, *stand}):
        count += 1
        if made.get(name) != stand.get(name):
            wrong += 1
            print(f"rounds: {name} is {made.get(name)} and not {stand.get(name)}")
    print(f"worked_chains: {count} tables, {wrong} wrong")
    return 1 if wrong else 0


if __name__ == "__main__":
    if sys.argv[1:] == ["--help"]:
        raise SystemExit(__doc__)
    sys.exit(main())
