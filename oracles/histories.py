"""The books of both sides after a scenario's calls, as dumps, made anew.

A channel is its messages by BOLT 2. Commitments, HTLC transactions and their scripts are those of BOLT 3, digests those of BIP 143, keys and tokens hashes (docs/DECISIONS.md). `python3 oracles/histories.py FILE A` prints the dump
of A's book. Nothing of the chain is played: broadcasts, blocks, looks and releases are left out.
"""
import json
import sys

from bitcoin import (
    Transaction, hash160, key_program, key_script, little_endian, push, pushed_number, ripemd160, script_program,
    sha256, sha256d,
)

FUNDING, PAYMENT, DELAYED, HTLC, REVOCATION, SECRETS = range(6)


def key_of(secret):
    return b"\x02" + sha256(b"point", secret)


def derived_key(base, point):
    return b"\x02" + sha256(b"derive", base, point)


# ---- a channel


def peer_of(side):
    return "AB"[side == "A"]


class Channel:
    """Both sides of a channel: their updates, their commitments as counts of updates, and the messages on their way."""

    def __init__(self, number, terms, seeds, index):
        self.terms = terms
        self.funding = sha256d(b"grant", little_endian(number, 8)) + little_endian(index, 4)
        self.seeds = {side: sha256(b"channel", seeds[side], little_endian(number, 4)) for side in "AB"}
        self.secrets = {side: [sha256(b"base", self.seeds[side], bytes([n])) for n in range(6)] for side in "AB"}
        self.bases = {side: [key_of(it) for it in self.secrets[side][:SECRETS]] for side in "AB"}
        self.made = {side: [] for side in "AB"}
        self.held = {side: [{"A": 0, "B": 0}] for side in "AB"}
        self.queue = {side: [] for side in "AB"}

    def term(self, name, side):
        return self.terms[name][side == "B"]

    def secret(self, side, number):
        index, secret = (1 << 48) - 1 - number, bytearray(self.secrets[side][SECRETS])
        for bit in range(47, -1, -1):
            if index >> bit & 1:
                secret[bit // 8] ^= 1 << bit % 8
                secret = bytearray(sha256(secret))
        return bytes(secret)

    def point(self, side, number):
        return key_of(self.secret(side, number))

    def code(self):
        """The witness script of the funding output."""
        return b"\x52" + b"".join(map(push, sorted(self.bases[side][FUNDING] for side in "AB"))) + b"\x52\xae"

    def content(self, counts):
        """Balances in millisatoshis, HTLCs by offerer and id, and the feerate."""
        balance, htlcs, feerate = dict(zip("AB", self.terms["start"])), {}, self.terms["feerate"]
        updates = [(side, it) for side in "AB" for it in self.made[side][: counts[side]]]
        for side, it in updates:
            if it[0] == "add":
                htlcs[side, it[1]] = it
                balance[side] -= it[2]
            elif it[0] == "fee":
                feerate = it[1]
        for side, it in updates:
            if it[0] in ("fulfil", "fail"):
                balance[side if it[0] == "fulfil" else peer_of(side)] += htlcs.pop((peer_of(side), it[1]))[2]
        return balance, htlcs, feerate


class Commitment:
    """A commitment of a side (BOLT 3): its outputs in order, each with its kind, its script and its HTLC."""

    def __init__(self, channel, owner, number, counts):
        self.channel, self.owner = channel, owner
        peer, point = peer_of(owner), channel.point(owner, number)
        own, theirs = channel.bases[owner], channel.bases[peer]
        self.revocation = b"\x02" + sha256(b"revoke", theirs[REVOCATION], point)
        self.local, self.remote = derived_key(own[HTLC], point), derived_key(theirs[HTLC], point)
        self.to_local = b"\x63" + push(self.revocation) + b"\x67" + pushed_number(channel.term("delay", owner)) + b"\xb2\x75" + push(derived_key(own[DELAYED], point)) + b"\x68\xac"
        balance, htlcs, self.feerate = channel.content(counts)
        dust, found = channel.term("dust", owner), []
        for (offerer, _), htlc in htlcs.items():
            if htlc[2] // 1000 >= dust + self.stage_fee(offerer):
                script = self.htlc_script(offerer, htlc)
                found.append((htlc[2] // 1000, script_program(script), htlc[4], "htlc", script, (offerer, htlc)))
        fee = (724 + 172 * len(found)) * self.feerate // 1000
        paid = {side: balance[side] // 1000 for side in "AB"}
        paid[channel.terms["opener"]] = max(0, paid[channel.terms["opener"]] - fee)
        self.payment = theirs[PAYMENT]
        if paid[owner] >= dust:
            found.append((paid[owner], script_program(self.to_local), 0, "to_local", self.to_local, None))
        if paid[peer] >= dust:
            found.append((paid[peer], key_program(hash160(self.payment)), 0, "to_remote", key_script(hash160(self.payment)), None))
        self.outputs = sorted(found, key=lambda it: it[:3])
        opener = channel.terms["opener"]
        mask = int.from_bytes(sha256(channel.bases[opener][PAYMENT], channel.bases[peer_of(opener)][PAYMENT])[26:], "big") ^ number
        self.tx = Transaction([(channel.funding, 0x80 << 24 | mask >> 24)], [it[:2] for it in self.outputs], 0x20 << 24 | mask & 0xFFFFFF)

    def stage_fee(self, offerer):
        return (663 if offerer == self.owner else 703) * self.feerate // 1000

    def htlc_script(self, offerer, htlc):
        begin = b"\x76\xa9\x14" + hash160(self.revocation) + b"\x87\x63\xac\x67" + push(self.remote) + b"\x7c\x82\x01\x20\x87"
        both, hashed = b"\x52\x7c" + push(self.local) + b"\x52\xae", b"\xa9\x14" + ripemd160(bytes.fromhex(htlc[3])) + b"\x88"
        if offerer == self.owner:
            return begin + b"\x64\x75" + both + b"\x67" + hashed + b"\xac\x68\x68"
        return begin + b"\x63" + hashed + both + b"\x67\x75" + pushed_number(htlc[4]) + b"\xb1\x75\xac\x68\x68"

    def stages(self):
        """The HTLC transactions, in the order of the outputs that they spend, each with that output."""
        for index, output in enumerate(self.outputs):
            if output[3] == "htlc":
                offerer, htlc = output[5]
                paid = [(output[0] - self.stage_fee(offerer), script_program(self.to_local))]
                yield output, Transaction([(self.tx.txid() + little_endian(index, 4), 0)], paid, htlc[4] if offerer == self.owner else 0)

    def signature(self):
        """The message by which the peer signs it."""
        key = self.channel.bases[peer_of(self.owner)][FUNDING]
        token = key + self.tx.digest(self.channel.code(), self.channel.terms["capacity"]) + b"\x01"
        return ["signed", token.hex(), [(self.remote + tx.digest(output[4], output[0]) + b"\x01").hex() for output, tx in self.stages()]]

    def penalties(self):
        """The claims of its peer once it is revoked: output by output, each HTLC with that of its HTLC transaction."""
        found, stages = [], iter(self.stages())
        for index, (value, program, _, kind, script, _) in enumerate(self.outputs):
            exact = {"to_local": b"\x01", "to_remote": self.payment, "htlc": self.revocation}[kind]
            signer = self.payment if kind == "to_remote" else self.revocation
            found.append(claim(self.tx.txid(), index, value, program, script, exact, signer))
            if kind == "htlc":
                tx = next(stages)[1]
                found.append(claim(tx.txid(), 0, *tx.outputs[0], self.to_local, b"\x01", self.revocation))
        return found


def claim(txid, index, value, program, script, exact, signer):
    return {
        "outpoint": f"{txid.hex()}:{index}", "path": 0, "program": program.hex(), "script": script.hex(), "shell": None,
        "slots": [["exact", exact.hex()], ["sig", signer.hex()]], "value": value,
    }


# ---- the books


class Books:
    """The calls of both sides. A funding output has this index in its transaction: 0 in a scenario."""

    def __init__(self, scenario, index=0):
        seeds = dict(zip("AB", map(bytes.fromhex, scenario["seeds"])))
        self.channels = [Channel(number, terms, seeds, index) for number, terms in enumerate(scenario["channels"])]
        self.calls = {side: [self.opening_call(it, side) for it in self.channels] for side in "AB"}
        for event in scenario["events"]:
            if event[0] not in ("broadcast", "blocks", "look", "take", "release", "reorg"):
                self.play(event[0], event[1], event[2], self.channels[event[2]], event[3:])

    @staticmethod
    def opening_call(it, side):
        peer = peer_of(side)
        token = Commitment(it, side, 0, it.held[side][0]).signature()[1]
        terms = {name: it.terms[name] for name in sorted(it.terms)}
        funding = f"{it.funding[:32].hex()}:{int.from_bytes(it.funding[32:], 'little')}"
        return ["open", terms, funding, side, it.seeds[side].hex(), [key.hex() for key in it.bases[peer]], [it.point(peer, n).hex() for n in (0, 1)], token]

    def play(self, name, side, number, it, rest):
        calls = self.calls[side]
        if name == "deliver":
            return self.deliver(side, number, it)
        if name == "sign":
            counts = {side: len(it.made[side]), peer_of(side): it.held[side][-1][peer_of(side)]}
            it.queue[peer_of(side)].append((Commitment(it, peer_of(side), len(it.held[peer_of(side)]), counts).signature(), counts))
            return calls.append(["sign", number])
        if name == "keep":
            owner = peer_of(side)
            return calls.append(["keep", number, rest[0], Commitment(it, owner, rest[0], it.held[owner][rest[0]]).penalties()])
        if name == "close":
            return calls.append(["close", number])
        calls.append(["step", number, name, *rest])
        update = ["add", sum(made[0] == "add" for made in it.made[side]), *rest] if name == "offer" else [name, *rest]
        it.made[side].append(update)
        it.queue[peer_of(side)].append((update, None))
        return None

    def deliver(self, side, number, it):
        message, counts = it.queue[side].pop(0)
        if message[0] == "revoke":
            return self.calls[side].append(["revoke", number, message])
        self.calls[side].append(["step", number, "receive", message])
        if counts:
            it.held[side].append(counts)
            revoked = len(it.held[side]) - 2
            it.queue[peer_of(side)].append((["revoke", it.secret(side, revoked).hex(), it.point(side, revoked + 2).hex()], None))
        return None

    def dump(self, side):
        calls = self.calls[side]
        version = 3 if any(it[0] == "close" for it in calls) else 2
        return json.dumps({"history": [{"call": it, "seat": 0} for it in calls], "version": version}, separators=(",", ":"))


if __name__ == "__main__":
    if len(sys.argv) != 3 or sys.argv[2] not in ("A", "B"):
        raise SystemExit(__doc__)
    with open(sys.argv[1], encoding="utf-8") as given:
        print(Books(json.load(given)).dump(sys.argv[2]))
