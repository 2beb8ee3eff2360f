#!/usr/bin/env python3
"""What `trace dump` prints of books, made anew from the calls of their dumps.

  oracles/dumps.py          compares what ./trace dump prints of each dump of oracles/dumps.txt, one a line, and of texts that are no dumps, with it; status 1 where they differ
  oracles/dumps.py --tell   prints what is told of the dump on standard input
  oracles/dumps.py FILE     compares it of the dumps of a file

oracles/dumps.txt has books of the examples as they stand at the end: of each kind of claim and of HTLC the shortest dump, and one dump with a claim that no script has. Three of them stand there again with
a close of the channel: before a fulfil, before a signature (which is refused), and twice at the end. oracles/unlike_channels.json has the calls of two channels whose terms, amounts, heights and numbers are all unlike: their dumps are made
anew by oracles/histories.py.
Commitments, balances, HTLCs and amounts are found here by rules of this file's own, from BOLT 2, 3 and 5 and docs/TRACE_DUMP.md: a commitment is how many updates of each side it has.
"""
import json
import os
import subprocess
import sys

from bitcoin import sha256
from histories import Books

TOP = os.path.dirname(os.path.dirname(os.path.abspath(__file__)))
# lines that are refused, and as what
REFUSED = {
    "": ("NotJson", 1),
    "{": ("NotJson", 1),
    "[]": ("BadShape", 2),
    '{"history":[],"version":3}': ("BadShape", 2),
    '{"history":[{"call":["close",0],"seat":0}],"version":2}': ("BadShape", 2),
    '{"history":[{"call":["close",0],"seat":0}],"version":3}': ("BadHistory 0", 4),
    '{"history":[{"call":["sign",0],"seat":0}],"version":2}': ("BadHistory 0", 4),
}


class Channel:
    """A channel by its updates: each side's list, and of each commitment how many of each it has, this side's first."""

    def __init__(self, terms, funding, side):
        self.terms, self.funding, self.side = terms, funding, side
        self.updates = ([], [])
        self.ours, self.theirs, self.next = [(0, 0)], [(0, 0)], None
        self.preimages, self.kept, self.closed = [], set(), None

    def add(self, whose, update):
        self.updates[whose].append(update)
        if update[0] == "fulfil":
            self.preimages.append(bytes.fromhex(update[2]))

    def sign(self):
        """The peer's next commitment has all updates of this side, and those of the peer that this side's newest has."""
        self.next = (len(self.updates[0]), self.ours[-1][1])

    def take_signature(self):
        """This side's next has all of the peer's, and those of this side that the peer's newest has."""
        self.ours.append((self.theirs[-1][0], len(self.updates[1])))

    def close(self):
        """This side closes the channel with its newest commitment, which stays the newest."""
        self.closed = len(self.ours) - 1

    def revoke(self):
        self.theirs.append(self.next)
        self.next = None

    def index(self, whose):
        """The place of a side's values in the terms: this side is 0, the peer 1."""
        return (self.side == "B") ^ (whose == 1)

    def view(self, commitment):
        """What a commitment pays: balances, HTLCs and the feerate. A removal of an HTLC may be in a commitment that its offer is in."""
        balances = [self.terms["start"][self.index(whose)] for whose in (0, 1)]
        standing, feerate = ({}, {}), self.terms["feerate"]
        parts = [self.updates[whose][: commitment[whose]] for whose in (0, 1)]
        for whose in (0, 1):
            for update in parts[whose]:
                if update[0] == "add":
                    standing[whose][update[1]] = update
                    balances[whose] -= update[2]
                elif update[0] == "fee":
                    feerate = update[1]
        for whose in (0, 1):
            for update in parts[whose]:
                if update[0] in ("fulfil", "fail"):
                    htlc = standing[1 - whose].pop(update[1])
                    balances[whose if update[0] == "fulfil" else 1 - whose] += htlc[2]
        return balances, standing, feerate

    def amounts(self, commitment, owner=1):
        """The outputs of a commitment of this side (0) or of the peer (1; BOLT 3): to_local, to_remote, and its HTLCs that are not trimmed, the owner's first."""
        balances, standing, feerate = self.view(commitment)
        dust = self.terms["dust"][self.index(owner)]
        kept = []
        for whose, weight in ((owner, 663), (1 - owner, 703)):
            least = dust + weight * feerate // 1000
            kept.append([it for _, it in sorted(standing[whose].items()) if it[2] // 1000 >= least])
        fee = (724 + 172 * (len(kept[0]) + len(kept[1]))) * feerate // 1000
        shares = [balance // 1000 for balance in balances]
        payer = 0 if self.terms["opener"] == self.side else 1
        shares[payer] = max(shares[payer] - fee, 0)
        local, remote = (value if value >= dust else None for value in (shares[owner], shares[1 - owner]))
        return local, remote, kept[0], kept[1]

    def claims(self, commitment, is_revoked):
        hashes = [sha256(it).hex() for it in self.preimages]
        local, remote, received, offered = self.amounts(commitment)
        found = []

        def claim(output, number, value, by, lock, alone, limit):
            found.append({"output": output, "id": number, "value": value, "by": by, "lock": lock, "alone": alone, "limit": limit})

        if is_revoked and local is not None:
            claim("to_local", None, local, "penalty", None, "blocks", self.terms["delay"][self.index(1)])
        if remote is not None:
            claim("to_remote", None, remote, "payment", None, "always", None)
        for _, number, amount, payment_hash, expiry in received:
            if is_revoked or payment_hash in hashes:
                claim("received", number, amount // 1000, "penalty" if is_revoked else "preimage", None, "until", expiry)
        for _, number, amount, _, expiry in offered:
            claim("offered", number, amount // 1000, "penalty" if is_revoked else "timeout", None if is_revoked else expiry, "no_preimage", None)
        return found

    def claimable_value(self, commitment, owner, is_revoked):
        """What this side can claim of a commitment once each HTLC's transaction stands. Those of its own commitment, and of a revoked one, take their fees off."""
        hashes = [sha256(it).hex() for it in self.preimages]
        local, remote, of_owner, of_other = self.amounts(commitment, owner)
        feerate = self.view(commitment)[2]
        values = [local if owner == 0 else remote, local if is_revoked else None]
        for whose, weight, htlcs in ((owner, 663, of_owner), (1 - owner, 703, of_other)):
            fee = weight * feerate // 1000 if owner == 0 or is_revoked else 0
            values += [it[2] // 1000 - fee for it in htlcs if is_revoked or whose == 0 or it[3] in hashes]
        return sum(it for it in values if it is not None)

    def least_value(self):
        peers = [self.claimable_value(it, 1, False) for it in (self.theirs[-1], self.next) if it]
        return min([self.claimable_value(self.ours[-1], 0, False), *peers, *(self.claimable_value(it, 1, True) for it in self.theirs[:-1])])

    def commitment(self, number, counts):
        balances, _, feerate = self.view(counts)
        return {"number": number, "balance": balances[0], "peer_balance": balances[1], "feerate": feerate}

    def htlcs(self):
        places = {"ours": self.ours[-1], "theirs": self.theirs[-1], "next": self.next}
        views = {name: counts and self.view(counts)[1] for name, counts in places.items()}
        found = []
        for whose, direction in ((0, "offered"), (1, "received")):
            seen = {}
            for view in views.values():
                for number, htlc in sorted(view[whose].items()) if view else ():
                    seen.setdefault(number, htlc)
            for number, (_, _, amount, payment_hash, expiry) in seen.items():
                one = {"direction": direction, "id": number, "amount": amount, "hash": payment_hash, "expiry": expiry}
                one.update({name: None if view is None else number in view[whose] for name, view in views.items()})
                found.append(one)
        return found

    def closes(self):
        number = len(self.theirs) - 1
        found = [("theirs", number, None, self.theirs[-1])]
        if self.next:
            found.append(("next", number + 1, None, self.next))
        found += [("revoked", n, n in self.kept, counts) for n, counts in enumerate(self.theirs[:-1])]
        return [{"commitment": name, "number": n, "kept": kept, "claims": self.claims(counts, name == "revoked")} for name, n, kept, counts in found]

    def summary(self, index):
        return {
            "channel": index, "funding": self.funding, "explorer": bytes.fromhex(self.funding.split(":")[0])[::-1].hex(), "side": self.side, "opener": self.terms["opener"], "capacity": self.terms["capacity"],
            "peer_delay": self.terms["delay"][self.index(1)],
            **({} if self.closed is None else {"closed": self.closed}),
            "ours": self.commitment(len(self.ours) - 1, self.ours[-1]),
            "theirs": self.commitment(len(self.theirs) - 1, self.theirs[-1]),
            "next": self.next and self.commitment(len(self.theirs), self.next),
            "at_least": self.least_value(), "htlcs": self.htlcs(), "closes": self.closes(),
        }


def take_message(channel, message):
    if message[0] == "signed":
        channel.take_signature()
    else:
        channel.add(1, message)


def step(channel, call):
    """A step of a channel: an update of its own (an offer has no id yet), or a message."""
    if call[2] == "receive":
        take_message(channel, call[3])
    elif call[2] == "offer":
        count = sum(it[0] == "add" for it in channel.updates[0])
        channel.add(0, ["add", count, *call[3:]])
    else:
        channel.add(0, call[2:])


def objects_of(dump):
    """The objects that tell of a dump: its channels, and the book."""
    channels = []
    for entry in dump["history"]:
        call = entry["call"]
        if call[0] == "open":
            channels.append(Channel(call[1], call[2], call[3]))
        elif call[0] == "step":
            step(channels[call[1]], call)
        elif call[0] == "sign":
            channels[call[1]].sign()
        elif call[0] == "revoke":
            channels[call[1]].revoke()
        elif call[0] == "keep":
            channels[call[1]].kept.add(call[2])
        elif call[0] == "close":
            channels[call[1]].close()
    found = [channel.summary(index) for index, channel in enumerate(channels)]
    notes = list(preimage_notes(channels, dump["history"]))
    return [*found, {"entries": len(dump["history"]), "channels": len(channels), **({"notes": notes} if notes else {})}]


def received_in(history):
    """What became of received HTLCs, by their channels and numbers: the entry of each, its amount, hash and expiry, and the entry of its fulfil or fail."""
    found, removed = {}, {}
    for at, call in enumerate(entry["call"] for entry in history):
        if call[0] == "step" and call[2] == "receive" and call[3][0] == "add":
            found[call[1], call[3][1]] = (at, *call[3][2:])
        elif call[0] == "step" and call[2] in ("fulfil", "fail"):
            removed[call[1], call[3]] = (call[2], at)
    return found, removed


def is_given_up(one, history):
    """Whether the book fulfils another HTLC of the hash after it failed this one, which it had then, and gets less than before, while it offers nothing by that hash."""
    found, removed = received_in(history)
    kind, failed = removed[one]
    same = [it for it in found if found[it][2] == found[one][2]]
    ends = [removed[it][1] for it in same if removed.get(it, ("",))[0] == "fulfil" and found[it][0] < failed < removed[it][1]]
    if not ends or any(it["call"][0] == "step" and it["call"][2] == "offer" and it["call"][4] == found[one][2] for it in history):
        return False
    offered = [sum(found[it][1] for it in same if found[it][0] < end and not (it in removed and removed[it][0] == "fail" and removed[it][1] < end)) for end in (failed, min(ends))]
    return kind == "fail" and offered[1] < offered[0]


def preimage_notes(channels, history):
    """The received HTLCs whose preimage the book has, in its own channel or else another one: failed while it stands or given up; lacking in its channel; or not fulfilled in a channel that is not closed."""
    hashes = [[sha256(it).hex() for it in channel.preimages] for channel in channels]
    found, removed = received_in(history)
    for (index, number), (_, _, payment_hash, expiry) in sorted(found.items(), key=lambda it: (it[0][0], it[1][0])):
        places = [it for it in (index, *range(len(channels))) if payment_hash in hashes[it]]
        stands = any(it["direction"] == "received" and it["id"] == number and (it["ours"] or it["theirs"]) for it in channels[index].htlcs())
        is_failed = removed.get((index, number), ("",))[0] == "fail"
        if not places:
            continue
        if is_failed and (stands or is_given_up((index, number), history)):
            yield f"channel {index} failed the received HTLC {number}, whose preimage channel {places[0]} has: it can't be fulfilled any more"
        elif stands and not is_failed and places[0] != index:
            yield f"channel {index} lacks the preimage of the received HTLC {number}, which channel {places[0]} has: it can't be claimed before it is fulfilled in channel {index} too"
        elif stands and (index, number) not in removed and channels[index].closed is None:
            yield f"channel {index} has the preimage of the received HTLC {number}, and did not fulfil it: the peer may take it back in any block above {expiry}"


def in_parts(seeds, channels, *steps):
    """A scenario in which A offers B an HTLC of one hash in each of two channels, B fails that in channel 1, and fulfils that in channel 0, all irrevocably committed. Between the fail and the fulfil are steps: offers by A, or by B, each with its channel and amount."""
    preimage, events, revoked = "07" * 32, [], {}

    def commit(side, channel):
        for signer in (side, "AB".strip(side)):
            peer = "AB".strip(signer)
            number = revoked.get((peer, channel), 0)
            events.extend([["keep", signer, channel, number - 1]] * (number > 0) + [["sign", signer, channel], ["deliver", peer, channel], ["deliver", signer, channel]])
            revoked[peer, channel] = number + 1

    def make(name, side, channel, *rest):
        events.extend([[name, side, channel, *rest], ["deliver", "AB".strip(side), channel]])
        commit(side, channel)

    payment = sha256(bytes.fromhex(preimage)).hex()
    make("offer", "A", 0, 9_000_500, payment, 77)
    make("offer", "A", 1, 8_000_300, payment, 66)
    make("fail", "B", 1, 0)
    for side, channel, amount in steps:
        make("offer", side, channel, amount, payment, 55)
    make("fulfil", "B", 0, 0, preimage)
    return {"seeds": seeds, "channels": channels, "events": events}


def new_dumps():
    """Dumps that oracles/histories.py makes anew: of two channels that are unlike in all their terms, by A, who closed the second one, by B, by A before the close, and by A once it failed what it has the preimage of, by the other channel or by the same, or another one, or leaves that one; of parts, one of which B failed, with or without a retry; and of a channel whose funding output has another index than 0."""
    with open(f"{TOP}/oracles/unlike_channels.json", encoding="utf-8") as file:
        unlike = json.load(file)
    before = dict(unlike, events=[it for it in unlike["events"] if it[0] != "close"])
    failed = [dict(before, events=[*before["events"], ["fail", "A", *it]]) for it in ((1, 0), (0, 1))]
    # the HTLC whose preimage A shows in channel 1 is offered twice there, and the second one is failed, or stands
    at = before["events"].index(next(it for it in before["events"] if it[:4] == ["offer", "B", 1, 11_400_001])) + 2
    twice = [*before["events"][:at], *before["events"][at - 2 :]]
    failed += [dict(before, events=twice + rest) for rest in ([["fail", "A", 1, 2]], [], [["close", "A", 1]])]
    # the other part is fulfilled after the fail: alone, after a retry that is less by a millisatoshi, or is not, or after B offered the hash
    parts = [in_parts(unlike["seeds"], unlike["channels"], *it) for it in ((), [("A", 1, 8_000_299)], [("A", 1, 8_000_300)], [("B", 1, 7_000_100)])]
    return [Books(unlike).dump("A"), Books(unlike).dump("B"), Books(before).dump("A"), *(Books(it).dump("A") for it in failed), *(Books(it).dump("B") for it in parts), Books(dict(unlike, events=[]), 70_000).dump("B")]


def json_line(value):
    return json.dumps(value, separators=(",", ":")) + "\n"


def claims_in(call):
    """The claims of a call, as its dump has them."""
    return {"keep": call[3:4], "release": call[2:3]}.get(call[0], [[]])[0]


def is_shut_out(call):
    """Whether a call is one that a closed channel does not take: it signs, takes a signature, or makes an update of this side's own other than a fulfil."""
    return call[0] == "sign" or call[0] == "step" and (call[2] in ("offer", "fail", "fee") or call[2] == "receive" and call[3][0] == "signed")


def refusal_of(line):
    """Why a line is refused, with the number, if it is: a claim by path 9 is one that no script of a channel has, and a closed channel stays closed."""
    if line in REFUSED:
        return REFUSED[line]
    closed = set()
    for index, call in enumerate(entry["call"] for entry in json.loads(line)["history"]):
        if any(claim["path"] == 9 for claim in claims_in(call)):
            return f"BadClaim {index}", 3
        if is_shut_out(call) and call[1] in closed:
            return f"BadHistory {index}", 4
        if call[0] == "close":
            closed.add(call[1])
    return None


def other_penalties(dump, objects):
    """The kept penalty sets whose claims on the commitment's own outputs have other values than what is told: the commitment's are those of the first claim's transaction."""
    found = []
    for call in (entry["call"] for entry in dump["history"] if entry["call"][0] == "keep"):
        values = [it["value"] for it in call[3] if it["outpoint"][:64] == call[3][0]["outpoint"][:64]]
        wanted = [it["value"] for close in objects[call[1]]["closes"] if close["commitment"] == "revoked" and close["number"] == call[2] for it in close["claims"]]
        if sorted(values) != sorted(wanted):
            found.append(call)
    return found


def printed_text(line):
    """What the program prints of a line."""
    refusal = refusal_of(line)
    if refusal:
        return json_line(dict(zip(("refused", "number"), refusal)))
    dump = json.loads(line)
    objects = objects_of(dump)
    if other_penalties(dump, objects):
        raise SystemExit(f"dumps: other penalties are kept than told: {line[:80]}")
    return "".join(map(json_line, objects))


def is_told(line):
    """Whether ./trace tells a dump so."""
    done = subprocess.run([f"{TOP}/trace", "dump"], input=line, stdout=subprocess.PIPE, stderr=subprocess.DEVNULL, text=True)
    wanted = printed_text(line)
    if done.stdout == wanted and done.returncode == bool(refusal_of(line)):
        return True
    print(f"otherwise: {line[:60]}\n{done.stdout}wanted:\n{wanted}")
    return False


def main(words):
    if words == ["--tell"]:
        print(printed_text(sys.stdin.read().strip()), end="")
        return 0
    with open(words[0] if words else f"{TOP}/oracles/dumps.txt", encoding="utf-8") as file:
        lines = [*file.read().splitlines(), *REFUSED, *new_dumps()]
    wrong = sum(not is_told(line) for line in lines)
    print(f"dumps: {len(lines)} texts, {sum(refusal_of(line) is not None for line in lines)} of them refused: {wrong} differ")
    return 1 if wrong else 0


if __name__ == "__main__":
    if sys.argv[1:] == ["--help"]:
        raise SystemExit(__doc__)
    sys.exit(main(sys.argv[1:]))
