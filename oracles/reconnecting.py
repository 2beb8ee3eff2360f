#!/usr/bin/env python3
"""Compares the two sides of a channel with a model of their own (oracles/reconnect_model.py), over random plays with cuts, restarts, sides put back to older states, and
hostile hellos, updates and messages.

  reconnecting.py PROGRAM [PLAYS] [SEED]     PROGRAM is bench/programs/reconnecting, as .ci/program builds it

Its last line is 'PLAYS plays, LINES answers compared, D differ'."""

import os
import random
import subprocess
import sys
from collections import Counter

sys.dont_write_bytecode = True
sys.path.insert(0, os.path.dirname(os.path.abspath(__file__)))
import reconnect_model as model

model.START = (60_000_000, 40_000_000)
model.MINIMUM = (1000, 1000)
model.MAX_HTLCS = 483
model.EXPIRY_END = 500_000_000
model.FEE0 = 1000

A, B = model.A, model.B
SIDES = "AB"
DUST_SAT = 546


def transaction_of(commitment):
    """What a commitment's transaction has of it (BOLT 3, 'Commitment Transaction Outputs'). HTLCs without an output are not in it, nor the ids of the others, nor a balance below the dust limit."""
    if commitment is None:
        return None
    owner, number, point, (of_a, of_b, feerate_per_kw) = commitment
    htlcs = []
    for offerer, (_, offers) in ((A, of_a), (B, of_b)):
        weight = 663 if offerer == owner else 703
        htlcs += [(offerer, amount, preimage, expiry) for _, _, amount, preimage, expiry in offers if amount // 1000 >= DUST_SAT + feerate_per_kw * weight // 1000]
    # A opens the channel, so the fee is A's
    fee = feerate_per_kw * (724 + 172 * len(htlcs)) // 1000
    outputs = [max(0, of_a[0] // 1000 - fee), of_b[0] // 1000]
    return owner, number, point, tuple(sat for sat in outputs if sat >= DUST_SAT), outputs[0] >= DUST_SAT, tuple(sorted(htlcs))


model.transaction_of = transaction_of


def update_words(u):
    if u[0] == "add":
        return f"offer {u[2]} {u[3]} {u[4]}"
    if u[0] == "ful":
        return f"fulfil {u[1]} {u[2]}"
    return " ".join(str(x) for x in u)


def update_text(u):
    if u[0] == "add":
        return f"add {u[1]} {u[2]} {u[4]}"
    return f"fulfil {u[1]}" if u[0] == "ful" else " ".join(str(x) for x in u)


class Names:
    """What the program prints for values whose text the model does not know: each value has one text, and each text one value."""

    def __init__(self):
        self.texts, self.values = {}, {}

    def fits(self, sort, value, text):
        return self.texts.setdefault((sort, value), text) == text and self.values.setdefault((sort, text), value) == value


class Play(model.World):
    """A play of the model, which writes the program's lines and what each should give"""

    def __init__(self, rng, lines):
        super().__init__(rng)
        self.lines = lines
        self.given = []          # (sender, message) by the program's number
        self.number = {}         # the newest number of each
        self.hellos = {}
        self.hello_count = 0
        lines.append(("open", ("text", "")))

    # ---- what the program is asked, and what it should answer

    def ask(self, side, words, wanted):
        self.lines.append((f"{SIDES[side]} {words}", wanted))

    def gives(self, side, refusal, out):
        """the answer of a call with messages; they get numbers"""
        if refusal:
            return ("text", refusal)
        for m in out:
            self.number[(side, repr(m))] = len(self.given)
            self.given.append((side, m))
        return ("messages", tuple(out))

    def note(self, side, e, before, refusal, out):
        if refusal in ("NotConnected", "Connected", "Behind", "PenaltiesMissing") or e[0] == "keep":
            return
        if e[0] == "own":
            self.ask(side, update_words(e[1]), self.gives(side, refusal, out))
        elif e[0] == "sign":
            self.ask(side, "sign", self.gives(side, "NotYourTurn" if refusal == "AwaitingRevocation" else refusal, out))
        elif e[0] == "receive":
            self.ask(side, f"take {self.number[(1 - side, repr(e[1]))]}", self.gives(side, refusal, out))
        elif e[0] == "cut":
            self.ask(side, "forget", ("text", "".join(update_text(u) + ";" for u in before.own[0][before.own[1]:])))
        elif e[0] == "resume":
            behind = refusal is None and model.is_behind(before, e[1])
            self.ask(side, f"again {self.hellos[e[1]]}", ("text", "behind") if behind else self.gives(side, refusal, out))

    def call(self, side, book, e):
        before = book.state
        r, out = book.call(e)
        self.note(side, e, before, r, out)
        return r, out

    def replay(self, side, entries):
        book = model.Book(side)
        self.ask(side, "open", ("text", ""))
        for e in entries[1:]:
            self.call(side, book, e)
        return book

    def say_hello(self, side, hello, words="hello"):
        self.ask(side, words, ("hello", hello))
        self.hellos[hello] = self.hello_count
        self.hello_count += 1

    # ---- the events of the model

    def do(self, side, e):
        n = self.nodes[side]
        r, out = self.call(side, n.book, e)
        if r is None:
            n.outbox += [(len(n.book.entries), m) for m in out]
        return r, out

    def cut(self, who=None, keep=None, restored=False):
        if who is not None:
            n = self.nodes[who]
            n.book = self.replay(who, n.book.entries[:keep])
            n.disk = keep
        for side in (A, B):
            n = self.nodes[side]
            n.outbox = []
            self.call(side, n.book, ("cut", restored and side == who))
        self.queues = [[], []]
        for side in (A, B):
            h = model.hello(self.nodes[side].book.state)
            self.say_hello(side, h)
            self.queues[1 - side] = [h]

    def own_update(self, side):
        rng, s = self.rng, self.nodes[side].book.state
        k = rng.random()
        if k < 0.5:
            amount = rng.choice((0, 999, 1000, 700_000, 5_000_000, 11_000_000, 25_000_000, 60_000_001))
            expiry = 500_000_000 if rng.random() < 0.02 else rng.randrange(10, 60)
            return ("add", len(model.offers(s.own[0])), amount, rng.randrange(4), expiry)
        if k < 0.9:
            settled = model.part(s.theirs, model.SETTLED)
            ids = [h[1] for h in model.live_offers(settled, s.own[0])] or [rng.randrange(5)]
            ids = ids + [i for i in s.fulfilled if rng.random() < 0.3]
            i = rng.choice(ids)
            h = [x for x in model.offers(s.theirs[0]) if x[1] == i]
            x = h[0][3] if h and rng.random() < 0.95 else 9
            return ("ful", i, x) if rng.random() < 0.6 else ("fail", i)
        return ("fee", rng.randrange(500, 3000))

    # ---- sides put back, and hostile peers

    def put_back(self, side):
        """asks an older state of the side what it does about its peer's hello, and goes on from the newest"""
        entries = self.nodes[side].book.entries
        peer = model.state_after_cut(self.nodes[1 - side].book.state)
        old = self.replay(side, entries[:self.rng.randrange(1, len(entries) + 1)])
        self.call(side, old, ("cut", True))
        h = model.hello(peer)
        before = old.state
        self.say_hello(1 - side, h)
        r = model.resume_refusal(before, h)
        revoked = before.number < len(peer.secrets)
        model.need((r is None and model.is_behind(before, h)) == revoked, "behind is not where the newest commitment is revoked")
        self.call(side, old, ("resume", h))
        self.seen["put back: " + (r or ("behind" if revoked else "goes on"))] += 1
        self.replay(side, entries)

    def hostile_hello(self, side):
        rng, s = self.rng, self.nodes[side].book.state
        near = (0, 1, s.number - 1, s.number, s.number + 1, s.number + 2, 1 << 48, (1 << 64) - 1)
        commitments = near + (s.peer_number, s.peer_number + 1, s.peer_number + 2, s.peer_number + 3)
        revocation = max(0, rng.choice(near))
        owner = rng.choice((side, side, side, side, 1 - side, 2))
        number = max(0, revocation - 1 if rng.random() < 0.8 else rng.choice(near))
        if revocation == 0 and rng.random() < 0.8:
            owner = 2
        number = min(number, (1 << 48) - 1)
        secret = model.ZERO if owner == 2 else model.secret_at(owner, number)
        h = ("hello", max(0, rng.choice(commitments)), revocation, secret)
        self.say_hello(side, h, f"say {h[1]} {h[2]} {(SIDES + 'Z')[owner]} {number}")
        r = model.resume_refusal(s, h)
        if revocation > model.LAST + 1:
            r = "WrongSecret"
        if r is None and model.is_behind(s, h):
            wanted = ("text", "behind")
        else:
            wanted = self.gives(side, r, model.resends(s, h) if r is None else [])
        self.ask(side, f"again {self.hellos[h]}", wanted)
        self.seen["hostile hello: " + (r or "taken")] += 1

    def hostile_message(self, side):
        """the peer's side takes any message again, or any update"""
        rng, n = self.rng, self.nodes[side]
        if rng.random() < 0.5 and self.given:
            sender, m = rng.choice(self.given)
            words = f"take {self.number[(sender, repr(m))]}"
            if m[0] == "signed" and m[1][0] != side:
                m = ("signed", None)
        else:
            u = rng.choice((("add", rng.randrange(4), rng.choice((0, 2000, 30_000_000)), 1, 40), ("ful", rng.randrange(5), rng.randrange(4)), ("fail", rng.randrange(5)), ("fee", 900)))
            m = ("updated", u)
            words = "get " + ("offer " + " ".join(str(x) for x in u[1:]) if u[0] == "add" else update_words(u))
        r = model.receive_refusal(n.book.state, m)
        out = [] if r else model.answers(n.book.state, m)
        self.ask(side, words, self.gives(side, r, out))
        if r is None:
            n.book.state = model.state_after_message(n.book.state, m)
        self.seen["hostile %s: %s" % (m[0], r or "taken")] += 1

    def hostile_end(self):
        """one side against any peer"""
        side = self.rng.randrange(2)
        n = self.nodes[side]
        for _ in range(self.rng.randrange(2, 20)):
            k = self.rng.random()
            if k < 0.4:
                self.hostile_hello(side)
            elif k < 0.8:
                self.hostile_message(side)
            elif k < 0.9:
                before = n.book.state
                self.note(side, ("cut", False), before, None, [])
                n.book.state = model.state_after_cut(before)
            else:
                u, before = self.own_update(side), n.book.state
                r = model.own_tests(before, u)
                self.note(side, ("own", u), before, r, [] if r else [("updated", u)])
                n.book.state = before if r else model.state_after_update(u, before)


model.LAST = (1 << 48) - 2


def plays(first, count, seen):
    for seed in range(first, first + count):
        rng = random.Random(seed)
        lines = []
        w = Play(rng, lines)
        cuts = rng.choice((0.02, 0.1, 0.4, 0.9))
        for _ in range(rng.randrange(20, 160)):
            w.step(cuts)
            w.check(deep=False)
            k = rng.random()
            if k < 0.01:
                w.put_back(rng.randrange(2))
            elif k < 0.03:
                w.hostile_hello(rng.randrange(2))
        w.hostile_end()
        seen += w.seen
        yield seed, lines


class Compared:
    def __init__(self):
        self.plays = self.answers = self.differ = 0

    def is_wanted(self, names, wanted, text):
        sort, value = wanted
        if sort == "text":
            return text == value
        if sort == "hello":
            words = text.split(" ")
            return words[:3] == ["hello", str(value[1]), str(value[2])] and len(words) == 4 and names.fits("secret", value[3], words[3])
        parts = text.split(";")
        return len(parts) == len(value) + 1 and parts[-1] == "" and all(self.message(names, m, part) for m, part in zip(value, parts))

    def message(self, names, m, text):
        words = text.split(" ")
        if m[0] == "updated":
            return text == update_text(m[1])
        if m[0] == "signed":
            return words[0] == "signed" and names.fits("commitment", transaction_of(m[1]), text)
        return words[0] == "revoked" and len(words) == 3 and names.fits("secret", m[1], words[1]) and names.fits("point", m[2], words[2])

    def play(self, seed, lines, answers):
        names = Names()
        self.plays += 1
        for line, wanted in lines:
            text = next(answers, None)
            self.answers += 1
            if text is None or not self.is_wanted(names, wanted, text.rstrip("\n")):
                self.differ += 1
                if self.differ < 6:
                    print(f"seed {seed}: {line!r} gave {text!r}, wanted {wanted!r}")
                return False
        return True


def main():
    program = sys.argv[1].split(" ")
    count = int(sys.argv[2]) if len(sys.argv) > 2 else 100_000
    first = int(sys.argv[3]) if len(sys.argv) > 3 else 1
    seen, compared = Counter(), Compared()
    batch = 500
    for start in range(first, first + count, batch):
        made = list(plays(start, min(batch, first + count - start), seen))
        text = "".join(line + "\n" for _, lines in made for line, _ in lines)
        run = subprocess.run(program, input=text, capture_output=True, text=True)
        answers = iter(run.stdout.split("\n"))
        if run.returncode != 0:
            print("status", run.returncode, run.stderr[-300:])
        for seed, lines in made:
            if not compared.play(seed, lines, answers):
                break
    for name in sorted(seen):
        print("%9d  %s" % (seen[name], name))
    print(f"{compared.plays} plays, {compared.answers} answers compared, {compared.differ} differ")
    return 1 if compared.differ else 0


if __name__ == "__main__":
    if sys.argv[1:] in ([], ["--help"]):
        raise SystemExit(__doc__)
    sys.exit(main())
