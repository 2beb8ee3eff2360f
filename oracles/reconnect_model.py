#!/usr/bin/env python3
"""A model of connections that are cut and of nodes that start again (BOLT 2, "Message Retransmission"), written from BOLT 2 with lists and tuples. It reads nothing of
the libraries, and oracles/reconnecting.py compares these with it.

  reconnect_model.py SECONDS [SEED]      plays at random for SECONDS of processor time, and prints what was seen
  reconnect_model.py drafts SECONDS      plays wrong drafts, and prints how each one fails

It has one channel of two sides, with updates, their five stages and their tests, and commitments as values: a signature is the commitment itself. Each side has a
history of accepted calls, which is replayed from any of its beginnings, and the rule that nothing is signed while penalties are missing. A call changes the side in
memory, and what it gives goes out only once the history with the call is on the disk, which may be any number of calls behind. A restart loses what is not on the disk,
and what waited for it. Two queues are cut at any moment: all that is on its way is lost.

After each event it checks:
- that no message or hello of an honest peer is refused
- that what each side accepted are the first commitments that the other signed, and once all that is on its way came, that the two agree
- the same for what the two would be if their connection were cut now
- that each signature goes out, first or again, after the penalties of each revoked commitment
- that for each number a side gives one signature, and knows of it after each restart
- that the secret of the newest commitment never went out
- that what goes out again went out before, in the same order
- that a side which is put back to any beginning of its history is told to be behind exactly where its newest commitment is revoked to its peer
"""
import random
import sys
import time
from collections import Counter

A, B = 0, 1
ZERO = ("zero",)
MAX_HTLCS = 4
EXPIRY_END = 500
MINIMUM = (5, 7)            # what a side wants at least of an HTLC that it receives
START = (400, 250)
FEE0 = 10
OPENER = A
LAST = 10 ** 9

# What a draft does; these are the right ones
GOOD = dict(order="flag",          # flag | derived | revocation_first | signature_first
            forget_own="signed",   # signed: what a signature covers stays | none | acknowledged
            forget_theirs="signed",  # signed | none
            updates_again=True,    # the updates of a lost signature go out again
            ask_peer=True,         # by the numbers of hello; else whatever awaits its revocation
            drop_outbox=True,      # what waited for the disk is not sent on the next connection
            write_ahead=True,      # messages go out only once their call is on the disk
            wait=True,             # a side that is cut makes no call until hello came
            lazy_updates=False)    # updates go out before they are on the disk (but not before what waits for it)
DRAFT = dict(GOOD)


class Broken(Exception):
    pass


def need(test, what):
    if not test:
        raise Broken(what)


# ---------------------------------------------------------------- updates

def fate(i, us):
    for u in us:
        if u[0] in ("ful", "fail") and u[1] == i:
            return u[0]
    return "live"


def offers(us):
    return [u for u in us if u[0] == "add"]


def spent_amount(mine, others):
    return sum(o[2] for o in offers(mine) if fate(o[1], others) != "fail")


def gained_amount(mine, others):
    return sum(o[2] for o in offers(others) if fate(o[1], mine) == "ful")


def live_offers(mine, others):
    return tuple(o for o in offers(mine) if fate(o[1], others) == "live")


def fee_of(us, rate):
    for u in us:
        if u[0] == "fee":
            rate = u[1]
    return rate


# the stages of one side's updates: a list, and how many have reached each stage
def stages():
    return ([], 0, 0, 0, 0)


def part(s, i):
    return s[0] if i == 0 else s[0][:s[i]]


KNOWN, WITH_RECEIVER, PAST_RECEIVER, WITH_SENDER, SETTLED = range(5)


def update_refusal(by, s, o, u):
    """by: who makes the update; s: its stages, o: its peer's"""
    known, settled = s[0], part(s, SETTLED)
    o_known, o_settled = o[0], part(o, SETTLED)
    if u[0] == "add":
        _, i, amount, _, expiry = u
        if i != len(offers(known)):
            return "WrongId"
        if amount == 0:
            return "AmountZero"
        if amount < MINIMUM[1 - by]:
            return "BelowMinimum"
        if expiry >= EXPIRY_END:
            return "ExpiryTooLarge"
        if len(live_offers(known, o_settled)) >= MAX_HTLCS:
            return "TooManyHtlcs"
        if START[by] + gained_amount(settled, o_known) < amount + spent_amount(known, o_settled):
            return "OverBalance"
        return None
    if u[0] in ("ful", "fail"):
        found = [h for h in offers(o_settled) if h[1] == u[1]]
        if fate(u[1], known) != "live" or not found:
            return "UnknownHtlc"
        if u[0] == "ful" and u[2] != found[0][3]:
            return "WrongPreimage"
        return None
    return None if by == OPENER else "NotOpener"


def share(by, xs, ys):
    b = START[by] + gained_amount(xs, ys) - spent_amount(xs, ys)
    need(b >= 0, "a balance below 0")
    return (b, live_offers(xs, ys))


def view_of(xs, ys):
    """of A's updates and B's"""
    a, b = share(A, xs, ys), share(B, ys, xs)
    need(a[0] + b[0] + sum(h[2] for h in a[1] + b[1]) == sum(START), "a view does not share out the capacity")
    need(len(a[1]) <= MAX_HTLCS and len(b[1]) <= MAX_HTLCS, "too many HTLCs stand")
    return (a, b, fee_of(xs if OPENER == A else ys, FEE0))


def view_by(side, mine, others):
    return view_of(mine, others) if side == A else view_of(others, mine)


# ---------------------------------------------------------------- a channel

def secret_at(side, n):
    return ("secret", side, n)


def point_at(side, n):
    return ("point", side, n)


def first_commitment(owner):
    return (owner, 0, point_at(owner, 0), view_of([], []))


class State:
    __slots__ = ("side", "own", "theirs", "awaiting", "number", "peer_number", "point", "next_point",
                 "secrets", "mine", "signed", "revoked_last", "fulfilled")

    def copy(self):
        s = State.__new__(State)
        for k in State.__slots__:
            setattr(s, k, getattr(self, k))
        return s

    def key(self):
        return tuple((tuple(v[0]),) + v[1:] if k in ("own", "theirs") else
                     tuple(v) if isinstance(v, list) else v
                     for k, v in ((k, getattr(self, k)) for k in State.__slots__))


def first_state(side):
    s = State.__new__(State)
    s.side = side
    s.own, s.theirs = stages(), stages()
    s.awaiting, s.number, s.peer_number = False, 0, 0
    s.point, s.next_point = point_at(1 - side, 0), point_at(1 - side, 1)
    s.secrets = []
    s.mine, s.signed = [first_commitment(side)], [first_commitment(1 - side)]
    s.revoked_last = False
    s.fulfilled = ()
    return s


def own_tests(s, u):
    r = update_refusal(s.side, s.own, s.theirs, u)
    return "AlreadyFulfilled" if r is None and u[0] == "fail" and u[1] in s.fulfilled else r


def covers_nothing(s, o):
    return len(s[0]) == s[1] and o[2] == o[3]


def sign_refusal(s):
    if s.awaiting or s.peer_number >= LAST:
        return "NotYourTurn"
    if covers_nothing(s.own, s.theirs):
        return "NoUpdates"
    return None


def next_peer_commitment(s):
    return (1 - s.side, s.peer_number + 1, s.next_point, view_by(s.side, s.own[0], part(s.theirs, PAST_RECEIVER)))


def next_own_commitment(s):
    return (s.side, s.number + 1, point_at(s.side, s.number + 1),
            view_by(1 - s.side, s.theirs[0], part(s.own, PAST_RECEIVER)))


def transaction_of(commitment):
    """What a signature on a commitment is over. Here two commitments are never one transaction."""
    return commitment


def receive_refusal(s, m):
    if m[0] == "updated":
        return update_refusal(1 - s.side, s.theirs, s.own, m[1])
    if m[0] == "signed":
        if s.number >= LAST:
            return "NotYourTurn"
        if covers_nothing(s.theirs, s.own):
            return "NoUpdates"
        return None if transaction_of(m[1]) == transaction_of(next_own_commitment(s)) else "BadSignature"
    if not s.awaiting:
        return "NotYourTurn"
    if m[1][0] != "secret" or ("point",) + m[1][1:] != s.point:
        return "WrongSecret"
    return None


def state_after_update(u, s):
    t = s.copy()
    t.own = (s.own[0] + [u],) + s.own[1:]
    if u[0] == "ful":
        t.fulfilled = s.fulfilled + (u[1],)
    return t


def state_after_signature(s):
    t = s.copy()
    k, wr, pr, ws, st = s.own
    t.own = (k, len(k), pr, ws, st)
    k, wr, pr, ws, st = s.theirs
    t.theirs = (k, wr, pr, pr, st)
    t.awaiting = True
    t.signed = s.signed + [next_peer_commitment(s)]
    t.revoked_last = False
    return t


def state_after_message(s, m):
    t = s.copy()
    if m[0] == "updated":
        t.theirs = (s.theirs[0] + [m[1]],) + s.theirs[1:]
    elif m[0] == "signed":
        k, wr, pr, ws, st = s.own
        t.own = (k, wr, pr, pr, pr)
        k, wr, pr, ws, st = s.theirs
        t.theirs = (k, len(k), len(k), ws, st)
        t.number = s.number + 1
        t.mine = s.mine + [next_own_commitment(s)]
        t.revoked_last = True
    else:
        k, wr, pr, ws, st = s.own
        t.own = (k, wr, wr, ws, st)
        k, wr, pr, ws, st = s.theirs
        t.theirs = (k, wr, pr, ws, ws)
        t.awaiting = False
        t.peer_number = s.peer_number + 1
        t.point, t.next_point = s.next_point, m[2]
        t.secrets = s.secrets + [m[1]]
    return t


def answers(s, m):
    return [("revoked", secret_at(s.side, s.number), point_at(s.side, s.number + 2))] if m[0] == "signed" else []


# ---------------------------------------------------------------- what is new: forgetting, hello, resume

def covered_stages(s):
    return (s[0][:s[WITH_RECEIVER]],) + s[1:]


def state_after_cut(s):
    t = s.copy()
    if DRAFT["forget_own"] == "signed":
        t.own = covered_stages(s.own)
    elif DRAFT["forget_own"] == "acknowledged":
        k, wr, pr, ws, st = s.own
        t.own = (k[:pr], pr, pr, ws, st)
    if DRAFT["forget_theirs"] == "signed":
        t.theirs = covered_stages(s.theirs)
    return t


def hello(s):
    return ("hello", s.number + 1, s.peer_number, s.secrets[-1] if s.secrets else ZERO)


def last_signed_number(s):
    return s.peer_number + (1 if s.awaiting else 0)


def secret_for(s, n):
    return ZERO if n == 0 else secret_at(s.side, n - 1)


def is_behind(s, r):
    return s.number < r[2]


def resume_refusal(s, r):
    if r[3] != secret_for(s, r[2]):
        return "WrongSecret"
    if is_behind(s, r):
        return None
    if r[2] + 1 < s.number:
        return "PeerBehind"
    if r[1] < (last_signed_number(s) if s.awaiting else last_signed_number(s) + 1):
        return "PeerBehind"
    if last_signed_number(s) + 1 < r[1]:
        return "NeverSigned"
    return None


def lost_signature(s, r):
    return s.awaiting and (not DRAFT["ask_peer"] or r[1] == last_signed_number(s))


def lost_revocation(s, r):
    return s.number > 0 and (not DRAFT["ask_peer"] or r[2] + 1 == s.number)


def resends(s, r):
    sig, rev = [], []
    if lost_signature(s, r):
        if DRAFT["updates_again"]:
            sig += [("updated", u) for u in part(s.own, WITH_RECEIVER)[s.own[PAST_RECEIVER]:]]
        sig += [("signed", c) for c in s.signed[s.peer_number + 1:]]
    if lost_revocation(s, r):
        rev = [("revoked", secret_at(s.side, s.number - 1), point_at(s.side, s.number + 1))]
    order = DRAFT["order"]
    first = {"flag": s.revoked_last, "derived": s.theirs[WITH_SENDER] != s.theirs[PAST_RECEIVER],
             "revocation_first": False, "signature_first": True}[order]
    return sig + rev if first else rev + sig


# ---------------------------------------------------------------- a book

class Book:
    """the history, and what replaying it gives"""

    def __init__(self, side):
        self.side, self.entries = side, [("open",)]
        self.state, self.kept, self.link, self.preimages = first_state(side), set(), "up", []

    @staticmethod
    def replay(side, entries):
        b = Book(side)
        for e in entries[1:]:
            r, _ = b.call(e)
            need(r is None, "a history does not replay: %s %s" % (e[0], r))
        return b

    def missing_number(self):
        for n in range(len(self.state.secrets)):
            if n not in self.kept:
                return n
        return None

    def call(self, e):
        """the refusal, or None with the messages"""
        s, out = self.state, []
        if e[0] in ("own", "receive", "sign") and self.link != "up" and DRAFT["wait"]:
            return "NotConnected", []
        if e[0] == "own":
            r = own_tests(s, e[1])
            if r:
                return r, []
            self.state, out = state_after_update(e[1], s), [("updated", e[1])]
            if e[1][0] == "ful":
                self.preimages = self.preimages + [e[1][2]]
        elif e[0] == "sign":
            if s.awaiting or s.peer_number >= LAST:
                return "AwaitingRevocation", []
            if self.missing_number() is not None:
                return "PenaltiesMissing", []
            r = sign_refusal(s)
            if r:
                return r, []
            self.state, out = state_after_signature(s), [("signed", next_peer_commitment(s))]
        elif e[0] == "receive":
            r = receive_refusal(s, e[1])
            if r:
                return r, []
            out = answers(s, e[1])
            self.state = state_after_message(s, e[1])
            if e[1][0] == "updated" and e[1][1][0] == "ful":
                self.preimages = self.preimages + [e[1][1][2]]
        elif e[0] == "keep":
            if not e[1] < len(s.secrets):
                return "NotRevoked", []
            if e[1] in self.kept:
                return "AlreadyKept", []
            self.kept = self.kept | {e[1]}
        elif e[0] == "cut":
            self.state = state_after_cut(s)
            if self.link != "behind":
                self.link = "doubt" if e[1] or self.link == "doubt" else "cut"
        elif e[0] == "resume":
            if self.link == "up" and DRAFT["wait"]:
                return "Connected", []
            if self.link == "behind":
                return "Behind", []
            r = resume_refusal(s, e[1])
            if r:
                return r, []
            if is_behind(s, e[1]):
                self.link = "behind"
            else:
                self.link, out = "up", resends(s, e[1])
                if any(m[0] == "signed" for m in out):
                    need(self.missing_number() is None, "a signature goes out again while penalties are missing")
        self.entries = self.entries + [e]
        return None, out

    def closing_number(self):
        """the number of the own commitment that may be broadcast"""
        return None if self.link in ("behind", "doubt") else self.state.number


# ---------------------------------------------------------------- two nodes

class Node:
    def __init__(self, side):
        self.side, self.book = side, Book(side)
        self.disk = 1               # the number of calls on the disk
        self.outbox = []            # (the length of the history that has to be on the disk, message)


class World:
    def __init__(self, rng):
        self.rng = rng
        self.nodes = [Node(A), Node(B)]
        self.queues = [[], []]      # parcels on their way to a side
        self.sigs = [{}, {}]        # ghost: what a side gave out, by number: the commitment
        self.said = [[], []]        # ghost: signatures and revocations in the order in which they first went out
        self.told_secret = [-1, -1]  # ghost: the greatest number whose secret went out
        self.seen = Counter()

    # ---- the disk

    def write(self, side, upto=None):
        n = self.nodes[side]
        n.disk = len(n.book.entries) if upto is None else upto
        while n.outbox and (n.outbox[0][0] <= n.disk or not DRAFT["write_ahead"]):
            self.post(side, n.outbox.pop(0)[1])

    def post(self, side, m):
        self.queues[1 - side].append(m)
        if m[0] == "signed":
            c = m[1]
            old = self.sigs[side].get(c[1])
            need(old is None or old == c, "two signatures for one number")
            if old is None:
                self.said[side].append(("signed", c[1]))
            self.sigs[side][c[1]] = c
        if m[0] == "revoked":
            if ("revoked", m[1][2]) not in self.said[side]:
                self.said[side].append(("revoked", m[1][2]))
            self.told_secret[side] = max(self.told_secret[side], m[1][2])

    def do(self, side, e):
        n = self.nodes[side]
        gate = n.book.missing_number() if e[0] == "sign" else None
        r, out = n.book.call(e)
        if r is None:
            need(e[0] != "sign" or gate is None, "the gate")
            if DRAFT["lazy_updates"] and e[0] == "own" and not n.outbox:
                for m in out:
                    self.post(side, m)
            else:
                n.outbox += [(len(n.book.entries), m) for m in out]
            if not DRAFT["write_ahead"]:
                self.write(side, n.disk)
        return r, out

    # ---- events

    def cut(self, who=None, keep=None, restored=False):
        """the connection is cut; `who` starts again from the first `keep` calls of its history"""
        if who is not None:
            n = self.nodes[who]
            n.book = Book.replay(who, n.book.entries[:keep])
            n.disk = keep
        for side in (A, B):
            n = self.nodes[side]
            if DRAFT["drop_outbox"] or side == who:
                n.outbox = []
            n.book.call(("cut", restored and side == who))
        self.queues = [[hello(self.nodes[B].book.state)], [hello(self.nodes[A].book.state)]]

    def deliver(self, side):
        q = self.queues[side]
        if not q:
            return
        m, n = q[0], self.nodes[side]
        if m[0] == "hello":
            r, out = self.do(side, ("resume", m))
            if r is None and n.book.link == "up":
                self.check_resends(side, out)
        else:
            r, out = self.do(side, ("receive", m))
        need(r is None, "an honest message is refused: %s %s" % (m[0], r))
        self.queues[side] = q[1:]
        if m[0] == "hello":
            self.seen["resume " + "+".join(x[0] for x in out if x[0] != "updated")] += 1

    def check_resends(self, side, out):
        """what goes out again went out before (or waited for the disk), in the same relative order"""
        again = [(m[0], m[1][1] if m[0] == "signed" else m[1][2]) for m in out if m[0] != "updated"]
        before = [x for x in self.said[side] if x in again]
        if set(before) == set(again):
            if before != again:
                self.seen["another order than at first"] += 1
                need(DRAFT["order"] != "flag", "another order than at first")

    def own_update(self, side):
        rng, s = self.rng, self.nodes[side].book.state
        k = rng.random()
        if k < 0.5:
            amount = rng.choice((0, 3, 6, 8, 40, 90, 200))
            expiry = 500 if rng.random() < 0.02 else rng.randrange(10, 60)
            return ("add", len(offers(s.own[0])), amount, rng.randrange(4), expiry)
        if k < 0.9:
            ids = [h[1] for h in live_offers(part(s.theirs, SETTLED), s.own[0])] or [rng.randrange(5)]
            i = rng.choice(ids)
            h = [x for x in offers(s.theirs[0]) if x[1] == i]
            x = h[0][3] if h and rng.random() < 0.95 else 9
            return ("ful", i, x) if rng.random() < 0.6 else ("fail", i)
        return ("fee", rng.randrange(5, 30))

    def step(self, cuts):
        rng = self.rng
        k = rng.random()
        side = rng.randrange(2)
        n = self.nodes[side]
        if k < 0.24:
            r, _ = self.do(side, ("own", self.own_update(side)))
            self.seen["update" if r is None else "update " + r] += 1
        elif k < 0.42:
            r, _ = self.do(side, ("sign",))
            self.seen["sign" if r is None else "sign " + r] += 1
        elif k < 0.66:
            self.deliver(side)
        elif k < 0.76:
            m = n.book.missing_number()
            if m is not None:
                r, _ = self.do(side, ("keep", m))
                need(r is None, "keep refused")
        elif k < 0.92:
            if n.disk < len(n.book.entries):
                upto = len(n.book.entries) if rng.random() < 0.6 else rng.randrange(n.disk, len(n.book.entries) + 1)
                self.write(side, upto)
        elif rng.random() < cuts:
            if rng.random() < 0.5:
                self.cut()
                self.seen["cut"] += 1
            else:
                keep = n.disk
                self.seen["restart, calls lost %d" % min(len(n.book.entries) - keep, 5)] += 1
                self.cut(side, keep)

    # ---- checks

    def messages_to(self, to):
        """what is on its way to a side, with what its peer's `resume` will add to it. None: not told yet"""
        peer = self.nodes[1 - to]
        q = [m for m in self.queues[to] if m[0] != "hello"]
        box = [m for _, m in peer.outbox]
        h = self.queues[1 - to]
        if h and h[0][0] == "hello":
            need(not q and not box, "a side that was cut sent something")
            return resends(peer.book.state, h[0])
        return q + box

    def agree(self, a, b, to_a, to_b, which):
        for s, t, q in ((a, b, to_b), (b, a, to_a)):
            # s is the sender, t takes the queue
            need(s.theirs[SETTLED] <= t.own[SETTLED], which + ": ahead")
            for m in q:
                r = receive_refusal(t, m)
                need(r is None, "%s: %s would be refused: %s" % (which, m[0], r))
                t = state_after_message(t, m)
            need(t.theirs[0] == s.own[0], which + ": known")
            need(part(t.theirs, 1) == part(s.own, 1), which + ": with_receiver")
            need(part(t.own, 2) == part(s.theirs, 2), which + ": past_receiver")
            need(part(t.theirs, 4) == part(s.own, 4), which + ": settled")
            need(part(t.own, 3) == part(s.theirs, 3), which + ": with_sender")
            need(t.mine == s.signed, which + ": commitments")
            need(t.number == last_signed_number(s), which + ": number")
            need(t.peer_number == s.number, which + ": peer_number")
            need(t.point == point_at(s.side, s.number), which + ": point")
            need(t.next_point == point_at(s.side, s.number + 1), which + ": next point")
            need(t.secrets == [secret_at(s.side, i) for i in range(s.number)], which + ": secrets")
            sigs = sum(m[0] == "signed" for m in q)
            revs = sum(m[0] == "revoked" for m in (to_a if q is to_b else to_b))
            need(sigs + revs == (1 if s.awaiting else 0), which + ": one")

    def check_order(self, a, b):
        """hellos are true now; signatures and revocations on their way stand as the flag says; the stages are in order"""
        for to, s in ((A, b), (B, a)):      # s sends to `to`
            q = self.queues[to]
            need(all(m[0] != "hello" for m in q[1:]), "a hello behind something else")
            if q and q[0][0] == "hello":
                need(q[0] == hello(s), "a hello is not its side's any more")
                need(self.nodes[to].book.link == "cut", "a side that is not cut has a hello on its way")
            else:
                need(self.nodes[to].book.link == "up", "a side that is cut has no hello on its way")
            kinds = [m[0] for m in self.messages_to(to) if m[0] != "updated"]
            if "signed" in kinds:
                need(not s.revoked_last or "revoked" in kinds, "order: a revocation overtook a signature")
                if "revoked" in kinds:
                    need((kinds[0] == "signed") == s.revoked_last, "order: the flag")
        for s in (a, b):
            for x in (s.own, s.theirs):
                need(x[SETTLED] <= x[WITH_SENDER] <= x[PAST_RECEIVER] <= x[WITH_RECEIVER] <= len(x[0]), "stages in order")
            need(s.own[WITH_SENDER] == s.own[SETTLED] and s.theirs[WITH_RECEIVER] == s.theirs[PAST_RECEIVER], "answered at once")

    def check(self, deep=True):
        a, b = self.nodes[A].book.state, self.nodes[B].book.state
        for s, t in ((a, b), (b, a)):
            need(t.signed[:len(s.mine)] == s.mine, "what was accepted is not what was signed")
            need(self.told_secret[s.side] < s.number, "the secret of the newest commitment went out")
            for n, c in self.sigs[s.side].items():
                need(n < len(s.signed) and s.signed[n] == c, "a signature went out that its side does not know of")
        if not deep:
            return
        self.agree(a, b, self.messages_to(A), self.messages_to(B), "calm")
        self.check_order(a, b)
        fa, fb = state_after_cut(a), state_after_cut(b)
        self.agree(fa, fb, resends(fb, hello(fa)), resends(fa, hello(fb)), "rewound")
        for s, t in ((a, b), (b, a)):
            need(s.awaiting or s.own[1] == s.own[2], "a signature is not acknowledged, and nobody waits")
            need(not s.awaiting or self.nodes[s.side].book.missing_number() is None or DRAFT != GOOD,
                 "penalties are missing while a signature awaits its revocation")
        # each un-signed update of one's own passes its tests again once the rest is forgotten
        for s in (a, b):
            t = state_after_cut(s)
            for u in s.own[0][s.own[1]:]:
                need(own_tests(t, u) is None, "an un-signed update could not be made again")
                t = state_after_update(u, t)

    def check_old_state(self, side, length):
        """the side is put back to an old beginning of its history; its peer is honest and up to date"""
        n, peer = self.nodes[side], state_after_cut(self.nodes[1 - side].book.state)
        old = Book.replay(side, n.book.entries[:length])
        old.call(("cut", True))
        need(old.closing_number() is None, "a side in doubt may broadcast")
        revoked = old.state.number < len(peer.secrets)
        r, out = old.call(("resume", hello(peer)))
        p = resume_refusal(peer, hello(old.state))
        self.seen["put back: %s, its peer: %s" % (r or old.link, p or "takes it")] += 1
        need((old.link == "behind") == revoked, "Behind is not where the newest commitment is revoked")
        if old.link == "behind":
            need(p == "PeerBehind", "a side is behind, and its peer does not see it")
            need(old.closing_number() is None, "a side that is behind may broadcast")
            need(old.call(("resume", hello(peer)))[0] == "Behind", "a side that was behind goes on")
            need(old.call(("sign",))[0] == "NotConnected", "a side that is behind signs")
            old.call(("cut", False))
            need(old.closing_number() is None, "a side that was behind forgot it")
        elif old.link == "up":
            need(old.closing_number() == old.state.number and not revoked, "closing")
            need(p is None, "a side goes on, and its peer refuses it")
            return old
        return None


def play(seed, length, cuts, old=0.0, deep=True):
    rng = random.Random(seed)
    w = World(rng)
    for _ in range(length):
        w.step(cuts)
        w.check(deep)
        if old and rng.random() < old:
            side = rng.randrange(2)
            n = w.nodes[side]
            at = rng.randrange(1, len(n.book.entries) + 1)
            back = w.check_old_state(side, at)
            if back is not None and rng.random() < 0.5:
                # it goes on from there: the calls after it are lost, and its peer is cut too
                keep = len(back.entries) - 2
                w.seen["went on from an old beginning, calls lost %d" % min(5, len(n.book.entries) - keep)] += 1
                # what it gave out since then, its peer never took: ghosts forget it too
                w.cut(side, keep)
                s = w.nodes[side].book.state
                w.sigs[side] = {n: c for n, c in w.sigs[side].items() if n < len(s.signed)}
                w.said[side] = [x for x in w.said[side] if x[0] == "revoked" and x[1] < s.number or
                                x[0] == "signed" and x[1] < len(s.signed)]
                w.told_secret[side] = min(w.told_secret[side], s.number - 1)
                w.check()
    # in the end all is delivered, and both sides agree
    for side in (A, B):
        w.write(side)
    for _ in range(400):
        if not w.queues[A] and not w.queues[B]:
            break
        for side in (A, B):
            while w.queues[side]:
                w.deliver(side)
                w.write(side)
    need(not w.queues[A] and not w.queues[B], "messages for ever")
    a, b = w.nodes[A].book.state, w.nodes[B].book.state
    need(a.mine == b.signed and b.mine == a.signed, "at the end the two do not agree")
    need(a.own[0] == b.theirs[0] and b.own[0] == a.theirs[0], "at the end the two know other updates")
    for n in w.nodes:
        need(Book.replay(n.side, n.book.entries).state.key() == n.book.state.key(), "a history replays as another state")
    return w


def run(seconds, seed):
    end = time.process_time() + seconds
    seen, plays, steps = Counter(), 0, 0
    while time.process_time() < end:
        length = random.Random(seed).randrange(20, 160)
        try:
            w = play(seed, length, random.Random(seed + 1).choice((0.02, 0.1, 0.4, 0.9)), old=0.04)
        except Broken as e:
            print("seed %d: %s" % (seed, e))
            return 1
        seen += w.seen
        plays, steps, seed = plays + 1, steps + length, seed + 1
    print("%d plays, %d events, nothing broken" % (plays, steps))
    for k in sorted(seen):
        print("%8d  %s" % (seen[k], k))
    return 0


def drafts(seconds):
    wrong = [("no draft", {}),
             ("the order of what goes out again is worked out from the stages", dict(order="derived")),
             ("the revocation always goes first", dict(order="revocation_first")),
             ("the signature always goes first", dict(order="signature_first")),
             ("own updates that no signature covers are kept", dict(forget_own="none")),
             ("own updates are forgotten down to what the peer acknowledged", dict(forget_own="acknowledged")),
             ("the peer's updates that no signature covers are kept", dict(forget_theirs="none")),
             ("neither side forgets anything", dict(forget_own="none", forget_theirs="none")),
             ("the signature goes out again without its updates", dict(updates_again=False)),
             ("what awaits its revocation goes out again unasked", dict(ask_peer=False)),
             ("what waited for the disk goes out on the next connection", dict(drop_outbox=False)),
             ("messages go out before their call is on the disk", dict(write_ahead=False)),
             ("calls are made before hello came", dict(wait=False)),
             ("updates go out before they are on the disk", dict(lazy_updates=True))]
    each = seconds / len(wrong)
    for name, change in wrong:
        DRAFT.clear()
        DRAFT.update(GOOD)
        DRAFT.update(change)
        end, seed, why, seen = time.process_time() + each, 0, Counter(), Counter()
        first = None
        while time.process_time() < end:
            try:
                w = play(seed, 60 if seed % 2 else 110, 0.6 if seed % 2 else 0.2, deep=False)
                seen += w.seen
            except Broken as e:
                why[str(e)] += 1
                first = seed if first is None else first
            seed += 1
        print("%s: %d of %d plays broken%s" % (name, sum(why.values()), seed, "" if first is None else " (first: seed %d)" % first))
        for k, v in why.most_common(3):
            print("      %d  %s" % (v, k))
        both = seen["resume signed+revoked"] + seen["resume revoked+signed"]
        print("      both went out again %d times, in another order than at first %d times" % (both, seen["another order than at first"]))
    DRAFT.clear()
    DRAFT.update(GOOD)
    return 0


if __name__ == "__main__":
    if sys.argv[1:] in ([], ["--help"]):
        raise SystemExit(__doc__)
    if sys.argv[1] == "drafts":
        sys.exit(drafts(float(sys.argv[2])))
    sys.exit(run(float(sys.argv[1]), int(sys.argv[2]) if len(sys.argv) > 2 else 0))
