#!/usr/bin/env python3
"""The summary that a ledger keeps of pending HTLCs, after what a cut connection lets it forget, compared with the lists that are left. It reads nothing of the libraries.

  pending_htlcs.py N    compares them for N random pairs of lists
"""
import random
import sys

from reconnect_model import fate, gained_amount, need, offers


def pending_htlcs(us, known, settled):
    """as `pending_htlcs` of updates/specs/Pending.antt: (htlc, position, end)"""
    out = []
    for at, u in enumerate(us):
        if u[0] == "add" and fate(u[1], settled) == "live":
            end = None
            for p, v in enumerate(known):
                if v[0] in ("ful", "fail") and v[1] == u[1]:
                    end = (p, v[0])
                    break
            out.append((u, at, end))
    return out


def forget(pending, offered, known, removed):
    """what the call does: the offers from position `known` on go, and the ends from `removed` on"""
    gone = 0
    while pending and pending[-1][1] >= known:
        pending = pending[:-1]
        gone += 1
    return [(h, at, None if e is not None and e[0] >= removed else e) for h, at, e in pending], offered - gone


def check_summaries(count):
    rng = random.Random(5)
    for _ in range(count):
        # honest lists: each side removes HTLCs of the other's settled ones alone, each once
        own, theirs = [], []
        o_settled = t_settled = 0
        for _ in range(rng.randrange(1, 14)):
            mine, others, settled = (own, theirs, t_settled) if rng.random() < 0.5 else (theirs, own, o_settled)
            free = [h[1] for h in offers(others[:settled]) if fate(h[1], mine) == "live"]
            if free and rng.random() < 0.6:
                mine.append((rng.choice(("ful", "fail")), rng.choice(free), 0))
            elif rng.random() < 0.15:
                mine.append(("fee", 7))
            else:
                mine.append(("add", len(offers(mine)), 10, 0, 20))
            if rng.random() < 0.4:
                o_settled = rng.randrange(o_settled, len(own) + 1)
            if rng.random() < 0.4:
                t_settled = rng.randrange(t_settled, len(theirs) + 1)
        o = rng.randrange(o_settled, len(own) + 1)
        t = rng.randrange(t_settled, len(theirs) + 1)
        kept = pending_htlcs(own, theirs, theirs[:t_settled])
        got = forget(kept, len(offers(own)), o, t)
        want = (pending_htlcs(own[:o], theirs[:t], theirs[:t_settled]), len(offers(own[:o])))
        need(got == want, "pending: %r %r" % (got, want))
        # gained_amount, spent_amount and live_count do not change for what is settled
        need(gained_amount(own[:o_settled], theirs) == gained_amount(own[:o_settled], theirs[:t]), "gained")
    print("%d random pairs of lists: the summary after forgetting is that of what is left" % count)
    return 0


if __name__ == "__main__":
    if sys.argv[1:] in ([], ["--help"]):
        raise SystemExit(__doc__)
    sys.exit(check_summaries(int(sys.argv[1])))
