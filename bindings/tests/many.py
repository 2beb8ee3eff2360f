"""many.py COUNT: asks the library in Python for the claims on a transaction with so many HTLCs, as revoked, as one's own and as the peer's, and compares the rows with what is worked out here from BOLT 3 (scripts by
real/tests/node_channels.py, digests by real/lib/transaction.py). The last line is 'COUNT rows'. The buffers of the first call are too short for them.
"""
import hashlib
import os
import sys

sys.dont_write_bytecode = True
TOP = os.path.dirname(os.path.dirname(os.path.dirname(os.path.abspath(__file__))))
sys.path[:0] = [f"{TOP}/bindings/tests", TOP]
import enforce
from revocations import revoked

from real.lib import commitment
from real.lib.transaction import Digests, Input, Output, Transaction
from real.tests import node_channels

KEYS = [bytes.fromhex(revoked.OWN[name]) for name in revoked.NAMES]
REVOCATION, DELAYED, LOCAL, REMOTE, _ = KEYS
HEIGHT, FEERATE, PAID = 500, 253, [enforce.Output(1_000, b"\x00\x14" + bytes(20))]


def must(holds, what):
    if not holds:
        raise SystemExit(f"many: {what}")


def digests_of(claims):
    """The digests of the transaction that spends these claims."""
    inputs = [Input(it.txid + it.index.to_bytes(4, "little"), b"", 0, []) for it in claims]
    return Digests(Transaction(2, inputs, [Output(*it) for it in PAID], 0))


def main(count):
    secrets = [hashlib.sha256(b"secret %d" % at).digest() for at in range(count)]
    htlcs = [(at % 2 == 0, hashlib.sha256(it).digest(), 400 + at) for at, it in enumerate(secrets)]
    keys = commitment.Keys(*KEYS)
    scripts = [node_channels.htlc_script(keys, commitment.Htlc(*it), False) for it in htlcs]
    outputs = [Output(1_000 + at, commitment.program_of(it)) for at, it in enumerate(scripts)]
    outputs.insert(1, Output(5, b"\x51"))
    tx = Transaction(2, [Input(bytes(36), b"", 0, [])], outputs, 0).bytes()
    rows = tuple(enforce.Htlc(enforce.Direction.OFFERED if offered else enforce.Direction.RECEIVED, expiry, payment) for offered, payment, expiry in htlcs)
    given = enforce.Commitment(enforce.ChannelType.STATIC_REMOTE_KEY, 144, *KEYS, rows)

    found = enforce.revoked(given, tx, HEIGHT)
    claims = [it.claim for it in found.claims]
    must([it.index for it in found.others] == [1] and [it.script for it in claims] == scripts, "the claims of a revoked commitment")
    spend, digests = enforce.unsigned_spend(claims, PAID), digests_of(claims)
    must([it.digest for it in spend.signatures] == [digests.digest_of(at, it, 1_000 + at) for at, it in enumerate(scripts)], "digests")

    own = enforce.close(enforce.Whose.OWN, given, FEERATE, secrets, tx, HEIGHT)
    must(len(own.claims) == count and [it.index for it in own.others] == [1], "the claims of one's own commitment")
    program = commitment.program_of(node_channels.to_local_script(REVOCATION, 144, DELAYED))
    for it, (offered, _, expiry), script in zip(own.claims, htlcs, scripts):
        fee = (663 if offered else 703) * FEERATE // 1_000
        place = Input(it.claim.txid + it.claim.index.to_bytes(4, "little"), b"", 0, [])
        second = Transaction(2, [place], [Output(max(0, it.claim.value - fee), program)], expiry if offered else 0)
        signature = enforce.GivenSignature(REMOTE, Digests(second).digest_of(0, script, it.claim.value), second.bytes())
        must(it.claim.slots[1:3] == (enforce.Signature(LOCAL), signature), "one's own HTLC transaction")
        later = max(HEIGHT, expiry + 1)
        must((it.from_height, it.deadline_height) == ((later, HEIGHT) if offered else (HEIGHT, later)), "heights")

    peers = [it.claim for it in enforce.close(enforce.Whose.PEERS, given, FEERATE, secrets, tx, HEIGHT).claims]
    must([it.script for it in peers] == scripts and len(enforce.unsigned_spend(peers, PAID, secrets).signatures) == count, "the claims of the peer's commitment")
    print(f"{count} rows")


if __name__ == "__main__":
    main(int(sys.argv[1]))
