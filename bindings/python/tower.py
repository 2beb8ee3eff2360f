"""A tower: from a transaction and what is known of a revoked commitment to the penalty that nobody has signed yet. Reads words from standard input, which c/tower.c names."""
import sys

import enforce

words = iter(sys.stdin.read().split())
tx = bytes.fromhex(next(words))
channel_type, delay_blocks = enforce.ChannelType(int(next(words))), int(next(words))
keys = [bytes.fromhex(next(words)) for _ in range(5)]
height, program, fee = int(next(words)), bytes.fromhex(next(words)), int(next(words))
htlcs = tuple(enforce.Htlc(enforce.Direction(int(it)), int(next(words)), bytes.fromhex(next(words))) for it in words)
try:
    found = enforce.revoked(enforce.Commitment(channel_type, delay_blocks, *keys, htlcs), tx, height)
    for it in found.claims:
        print(f"claim {it.claim.index} kind {it.kind} until {it.deadline_height or 0}")
    for it in found.others:
        print(f"other {it.index}")
    claims = [it.claim for it in found.claims]
    spend = enforce.unsigned_spend(claims, [enforce.Output(max(0, sum(it.value for it in claims) - fee), program)])
except enforce.Refused as refused:
    sys.exit(print(f"refused {refused.name}") or 1)
print(f"tx {spend.tx.hex()}")
for it in spend.signatures:
    print(f"sign {it.input} {it.item} {it.key.hex()} {it.digest.hex()}")
