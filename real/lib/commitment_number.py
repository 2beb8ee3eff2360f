"""The number of a commitment, which its lock time and sequence have (BOLT 3, "Commitment Transaction"). Tested, not
proved.
"""
from collections.abc import Iterator
from typing import Any

from real.lib.errors import Refused
from real.lib.plan import Shape, read_object
from real.lib.transaction import Transaction, read_transaction, sha256

# the first bytes of lock time and sequence; their other three have the lower and the upper half of the number
LOCK_TIME_MARK, SEQUENCE_MARK, HALF, NUMBER_SIZE = 0x20, 0x80, 24, 6
LAST = 2 ** (8 * NUMBER_SIZE) - 1
# a channel that revokes a hundred commitments in each second for a year has fewer
DOUBTED = 2**32


def read_base(shape: Shape, name: str) -> bytes:
    found = shape.bytes(name, 33)
    if found[0] not in (2, 3):
        raise shape.refusal(name)
    return found


def mask_of(opener_payment: bytes, other_payment: bytes) -> int:
    """What the number is masked with: the last bytes of the SHA-256 of both payment base points, first that of the
    side that opened the channel.
    """
    return int.from_bytes(sha256(opener_payment + other_payment)[-NUMBER_SIZE:], "big")


def has_form(transaction: Transaction) -> bool:
    """Whether a transaction has the form of a commitment: one input, and the first bytes of lock time and sequence."""
    marks = transaction.lock_time >> HALF, transaction.inputs[0].sequence >> HALF
    return len(transaction.inputs) == 1 and marks == (LOCK_TIME_MARK, SEQUENCE_MARK)


def number_of(transaction: Transaction, mask: int) -> int:
    """The commitment number. A transaction whose lock time and sequence have another form, or that has more inputs, is
    no commitment.
    """
    if not has_form(transaction):
        raise Refused("NotCommitment")
    lower, upper = (it % (1 << HALF) for it in (transaction.lock_time, transaction.inputs[0].sequence))
    return (upper << HALF | lower) ^ mask


def notes_of(found: dict[str, Any]) -> Iterator[str]:
    """A number that no channel reaches comes out where a base point is another channel's, or the two are changed
    round.
    """
    if found["commitment_number"] >= DOUBTED:
        yield (
            f"no channel has had {found['commitment_number']} commitments: the payment base points are changed round,"
            " or another channel's"
        )


def commitment_numbers(given: str | bytes) -> dict[str, Any]:
    """What is said of the transaction that a JSON text has: its number, and that of its per-commitment secret, which
    counts down from the last (BOLT 3, "Per-commitment Secret Requirements").
    """
    shape = read_object(given, "seen").check_names("transaction", "opener_payment", "other_payment")
    transaction = read_transaction(shape.line("transaction"))
    bases = [read_base(shape, it) for it in ("opener_payment", "other_payment")]
    if bases[0] == bases[1]:
        raise Refused("BadShape seen.other_payment", "both payment base points are the same one")
    number = number_of(transaction, mask_of(*bases))
    return {"transaction": transaction.txid(), "commitment_number": number, "secret_index": LAST - number}
