"""Why a check of a lock fails, with both numbers; and how long a transaction has to wait (BIPs 65, 68 and 112).
Tested, not proved.
"""
from real.lib.consensus import DISABLE, FINAL, LOCKTIME_THRESHOLD, MASK, TYPE
from real.lib.transaction import Transaction

UNIT_SECONDS = 512


def signed_number(item: bytes) -> int:
    """The number that an entry of a stack is."""
    found = int.from_bytes(item, "little")
    sign = 0x80 << 8 * (len(item) - 1) if item else 0
    return -(found ^ sign) if found & sign else found


def lock_words(lock: int) -> str:
    """An absolute lock, with its kind."""
    return f"{lock}, a {'height' if lock < LOCKTIME_THRESHOLD else 'time in seconds'}"


def age_words(sequence: int) -> str:
    """A relative lock, with its kind."""
    age = sequence & MASK
    return (
        f"{age} unit{'s' * (age != 1)} of {UNIT_SECONDS} seconds"
        if sequence & TYPE
        else f"{age} block{'s' * (age != 1)}"
    )


def lock_cause(wanted: int, transaction: Transaction, sequence: int) -> str:
    """The first of the four reasons of BIP 65 that holds."""
    reached = transaction.lock_time
    if wanted < 0:
        return f"the script asks for the lock {wanted}, which is negative"
    if (wanted < LOCKTIME_THRESHOLD) != (reached < LOCKTIME_THRESHOLD):
        return (
            f"the script asks for the lock {lock_words(wanted)}, and the transaction's lock time is"
            f" {lock_words(reached)}"
        )
    if wanted > reached:
        return f"the script asks for the lock {wanted}, and the transaction's lock time is {reached}"
    return (
        f"the script asks for the lock {wanted}, and the input's sequence is ffffffff, which switches the"
        f" transaction's lock time {reached} off"
    )


def age_cause(wanted: int, transaction: Transaction, sequence: int) -> str:
    """The first of the five reasons of BIP 112 that holds."""
    if wanted < 0:
        return f"the script asks for the age {wanted}, which is negative"
    if transaction.version < 2:
        return (
            f"the script asks for an age of {age_words(wanted)}, and the transaction's version is"
            f" {transaction.version}: from 2 on sequences are ages"
        )
    if sequence & DISABLE:
        return (
            f"the script asks for an age of {age_words(wanted)}, and the input's sequence {sequence:08x} is none: its"
            " highest bit is set"
        )
    return f"the script asks for an age of {age_words(wanted)}, and the input's sequence has {age_words(sequence)}"


CAUSES = {"FailedCheck LockTime": lock_cause, "FailedCheck Sequence": age_cause}


def cause_of(stopped: str, top: bytes, transaction: Transaction, sequence: int) -> str:
    """Why a check of a lock fails, by the entry that it looks at."""
    return CAUSES[stopped](signed_number(top), transaction, sequence)


def lock_of(transaction: Transaction) -> dict[str, int] | None:
    """The height or the time that a block has to be above before it can have the transaction; None where its lock time
    asks for nothing.
    """
    lock = transaction.lock_time
    if not lock or all(it.sequence == FINAL for it in transaction.inputs):
        return None
    return {"above_height": lock} if lock < LOCKTIME_THRESHOLD else {"above_time": lock}


def age_of(transaction: Transaction, index: int) -> dict[str, int] | None:
    """How much older than the spent output the transaction has to be; None where its sequence asks for nothing (BIP
    68).
    """
    sequence = transaction.inputs[index].sequence
    if transaction.version < 2 or sequence & DISABLE or not sequence & MASK:
        return None
    return {"units" if sequence & TYPE else "blocks": sequence & MASK}
