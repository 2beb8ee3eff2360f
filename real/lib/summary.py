"""What consensus refuses of a transaction as a whole, whatever its inputs' scripts say. Tested, not proved."""
from collections.abc import Sequence
from typing import Any

from real.lib import locks, scripts
from real.lib.transaction import MAX_MONEY, Output, Transaction

# limits of a block, and so of each transaction in it (BIP 141)
MAX_WEIGHT, MAX_SIGOPS, SCALE = 4_000_000, 80_000, 4
# what the input of a coinbase has in place of an outpoint
NO_OUTPOINT = bytes(32) + b"\xff" * 4
# how many bytes say how long the push of PUSHDATA1, 2 and 4 is
LENGTHS = {0x4C: 1, 0x4D: 2, 0x4E: 4}
CHECK, CHECK_MANY, MOST_KEYS = (0xAC, 0xAD), (0xAE, 0xAF), 20


def after_push(script: bytes, opcode: int, at: int) -> int:
    """Where a push ends whose opcode stands before this byte; behind the end where it is cut."""
    size = opcode
    if opcode in LENGTHS:
        size, at = int.from_bytes(script[at : at + LENGTHS[opcode]], "little"), at + LENGTHS[opcode]
    return at + size


def sigops(script: bytes, is_witness: bool) -> int:
    """How many signature checks a script counts for, as far as it can be read. Keys of a check of many are counted by
    the number before it in a witness script alone.
    """
    found, at, last = 0, 0, 0
    while at < len(script):
        opcode = script[at]
        at += 1
        if opcode <= 0x4E:
            at = after_push(script, opcode, at)
        elif opcode in CHECK:
            found += 1
        elif opcode in CHECK_MANY:
            is_counted = is_witness and scripts.FIRST_NUMBER <= last <= scripts.LAST_NUMBER
            found += last - scripts.FIRST_NUMBER + 1 if is_counted else MOST_KEYS
        last = opcode
    return found


def cost(transaction: Transaction, spent: Sequence[Output | None]) -> int:
    """What the signature checks of a transaction cost, without those that an input nests (BIP 16), which is not
    judged.
    """
    plain = [it.script for it in transaction.inputs] + [it.program for it in transaction.outputs]
    found = SCALE * sum(sigops(it, False) for it in plain)
    for it, output in zip(transaction.inputs, spent):
        if output and scripts.is_key_hash(output.program):
            found += 1
        elif output and scripts.is_script_hash(output.program) and it.witness:
            found += sigops(it.witness[-1], True)
    return found


def summary_of(transaction: Transaction, spent: Sequence[Output | None]) -> dict[str, Any]:
    """The ids of a transaction, its fee where all spent outputs are known, and what consensus refuses of it. A spent
    output that is not known is None.
    """
    paid, known = sum(it.value for it in transaction.outputs), None not in spent
    fee = sum(it.value for it in spent if it) - paid if known else None
    outpoints = {it.outpoint for it in transaction.inputs}
    faults = {
        "NoOutputs": not transaction.outputs,
        "SameOutpoint": len(outpoints) < len(transaction.inputs),
        "NoOutpoint": NO_OUTPOINT in outpoints,
        "TooMuch": max(paid, paid + (fee or 0)) > MAX_MONEY,
        "OutputsExceed": fee is not None and fee < 0,
        "TooHeavy": (SCALE - 1) * len(transaction.stripped_bytes()) + len(transaction.bytes()) > MAX_WEIGHT,
        "TooManySigops": cost(transaction, spent) > MAX_SIGOPS,
    }
    found = {
        "txid": transaction.txid(),
        "wtxid": transaction.wtxid(),
        "inputs": len(transaction.inputs),
        "outputs": len(transaction.outputs),
        "fee": fee,
    }
    return {**found, "lock": locks.lock_of(transaction), "faults": [name for name, holds in faults.items() if holds]}
