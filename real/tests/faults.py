"""Faults that are planted in signed transactions, one at a time, each with the answer for every input. Tested, not
proved.

The answers are worked by hand from BOLT 3's scripts and BIPs 65, 66, 112, 141, 143 and 147, and from the words that
docs/REAL.md and docs/TRACE.md have for a stop. No program of this repository was asked.
"""
import hashlib
from collections.abc import Iterator
from typing import Any

from electrum.crypto import sha256d

from real.tests import claims as built
from real.tests.claims import Claim

# an opcode's number in BOLT 3's scripts, counted from 0
CHECKSIG_OF_TO_LOCAL, DELAY_OF_TO_LOCAL = 8, 4
CHECKMULTISIG_OF_OFFERED = 18
LOCK_OF_RECEIVED, LAST_CHECKSIG_OF_RECEIVED = 24, 26
EQUALVERIFY_OF_KEY_HASH = 3
# SWAP, SIZE, 71, EQUALVERIFY, SWAP: the second item from the top has 71 bytes
MEASURE = bytes.fromhex("7c820147887c")


def clean_answer(path: int) -> dict[str, Any]:
    return {"answer": "clean", "path": path, "relay": []}


def stops(reason: str, opcode: int) -> dict[str, int | str]:
    return {"answer": "stops", "reason": reason, "opcode": opcode}


def unjudged_answer(reason: str) -> dict[str, str]:
    return {"answer": "not judged", "reason": reason}


def false_end(claim: Claim) -> dict[str, int | str]:
    """A signature that is not its key's leaves a false entry at the end."""
    return stops("FalseEnd", claim.opcodes)


class Case:
    """A transaction that Electrum signed, into which a fault may be planted at one of its inputs."""

    def __init__(self, number: int) -> None:
        self.number = number
        self.claims = built.claims_of(number)
        self.transaction = built.transaction_of(self.claims, number)
        built.sign(self.transaction, self.claims)
        self.witnesses = [it.witness() for it in self.claims]
        self.spent = built.spent_outputs(self.claims)
        self.place = (number // 3) % len(self.claims)

    def claim(self) -> Claim:
        return self.claims[self.place]

    def clean_answers(self) -> list[dict[str, Any]]:
        return [clean_answer(it.path) for it in self.claims]

    def with_answer(self, answer: dict[str, int | str]) -> list[dict[str, Any]]:
        """All inputs are clean but the one with the fault."""
        return [answer if place == self.place else it for place, it in enumerate(self.clean_answers())]

    def row(self, fault: str, answers: Any) -> dict[str, Any]:
        kinds = "+".join(it.kind for it in self.claims)
        raw = built.transaction_hex(self.transaction, self.witnesses)
        row = {"name": f"{self.number:03} {kinds} / {fault}", "transaction": raw, "spent": self.spent}
        return {**row, **(answers if isinstance(answers, dict) else {"answers": answers})}


def no_fault(case: Case) -> list[dict[str, Any]]:
    return case.clean_answers()


def signature(case: Case) -> list[dict[str, Any]]:
    """The last byte of s is another one: the signature is still strict DER, and valid for no key."""
    items, claim = case.witnesses[case.place], case.claim()
    place = items.index(claim.signatures[case.number % len(claim.signatures)])
    changed = bytearray(items[place])
    changed[-2] ^= 1
    items[place] = bytes(changed)
    return case.with_answer(false_end(claim))


def order(case: Case) -> list[dict[str, Any]]:
    """Two signatures change places, or the signature and the item above it."""
    items, claim = case.witnesses[case.place], case.claim()
    if len(claim.signatures) == 2:
        items[1], items[2] = items[2], items[1]
        return case.with_answer(false_end(claim))
    items[0], items[1] = items[1], items[0]
    if claim.kind == "received_penalty":
        return case.with_answer(swapped_received_penalty(case, claim))
    # the item above is what the script takes for a signature; an HTLC's first check fails, as it should hash to the
    # revocation key
    return case.with_answer(
        {
            "penalty": stops("FailedCheck TokenForm", CHECKSIG_OF_TO_LOCAL),
            "delayed": false_end(claim),
            "offered_penalty": stops("MissingOperand", CHECKMULTISIG_OF_OFFERED),
            "direct_preimage": stops("MissingOperand", CHECKMULTISIG_OF_OFFERED),
            "direct_timeout": false_end(claim),
            "key_hash": stops("FailedCheck Verify", EQUALVERIFY_OF_KEY_HASH),
        }[claim.kind]
    )


def swapped_received_penalty(case: Case, claim: Claim) -> dict[str, int | str]:
    """The timeout's branch runs: its lock may be reached by another input's, and then a key stands where a signature
    is taken.
    """
    if case.transaction.locktime >= claim.expiry:
        return stops("FailedCheck TokenForm", LAST_CHECKSIG_OF_RECEIVED)
    return stops("FailedCheck LockTime", LOCK_OF_RECEIVED)


def extra_item(case: Case) -> list[dict[str, Any]]:
    """One more item, below all others."""
    claim = case.claim()
    case.witnesses[case.place].insert(0, (b"", b"\x01", b"\x00" * 5)[case.number % 3])
    return case.with_answer(
        {"answer": "stops", "reason": "NotTwoItems"} if claim.is_key_hash else stops("NotOneValue", claim.opcodes)
    )


def amount(case: Case) -> list[dict[str, Any]]:
    """The spent output is said to have one satoshi more: only this input's digest has it."""
    case.spent[case.place][0] += 1
    return case.with_answer(false_end(case.claim()))


def sequence(case: Case) -> list[dict[str, int | str]]:
    """Another sequence: every input's digest has it. A delay or a lock that it no longer meets stops first."""
    claim, given = case.claim(), case.transaction.inputs()[case.place]
    answers = [false_end(it) for it in case.claims]
    if claim.kind == "delayed":
        given.nsequence = claim.sequence - 1
        answers[case.place] = stops("FailedCheck Sequence", DELAY_OF_TO_LOCAL)
    elif claim.kind == "direct_timeout":
        given.nsequence = built.FINAL
        answers[case.place] = stops("FailedCheck LockTime", LOCK_OF_RECEIVED)
    else:
        given.nsequence = claim.sequence ^ 1
    return answers


def lock_time(case: Case) -> list[dict[str, int | str]]:
    """Another lock time, one lower where there is one: every input's digest has it."""
    changed = case.transaction.locktime - 1 if case.transaction.locktime else 1
    case.transaction.locktime = changed
    late = [it.kind == "direct_timeout" and it.expiry > changed for it in case.claims]
    return [
        stops("FailedCheck LockTime", LOCK_OF_RECEIVED) if it else false_end(claim)
        for it, claim in zip(late, case.claims)
    ]


def forged_token(case: Case) -> dict[str, str]:
    """A token of the right key over the right digest, where the signature stood."""
    items, claim = case.witnesses[case.place], case.claim()
    place = items.index(claim.signatures[0])
    case.transaction.inputs()[case.place].sighash = None
    digest = sha256d(bytes.fromhex(case.transaction.serialize_preimage(case.place)))
    items[place] = claim.signers[0].public + digest + b"\x01"
    return {"refused": f"ForgedToken {case.place} {place}"}


def measured_signature(case: Case) -> list[dict[str, Any]]:
    """The script asks for the size of its signature, and Electrum signs for that script."""
    claim = case.claim()
    claim.script, claim.is_key_hash = MEASURE + claim.script, False
    inputs = [built.input_of(it) for it in case.claims]
    before = case.transaction
    case.transaction = type(before).from_io(
        inputs, list(before.outputs()), locktime=before.locktime, version=2, BIP69_sort=False
    )
    built.sign(case.transaction, case.claims)
    case.witnesses, case.spent = [it.witness() for it in case.claims], built.spent_outputs(case.claims)
    assert case.spent[case.place][1] == "0020" + hashlib.sha256(claim.script).hexdigest()
    return case.with_answer(unjudged_answer("MeasuredSignature"))


FAULTS = (no_fault, signature, order, extra_item, amount, sequence, lock_time, forged_token, measured_signature)


def rows_of(number: int) -> Iterator[dict[str, Any]]:
    """A transaction without a fault, and with each fault."""
    for plant in FAULTS:
        case = Case(number)
        answers = plant(case)
        yield case.row(plant.__name__, answers)
