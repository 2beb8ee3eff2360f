"""Stands a token in the place of each real signature, and has the proved judge say what becomes of each input. The
judge is proved; what is done here is tested, not proved.

A token names a key and a digest, so it may stand where the library says that a signature is this key's over this
digest. Where that would change more than the signature, the input is not judged, and is told why.
"""
from collections.abc import Callable, Sequence
from dataclasses import dataclass, field
from typing import Any

from real.lib import consensus, locks, scripts, signatures
from real.lib.consensus import End, Spend
from real.lib.curve import Once, Verifier
from real.lib.errors import Refused
from real.lib.trace_program import Trace
from real.lib.transaction import Digests, Input, Output, Transaction, hash160

MAX_INPUTS, MAX_OUTPUTS, MAX_ITEMS, MAX_TEXT = 4_000, 4_000, 1_001, 10_000
# in a whole transaction: signatures times keys, the opcodes of each script times the paths that it may have, and the
# bytes that may stand on the stacks
MAX_CHECKS, MAX_STEPS, MAX_STACK = 100_000, 600_000, 4_194_304
# more branches than these have more paths than are listed
LISTED_BRANCHES = 6
RELAYED_SCRIPT, RELAYED_ITEMS, RELAYED_ITEM = 3_600, 100, 80
MEASURES = ("hash", "size", "is", "key")
# the stops of rules that are stricter than consensus
STRICTER = ("FailedCheck Number", "FailedCheck KeyForm", "FailedCheck TokenForm", "OpenBranch")
SIGNATURE_FACTS = ("form", "token", "assigned")
NOT_SPENT = Output(0, b"\x6a")


class Settled(Exception):
    """What is answered of an input without the judge: that it is not judged, if nothing else is said, the name of the
    reason, and the reason in words.
    """

    def __init__(self, reason: str, says: str, answer: str = "not judged") -> None:
        super().__init__(reason)
        self.reason, self.says, self.answer = reason, says, answer


@dataclass
class Signed:
    """An item that has the form of a signature, and the token that stands in its place."""

    item: int
    key: bytes | None
    real: bytes
    token: bytes


@dataclass
class Case:
    """An input with what is spent, and what is found of it."""

    index: int
    given: Input
    spent: Output | None
    script: bytes = b""
    items: list[bytes] = field(default_factory=list)
    digest: bytes = b""
    formed: list[int] = field(default_factory=list)
    signed: list[Signed] = field(default_factory=list)
    settled: Settled | None = None

    @property
    def output(self) -> Output:
        """What the input spends, where that is known."""
        assert self.spent is not None
        return self.spent

    def is_own_script(self) -> bool:
        return scripts.has_script(self.output.program, self.script)

    def slot(self, item: int) -> int:
        """The slot of an item: counted from the last one, which is the top of the stack."""
        return len(self.items) - 1 - item

    def tokens(self) -> list[bytes]:
        """The witness with tokens in the place of signatures."""
        found = list(self.given.witness)
        for it in self.signed:
            found[it.item] = it.token
        return found


@dataclass
class Way:
    """A listed path, as far as signatures go: the slots that are signatures, and of each slot the facts that measure
    it.
    """

    signatures: set[int] = field(default_factory=set)
    measures: dict[int, list[dict]] = field(default_factory=dict)


@dataclass
class Budget:
    """How much may still be looked at in a transaction, so that none takes too long."""

    checks: int = MAX_CHECKS
    steps: int = MAX_STEPS
    stack: int = MAX_STACK

    def take(self, name: str, count: int) -> bool:
        """Whether that much is left, which is then taken."""
        left = getattr(self, name) - count
        if left >= 0:
            setattr(self, name, left)
        return left >= 0


def refuse_tokens(transaction: Transaction) -> None:
    """No given item has the form of a token, whatever it is meant as."""
    for index, it in enumerate(transaction.inputs):
        for place, item in enumerate(it.witness):
            if signatures.is_token(item):
                raise Refused(f"ForgedToken {index} {place}")


def other_kind(program: bytes) -> Settled:
    """Why an output of another kind than version 0 is not judged."""
    if scripts.is_taproot(program):
        return Settled("Taproot", "the output is one of version 1 (BIP 341)")
    if scripts.is_nesting(program):
        return Settled(
            "NestedInput",
            "the output has the hash of a script (BIP 16); a witness program that is nested in it is not judged",
        )
    if scripts.is_witness_program(program):
        return Settled(
            "OtherWitnessProgram", "the output is of another version or length than version 0 with 20 or 32 bytes"
        )
    return Settled("LegacyInput", "the output is no witness program (BIP 141)")


def find_script(case: Case) -> None:
    """Finds the script and its items, or settles the input."""
    program, witness = case.output.program, case.given.witness
    if not (scripts.is_key_hash(program) or scripts.is_script_hash(program)):
        raise other_kind(program)
    if case.given.script:
        raise Settled("InputScript", "the output is a witness program, and the input has a script (BIP 141)", "stops")
    if not witness:
        raise Settled("NoWitness", "the input has no witness: it is not signed")
    if len(witness) > MAX_ITEMS:
        raise Settled("TooManyItems", f"the witness has more than {MAX_ITEMS} items")
    if any(len(it) > MAX_TEXT for it in witness):
        raise Settled("TooLongItem", f"an item of the witness has more than {MAX_TEXT} bytes")
    if scripts.is_key_hash(program):
        case.script, case.items = scripts.key_script(program), witness
    else:
        case.script, case.items = witness[-1], witness[:-1]


def stack_of(operations: list[tuple[int, int, bytes | None]], items: list[bytes]) -> int:
    """How many bytes a stack may have at most, where each item may be a token."""
    sizes = [max(len(it), signatures.TOKEN_SIZE) for it in items if it] + [
        len(pushed) for _, _, pushed in operations if pushed is not None
    ]
    return sum(sizes) + max(sizes, default=0) * sum(opcode == scripts.DUP for _, opcode, _ in operations)


def within_budget(case: Case, budget: Budget) -> None:
    """Names an opcode that the machine does not know, and settles an input whose script has too many paths and
    opcodes, or copies too much.
    """
    try:
        found = scripts.operations(case.script)
        branches = sum(opcode in (scripts.IF, scripts.NOTIF) for _, opcode, _ in found)
        if not budget.take("steps", len(found) << min(branches, LISTED_BRANCHES)):
            raise Settled(
                "TooManySteps",
                f"the scripts of the transaction have more than {MAX_STEPS} opcodes on all their paths together",
            )
        if not budget.take("stack", stack_of(found, case.items)):
            raise Settled(
                "TooMuchStack",
                f"the stacks of the transaction's scripts may have more than {MAX_STACK} bytes together",
            )
    except Refused as why:
        kind, at = str(why).split()
        opcode = case.script[int(at)]
        if kind == "BadOpcode":
            raise Settled(
                "UnknownOpcode",
                f"byte {at} of the script is {opcode:02x}, {scripts.name_of(opcode)}, which the machine does not know",
            ) from None


def way_of(path: dict[str, Any]) -> Way:
    """What a listed path asks of its signatures' slots, and which facts measure a slot."""
    found = Way()
    for fact in path["facts"]:
        if fact["kind"] in SIGNATURE_FACTS:
            found.signatures.update(fact["slots"])
        elif fact["kind"] in MEASURES:
            for slot in fact["slots"]:
                found.measures.setdefault(slot, []).append(fact)
    return found


def holds_of(fact: dict[str, Any], item: bytes) -> bool:
    """Whether a fact that measures an item holds of it."""
    if fact["kind"] == "size":
        return len(item) == fact["value"]
    if fact["kind"] == "hash":
        return hash160(item).hex() == fact["value"]
    return fact["kind"] == "is" and item.hex() == (fact["value"] or "")


def is_measured(way: Way, slot: int, signed: Signed) -> bool:
    """Whether a path measures a signature: one in its place as a signature at all, another one where its token answers
    otherwise.
    """
    facts = way.measures.get(slot, [])
    if slot in way.signatures:
        return bool(facts)
    return any(holds_of(it, signed.real) != holds_of(it, signed.token) for it in facts)


def ways_of(case: Case, listing: dict[str, Any]) -> list[Way]:
    """The listed paths with this number of items. A script whose branches do not close has none."""
    refused = listing.get("refused")
    if refused not in (None, "OpenBranch"):
        raise Settled(
            "NotListed",
            f"the paths of the script are not listed ({refused}), so what it asks of its signatures is not known",
        )
    return [way_of(it) for it in listing.get("paths", []) if it["arity"] == len(case.items)]


def signing_key(case: Case, place: int, item: bytes, keys: list[bytes], curve: Verifier) -> bytes | None:
    """The key for which an item is valid, if there is one."""
    valid = [it for it in keys if curve.verify(it, case.digest, item[:-1])]
    if len(valid) > 1:
        raise Settled("TwoKeys", f"item {place} is a valid signature of {' and of '.join(it.hex() for it in valid)}")
    return valid[0] if valid else None


def find_formed_items(case: Case) -> None:
    """Finds the items that have the form of a signature. A script with a push that is cut does not run."""
    if scripts.pushes(case.script) is None:
        return
    case.formed = [place for place, it in enumerate(case.items) if signatures.is_strict_der(it)]
    for place in case.formed:
        kind = case.items[place][-1]
        if kind != signatures.ALL:
            raise Settled(
                "HashType",
                (
                    f"item {place} has the form of a signature of hash type {signatures.name_of_hash_type(kind)}, and"
                    " the digest here is that of ALL"
                ),
            )


def find_signatures(case: Case, listing: dict[str, Any], curve: Verifier, budget: Budget) -> None:
    """Finds which of these items are signatures, and says where a token can't stand in their place."""
    ways, keys = ways_of(case, listing), signatures.candidate_keys(case.script, case.items)
    if not budget.take("checks", len(case.formed) * len(keys)):
        raise Settled("TooManyChecks", f"the inputs have more than {MAX_CHECKS} signatures times keys together")
    for place in case.formed:
        item, slot = case.items[place], case.slot(place)
        key = signing_key(case, place, item, keys, curve)
        if key is None and not all(slot in it.signatures for it in ways):
            raise Settled(
                "AmbiguousItem",
                f"item {place} has the form of a signature, is valid for no key, and may be something else on a path",
            )
        token = signatures.token(key, case.digest) if key else signatures.nobodys_token(item)
        signed = Signed(place, key, item, token)
        if any(is_measured(it, slot, signed) for it in ways):
            raise Settled(
                "MeasuredSignature",
                f"the script measures or compares item {place}, a signature, and its token is another item",
            )
        case.signed.append(signed)


def within_limits(case: Case, transaction: Transaction) -> None:
    """Settles each input of a transaction that the judge does not read."""
    counts = ("TooManyInputs", len(transaction.inputs), MAX_INPUTS), (
        "TooManyOutputs",
        len(transaction.outputs),
        MAX_OUTPUTS,
    )
    for name, count, most in counts:
        if count > most:
            raise Settled(name, f"the transaction has {count}, and {most} at most are judged")
    if any(len(it.program) > MAX_TEXT for it in transaction.outputs):
        raise Settled("TooLongOutput", f"the program of an output has more than {MAX_TEXT} bytes")


def prepare(
    transaction: Transaction,
    spent: Sequence[Output | None],
    curve: Verifier,
    trace: Trace,
    reasons: dict[int, Settled],
) -> list[Case]:
    """Each input with its tokens, or settled."""
    cases = [
        Case(index, it, output, settled=reasons.get(index))
        for index, (it, output) in enumerate(zip(transaction.inputs, spent))
    ]
    budget = Budget()
    attempt(cases, within_limits, transaction)
    attempt(cases, find_script)
    own = [it for it in cases if it.settled is None and it.is_own_script()]
    attempt(own, within_budget, budget)
    attempt(own, find_formed_items)
    own = [it for it in own if it.settled is None]
    digests = Digests(transaction)
    for case in own:
        case.digest = digests.digest_of(case.index, case.script, case.output.value)
    formed = [it for it in own if it.formed]
    for case, listing in zip(formed, trace.paths([it.script for it in formed])):
        attempt([case], find_signatures, listing, curve, budget)
    return cases


def attempt(cases: list[Case], step: Callable[..., None], *given: Any) -> None:
    """Takes a step with each case that is not settled yet."""
    for it in cases:
        if it.settled is None:
            try:
                step(it, *given)
            except Settled as why:
                it.settled = why


def with_tokens(transaction: Transaction, cases: list[Case]) -> Transaction:
    """The transaction that the judge reads: without input scripts, which no digest has, and with tokens."""
    inputs = [
        Input(it.given.outpoint, b"", it.given.sequence, it.tokens() if it.settled is None else []) for it in cases
    ]
    return Transaction(transaction.version, inputs, transaction.outputs, transaction.lock_time)


def broken_relay_rules(case: Case) -> set[str]:
    """The rules of relay on the sizes of a witness that this one breaks."""
    if scripts.is_key_hash(case.output.program):
        return set()
    broken = {
        "WITNESS_SCRIPT_SIZE": len(case.script) > RELAYED_SCRIPT,
        "WITNESS_ITEMS": len(case.items) > RELAYED_ITEMS,
        "WITNESS_ITEM_SIZE": any(len(it) > RELAYED_ITEM for it in case.items),
    }
    return {name for name, holds in broken.items() if holds}


def told_signatures(case: Case) -> list[dict[str, Any]]:
    return [{"item": it.item, "key": it.key and it.key.hex()} for it in case.signed]


def agree(said: dict[str, Any], end: End) -> bool:
    """Whether the judge and a run by the rules of consensus end alike, but for the rules that are stricter here."""
    if "path" in said:
        return end.valid
    if said["stopped"] in STRICTER:
        return end.valid or end.opcode >= said["opcode"]
    return not end.valid and end.opcode == said["opcode"]


def conflict(case: Case, said: dict[str, Any], transaction: Transaction) -> Settled:
    """Why the judge and a run by the rules of consensus end otherwise: where that run ends as the judge with tokens, a
    token is not what stood there, else they disagree.
    """
    spend = consensus.TokenSpend(transaction, case.index, case.digest, None)
    if not agree(said, consensus.end_of(spend, case.script, case.tokens()[: len(case.items)])):
        return Settled(
            "Disagreement",
            f"the judge says {said.get('stopped', 'clean')}, and a run by the rules of consensus does not end so",
        )
    if any(map(signatures.is_token, scripts.pushes(case.script) or ())):
        return Settled(
            "PushedToken", "the script pushes an item with the form of a token, which the judge takes for a signature"
        )
    return Settled(
        "MeasuredSignature",
        "the script measures or compares a signature on a way that is not listed, and its token is another item",
    )


def stack_of_stop(case: Case, said: dict[str, Any], spend: Spend, transaction: Transaction) -> list[str]:
    """The stack where the judge stops, the top first, of a run with the real signatures. With tokens it has to be the
    judge's.
    """
    blank = consensus.TokenSpend(transaction, case.index, case.digest, None)
    runs = (blank, case.tokens()[: len(case.items)]), (spend, case.items)
    by_tokens, real = (
        [it.hex() for it in consensus.stack_before(each, case.script, items, said["opcode"])] for each, items in runs
    )
    if by_tokens != said["stack"]:
        raise Settled("Disagreement", "the judge's stack is another one than that of a run by the rules of consensus")
    return real


def answer(case: Case, said: dict[str, Any], transaction: Transaction, curve: Verifier) -> dict[str, Any]:
    """What is answered of an input that was judged."""
    if "digest" in said and said["digest"] != case.digest.hex():
        raise Settled(
            "DigestDiffers", f"the judge's digest is {said['digest']}, and the one made here {case.digest.hex()}"
        )
    if "refused" in said:
        return {"answer": "stops", "reason": said["refused"], "says": said["says"]}
    spend = consensus.Spend(transaction, case.index, case.digest, curve)
    end = consensus.end_of(spend, case.script, case.items)
    if not agree(said, end):
        raise conflict(case, said, transaction)
    found, relay = {"signatures": told_signatures(case), "digest": said["digest"]}, sorted(
        end.relay | broken_relay_rules(case)
    )
    if "path" in said:
        clean = {"answer": "clean", "path": said["path"], "counted": said["counted"], "height": said["height"]}
        return {**clean, **found, "age": locks.age_of(transaction, case.index), "relay": relay}
    stack = stack_of_stop(case, said, spend, transaction)
    stop = {
        "reason": said["stopped"],
        "opcode": said["opcode"],
        "op": said["op"],
        "byte": said["byte"],
        "says": says_of(said, case, stack, transaction),
    }
    stop = {"answer": "stricter here" if end.valid else "stops", **stop, "stack": stack, **found}
    return {**stop, "age": locks.age_of(transaction, case.index), "relay": relay} if end.valid else stop


def says_of(said: dict[str, Any], case: Case, stack: list[str], transaction: Transaction) -> str:
    """Why a run stops, in words for real signatures."""
    if said["stopped"] == "FailedCheck TokenForm":
        return "a signature is neither empty nor in strict DER (BIP 66), or the script pushes it"
    if said["stopped"] in locks.CAUSES:
        return locks.cause_of(said["stopped"], bytes.fromhex(stack[0]), transaction, case.given.sequence)
    if said["stopped"] == "FalseEnd" and case.signed:
        return f"{said['says']}; {false_end_of(case)}" if false_end_of(case) else said["says"]
    return said["says"]


def false_end_of(case: Case) -> str | None:
    """What to look at first where a run with signatures ends with a false entry."""
    found = [it.key for it in case.signed]
    keys = [it for it in found if it]
    if None in found:
        return (
            f"item {case.signed[found.index(None)].item} is valid for no key that stands here: compare the value of"
            " the spent output first"
        )
    if len(set(keys)) < len(keys):
        return f"but two signatures are of one key, {next(it for it in keys if keys.count(it) > 1).hex()}"
    return (
        "but each signature is valid for a key that stands here: are they in the order of the keys?"
        if len(keys) > 1
        else None
    )


def input_answer(case: Case, said: dict[str, Any] | None, transaction: Transaction, curve: Verifier) -> dict[str, Any]:
    try:
        if case.settled is not None:
            raise case.settled
        assert said is not None
        return answer(case, said, transaction, curve)
    except Settled as why:
        return {"answer": why.answer, "reason": why.reason, "says": why.says}


def judge(
    transaction: Transaction,
    spent: Sequence[Output | None],
    curve: Verifier,
    trace: Trace,
    reasons: dict[int, Settled] | None = None,
) -> list[dict[str, Any]]:
    """What becomes of each input, in their order. `reasons` has what settles some inputs, by their number."""
    refuse_tokens(transaction)
    asked = Once(curve)
    cases = prepare(transaction, spent, asked, trace, reasons or {})
    said: Sequence[dict[str, Any] | None] = [None] * len(cases)
    if any(it.settled is None for it in cases):
        said = trace.witness(
            with_tokens(transaction, cases), [it.output if it.settled is None else NOT_SPENT for it in cases]
        )
    return [
        {"input": it.index, "outpoint": it.given.shown_outpoint(), **input_answer(it, line, transaction, asked)}
        for it, line in zip(cases, said)
    ]
