"""Combines partially signed transactions, and finalizes the inputs of one by the listed paths of their scripts (BIP
174, "Combiner" and "Input Finalizer"). Tested, not proved.
"""
from typing import Any

from real.lib import consensus, psbt, scripts, signatures
from real.lib.curve import AnyCurve
from real.lib.errors import Refused
from real.lib.psbt import Partial, key_of
from real.lib.signer import script_of
from real.lib.trace_program import Trace
from real.lib.transaction import Digests, compact_size, hash160, text

# what stays of an input that is finalized, beside unknown fields
KEPT = (psbt.NON_WITNESS_UTXO, psbt.WITNESS_UTXO, psbt.FINAL_SCRIPTSIG, psbt.FINAL_SCRIPTWITNESS)
# the last kind of a field that BIPs 174 and 371 have; from here on fields are unknown
LAST_KIND = 0x18
TRUE = b"\x01"


def merged(place: str, maps: list[dict[bytes, bytes]]) -> dict[bytes, bytes]:
    """All fields of maps. Of two signatures of one key the first stays; other fields have to be alike."""
    found: dict[bytes, bytes] = {}
    for fields in maps:
        for key, value in fields.items():
            kind, _ = psbt.kind_of(key)
            if found.setdefault(key, value) != value and not (kind == psbt.PARTIAL_SIG and place[:5] == "input"):
                raise Refused(f"OtherField {place} {kind}")
    return found


def combine(given: list[Partial]) -> Partial:
    """One partially signed transaction with all that several have of the same transaction."""
    if not given:
        raise Refused("NoTransaction")
    first = given[0]
    for number, it in enumerate(given):
        if it.transaction.stripped_bytes() != first.transaction.stripped_bytes():
            raise Refused(f"OtherSpend {number}")
    inputs = [merged(f"input {at}", [it.inputs[at] for it in given]) for at in range(len(first.inputs))]
    outputs = [merged(f"output {at}", [it.outputs[at] for it in given]) for at in range(len(first.outputs))]
    return Partial(first.transaction, merged("whole", [it.fields for it in given]), inputs, outputs)


class Items:
    """What an input has for the slots of a path: signatures by their keys, and preimages by their HASH160."""

    def __init__(self, fields: dict[bytes, bytes]) -> None:
        self.signatures = psbt.with_kind(fields, psbt.PARTIAL_SIG)
        self.preimages = {hash160(it): it for it in psbt.with_kind(fields, psbt.HASH160).values()}
        self.keys = {hash160(it): it for it in self.signatures}

    def put(self, fact: dict[str, Any], found: dict[int, bytes]) -> bool:
        """Puts into the slots of a fact what it asks for. Whether that is there."""
        kind, slots = fact["kind"], fact["slots"]
        if not fact["holds"]:
            return True
        if kind == "is":
            found[slots[0]] = bytes.fromhex(fact["value"] or "")
        elif kind == "truth":
            found.setdefault(slots[0], TRUE)
        elif kind == "hash":
            name = bytes.fromhex(fact["value"])
            found[slots[0]] = self.keys.get(name) or self.preimages.get(name, b"")
            return bool(found[slots[0]])
        elif kind == "token":
            (key,) = fact["keys"]
            name = found.get(key, b"") if isinstance(key, int) else bytes.fromhex(key)
            found[slots[0]] = self.signatures.get(name, b"")
            return bool(found[slots[0]])
        elif kind == "assigned":
            signed = [self.signatures[it] for it in map(bytes.fromhex, fact["keys"]) if it in self.signatures]
            found.update(zip(slots, signed))
            return len(signed) >= len(slots)
        return True


def items_of(path: dict[str, Any], items: Items) -> list[bytes] | None:
    """The items of a listed path, without the script; None where one is missing. A slot of which nothing is asked is
    empty. The facts on keys by their hashes come before those on signatures.
    """
    found: dict[int, bytes] = {}
    facts = sorted(path["facts"], key=lambda it: it["kind"] == "token")
    if not all([items.put(it, found) for it in facts]):
        return None
    return [found.get(slot, b"") for slot in reversed(range(path["arity"]))]


def witness_of(
    index: int, fields: dict[bytes, bytes], spend: consensus.Spend, script: bytes, paths: list[dict[str, Any]]
) -> list[bytes]:
    """The items of the first listed path that runs with what is there, by the rules of consensus, and breaks no rule of
    relay.
    """
    items = Items(fields)
    for name, it in items.signatures.items():
        if it[-1:] != bytes([signatures.ALL]):
            raise Refused(f"HashType {index} {name.hex()}")
    for path in paths:
        found = items_of(path, items)
        end = None if found is None else consensus.end_of(spend, script, found)
        if found is not None and end is not None and end.valid and not end.relay:
            return found
    raise Refused(
        f"NoPath {index}",
        f"input {index}: no listed path has all its signatures and preimages here, and its locks met",
    )


def finalize_input(found: Partial, index: int, digests: Digests, curve: AnyCurve, trace: Trace) -> None:
    """Puts the final witness of an input into its field, and takes out what only signers want."""
    fields, output = found.inputs[index], psbt.spent_output(found, index)
    if key_of(psbt.FINAL_SCRIPTWITNESS) in fields:
        return
    if output is None:
        raise Refused(f"NoOutput {index}")
    script = script_of(fields, output, index)
    if script is None:
        raise Refused(f"OtherProgram {index}")
    (listing,) = trace.paths([script])
    if "refused" in listing:
        raise Refused(f"NotListed {index}")
    spend = consensus.Spend(found.transaction, index, digests.digest_of(index, script, output.value), curve)
    witness = witness_of(index, fields, spend, script, listing["paths"])
    if scripts.is_script_hash(output.program):
        witness = [*witness, script]
    kept = {key: it for key, it in fields.items() if psbt.kind_of(key)[0] in KEPT or psbt.kind_of(key)[0] > LAST_KIND}
    final = compact_size(len(witness)) + b"".join(map(text, witness))
    found.inputs[index] = {**kept, key_of(psbt.FINAL_SCRIPTWITNESS): final}


def finalize(found: Partial, curve: AnyCurve, trace: Trace) -> Partial:
    """The same with a final witness in each input."""
    digests = Digests(found.transaction)
    for index in range(len(found.inputs)):
        finalize_input(found, index, digests, curve, trace)
    return found
