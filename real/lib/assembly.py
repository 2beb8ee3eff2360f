"""Makes a partially signed transaction of a plan, and puts its signatures into the places that the plan has for them.
Tested, not proved.
"""
import re

from real.lib import psbt, scripts, signatures
from real.lib.curve import AnyCurve
from real.lib.errors import Refused, bytes_of
from real.lib.plan import Plan, Spent, Wanted, read_path
from real.lib.psbt import Partial, key_of
from real.lib.transaction import Transaction, hash160, read_transaction

# [FINGERPRINT/PATH]KEY (BIP 380, "Key Expressions")
ORIGIN = re.compile(r"\[([0-9a-fA-F]{8})((?:/[0-9]{1,10}['h]?)*)\]([0-9a-fA-F]{66})", re.ASCII)
# signatures of final witnesses times those that are wanted of their input, in all
MAX_CHECKS = 100_000


def input_fields(index: int, spent: Spent, outpoint: bytes) -> dict[bytes, bytes]:
    """The fields of an input: what it spends, the hash type, the script, the keys' derivations, and preimages whose
    hash the script has.
    """
    fields = {
        key_of(psbt.WITNESS_UTXO): psbt.output_field(spent.output),
        key_of(psbt.SIGHASH_TYPE): signatures.ALL.to_bytes(4, "little"),
    }
    if spent.previous is not None:
        before = read_transaction(spent.previous)
        place = int.from_bytes(outpoint[32:], "little")
        if bytes.fromhex(before.txid())[::-1] != outpoint[:32] or place >= len(before.outputs):
            raise Refused(f"OtherTransaction {index}")
        if before.outputs[place] != spent.output:
            raise Refused(f"OtherOutput {index}")
        fields[key_of(psbt.NON_WITNESS_UTXO)] = spent.previous
    if scripts.is_script_hash(spent.output.program):
        fields[key_of(psbt.WITNESS_SCRIPT)] = spent.script
    for key, path in spent.derivations.items():
        fields[key_of(psbt.BIP32_DERIVATION, key)] = path
    pushes = scripts.pushes(spent.script)
    if pushes is None:
        raise Refused(f"BadScript {index}")
    for it in spent.preimages():
        if hash160(it) in pushes:
            fields[key_of(psbt.HASH160, hash160(it))] = it
    return fields


def add_origins(plan: Plan, origins: list[str]) -> None:
    """Puts the origin of each key to all inputs whose script has the key or its hash."""
    for number, told in enumerate(origins):
        parts = ORIGIN.fullmatch(told)
        path = read_path(f"m{parts[2]}") if parts else None
        if parts is None or path is None:
            raise Refused(f"BadOrigin {number}", "an origin is [FINGERPRINT/PATH]KEY, as [d34db33f/48h/0h/7]02ab..")
        key = bytes_of(parts[3])
        using = [it for it in plan.inputs if {key, hash160(key)} & (scripts.pushes(it.script) or set())]
        if not using:
            raise Refused(f"UnusedOrigin {number}")
        for it in using:
            it.derivations[key] = bytes_of(parts[1]) + path


def make(plan: Plan) -> Partial:
    """The partially signed transaction of a plan, without a signature."""
    inputs = [
        input_fields(index, it, given.outpoint)
        for index, (it, given) in enumerate(zip(plan.inputs, plan.transaction.inputs))
    ]
    return Partial(
        plan.transaction,
        {key_of(psbt.UNSIGNED_TX): plan.transaction.stripped_bytes()},
        inputs,
        [{} for _ in plan.transaction.outputs],
    )


def checked_signature(wanted: Wanted, item: bytes, curve: AnyCurve, place: str) -> bytes:
    """A signature of the wanted key over the wanted digest, with hash type ALL and a low s."""
    if not signatures.is_strict_der(item):
        raise Refused(f"BadSignature {place}")
    if item[-1] != signatures.ALL:
        raise Refused(f"HashType {place}")
    if not curve.verify(wanted.key, wanted.digest, item[:-1]):
        raise Refused(f"BadSignature {place}")
    if not curve.has_low_s(item[:-1]):
        raise Refused(f"HighS {place}")
    return item


def formed_items(fields: dict[bytes, bytes]) -> list[bytes]:
    """The items of an input's final witness that have the form of a signature with hash type ALL."""
    return [it for it in psbt.final_witness(fields) or [] if signatures.is_strict_der(it) and it[-1] == signatures.ALL]


def fill(index: int, spent: Spent, fields: dict[bytes, bytes], curve: AnyCurve) -> list[bytes]:
    """The witness of an input, with its signatures in their places."""
    # the plan has nothing in the places of its wanted signatures
    witness = [it or b"" for it in spent.witness]
    partials, formed = psbt.with_kind(fields, psbt.PARTIAL_SIG), formed_items(fields)
    for it in spent.wanted:
        found = partials.get(it.key)
        if found is None:
            found = next((each for each in formed if curve.verify(it.key, it.digest, each[:-1])), None)
        if found is None:
            raise Refused(f"MissingSignature {index} {it.key.hex()}")
        witness[it.item] = checked_signature(it, found, curve, f"{index} {it.key.hex()}")
    return witness


def check_fields(index: int, spent: Spent, partially: Partial) -> None:
    """Whether an input tells the same output, script and hash type as the plan, and no field of taproot."""
    fields = partially.inputs[index]
    taproot = psbt.taproot_fields(fields)
    if taproot:
        raise Refused(f"TaprootField {index} {taproot[0]}")
    if psbt.spent_output(partially, index) not in (None, spent.output):
        raise Refused(f"OtherOutput {index}")
    if fields.get(key_of(psbt.WITNESS_SCRIPT), spent.script) != spent.script:
        raise Refused(f"OtherScript {index}")
    if fields.get(key_of(psbt.SIGHASH_TYPE), signatures.ALL.to_bytes(4, "little")) != signatures.ALL.to_bytes(
        4, "little"
    ):
        raise Refused(f"HashType {index}")


def finish(plan: Plan, partially: Partial, curve: AnyCurve) -> Transaction:
    """The signed transaction of a plan, with the signatures of a partially signed one."""
    if partially.transaction.stripped_bytes() != plan.transaction.stripped_bytes():
        raise Refused("OtherSpend")
    if (
        sum(len(it.wanted) * len(formed_items(fields)) for it, fields in zip(plan.inputs, partially.inputs))
        > MAX_CHECKS
    ):
        raise Refused("TooManyChecks")
    for index, spent in enumerate(plan.inputs):
        check_fields(index, spent, partially)
        plan.transaction.inputs[index].witness = fill(index, spent, partially.inputs[index], curve)
    return plan.transaction
