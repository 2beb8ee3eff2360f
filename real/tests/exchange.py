"""Partially signed transactions between Electrum and this folder, both ways. Tested, not proved. Wants Debian's
python3-electrum.
"""
from collections.abc import Iterator
from typing import Any

from electrum.crypto import sha256d
from electrum.transaction import PartialTransaction

from real.tests import claims as built
from real.tests.claims import Claim

FINGERPRINT, PATH = "0badcafe", "m/1017h/0'/7"


def plan_of(transaction: PartialTransaction, claims: list[Claim]) -> dict[str, Any]:
    """The plan of a transaction that nobody signed yet, as a program that makes unsigned spends tells it."""
    inputs = []
    for place, claim in enumerate(claims):
        marks = [b"wanted %d" % it for it in range(len(claim.signers))]
        items = claim.items(marks) + ([] if claim.is_key_hash else [claim.script])
        digest = sha256d(bytes.fromhex(transaction.serialize_preimage(place))).hex()
        wanted = [
            {"item": items.index(mark), "key": key.public.hex(), "digest": digest}
            for mark, key in zip(marks, claim.signers)
        ]
        derivations = [{"key": key.public.hex(), "fingerprint": FINGERPRINT, "path": PATH} for key in claim.signers]
        witness = [None if it in marks else it.hex() for it in items]
        inputs.append(
            {
                "value": claim.value,
                "program": claim.program().hex(),
                "script": claim.script.hex(),
                "witness": witness,
                "signatures": wanted,
                "derivations": derivations,
            }
        )
    fee = sum(it.value for it in claims) - sum(it.value for it in transaction.outputs())
    return {"transaction": transaction.serialize_to_network(include_sigs=False), "fee": fee, "inputs": inputs}


def read_by_electrum(text: bytes, claims: list[Claim]) -> PartialTransaction:
    """Electrum's reading of a partially signed transaction, with whether its fields are the claims'."""
    found = PartialTransaction.from_raw_psbt(text)
    for it, claim in zip(found.inputs(), claims):
        paths = {key.public: (bytes.fromhex(FINGERPRINT), [1017 + (1 << 31), 1 << 31, 7]) for key in claim.signers}
        told = (it.witness_utxo.value, it.witness_utxo.scriptpubkey, it.sighash, it.witness_script, it.bip32_paths)
        assert told == (claim.value, claim.program(), 1, None if claim.is_key_hash else claim.script, paths), told
        it.pubkeys = [key.public for key in claim.signers]
    return found


def sign_by_electrum(found: PartialTransaction, claims: list[Claim]) -> None:
    """Electrum signs what it read. Of the hash of a key it wants to be told the kind."""
    for it, claim in zip(found.inputs(), claims):
        if claim.is_key_hash:
            it.script_type, it.num_sig = "p2wpkh", 1
    found.sign({key.public.hex(): (key.secret, True) for claim in claims for key in claim.signers})


def signed_bytes(found: PartialTransaction, claims: list[Claim]) -> bytes:
    """What Electrum signed, as bytes: it makes no final witness where it is not told a kind."""
    sign_by_electrum(found, claims)
    for it in found.inputs():
        it.script_type = "unknown"
    return found.serialize_as_bytes(force_psbt=True)


def finished_bytes(found: PartialTransaction, claims: list[Claim]) -> bytes:
    """What Electrum signed, with its final witnesses where it knows how: of the hash of a key, and of 2 of 3."""
    for it, claim in zip(found.inputs(), claims):
        if claim.kind == "two_of_three":
            it.script_type, it.num_sig = "p2wsh", 2
            it.pubkeys = [claim.script[2 + 34 * place : 35 + 34 * place] for place in range(3)]
    sign_by_electrum(found, claims)
    text = found.serialize_as_bytes(force_psbt=True)
    for it, claim in zip(found.inputs(), claims):
        assert (it.witness is not None) == (claim.is_key_hash or claim.kind == "two_of_three")
    return text


def cases(count: int) -> Iterator[tuple[list[Claim], dict[str, int | list[dict[str, Any | int | str]] | str], str]]:
    """Transactions of Electrum's with their plans, and with what Electrum makes of them when it signs them itself."""
    for number in range(count):
        claims = built.claims_of(number)
        transaction = built.transaction_of(claims, number)
        plan = plan_of(transaction, claims)
        built.sign(transaction, claims)
        yield claims, plan, built.transaction_hex(transaction, [it.witness() for it in claims])
