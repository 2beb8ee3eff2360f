"""Claims on outputs of channels, built and signed by Electrum. Tested, not proved.

What BOLT 3 and BIPs 65, 112, 141 and 147 say of each stands beside it: the path that its witness takes, in the order
of the script's branches, and how many opcodes its script has. Nothing here was made from the answers of a program of
this repository.
"""
import hashlib
from collections.abc import Callable
from dataclasses import dataclass, field

from electrum import bitcoin, ecc, lnutil
from electrum.transaction import (
    PartialTransaction,
    PartialTxInput,
    PartialTxOutput,
    TxOutpoint,
    TxOutput,
    multisig_script,
)

# opcodes of a script, and so the place at which a run ends
TO_LOCAL, OFFERED, RECEIVED, KEY_HASH, TWO_OF_THREE = 9, 26, 29, 5, 6
FINAL = 0xFFFFFFFF


class Key:
    """A private key that everybody knows, with its public key."""

    def __init__(self, name: str) -> None:
        self.secret = hashlib.sha256(f"a key that everybody knows: {name}".encode()).digest()
        self.private = ecc.ECPrivkey(self.secret)
        self.public = self.private.get_public_key_bytes(compressed=True)


@dataclass
class Claim:
    """A claim on one output: what is signed, the witness of its signatures, and the path that the witness takes."""

    kind: str
    script: bytes
    signers: list[Key]
    items: Callable
    path: int
    opcodes: int
    sequence: int = FINAL - 2
    lock_time: int = 0
    expiry: int | None = None
    is_key_hash: bool = False
    value: int = 0
    txid: bytes = b""
    signatures: list[bytes] = field(default_factory=list)

    def program(self) -> bytes:
        if self.is_key_hash:
            return b"\x00\x14" + self.script[3:23]
        return b"\x00\x20" + hashlib.sha256(self.script).digest()

    def witness(self) -> list[bytes]:
        return self.items(self.signatures) + ([] if self.is_key_hash else [self.script])


def to_local(number: int) -> tuple[tuple[Key, Key], int, bytes]:
    keys = Key(f"revocation {number}"), Key(f"delayed {number}")
    delay = (5, 144, 720, 2016, 16)[number % 5] + number % 3
    return keys, delay, lnutil.make_commitment_output_to_local_witness_script(keys[0].public, delay, keys[1].public)


def htlc(number: int, received: bool) -> tuple[tuple[Key, Key, Key], bytes, int, bytes]:
    keys = Key(f"revocation {number}"), Key(f"remote {number}"), Key(f"local {number}")
    preimage, expiry = hashlib.sha256(f"preimage {number}".encode()).digest(), 500 + 7 * number
    given = [it.public for it in keys] + [hashlib.sha256(preimage).digest()]
    return (
        keys,
        preimage,
        expiry,
        lnutil.make_received_htlc(*given, expiry) if received else lnutil.make_offered_htlc(*given),
    )


def penalty(number: int) -> Claim:
    keys, _, script = to_local(number)
    return Claim("penalty", script, [keys[0]], lambda it: [it[0], b"\x01"], 0, TO_LOCAL, FINAL)


def delayed_claim(number: int) -> Claim:
    keys, delay, script = to_local(number)
    return Claim("delayed", script, [keys[1]], lambda it: [it[0], b""], 1, TO_LOCAL, delay)


def offered_penalty(number: int) -> Claim:
    keys, _, _, script = htlc(number, False)
    return Claim("offered_penalty", script, [keys[0]], lambda it: [it[0], keys[0].public], 0, OFFERED)


def received_penalty(number: int) -> Claim:
    keys, _, expiry, script = htlc(number, True)
    return Claim("received_penalty", script, [keys[0]], lambda it: [it[0], keys[0].public], 0, RECEIVED, expiry=expiry)


def timeout(number: int) -> Claim:
    keys, _, expiry, script = htlc(number, False)
    return Claim("timeout", script, [keys[1], keys[2]], lambda it: [b"", *it, b""], 1, OFFERED, 0, expiry)


def success(number: int) -> Claim:
    keys, preimage, expiry, script = htlc(number, True)
    return Claim("success", script, [keys[1], keys[2]], lambda it: [b"", *it, preimage], 1, RECEIVED, 0, expiry=expiry)


def direct_preimage(number: int) -> Claim:
    keys, preimage, _, script = htlc(number, False)
    return Claim("direct_preimage", script, [keys[1]], lambda it: [it[0], preimage], 2, OFFERED)


def direct_timeout(number: int) -> Claim:
    keys, _, expiry, script = htlc(number, True)
    return Claim(
        "direct_timeout", script, [keys[1]], lambda it: [it[0], b""], 2, RECEIVED, lock_time=expiry, expiry=expiry
    )


def key_hash(number: int) -> Claim:
    key = Key(f"payment {number}")
    script = bytes.fromhex(bitcoin.pubkeyhash_to_p2pkh_script(bitcoin.hash_160(key.public).hex()))
    return Claim("key_hash", script, [key], lambda it: [it[0], key.public], 0, KEY_HASH, is_key_hash=True)


def two_of_three(number: int) -> Claim:
    keys = [Key(f"one of three {number} {it}") for it in range(3)]
    script = bytes.fromhex(multisig_script([it.public.hex() for it in keys], 2))
    pair = ((0, 1), (0, 2), (1, 2))[number % 3]
    return Claim("two_of_three", script, [keys[it] for it in pair], lambda it: [b"", *it], 0, TWO_OF_THREE)


KINDS = (
    penalty,
    delayed_claim,
    offered_penalty,
    received_penalty,
    timeout,
    success,
    direct_preimage,
    direct_timeout,
    key_hash,
    two_of_three,
)
# their transaction has one input and one output (BOLT 3)
ALONE = (timeout, success)


def outputs_of(number: int, total: int) -> list[PartialTxOutput]:
    """One to three outputs of other kinds, which leave a fee."""
    count = 1 + number % 3
    programs = [
        key_hash(1000 + number).program(),
        to_local_program(number),
        bytes.fromhex("76a914") + hashlib.sha256(b"%d" % number).digest()[:20] + bytes.fromhex("88ac"),
    ]
    return [
        PartialTxOutput(scriptpubkey=it, value=total // (count + 1) + 3 * place)
        for place, it in enumerate(programs[:count])
    ]


def to_local_program(number: int) -> bytes:
    return b"\x00\x20" + hashlib.sha256(to_local(2000 + number)[2]).digest()


def input_of(claim: Claim) -> PartialTxInput:
    """Electrum's input for a claim."""
    found = PartialTxInput(prevout=TxOutpoint(txid=claim.txid, out_idx=claim.value % 3), nsequence=claim.sequence)
    found.witness_utxo = TxOutput(scriptpubkey=claim.program(), value=claim.value)
    found.script_sig = b""
    if claim.is_key_hash:
        found.script_type, found.pubkeys = "p2wpkh", [claim.signers[0].public]
    else:
        found.witness_script = claim.script
    return found


def place_claims(claims: list[Claim], number: int) -> list[Claim]:
    """Gives each claim its outpoint and value."""
    for place, claim in enumerate(claims):
        claim.txid = hashlib.sha256(f"transaction {number} {place}".encode()).digest()
        claim.value = 60_000 + 1_001 * number + 17 * place
    return claims


def claims_of(number: int) -> list[Claim]:
    """The claims of a transaction: up to three. The first goes through all kinds."""
    first = KINDS[number % len(KINDS)]
    found = [first(number)]
    if first not in ALONE:
        together = [it for it in KINDS if it not in ALONE]
        more = (number // len(KINDS)) % 3
        found += [
            together[(number * 5 + 3 * place + number // 7) % len(together)](300 + 10 * number + place)
            for place in range(more)
        ]
    return place_claims(found, number)


def htlc_transaction(claim: Claim, number: int) -> PartialTransaction:
    """An HTLC transaction, by Electrum's own builder (BOLT 3)."""
    is_success = claim.kind == "success"
    keys, delay, _ = to_local(3000 + number)
    _, output = lnutil.make_htlc_tx_output(
        claim.value * 1000, 253 + 10 * number, keys[0].public, keys[1].public, is_success, delay
    )
    inputs = lnutil.make_htlc_tx_inputs(claim.txid.hex(), claim.value % 3, claim.value * 1000, claim.script.hex())
    return lnutil.make_htlc_tx(cltv_expiry=claim.lock_time, inputs=inputs, output=output)


def transaction_of(claims: list[Claim], number: int) -> PartialTransaction:
    """Electrum's transaction over the claims, unsigned."""
    if claims[0].kind in [it.__name__ for it in ALONE]:
        return htlc_transaction(claims[0], number)
    outputs = outputs_of(number, sum(it.value for it in claims))
    lock_time = max(it.lock_time for it in claims)
    return PartialTransaction.from_io(
        [input_of(it) for it in claims], outputs, locktime=lock_time, version=2, BIP69_sort=False
    )


def sign(transaction: PartialTransaction, claims: list[Claim]) -> None:
    """Has Electrum sign each input for each of its claim's signers."""
    for place, claim in enumerate(claims):
        claim.signatures = [bytes.fromhex(transaction.sign_txin(place, it.secret)) for it in claim.signers]


def transaction_hex(
    transaction: PartialTransaction, witnesses: list[list[bytes]], scripts: list[bytes] | None = None
) -> str:
    """The transaction with these witnesses, as Electrum writes it."""
    for place, (it, items) in enumerate(zip(transaction.inputs(), witnesses)):
        it.script_sig = scripts[place] if scripts else b""
        it.witness = bytes.fromhex(bitcoin.construct_witness(items))
    transaction.invalidate_ser_cache()
    return transaction.serialize_to_network()


def spent_outputs(claims: list[Claim]) -> list[list[int | str]]:
    """What a judge is told of the outputs that are spent."""
    return [[it.value, it.program().hex()] for it in claims]
