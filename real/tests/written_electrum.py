"""Transactions by Electrum, each signed by keys that follow from a name: what the written answers are about. Needs
Debian's python3-electrum. Tested, not proved.
"""
from __future__ import annotations

import base64
import hashlib
from typing import Any

from electrum import bitcoin, crypto, ecc, lnutil, transaction
from electrum.transaction import PartialTransaction

ORDER = ecc.CURVE_ORDER
opcodes, ECPubkey = bitcoin.opcodes, ecc.ECPubkey


def digest_of(label: str) -> bytes:
    """32 bytes for a name."""
    return hashlib.sha256(b"written beforehand: " + label.encode()).digest()


def secret_of(label: str) -> bytes:
    """A private key for a name."""
    return (int.from_bytes(digest_of(label), "big") % (ORDER - 1) + 1).to_bytes(32, "big")


def public_key(secret: bytes) -> bytes:
    """Its compressed public key."""
    return ecc.ECPrivkey(secret).get_public_key_bytes(compressed=True)


def program_of(script: bytes) -> bytes:
    """P2WSH of a script."""
    return b"\x00\x20" + hashlib.sha256(script).digest()


def key_program(key: bytes) -> bytes:
    """P2WPKH of a key."""
    return b"\x00\x14" + crypto.hash_160(key)


class Claim:
    """An output, and how it is spent: its script, the shape of its witness (None: a signature, by the next of the
    secrets), its sequence.
    """

    def __init__(
        self,
        way: str,
        outpoint: tuple[str, int],
        value: int,
        script: bytes | None,
        shape: list[bytes | None],
        secrets: list[bytes],
        sequence: int,
        expiry: int = 0,
        delay: int = 0,
        previous: None = None,
    ) -> None:
        self.way, self.outpoint, self.value, self.script, self.shape = way, outpoint, value, script, shape
        self.secrets, self.sequence, self.expiry, self.delay, self.previous = (
            secrets,
            sequence,
            expiry,
            delay,
            previous,
        )
        self.keys = [public_key(secret) for secret in secrets]

    def is_key_hash(self) -> bool:
        """P2WPKH."""
        return self.script is None

    def program(self) -> bytes:
        """The program of its output."""
        return key_program(self.keys[0]) if self.is_key_hash() else program_of(self.script)

    def changed_copy(self, **members: Any) -> Claim:
        """Another one, with these members."""
        other = Claim(
            self.way,
            self.outpoint,
            self.value,
            self.script,
            list(self.shape),
            list(self.secrets),
            self.sequence,
            self.expiry,
            self.delay,
            self.previous,
        )
        for name, value in members.items():
            setattr(other, name, value)
        other.keys = [public_key(secret) for secret in other.secrets]
        return other


class Spend:
    """A transaction that spends claims."""

    def __init__(
        self, claims: list[Claim], outputs: list[tuple[bytes, int]], version: int, lock_time: int, main: int = 0
    ) -> None:
        self.claims, self.outputs, self.version, self.lock_time, self.main = claims, outputs, version, lock_time, main
        self.witnesses = None

    def electrum(self) -> PartialTransaction:
        """Electrum's own transaction, unsigned."""
        inputs = []
        for claim in self.claims:
            txid, index = claim.outpoint
            txin = transaction.PartialTxInput(
                prevout=transaction.TxOutpoint(txid=bytes.fromhex(txid), out_idx=index), nsequence=claim.sequence
            )
            txin._trusted_value_sats = claim.value
            txin.script_sig = b""
            if claim.is_key_hash():
                txin.script_type, txin.pubkeys, txin.num_sig = "p2wpkh", [claim.keys[0]], 1
            else:
                txin.script_type, txin.witness_script, txin.num_sig = "p2wsh", claim.script, len(claim.secrets)
            inputs.append(txin)
        outputs = [transaction.PartialTxOutput(scriptpubkey=program, value=value) for program, value in self.outputs]
        return transaction.PartialTransaction.from_io(
            inputs, outputs, locktime=self.lock_time, version=self.version, BIP69_sort=False
        )

    def digest(self, number: int) -> bytes:
        """What a signature of an input is over, as Electrum has it."""
        return bitcoin.sha256d(bytes.fromhex(self.electrum().serialize_preimage(number)))

    def signature(self, number: int, secret: bytes, hash_type: int = 1) -> bytes:
        """A signature of an input by Electrum, with its hash type."""
        tx = self.electrum()
        tx.inputs()[number].sighash = hash_type
        return bytes.fromhex(tx.sign_txin(number, secret))

    def sign(self) -> Spend:
        """Makes the witnesses."""
        self.witnesses = []
        for number, claim in enumerate(self.claims):
            secrets = iter(claim.secrets)
            items = [self.signature(number, next(secrets)) if item is None else item for item in claim.shape]
            self.witnesses.append(items + ([] if claim.is_key_hash() else [claim.script]))
        return self

    def signed_transaction(self) -> PartialTransaction:
        """Electrum's transaction with these witnesses."""
        tx = self.electrum()
        for txin, items in zip(tx.inputs(), self.witnesses):
            txin.witness = bytes.fromhex(bitcoin.construct_witness(items))
        return tx

    def text(self) -> list[str]:
        """What real/judge reads: the transaction, and of each input the value and program that it spends."""
        return [self.signed_transaction().serialize_to_network()] + [
            f"{claim.value} {claim.program().hex()}" for claim in self.claims
        ]

    def partial_base64(self) -> str:
        """The same as a partially signed transaction in base64."""
        tx = self.signed_transaction()
        for txin, claim in zip(tx.inputs(), self.claims):
            txin.witness_utxo = transaction.TxOutput(scriptpubkey=claim.program(), value=claim.value)
        return base64.b64encode(tx.serialize_as_bytes(force_psbt=True)).decode("ascii")

    def changed_copy(self, **members: Any) -> Spend:
        """Another one, with these members, signed anew."""
        other = Spend(list(self.claims), list(self.outputs), self.version, self.lock_time, self.main)
        for name, value in members.items():
            setattr(other, name, value)
        return other.sign()

    def with_main(self, **members: bytes | int) -> Spend:
        """The same with another claim in the main place, signed anew."""
        claims = list(self.claims)
        claims[self.main] = claims[self.main].changed_copy(**members)
        return self.changed_copy(claims=claims)

    def fee(self) -> int:
        """What it pays."""
        return sum(claim.value for claim in self.claims) - sum(value for _, value in self.outputs)


def assembled_script(*items: Any) -> bytes:
    """A script by Electrum."""
    return bytes.fromhex(bitcoin.construct_script(items))


def multisig(count: int, keys: list[bytes]) -> bytes:
    """CHECKMULTISIG of these keys in this order, by Electrum."""
    return bytes.fromhex(transaction.multisig_script([key.hex() for key in keys], count))


class Channel:
    """A channel with one commitment: to_local, to_remote, an offered and a received HTLC. All names are those of the
    commitment's owner.
    """

    def __init__(self, number: int, delay: int, expiry: int) -> None:
        self.number, self.delay, self.expiry, self.name = number, delay, expiry, f"channel {number}"
        point_secret = secret_of(self.name + " commitment")
        point = public_key(point_secret)
        revocation, delayed = secret_of(self.name + " revocation"), secret_of(self.name + " delayed")
        self.revocation = lnutil.derive_blinded_privkey(revocation, point_secret)
        self.delayed = lnutil.derive_privkey(int.from_bytes(delayed, "big"), point).to_bytes(32, "big")
        self.local, self.remote, self.payment = (
            secret_of(f"{self.name} {of}") for of in ("local", "remote", "payment")
        )
        self.funding = sorted((secret_of(f"{self.name} funding {side}") for side in "ab"), key=public_key)
        self.funding_txid, self.funding_index = (
            digest_of(self.name + " outpoint").hex(),
            (0, 1, 7, 255, 65536)[number % 5],
        )
        self.capacity = 1_000_000 + 7_777 * number
        self.preimages = {side: digest_of(f"{self.name} preimage {side}") for side in ("offered", "received")}
        self._scripts()

    def _scripts(self) -> None:
        keys = [public_key(secret) for secret in (self.revocation, self.remote, self.local)]
        self.to_local = lnutil.make_commitment_output_to_local_witness_script(
            public_key(self.revocation), self.delay, public_key(self.delayed)
        )
        hashes = {side: hashlib.sha256(preimage).digest() for side, preimage in self.preimages.items()}
        self.offered = lnutil.make_offered_htlc(*keys, hashes["offered"])
        self.received = lnutil.make_received_htlc(*keys, hashes["received"], self.expiry)

    def commitment(self) -> Spend:
        """The commitment's spend of the funding output."""
        one, other = public_key(secret_of(self.name + " base")), public_key(self.payment)
        obscured = lnutil.get_obscured_ctn(40 + self.number, one, other)
        outputs = [
            (program_of(self.offered), 11_000 + self.number),
            (program_of(self.received), 12_500 + self.number),
            (key_program(public_key(self.payment)), 300_000 + 3 * self.number),
        ]
        outputs.append((program_of(self.to_local), self.capacity - 1_200 - sum(value for _, value in outputs)))
        claim = Claim(
            "funding",
            (self.funding_txid, self.funding_index),
            self.capacity,
            multisig(2, [public_key(s) for s in self.funding]),
            [b"", None, None],
            self.funding,
            (0x80 << 24) + (obscured >> 24),
        )
        return Spend([claim], outputs, 2, (0x20 << 24) + (obscured & 0xFFFFFF)).sign()

    def close(self) -> Spend:
        """A mutual close."""
        claim = self.commitment().claims[0].changed_copy(way="close", sequence=0xFFFFFFFF)
        outputs = [
            (key_program(public_key(self.payment)), 400_000),
            (key_program(public_key(self.delayed)), self.capacity - 400_000 - 333),
        ]
        return Spend([claim], outputs, 2, 0).sign()

    def output(self, index: int) -> tuple[tuple[str, int], int]:
        """Where an output of the commitment stands, and its value."""
        tx = self.commitment()
        return (tx.signed_transaction().txid(), index), tx.outputs[index][1]

    def claim(self, way: str, sequence: int) -> Claim:
        """The claim of an output of the commitment by a way."""
        revocation = public_key(self.revocation)
        by = {
            "offered by revocation": (0, self.offered, [None, revocation], [self.revocation]),
            "offered by preimage": (0, self.offered, [None, self.preimages["offered"]], [self.remote]),
            "offered by timeout": (0, self.offered, [b"", None, None, b""], [self.remote, self.local]),
            "received by revocation": (1, self.received, [None, revocation], [self.revocation]),
            "received by success": (
                1,
                self.received,
                [b"", None, None, self.preimages["received"]],
                [self.remote, self.local],
            ),
            "received by timeout": (1, self.received, [None, b""], [self.remote]),
            "to_remote": (2, None, [None, public_key(self.payment)], [self.payment]),
            "to_local by delay": (3, self.to_local, [None, b""], [self.delayed]),
            "to_local by revocation": (3, self.to_local, [None, b"\x01"], [self.revocation]),
        }
        index, script, shape, secrets = by[way]
        outpoint, value = self.output(index)
        return Claim(way, outpoint, value, script, shape, secrets, sequence, self.expiry, self.delay)

    def htlc_transaction(self, way: str) -> Spend:
        """HTLC-timeout or HTLC-success (BOLT 3)."""
        claim = self.claim(way, 0)
        _, output = lnutil.make_htlc_tx_output(
            claim.value * 1000,
            253 + 40 * self.number,
            public_key(self.revocation),
            public_key(self.delayed),
            way.endswith("success"),
            self.delay,
        )
        lock_time = self.expiry if way.endswith("timeout") else 0
        return Spend([claim], [(output.scriptpubkey, output.value)], 2, lock_time).sign()

    def second_stage(self, way: str, sequence: int) -> Claim:
        """The claim of an HTLC transaction's output."""
        parent = self.htlc_transaction("offered by timeout" if self.number % 2 else "received by success")
        first = self.claim("to_local" + way[len("second stage") :], sequence)
        return first.changed_copy(
            way=way, outpoint=(parent.signed_transaction().txid(), 0), value=parent.outputs[0][1]
        )
