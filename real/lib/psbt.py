"""Partially signed transactions of version 0 (BIP 174). Tested, not proved."""
import base64
import binascii
from dataclasses import dataclass
from typing import TypeVar

from real.lib.errors import Refused, bytes_of
from real.lib.transaction import Output, Reader, Transaction, compact_size, read_output, read_transaction, text

Found = TypeVar("Found")
MAGIC = b"psbt\xff"
UNSIGNED_TX, VERSION = 0x00, 0xFB
(
    NON_WITNESS_UTXO,
    WITNESS_UTXO,
    PARTIAL_SIG,
    SIGHASH_TYPE,
    REDEEM_SCRIPT,
    WITNESS_SCRIPT,
    BIP32_DERIVATION,
    FINAL_SCRIPTSIG,
    FINAL_SCRIPTWITNESS,
) = range(9)
HASH160 = 0x0C
# fields of an input that BIP 371 has
TAPROOT = {
    0x13: "TAP_KEY_SIG",
    0x14: "TAP_SCRIPT_SIG",
    0x15: "TAP_LEAF_SCRIPT",
    0x16: "TAP_BIP32_DERIVATION",
    0x17: "TAP_INTERNAL_KEY",
    0x18: "TAP_MERKLE_ROOT",
}
# fields whose key is their type alone
ALONE = {
    NON_WITNESS_UTXO,
    WITNESS_UTXO,
    SIGHASH_TYPE,
    REDEEM_SCRIPT,
    WITNESS_SCRIPT,
    FINAL_SCRIPTSIG,
    FINAL_SCRIPTWITNESS,
}


@dataclass
class Partial:
    """A partially signed transaction: its unsigned transaction, and the fields of the whole, of each input and of each
    output, by their whole keys.
    """

    transaction: Transaction
    fields: dict[bytes, bytes]
    inputs: list[dict[bytes, bytes]]
    outputs: list[dict[bytes, bytes]]

    def bytes(self) -> bytes:
        return MAGIC + b"".join(map(map_bytes, [self.fields, *self.inputs, *self.outputs]))

    def base64(self) -> str:
        return base64.b64encode(self.bytes()).decode()


def map_bytes(fields: dict[bytes, bytes]) -> bytes:
    return b"".join(text(key) + text(value) for key, value in sorted(fields.items())) + b"\x00"


def key_of(kind: int, data: bytes = b"") -> bytes:
    return compact_size(kind) + data


def kind_of(key: bytes) -> tuple[int, bytes]:
    reader = Reader(key)
    return reader.count(), key[reader.at :]


def with_kind(fields: dict[bytes, bytes], kind: int) -> dict[bytes, bytes]:
    """The fields of a kind: what follows the kind in their keys, and their values."""
    found = [(*kind_of(key), value) for key, value in fields.items()]
    return {data: value for each, data, value in found if each == kind}


def taproot_fields(fields: dict[bytes, bytes]) -> list[str]:
    """The names of an input's fields that are of taproot."""
    return sorted({TAPROOT[kind_of(key)[0]] for key in fields if kind_of(key)[0] in TAPROOT})


def read_map(reader: Reader) -> dict[bytes, bytes]:
    fields: dict[bytes, bytes] = {}
    while True:
        key = reader.text()
        if not key:
            return fields
        if key in fields:
            raise Refused("DuplicateField")
        fields[key] = reader.text()
        kind_of(key)


def version_of(fields: dict[bytes, bytes]) -> int:
    given = fields.get(key_of(VERSION), bytes(4))
    if len(given) != 4:
        raise Refused("BadField VERSION")
    return int.from_bytes(given, "little")


def check_lone_fields(fields: dict[bytes, bytes]) -> None:
    for key in fields:
        kind, data = kind_of(key)
        if kind in ALONE and data:
            raise Refused(f"BadField {kind}")


def has_witnesses(data: bytes) -> bool:
    """Whether these bytes are a transaction with witnesses, which a partially signed one has in fields of its own."""
    try:
        return any(it.witness for it in read_transaction(data).inputs)
    except Refused:
        return False


def read(data: bytes) -> Partial:
    """The partially signed transaction of these bytes."""
    if data[: len(MAGIC)] != MAGIC:
        raise Refused("BadMagic")
    reader = Reader(data[len(MAGIC) :])
    fields = read_map(reader)
    if version_of(fields) != 0:
        raise Refused(f"PsbtVersion {version_of(fields)}")
    if key_of(UNSIGNED_TX) not in fields:
        raise Refused("NoTransaction")
    if has_witnesses(fields[key_of(UNSIGNED_TX)]):
        raise Refused("SignedTransaction")
    transaction = read_transaction(fields[key_of(UNSIGNED_TX)], marked=False)
    if any(it.script for it in transaction.inputs):
        raise Refused("SignedTransaction")
    inputs = [read_map(reader) for _ in transaction.inputs]
    outputs = [read_map(reader) for _ in transaction.outputs]
    reader.end()
    for it in inputs:
        check_lone_fields(it)
    return Partial(transaction, fields, inputs, outputs)


def decoded_bytes(given: bytes) -> bytes:
    """The bytes of a partially signed transaction that is given as they are, in base64 or in hexadecimal."""
    if given[: len(MAGIC)] == MAGIC:
        return given
    try:
        plain = "".join(given.decode("ascii").split())
        if plain[: 2 * len(MAGIC)].lower() == MAGIC.hex():
            return bytes_of(plain)
        return base64.b64decode(plain, validate=True)
    except (UnicodeDecodeError, binascii.Error, ValueError):
        raise Refused("BadBase64") from None


def is_partial(given: bytes) -> bool:
    """Whether an input looks like a partially signed transaction."""
    start = given.lstrip()[:10]
    return start[:5] == MAGIC or start[:6] == b"cHNidP" or start.lower() == MAGIC.hex().encode()


def whole_field(reader: Reader, found: Found) -> Found:
    reader.end()
    return found


def spent_output(partial: Partial, index: int) -> Output | None:
    """The output that an input spends, or None where no field tells it. Two fields that tell it otherwise are refused."""
    fields, outpoint = partial.inputs[index], partial.transaction.inputs[index].outpoint
    found = []
    if key_of(NON_WITNESS_UTXO) in fields:
        before = read_transaction(fields[key_of(NON_WITNESS_UTXO)])
        place = int.from_bytes(outpoint[32:], "little")
        if bytes.fromhex(before.txid())[::-1] != outpoint[:32] or place >= len(before.outputs):
            raise Refused(f"OtherTransaction {index}")
        found.append(before.outputs[place])
    if key_of(WITNESS_UTXO) in fields:
        reader = Reader(fields[key_of(WITNESS_UTXO)])
        found.append(whole_field(reader, read_output(reader)))
    if len(found) == 2 and found[0] != found[1]:
        raise Refused(f"OtherOutput {index}")
    return found[0] if found else None


def final_witness(fields: dict[bytes, bytes]) -> list[bytes] | None:
    """The final witness of an input, or None."""
    given = fields.get(key_of(FINAL_SCRIPTWITNESS))
    if given is None:
        return None
    reader = Reader(given)
    return whole_field(reader, [reader.text() for _ in range(reader.count())])


def output_field(output: Output) -> bytes:
    return output.value.to_bytes(8, "little") + text(output.program)
