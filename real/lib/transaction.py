"""Transactions as BIP 144 writes them, with input scripts, and the digest of BIP 143. Tested, not proved."""
import hashlib
from dataclasses import dataclass, field

from real.lib.errors import Refused
from real.lib.ripemd160 import ripemd160

MAX_MONEY = 2_100_000_000_000_000
HASH_TYPE_ALL = 1


def sha256(data: bytes) -> bytes:
    return hashlib.sha256(data).digest()


def sha256d(data: bytes) -> bytes:
    return sha256(sha256(data))


def hash160(data: bytes) -> bytes:
    """RIPEMD-160 of SHA-256."""
    try:
        return hashlib.new("ripemd160", sha256(data)).digest()
    except ValueError:
        return ripemd160(sha256(data))


def shown_id(txid: bytes) -> str:
    """An id as explorers show it: the bytes of the hash from the last to the first."""
    return txid[::-1].hex()


def compact_size(number: int) -> bytes:
    """A count or length (CompactSize)."""
    for limit, mark, size in ((0xFD, b"", 1), (1 << 16, b"\xfd", 2), (1 << 32, b"\xfe", 4)):
        if number < limit:
            return mark + number.to_bytes(size, "little")
    return b"\xff" + number.to_bytes(8, "little")


def text(data: bytes) -> bytes:
    """Bytes with their length before them."""
    return compact_size(len(data)) + data


class Reader:
    """Reads bytes from the left; what is missing is Truncated."""

    def __init__(self, data: bytes) -> None:
        self.data, self.at = data, 0

    def take(self, count: int) -> bytes:
        if count > len(self.data) - self.at:
            raise Refused("Truncated")
        self.at += count
        return self.data[self.at - count : self.at]

    def number(self, size: int) -> int:
        return int.from_bytes(self.take(size), "little")

    def count(self) -> int:
        first = self.number(1)
        if first < 0xFD:
            return first
        found = self.number({0xFD: 2, 0xFE: 4, 0xFF: 8}[first])
        if len(compact_size(found)) != {0xFD: 3, 0xFE: 5, 0xFF: 9}[first]:
            raise Refused("LongCount")
        return found

    def text(self) -> bytes:
        return self.take(self.count())

    def is_at_end(self) -> bool:
        return self.at == len(self.data)

    def end(self) -> None:
        if not self.is_at_end():
            raise Refused("Trailing")


@dataclass
class Input:
    """An input: the outpoint that it spends (id in the hash's own byte order, and index), its script, sequence and
    witness.
    """

    outpoint: bytes
    script: bytes
    sequence: int
    witness: list[bytes] = field(default_factory=list)

    def shown_outpoint(self) -> str:
        return f"{shown_id(self.outpoint[:32])}:{int.from_bytes(self.outpoint[32:], 'little')}"

    def bytes(self) -> bytes:
        return self.outpoint + text(self.script) + self.sequence.to_bytes(4, "little")


@dataclass
class Output:
    """An output: its value in satoshis and its program (scriptPubKey)."""

    value: int
    program: bytes

    def bytes(self) -> bytes:
        return self.value.to_bytes(8, "little") + text(self.program)


@dataclass
class Transaction:
    """A transaction."""

    version: int
    inputs: list[Input]
    outputs: list[Output]
    lock_time: int

    def stripped_bytes(self) -> bytes:
        """Its bytes without marker and witnesses, over which its id is taken."""
        inputs = compact_size(len(self.inputs)) + b"".join(it.bytes() for it in self.inputs)
        outputs = compact_size(len(self.outputs)) + b"".join(it.bytes() for it in self.outputs)
        return self.version.to_bytes(4, "little") + inputs + outputs + self.lock_time.to_bytes(4, "little")

    def digest(self, index: int, code: bytes, value: int) -> bytes:
        """What a signature of hash type ALL for this input is over (BIP 143)."""
        return Digests(self).digest_of(index, code, value)

    def bytes(self) -> bytes:
        """Its bytes, with marker and witnesses where one has an item."""
        plain = self.stripped_bytes()
        if not any(it.witness for it in self.inputs):
            return plain
        witnesses = b"".join(compact_size(len(it.witness)) + b"".join(map(text, it.witness)) for it in self.inputs)
        return plain[:4] + b"\x00\x01" + plain[4:-4] + witnesses + plain[-4:]

    def txid(self) -> str:
        return shown_id(sha256d(self.stripped_bytes()))

    def wtxid(self) -> str:
        return shown_id(sha256d(self.bytes()))


class Digests:
    """The digests of a transaction's inputs (BIP 143, hash type ALL), with what they share hashed once."""

    def __init__(self, transaction: Transaction) -> None:
        self.transaction = transaction
        self.outpoints = sha256d(b"".join(it.outpoint for it in transaction.inputs))
        self.sequences = sha256d(b"".join(it.sequence.to_bytes(4, "little") for it in transaction.inputs))
        self.outputs = sha256d(b"".join(it.bytes() for it in transaction.outputs))

    def digest_of(self, index: int, code: bytes, value: int) -> bytes:
        it = self.transaction.inputs[index]
        own = it.outpoint + text(code) + value.to_bytes(8, "little") + it.sequence.to_bytes(4, "little")
        ends = self.transaction.lock_time.to_bytes(4, "little") + HASH_TYPE_ALL.to_bytes(4, "little")
        return sha256d(
            self.transaction.version.to_bytes(4, "little")
            + self.outpoints
            + self.sequences
            + own
            + self.outputs
            + ends
        )


def read_output(reader: Reader) -> Output:
    value = reader.number(8)
    if value > MAX_MONEY:
        raise Refused("ValueTooLarge")
    return Output(value, reader.text())


def read_transaction(data: bytes, marked: bool = True) -> Transaction:
    """The transaction of these bytes, which may have no witness; `marked` says whether the marker of BIP 144 may stand
    there.
    """
    reader = Reader(data)
    version = reader.number(4)
    has_witnesses = marked and data[4:5] == b"\x00"
    if has_witnesses and reader.take(2) != b"\x00\x01":
        raise Refused("BadMarker")
    inputs = [Input(reader.take(36), reader.text(), reader.number(4)) for _ in range(reader.count())]
    if not inputs:
        raise Refused("NoInputs")
    outputs = [read_output(reader) for _ in range(reader.count())]
    for it in inputs if has_witnesses else []:
        it.witness = [reader.text() for _ in range(reader.count())]
    if has_witnesses and not any(it.witness for it in inputs):
        raise Refused("NoWitness")
    lock_time = reader.number(4)
    reader.end()
    return Transaction(version, inputs, outputs, lock_time)
