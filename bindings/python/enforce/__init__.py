"""The ways through a version 0 witness script (BIP 141), the scripts of BOLT 3, and the spend of claims, unsigned and signed, by a library that is proved.

Nothing here signs, and nothing checks a signature but for its form. The keys are the caller's, and none is derived.

    >>> import enforce
    >>> [path.arity for path in enforce.paths(bytes.fromhex("6351675268"))]   # IF 1 ELSE 2 ENDIF
    [1, 1]

The shared library is the one that ENFORCE_LIBRARY names, else the one that the system's loader finds under the name with these declarations' ABI number. The declarations of raw, the copies between
its rows and the classes here, and ctypes are trusted. sign.py goes from a script to the signed transaction.
"""
import ctypes
import os
from dataclasses import dataclass
from typing import Callable, ClassVar, List, NamedTuple, Optional, Sequence, Tuple, Type, TypeVar, Union

from . import raw
from .kinds import SENTENCES, About, ChannelType, Direction, FactKind, FormKind, NoteKind, OutputKind, SlotKind, Status, Whose


class OtherAbi(ImportError):
    """The library that is loaded has another ABI number than these declarations."""

    def __init__(self, loaded: int) -> None:
        self.declared, self.loaded = raw.ABI, loaded
        super().__init__(f"the library has ABI {loaded}, and these declarations have {raw.ABI}")


def _load() -> ctypes.CDLL:
    name = os.environ.get("ENFORCE_LIBRARY") or f"libenforce.so.{raw.ABI}"
    try:
        library = ctypes.CDLL(name)
    except OSError as error:
        raise ImportError(f"{error}: ENFORCE_LIBRARY is to name the shared library, FOLDER/lib/libenforce.so after ./enforce --install-library FOLDER") from error
    library.enforce_abi.restype = ctypes.c_uint32
    if library.enforce_abi() != raw.ABI:
        raise OtherAbi(library.enforce_abi())
    raw.declare(library)
    return library


_library = _load()

# the refusals that carry a position or an index
_NUMBERED = (
    *(Status.BAD_OPCODE, Status.TRUNCATED, Status.UNDECIDED, Status.UNMET, Status.NOT_A_KEY, Status.NO_SUCH_SLOT, Status.ITEM_TOO_LONG, Status.SLOT_OUT_OF_RANGE),
    *(Status.NOT_A_COMMITMENT_KEY, Status.NO_SUCH_DIRECTION, Status.EXPIRY_TOO_LARGE),
    *(Status.NO_SIGNATURE, Status.SIGNATURE_OUT_OF_RANGE, Status.NOT_DER, Status.NOT_SIGHASH_ALL, Status.NOT_ASKED),
)
# those whose number is a slot of a claim: of NOT_A_KEY, unless a form is refused
_SLOTS = (Status.UNMET, Status.NOT_A_KEY, Status.NO_SUCH_SLOT, Status.ITEM_TOO_LONG, Status.SLOT_OUT_OF_RANGE)
# what the number of the others counts
_NOUNS = {
    **{Status.BAD_OPCODE: "byte", Status.TRUNCATED: "byte", Status.UNDECIDED: "opcode", Status.NOT_A_KEY: "key", Status.NOT_A_COMMITMENT_KEY: "key"},
    **{Status.NO_SUCH_DIRECTION: "HTLC", Status.EXPIRY_TOO_LARGE: "HTLC"},
}


class Refused(Exception):
    """Why a call gives nothing: the status, its word and sentence, the number that some refusals carry, and what it is about. Indices count from 0; what is None is not said.

    The slot counts from the top of the stack, and the item from the deepest. Slot 0 of UNMET is that slot, or it stands for the spend, which has not the path's lock.

    >>> try:
    ...     paths(bytes.fromhex("51ff"))
    ... except Refused as refused:
    ...     print(refused.status.name, refused.number, refused)
    BAD_OPCODE 1 BadOpcode at byte 1
    """

    def __init__(self, status: int, number: int, about: int = About.ALL, row: int = 0, of_form: bool = False) -> None:
        self.status: Union[Status, int] = Status(status) if status in raw.NAMES else status
        self.name, self.sentence = raw.NAMES.get(status, "Unknown"), SENTENCES.get(self.status, "")
        self.number = number if status in _NUMBERED else None
        self.claim, self.output, self.input = (row if about == it else None for it in (About.CLAIM, About.OUTPUT, About.SIGNATURE))
        # the slot of the claim, and the item of the input's witness
        self.slot = self.number if status in _SLOTS and not of_form else None
        self.item = self.number if self.input is not None else None
        noun = "slot" if self.slot is not None else "item" if self.item is not None else _NOUNS.get(self.status, "number")
        places = ((noun, self.number), ("output", self.output), ("claim", self.claim), ("input", self.input))
        told = " of ".join(f"{name} {it}" for name, it in places if it is not None)
        super().__init__(f"{self.name} at {told}" if told else self.name)


# the words of `enforce paths`
_WORDS = {
    FactKind.HASH: "hash",
    FactKind.SIZE: "size",
    FactKind.TRUTH: "truth",
    FactKind.IS: "is",
    FactKind.KEY: "key",
    FactKind.FORM: "form",
    FactKind.SIGNED: "token",
    FactKind.CHOICE: "assigned",
    FactKind.LOCK: "lock",
    FactKind.AGE: "age",
}


@dataclass(frozen=True)
class Fact:
    """What a path asks of the witness or the spend: its kind, whether it is to hold, and what it says.

    Slots count from 0 at the top of the stack. A key is bytes of the script, or the slot that has it.
    """

    kind: FactKind
    holds: bool
    slots: Tuple[int, ...] = ()
    keys: Tuple[Union[bytes, int], ...] = ()
    constant: bytes = b""
    number: int = 0

    @property
    def word(self) -> str:
        """The word of `enforce paths` for the kind."""
        return _WORDS[self.kind]


@dataclass(frozen=True)
class Path:
    """A way through a script: whatever witness meets its facts runs clean. A lock below 500,000,000 is a height, else a time in seconds; the age is in blocks."""

    arity: int
    counted: int
    height: int
    lock: Optional[int]
    age: Optional[int]
    facts: Tuple[Fact, ...]


def _number(value: int, bits: int, name: str) -> int:
    """The number, if it has at most this number of bits. ctypes takes the low bits of a greater one."""
    if not 0 <= value < 1 << bits:
        raise ValueError(f"{name} has at most {bits} bits")
    return value


def _buffer(data: bytes) -> "ctypes.Array[ctypes.c_uint8]":
    return (ctypes.c_uint8 * len(data)).from_buffer_copy(data)


class _Rows:
    """The buffers of a listing."""

    def __init__(self, paths: int, facts: int, size: int) -> None:
        self.paths, self.facts, self.bytes = (raw.PathRow * paths)(), (raw.FactRow * facts)(), (ctypes.c_uint8 * size)()

    def constant(self, row: raw.FactRow) -> bytes:
        return bytes(self.bytes[row.bytes_at : row.bytes_at + row.bytes_length])

    def key(self, row: raw.FactRow) -> Union[bytes, int]:
        return row.key_slot if row.key_is_slot else self.constant(row)

    def fact(self, row: raw.FactRow, choice: Sequence[raw.FactRow]) -> Fact:
        kind = FactKind(row.kind)
        slots = () if row.kind in (raw.FACT_LOCK, raw.FACT_AGE) else (row.slot,)
        if row.kind == raw.FACT_CHOICE:
            slots = tuple(it.slot for it in choice if it.kind == raw.FACT_CHOICE_SLOT)
            return Fact(kind, row.holds, slots, tuple(self.key(it) for it in choice if it.kind == raw.FACT_CHOICE_KEY))
        keys = (self.key(row),) if row.kind == raw.FACT_SIGNED else ()
        return Fact(kind, row.holds, slots, keys, b"" if keys else self.constant(row), row.number)

    def path(self, row: raw.PathRow) -> Path:
        rows = self.facts[row.first_fact : row.first_fact + row.facts]
        heads = [at for at, it in enumerate(rows) if it.kind in _WORDS] + [len(rows)]
        facts = tuple(self.fact(rows[at], rows[at + 1 : end]) for at, end in zip(heads, heads[1:]))
        return Path(row.arity, row.counted, row.height, row.lock if row.has_lock else None, row.age if row.has_age else None, facts)


def reversed_id(txid: bytes) -> bytes:
    """An id of a transaction in the other byte order: the hash's own is that of the rows here, and what nodes and explorers show is the other one."""
    return txid[::-1]


def paths(script: bytes) -> List[Path]:
    """Every way to spend an output with this script by the rules here, in the text order of its branches, and nothing else. Consensus is laxer: it may take a spend by a branch that is not listed.

    Proved of enforce_script_list: whatever meets a listed path runs clean, and whatever runs clean meets a listed path. Raises Refused.
    """
    answer, given = raw.Answer(), _buffer(script)
    room = 64, 128, 1024
    while True:
        rows = _Rows(*room)
        status = _library.enforce_script_list(given, len(script), rows.paths, room[0], rows.facts, room[1], rows.bytes, room[2], ctypes.byref(answer))
        if status == raw.DONE:
            return [rows.path(it) for it in rows.paths[: answer.paths]]
        if status != raw.TOO_SMALL:
            raise Refused(status, answer.number)
        room = answer.paths, answer.facts, answer.bytes


def text(script: bytes) -> str:
    """The text of `enforce paths` on this script, without notes. Raises Refused. Proved of enforce_script_text: the text of the listing, or the stated refusal."""
    answer, given, size = raw.Answer(), _buffer(script), 4096
    while True:
        room = (ctypes.c_uint8 * size)()
        status = _library.enforce_script_text(given, len(script), room, size, ctypes.byref(answer))
        if status == raw.DONE:
            return bytes(room[: answer.bytes]).decode("ascii")
        if status != raw.TOO_SMALL:
            raise Refused(status, answer.number)
        size = answer.bytes


class Note(NamedTuple):
    """What of a script endangers money, and the index of the path or of the opcode that it is about."""

    kind: NoteKind
    at: int


def notes(script: bytes) -> List[Note]:
    """What of a script endangers money. Raises Refused.

    Proved of enforce_script_notes: those on paths are all that there are, and where nobody can spend, none can by consensus.
    """
    answer, given, count = raw.NotesAnswer(), _buffer(script), 64
    while True:
        rows = (raw.NoteRow * count)()
        status = _library.enforce_script_notes(given, len(script), rows, count, ctypes.byref(answer))
        if status == raw.DONE:
            return [Note(NoteKind(it.kind), it.at) for it in rows[: answer.notes]]
        if status != raw.TOO_SMALL:
            raise Refused(status, answer.number)
        count = answer.notes


def program(script: bytes) -> bytes:
    """The program that an output with this script has (BIP 141, P2WSH): 00, 20 and the script's SHA-256. Proved of enforce_script_program."""
    made = (ctypes.c_uint8 * 34)()
    _library.enforce_script_program(_buffer(script), len(script), ctypes.byref(made))
    return bytes(made)


@dataclass(frozen=True, kw_only=True)
class Funding:
    """A funding output of both keys, in whichever order."""

    kind: ClassVar[FormKind] = FormKind.FUNDING
    own: bytes
    peers: bytes


@dataclass(frozen=True, kw_only=True)
class ToLocal:
    """A to_local output: revocationpubkey, and local_delayedpubkey after to_self_delay."""

    kind: ClassVar[FormKind] = FormKind.TO_LOCAL
    revocation: bytes
    delayed: bytes
    delay_blocks: int


@dataclass(frozen=True, kw_only=True)
class KeyHash:
    """The script that P2WPKH of the key stands for: to_remote of a channel without anchors."""

    kind: ClassVar[FormKind] = FormKind.KEY_HASH
    key: bytes


@dataclass(frozen=True, kw_only=True)
class _HtlcForm:
    """What the script of each HTLC has. "Local" is the commitment's owner, as in BOLT 3."""

    revocation: bytes
    remote_htlc: bytes
    local_htlc: bytes
    payment_hash: bytes


@dataclass(frozen=True, kw_only=True)
class Offered(_HtlcForm):
    """An HTLC that the commitment's owner offered."""

    kind: ClassVar[FormKind] = FormKind.OFFERED


@dataclass(frozen=True, kw_only=True)
class Received(_HtlcForm):
    """An HTLC that the commitment's owner received; the expiry is below 500,000,000."""

    kind: ClassVar[FormKind] = FormKind.RECEIVED
    expiry_height: int


@dataclass(frozen=True, kw_only=True)
class OfferedWithAnchors(_HtlcForm):
    """The same as Offered, in a channel with anchors."""

    kind: ClassVar[FormKind] = FormKind.OFFERED_WITH_ANCHORS


@dataclass(frozen=True, kw_only=True)
class ReceivedWithAnchors(_HtlcForm):
    """The same as Received, in a channel with anchors."""

    kind: ClassVar[FormKind] = FormKind.RECEIVED_WITH_ANCHORS
    expiry_height: int


Form = Union[Funding, ToLocal, KeyHash, Offered, Received, OfferedWithAnchors, ReceivedWithAnchors]
# the field of the row
_PLACES = {"own": "local", "peers": "remote", "delayed": "local", "key": "remote", "remote_htlc": "remote", "local_htlc": "local"}
_BITS = {"delay_blocks": 16, "expiry_height": 32}


def form_script(form: Form) -> bytes:
    """The script of a form of BOLT 3. Raises Refused.

    Proved of enforce_form_script: the script of BOLT 3, or the first refusal: a key without the form of one, of which the number is 0 for revocation, 1 for the remote one and 2 for the local one, then the expiry.
    """
    row, answer = raw.Form(kind=form.kind), raw.Answer()
    for name, value in vars(form).items():
        if name in _BITS:
            setattr(row, name, _number(value, _BITS[name], name))
        else:
            _fill(getattr(row, _PLACES.get(name, name)), value, name)
    size = 256
    while True:
        script = (ctypes.c_uint8 * size)()
        status = _library.enforce_form_script(ctypes.byref(row), script, size, ctypes.byref(answer))
        if status == raw.DONE:
            return bytes(script[: answer.bytes])
        if status != raw.TOO_SMALL:
            raise Refused(status, answer.number, of_form=True)
        size = answer.bytes


@dataclass(frozen=True)
class Signature:
    """The slot is this key's signature over the spend."""

    kind: ClassVar[SlotKind] = SlotKind.SIGNATURE
    key: bytes


@dataclass(frozen=True)
class Preimage:
    """The slot is 32 bytes with this SHA-256. The script has the RIPEMD-160 of it: hashlib.new("ripemd160", hash), where OpenSSL has that."""

    kind: ClassVar[SlotKind] = SlotKind.PREIMAGE
    hash: bytes


@dataclass(frozen=True)
class Exact:
    """The slot is these bytes, at most 520: a preimage too, where it has not 32."""

    kind: ClassVar[SlotKind] = SlotKind.EXACT
    item: bytes


@dataclass(frozen=True)
class GivenSignature:
    """The slot is the peer's signature by this key over this digest, which it gave over one transaction (BIP 144, without witnesses). The claim is of this transaction alone, and one's own signature is over the same digest."""

    kind: ClassVar[SlotKind] = SlotKind.GIVEN
    key: bytes
    digest: bytes
    tx: bytes


Slot = Union[Signature, Preimage, Exact, GivenSignature]


@dataclass(frozen=True)
class Claim:
    """A claim on an output, by one path of its script. The id is in the hash's own byte order (reversed_id makes it of what nodes show), and the slots are the top of the stack first.

    The value and the program are those of the output, as a node's gettxout has them: nothing here knows the output.
    """

    txid: bytes
    index: int
    value: int
    script: bytes
    program: bytes
    path: int
    slots: Tuple[Slot, ...]


@dataclass(frozen=True)
class Due:
    """What the transaction that spends a claim has to have: the least lock time, as a height, and the sequence of the claim's input, an age in blocks. Each is 0 if the path checks none.

    A lock time of 118 lets block 119 have the transaction, at the earliest.
    """

    height: int
    sequence: int


class Output(NamedTuple):
    """An output of a transaction: its value in satoshis, and its script."""

    value: int
    script: bytes


class Signed(NamedTuple):
    """A signature for an item that lacks one: the input and the item of the MissingSignature, and strict DER (BIP 66) with the byte 01 after it (SIGHASH_ALL)."""

    input: int
    item: int
    signature: bytes


@dataclass(frozen=True)
class MissingSignature:
    """A signature that a transaction lacks: the item at this place of this input's witness, by this key over this digest (BIP 143, SIGHASH_ALL).

    Items count from the deepest, and slots from the top: the item is the number of slots, less 1, less the slot.
    """

    input: int
    item: int
    key: bytes
    digest: bytes


@dataclass(frozen=True)
class UnsignedSpend:
    """A transaction (BIP 144) with the empty item in the place of each signature, and the signatures that it lacks.

    The weight is in weight units (BIP 141), once it is signed, at most: each signature counts as 73 bytes. The fee is in satoshis. The id is in the hash's own byte order, as a Claim has it, and as nodes and
    explorers show it; signatures do not change it.
    """

    tx: bytes
    signatures: Tuple[MissingSignature, ...]
    weight: int
    fee_sat: int
    txid: bytes
    shown_txid: bytes


@dataclass(frozen=True)
class Finished:
    """A transaction (BIP 144) with its signatures, and its id, in both byte orders."""

    tx: bytes
    txid: bytes
    shown_txid: bytes


def _fill(field: "ctypes.Array[ctypes.c_uint8]", value: bytes, name: str) -> None:
    if not isinstance(value, (bytes, bytearray, memoryview)) or len(value) != len(field):
        raise ValueError(f"{name} has {len(field)} bytes")
    field[:] = value


class _Given:
    """Rows of claims and of outputs, and the bytes that they refer to."""

    def __init__(self) -> None:
        self.bytes = bytearray()
        self.slots: List[raw.SlotRow] = []

    def put(self, data: bytes) -> Tuple[int, int]:
        at = len(self.bytes)
        self.bytes += data
        return at, len(data)

    def slot(self, slot: Slot) -> raw.SlotRow:
        row = raw.SlotRow(kind=slot.kind)
        if isinstance(slot, Signature):
            _fill(row.key, slot.key, "a key")
        elif isinstance(slot, Preimage):
            _fill(row.hash, slot.hash, "a hash")
        elif isinstance(slot, Exact):
            row.bytes_at, row.bytes_length = self.put(slot.item)
        return row

    def claim(self, claim: Claim) -> raw.ClaimRow:
        numbers = {"index": _number(claim.index, 32, "index"), "value": _number(claim.value, 64, "value"), "path": _number(claim.path, 64, "path")}
        row = raw.ClaimRow(first_slot=len(self.slots), slots=len(claim.slots), **numbers)
        _fill(row.txid, claim.txid, "an id")
        row.script_at, row.script_length = self.put(claim.script)
        row.program_at, row.program_length = self.put(claim.program)
        self.slots += map(self.slot, claim.slots)
        return row

    def output(self, output: Output) -> raw.OutputRow:
        at, length = self.put(output[1])
        return raw.OutputRow(value=_number(output[0], 64, "value"), script_at=at, script_length=length)

    def rows(self) -> Tuple["ctypes.Array[raw.SlotRow]", int, "ctypes.Array[ctypes.c_uint8]", int]:
        """The rows of slots and the bytes, as two pairs of a call's arguments."""
        return _rows(raw.SlotRow, self.slots) + (_buffer(bytes(self.bytes)), len(self.bytes))


_Row = TypeVar("_Row", raw.SlotRow, raw.ClaimRow, raw.OutputRow, raw.PreimageRow, raw.SignedRow, raw.HtlcRow, raw.KeyRow)


def _rows(kind: Type[_Row], rows: Sequence[_Row]) -> Tuple["ctypes.Array[_Row]", int]:
    return (kind * len(rows))(*rows), len(rows)


def _list(given: Sequence[bytes], name: str) -> Sequence[bytes]:
    """What is given, unless it is none, or one of the things of which a list is to be given."""
    if given is None or isinstance(given, (bytes, bytearray, memoryview, str)):
        raise ValueError(f"{name} are a list of bytes")
    return given


def _preimage(data: bytes) -> raw.PreimageRow:
    row = raw.PreimageRow()
    _fill(row.bytes, data, "a preimage")
    return row


def _preimages(given: Sequence[bytes]) -> Tuple["ctypes.Array[raw.PreimageRow]", int]:
    return _rows(raw.PreimageRow, [_preimage(it) for it in _list(given, "preimages")])


def _key(data: bytes) -> raw.KeyRow:
    row = raw.KeyRow()
    _fill(row.bytes, data, "a key")
    return row


def _slot(row: raw.SlotRow, data: "ctypes.Array[ctypes.c_uint8]") -> Slot:
    """The slot of a row that a call wrote, with the bytes that it refers to."""
    part = bytes(data[row.bytes_at : row.bytes_at + row.bytes_length])
    if row.kind == raw.SLOT_SIGNATURE:
        return Signature(bytes(row.key))
    if row.kind == raw.SLOT_GIVEN:
        return GivenSignature(bytes(row.key), bytes(row.hash), part)
    return Preimage(bytes(row.hash)) if row.kind == raw.SLOT_PREIMAGE else Exact(part)


def path_slots(script: bytes, path: int, keys: Sequence[bytes] = (), preimages: Sequence[bytes] = ()) -> Tuple[Slot, ...]:
    """The slots that a path of a script asks for. The keys are those that the caller can sign with, the preimages those that it knows: they are wanted where the path asks for their hashes, or for a choice. Raises Refused.

    A key of the script that is not given is no refusal: the slot asks for its signature. Of a choice the given keys are taken, else the last ones. So compare the key of each MissingSignature with one's own.
    Without a preimage that the path asks for, the refusal is UNMET. A preimage has 32 bytes: an Exact slot is for others.

    Proved of enforce_path_slots: a claim with these slots is accepted.
    """
    answer, room, given, number = raw.SlotsAnswer(), (16, 1024), _buffer(script), _number(path, 64, "path")
    known = *_rows(raw.KeyRow, [_key(it) for it in _list(keys, "keys")]), *_preimages(preimages)
    while True:
        slots, data = (raw.SlotRow * room[0])(), (ctypes.c_uint8 * room[1])()
        status = _library.enforce_path_slots(given, len(script), number, *known, slots, room[0], data, room[1], ctypes.byref(answer))
        if status == raw.DONE:
            return tuple(_slot(it, data) for it in slots[: answer.slots])
        if status != raw.TOO_SMALL:
            raise Refused(status, answer.number)
        room = answer.slots, answer.bytes


def _signed(given: _Given, row: Signed) -> raw.SignedRow:
    at, length = given.put(row[2])
    return raw.SignedRow(input=_number(row[0], 64, "input"), item=_number(row[1], 64, "item"), bytes_at=at, bytes_length=length)


def accept(claim: Claim) -> Due:
    """Accepts a claim by one path of its script, and says when it is due. Raises Refused.

    Proved of enforce_claim: whatever fills the slots as they say spends the output, in a transaction of version 2 with this sequence, whose lock time is a height (below 500,000,000) and not below this one.
    Signatures are tokens there; a path that measures none of them takes a valid signature as well (unsigned_spend refuses the others).
    """
    given, due, answer = _Given(), raw.Due(), raw.Answer()
    row = given.claim(claim)
    status = _library.enforce_claim(ctypes.byref(row), *given.rows(), ctypes.byref(due), ctypes.byref(answer))
    if status != raw.DONE:
        raise Refused(status, answer.number)
    return Due(due.height, due.sequence)


def unsigned_spend(claims: Sequence[Claim], outputs: Sequence[Output], preimages: Sequence[bytes] = ()) -> UnsignedSpend:
    """The transaction that spends the outputs of claims, in which nothing is signed, and the signatures that it lacks. Raises Refused.

    It has version 2, as lock time the greatest height of the claims' Due, and of each input the sequence of its claim's. The weight does not depend on the values of outputs: a first call tells it, and a second has the fee.

    Proved of enforce_unsigned_spend: with the token of each missing signature in its place, each input runs clean. finish puts in the signature by the key over the digest, with the byte 01 after it.
    """
    given, answer = _Given(), raw.SpendAnswer()
    rows = _rows(raw.ClaimRow, [given.claim(it) for it in claims]), _rows(raw.OutputRow, [given.output(it) for it in outputs])
    secrets = _preimages(preimages)
    size, count = 1024, 16
    while True:
        tx, signatures = (ctypes.c_uint8 * size)(), (raw.SignatureRow * count)()
        slots, slots_length, data, data_length = given.rows()
        status = _library.enforce_unsigned_spend(
            *rows[0], slots, slots_length, *rows[1], *secrets, data, data_length, tx, size, signatures, count, ctypes.byref(answer)
        )
        if status == raw.DONE:
            found = tuple(MissingSignature(it.input, it.item, bytes(it.key), bytes(it.digest)) for it in signatures[: answer.signatures])
            return UnsignedSpend(bytes(tx[: answer.bytes]), found, answer.weight, answer.fee_sat, bytes(answer.txid), bytes(answer.shown_txid))
        if status != raw.TOO_SMALL:
            raise Refused(status, answer.number, answer.about, answer.row)
        size, count = answer.bytes, answer.signatures


def finish(claims: Sequence[Claim], outputs: Sequence[Output], preimages: Sequence[bytes], signed: Sequence[Signed]) -> Finished:
    """The transaction of unsigned_spend with signatures, one for each that it lacks, in their order. Raises Refused: NO_SIGNATURE at the first item whose signature is not the next.

    Each is tested for its form and its place, and not for the curve: whether one is valid for its key, nothing here asks. Proved of enforce_finish: where each is the key's over the digest, each input runs clean.
    """
    given, answer, size = _Given(), raw.FinishAnswer(), 1024
    rows = _rows(raw.ClaimRow, [given.claim(it) for it in claims]), _rows(raw.OutputRow, [given.output(it) for it in outputs])
    secrets, signatures = _preimages(preimages), _rows(raw.SignedRow, [_signed(given, it) for it in signed])
    slots, slots_length, data, data_length = given.rows()
    while True:
        tx = (ctypes.c_uint8 * size)()
        status = _library.enforce_finish(*rows[0], slots, slots_length, *rows[1], *secrets, *signatures, data, data_length, tx, size, ctypes.byref(answer))
        if status == raw.DONE:
            return Finished(bytes(tx[: answer.bytes]), bytes(answer.txid), bytes(answer.shown_txid))
        if status != raw.TOO_SMALL:
            raise Refused(status, answer.number, answer.about, answer.row)
        size = answer.bytes


@dataclass(frozen=True)
class Htlc:
    """An HTLC of a commitment: its direction, as the commitment's owner sees it, its cltv_expiry, and its payment hash."""

    direction: Direction
    expiry_height: int
    hash: bytes


@dataclass(frozen=True)
class Commitment:
    """A commitment, by what its scripts are made of: the type of the channel, to_self_delay, the keys at its point as its owner names them (BOLT 3, "Key Derivation"), its HTLCs, and
    one's own and the peer's key of the channel's funding output, by which anchors are named."""

    channel_type: ChannelType
    delay_blocks: int
    revocation: bytes
    delayed: bytes
    local_htlc: bytes
    remote_htlc: bytes
    remote: bytes
    htlcs: Tuple[Htlc, ...] = ()
    funding_keys: Optional[Tuple[bytes, bytes]] = None


@dataclass(frozen=True)
class FoundClaim:
    """A claim, the kind of the output that it is on, the first block that can have a transaction with it, and the first in which the other side can take the output, if it can."""

    claim: Claim
    kind: OutputKind
    from_height: int
    deadline_height: Optional[int]


@dataclass(frozen=True)
class Other:
    """An output without a claim: its index, and its kind."""

    index: int
    kind: OutputKind


@dataclass(frozen=True)
class Found:
    """The claims on outputs of a transaction, in their order, and the other outputs."""

    claims: Tuple[FoundClaim, ...]
    others: Tuple[Other, ...]


def _commitment(given: Commitment) -> raw.Commitment:
    row = raw.Commitment(channel_type=_number(given.channel_type, 32, "channel_type"), delay_blocks=_number(given.delay_blocks, 16, "delay_blocks"))
    for name in ("revocation", "delayed", "local_htlc", "remote_htlc", "remote"):
        _fill(getattr(row, name), getattr(given, name), name)
    if given.funding_keys:
        row.has_funding_keys = True
        _fill(row.own_funding, given.funding_keys[0], "a funding key")
        _fill(row.peers_funding, given.funding_keys[1], "a funding key")
    return row


def _htlc(given: Htlc) -> raw.HtlcRow:
    row = raw.HtlcRow(direction=_number(given.direction, 32, "direction"), expiry_height=_number(given.expiry_height, 32, "expiry_height"))
    _fill(row.hash, given.hash, "a hash")
    return row


class _Lists:
    """The buffers of what is found."""

    def __init__(self, claims: int, slots: int, others: int, size: int) -> None:
        self.claims, self.found = (raw.ClaimRow * claims)(), (raw.FoundRow * claims)()
        self.slots, self.others, self.bytes = (raw.SlotRow * slots)(), (raw.OtherRow * others)(), (ctypes.c_uint8 * size)()

    def part(self, at: int, length: int) -> bytes:
        return bytes(self.bytes[at : at + length])

    def claim(self, row: raw.ClaimRow) -> Claim:
        script, program = self.part(row.script_at, row.script_length), self.part(row.program_at, row.program_length)
        slots = tuple(_slot(it, self.bytes) for it in self.slots[row.first_slot : row.first_slot + row.slots])
        return Claim(bytes(row.txid), row.index, row.value, script, program, row.path, slots)

    def arguments(self) -> Tuple[object, ...]:
        return tuple(word for it in (self.claims, self.found, self.slots, self.others, self.bytes) for word in (it, len(it)))


def _found(call: Callable[..., int], arguments: Tuple[object, ...]) -> Found:
    """What a call finds, by its arguments before the buffers."""
    answer, room = raw.FoundAnswer(), (16, 32, 16, 4096)
    while True:
        lists = _Lists(*room)
        status = call(*arguments, *lists.arguments(), ctypes.byref(answer))
        if status == raw.DONE:
            rows = zip(lists.claims[: answer.claims], lists.found)
            claims = tuple(FoundClaim(lists.claim(claim), OutputKind(it.kind), it.from_height, it.deadline_height if it.has_deadline else None) for claim, it in rows)
            return Found(claims, tuple(Other(it.index, OutputKind(it.kind)) for it in lists.others[: answer.others]))
        if status != raw.TOO_SMALL:
            raise Refused(status, answer.number)
        room = answer.claims, answer.slots, answer.others, answer.bytes


def revoked(commitment: Commitment, tx: bytes, confirmed_height: int) -> Found:
    """All that a revoked commitment lets its owner's peer claim of a transaction, with witnesses or without: the commitment, one of its HTLC transactions, or any other. Raises Refused.

    Proved of enforce_revoked: each output is claimed, or is among the others; each claim is accepted; and each is on the output that it says. A block of confirmed_height has the transaction.
    """
    given, htlcs = _commitment(commitment), _rows(raw.HtlcRow, list(map(_htlc, commitment.htlcs)))
    return _found(_library.enforce_revoked, (ctypes.byref(given), *htlcs, _buffer(tx), len(tx), _number(confirmed_height, 32, "confirmed_height")))


def close(whose: Whose, commitment: Commitment, feerate_per_kw: int, preimages: Sequence[bytes], tx: bytes, confirmed_height: int) -> Found:
    """All that a commitment which closed the channel and is not revoked lets one claim of a transaction: of that commitment, of one's own HTLC transaction, or of any other. `whose` says whose commitment it is. Raises Refused.

    Proved of enforce_close: each output is claimed in each way that there is, or is among the others. An HTLC of one's own commitment is claimed by its HTLC transaction, where there are no anchors: the slot with a
    GivenSignature has it. unsigned_spend refuses such a claim.
    """
    given, htlcs = _commitment(commitment), _rows(raw.HtlcRow, list(map(_htlc, commitment.htlcs)))
    known = _preimages(preimages)
    numbers = _number(whose, 32, "whose"), _number(feerate_per_kw, 32, "feerate_per_kw"), _number(confirmed_height, 32, "confirmed_height")
    return _found(_library.enforce_close, (numbers[0], ctypes.byref(given), *htlcs, numbers[1], *known, _buffer(tx), len(tx), numbers[2]))
