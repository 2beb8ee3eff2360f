"""Plans of unsigned spends, each one JSON object: the transaction, and of each input what it spends, its witness and
the signatures that are wanted. Tested, not proved.
"""
import json
import math
import re
from dataclasses import dataclass, field
from typing import Any

from real.lib import scripts
from real.lib.errors import Refused, bytes_of
from real.lib.transaction import MAX_MONEY, Digests, Output, Transaction, hash160, read_transaction

KEY_SIZE, FINGERPRINT_SIZE, HARDENED = 33, 4, 1 << 31
# more digits than any number of a plan has
DIGITS = 20
# more paths than a script may have, and a greater weight than a transaction of 4,000 inputs
MAX_PATH = MAX_WEIGHT = 1 << 32
# what may stand around JSON
BLANKS = " \t\r\n"
# the names of members that are said where they are unknown
NAME = re.compile(r"\w{1,40}", re.ASCII)


@dataclass
class Wanted:
    """A signature that is wanted: of which key, over which digest, at which item of the witness."""

    item: int
    key: bytes
    digest: bytes


@dataclass
class Spent:
    """An input of the plan. An item of the witness that waits for a signature is None."""

    output: Output
    script: bytes
    witness: list[bytes | None]
    wanted: list[Wanted]
    # the outpoint as explorers show it, if it is told
    explorer: str | None = None
    previous: bytes | None = None
    derivations: dict[bytes, bytes] = field(default_factory=dict)

    def preimages(self) -> list[bytes]:
        """The items of 32 bytes. One may be a preimage that the script asks for."""
        return [it for it in self.witness if it is not None and len(it) == 32]


@dataclass
class Plan:
    """An unsigned spend."""

    transaction: Transaction
    fee: int | None
    inputs: list[Spent]


class Shape:
    """Reads members of a JSON object; what has another type is refused by its place."""

    def __init__(self, value: Any, place: str) -> None:
        self.value, self.place = value, place
        if not isinstance(value, dict):
            raise Refused(f"BadShape {place}")

    def refusal(self, name: str) -> Refused:
        return Refused(f"BadShape {self.place}.{name}".replace("plan.", ""))

    def check_names(self, *names: str) -> "Shape":
        """The same; a member with another name is refused, since it may be one of these that is misspelled."""
        for name in self.value:
            if name not in names:
                raise self.refusal(name if NAME.fullmatch(name) else "?")
        return self

    def member(self, name: str, kind: type, optional: bool = False) -> Any:
        found = self.value.get(name)
        if found is None and optional:
            return None
        if not isinstance(found, kind) or isinstance(found, bool):
            raise self.refusal(name)
        return found

    def number(self, name: str, most: int, optional: bool = False) -> Any:
        found = self.member(name, int, optional)
        if found is not None and not 0 <= found <= most:
            raise self.refusal(name)
        return found

    def line(self, name: str) -> bytes:
        """Bytes that may have been read from a file, with the end of its line."""
        found = self.member(name, str)
        return Shape({name: found.rstrip("\r\n")}, self.place).bytes(name)

    def bytes(self, name: str, size: int | None = None, optional: bool = False) -> Any:
        found = self.member(name, str, optional)
        try:
            found = None if found is None else bytes_of(found)
        except Refused:
            raise self.refusal(name) from None
        if found is not None and size not in (None, len(found)):
            raise self.refusal(name)
        return found

    def objects(self, name: str, optional: bool = False) -> list["Shape"]:
        return [
            Shape(it, f"{self.place}.{name}[{at}]".replace("plan.", ""))
            for at, it in enumerate(self.member(name, list, optional) or [])
        ]


def read_witness(shape: Shape) -> list[bytes | None]:
    found = []
    for at, it in enumerate(shape.member("witness", list)):
        found.append(None if it is None else Shape({"item": it}, f"{shape.place}.witness[{at}]").bytes("item"))
    return found


def read_path(text: str) -> bytes | None:
    """A path of BIP 32, as m/48h/0'/7, in the form of a PSBT."""
    words = text.split("/")
    if words[0] != "m":
        return None
    found = b""
    for word in words[1:]:
        plain = word[:-1] if word[-1:] in ("h", "'") else word
        if not (plain.isascii() and plain.isdecimal() and len(plain) <= 10 and int(plain) < HARDENED):
            return None
        found += (int(plain) + (HARDENED if plain != word else 0)).to_bytes(4, "little")
    return found


def read_derivations(shape: Shape) -> dict[bytes, bytes]:
    found = {}
    for it in shape.objects("derivations", optional=True):
        path = read_path(it.check_names("key", "fingerprint", "path").member("path", str))
        if path is None:
            raise it.refusal("path")
        found[it.bytes("key", KEY_SIZE)] = it.bytes("fingerprint", FINGERPRINT_SIZE) + path
    return found


def read_wanted(shape: Shape, items: int) -> Wanted:
    shape.check_names("item", "key", "digest")
    return Wanted(shape.number("item", items), shape.bytes("key", KEY_SIZE), shape.bytes("digest", 32))


def read_input(shape: Shape) -> Spent:
    shape.check_names(
        "explorer", "value", "program", "script", "path", "witness", "signatures", "previous", "derivations"
    )
    # who makes a plan may say which path its witness takes; nothing follows from it here
    shape.number("path", MAX_PATH, optional=True)
    output = Output(shape.number("value", MAX_MONEY), shape.bytes("program"))
    witness = read_witness(shape)
    wanted = [read_wanted(it, len(witness)) for it in shape.objects("signatures")]
    shown = shape.member("explorer", str, optional=True)
    return Spent(
        output,
        shape.bytes("script"),
        witness,
        wanted,
        shown,
        shape.bytes("previous", optional=True),
        read_derivations(shape),
    )


def check_input(plan: Plan, index: int, digests: Digests) -> None:
    """Whether an input's parts fit each other: its outpoint, its script, its witness, the items that wait, the keys,
    and the digests.
    """
    it = plan.inputs[index]
    if it.explorer not in (None, plan.transaction.inputs[index].shown_outpoint()):
        raise Refused(f"OtherOutpoint {index}")
    if not scripts.has_script(it.output.program, it.script):
        raise Refused(f"OtherScript {index}")
    if not scripts.is_key_hash(it.output.program) and it.witness[-1:] != [it.script]:
        raise Refused(f"OtherWitness {index}")
    if sorted(each.item for each in it.wanted) != [at for at, item in enumerate(it.witness) if item is None]:
        raise Refused(f"OtherPlaces {index}")
    pushed = scripts.pushes(it.script)
    if pushed is not None and any(each.key not in pushed and hash160(each.key) not in pushed for each in it.wanted):
        raise Refused(f"OtherKey {index}")
    digest = digests.digest_of(index, it.script, it.output.value)
    if any(each.digest != digest for each in it.wanted):
        raise Refused(f"OtherDigest {index}")


def members(pairs: list[tuple[str, Any]]) -> dict[str, Any]:
    """The members of a JSON object. Each stands there once."""
    found: dict[str, Any] = {}
    for name, value in pairs:
        if name in found:
            raise Refused("NotJson", f"the member {ascii(name[:40])} stands twice in its object")
        found[name] = value
    return found


def whole_number(digits: str) -> int | float:
    """A whole number of JSON. One with more digits is infinite, which no member may be."""
    return int(digits) if len(digits) <= DIGITS else math.inf


def read_object(given: str | bytes, place: str) -> Shape:
    """The object that a JSON text tells."""
    try:
        value = json.loads(given, object_pairs_hook=members, parse_int=whole_number)
    except (ValueError, RecursionError):
        raise Refused("NotJson") from None
    return Shape(value, place)


def split_object(text: str) -> tuple[str, str]:
    """The JSON object that a text begins with, on one line or on several, and what stands after it. Of what is no JSON
    the first line stands for the object.
    """
    text = text.lstrip(BLANKS)
    try:
        _, end = json.JSONDecoder(object_pairs_hook=members, parse_int=whole_number).raw_decode(text)
    except (ValueError, RecursionError):
        end = text.find("\n") if "\n" in text else len(text)
    return text[:end], text[end:]


def read_plan(given: str | bytes) -> Plan:
    """The plan that a JSON text tells."""
    shape = read_object(given, "plan").check_names("transaction", "explorer", "fee", "weight", "inputs")
    # who makes a plan may say by which weight its fee is; nothing follows from it here
    shape.number("weight", MAX_WEIGHT, optional=True)
    transaction = read_transaction(shape.line("transaction"), marked=False)
    plan = Plan(
        transaction, shape.number("fee", MAX_MONEY, optional=True), [read_input(it) for it in shape.objects("inputs")]
    )
    if len(plan.inputs) != len(transaction.inputs) or any(it.script for it in transaction.inputs):
        raise Refused("OtherInputs")
    if shape.member("explorer", str, optional=True) not in (None, transaction.txid()):
        raise Refused("OtherId")
    digests = Digests(transaction)
    for index in range(len(plan.inputs)):
        check_input(plan, index, digests)
    fee = sum(it.output.value for it in plan.inputs) - sum(it.value for it in transaction.outputs)
    if fee < 0 or plan.fee not in (None, fee):
        raise Refused("OtherFee")
    return plan
