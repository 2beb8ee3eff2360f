"""Compares what is said of Electrum's transactions with the answers that were written down beforehand
(tests/written.jsonl). Tested, not proved.

A row has a transaction of its own (`text`, or `psbt` with its form), or it has that of another row (`of`) with an
edit. Its answer is a refusal, or the fee, the faults and an answer for each input; `null` there is that of the other
row. Places in an answer are told in written_ways.py.
"""
import base64
import json
from collections.abc import Iterable
from typing import Any
from unittest import mock

from real.lib import consensus, judge_input, judgement, psbt, scripts, signatures
from real.lib.curve import Verifier
from real.lib.errors import Refused
from real.lib.trace_program import Trace
from real.lib.transaction import Output, Transaction, hash160, read_transaction
from real.tests.checks import Checks

STOPPED = {
    0x63: "IF",
    0x64: "NOTIF",
    0x67: "ELSE",
    0x68: "ENDIF",
    0x75: "DROP",
    0x76: "DUP",
    0x7C: "SWAP",
    0x82: "SIZE",
    0x87: "EQUAL",
    0x88: "EQUALVERIFY",
    0xA9: "HASH160",
    0xAC: "CHECKSIG",
    0xAE: "CHECKMULTISIG",
    0xB1: "CHECKLOCKTIMEVERIFY",
    0xB2: "CHECKSEQUENCEVERIFY",
}


# changes of the judge's Python, each with rows for which it must say something else than what is wanted
PLANTS = (
    (
        "no token is refused",
        (judgement, "refuse_tokens", lambda transaction: None),
        ("forged token: the right one", "forged token: in another place"),
    ),
    (
        "any item is in strict DER",
        (signatures, "is_strict_der", lambda item: len(item) > 9),
        ("signature: a negative s", "signature: a zero before r"),
    ),
    ("each s is low", (consensus.Spend, "has_low_s", lambda spend, signature: True), ("signature: a high s",)),
    (
        "no fact measures a signature",
        (judgement, "is_measured", lambda way, slot, signed: False),
        ("measured signature: its hash", "measured signature: its bytes", "measured signature: on another path"),
    ),
    (
        "an item of no key is a signature anywhere",
        (judgement, "all", lambda found: True),
        ("a preimage in the form of a signature, offered",),
    ),
)


def rows_of(lines: Iterable[str]) -> dict[str, Any]:
    """The rows by their names."""
    return {row["name"]: row for row in map(json.loads, lines)}


def edited_text(text: list[str], edit: list[list[Any]]) -> list[str]:
    """A text with changes to its transaction and its lines."""
    transaction, lines = read_transaction(bytes.fromhex(text[0])), [it.split(" ") for it in text[1:]]
    for kind, *places, last in edit:
        if kind == "item":
            transaction.inputs[places[0]].witness[places[1]] = bytes.fromhex(last)
        elif kind == "insert":
            transaction.inputs[places[0]].witness.insert(places[1], bytes.fromhex(last))
        elif kind == "swap":
            items, one = transaction.inputs[places[0]].witness, places[1]
            items[one], items[last] = items[last], items[one]
        elif kind == "sequence":
            transaction.inputs[places[0]].sequence = last
        elif kind == "lock":
            transaction.lock_time = last
        elif kind == "output":
            transaction.outputs[places[0]].value = last
        else:
            lines[places[0]][0] = str(last)
    return [transaction.bytes().hex(), *map(" ".join, lines)]


def input_of(row: dict[str, Any], rows: dict[str, Any]) -> bytes:
    """Standard input, as real/judge reads it."""
    if "psbt" in row:
        data = base64.b64decode(row["psbt"])
        return {"base64": row["psbt"].encode(), "hex": data.hex().encode(), "bytes": data}[row["as"]]
    text = edited_text(rows[row["of"]]["text"], row["edit"]) if "edit" in row else row["text"]
    return "".join(f"{it}\n" for it in text).encode()


def spend_of(data: bytes) -> tuple[Transaction, list[Output | None]]:
    """The transaction with the outputs that it spends, as one reads them who knows that they are there."""
    if not psbt.is_partial(data):
        first, *lines = data.decode().splitlines()
        pairs = [it.split(" ") for it in lines]
        return read_transaction(bytes.fromhex(first)), [
            Output(int(value), bytes.fromhex(program)) for value, program in pairs
        ]
    found = psbt.read(psbt.decoded_bytes(data))
    for it, fields in zip(found.transaction.inputs, found.inputs):
        it.witness = psbt.final_witness(fields) or []
    return found.transaction, [psbt.spent_output(found, place) for place in range(len(found.inputs))]


class Places:
    """What stands at the places that an answer names: of one input its items, and the opcodes of its script."""

    def __init__(self, program: bytes, witness: list[bytes]) -> None:
        is_key = scripts.is_key_hash(program)
        self.script, self.items = (scripts.key_script(program), witness) if is_key else (witness[-1], witness[:-1])
        self.opcodes = scripts.operations(self.script)

    def bytes_at(self, place: str) -> bytes:
        """The bytes of a place."""
        kind, _, number = place.partition(" ")
        if kind == "push":
            return self.opcodes[int(number)][2]
        if kind in ("item", "hash"):
            item = self.items[int(number)]
            return hash160(item) if kind == "hash" else item
        return bytes.fromhex(place.replace("-", ""))

    def stop(self, opcode: int) -> dict[str, Any]:
        """Where a script stops: the opcode's number, name and byte."""
        if opcode == len(self.opcodes):
            return {"opcode": opcode, "op": None, "byte": len(self.script)}
        byte, code, pushed = self.opcodes[opcode]
        return {"opcode": opcode, "op": "PUSH" if pushed is not None else STOPPED[code], "byte": byte}

    def signatures(self, keys: dict[str, str | None]) -> list[dict[str, Any]]:
        """The items that are signatures, with their keys."""
        pairs = sorted((int(item), key) for item, key in keys.items())
        return [{"item": item, "key": key and self.bytes_at(key).hex()} for item, key in pairs]


def answer_of(answer: list[Any], transaction: Transaction, index: int, spent: Output) -> dict[str, Any]:
    """The members that are wanted of an input. A stop without an opcode, and what is not judged, have a reason alone."""
    found = {"input": index, "outpoint": transaction.inputs[index].shown_outpoint(), "answer": answer[0]}
    if answer[0] != "clean" and len(answer) == 2:
        return {**found, "reason": answer[1]}
    places = Places(spent.program, transaction.inputs[index].witness)
    found["digest"] = transaction.digest(index, places.script, spent.value).hex()
    if answer[0] == "clean":
        path, counted, height, keys, relay = answer[1:]
        return {
            **found,
            "path": path,
            "counted": counted,
            "height": height,
            "signatures": places.signatures(keys),
            "relay": sorted(relay),
        }
    reason, opcode, stack, keys, *relay = answer[1:]
    found.update(
        places.stop(opcode),
        reason=reason,
        stack=[places.bytes_at(it).hex() for it in stack],
        signatures=places.signatures(keys),
    )
    return {**found, "relay": sorted(relay[0])} if relay else found


def wanted_lines(row: dict[str, Any], rows: dict[str, Any], data: bytes) -> list[dict[str, Any]]:
    """The lines that are wanted: of each the members that are."""
    if "refused" in row["wanted"]:
        return [row["wanted"]]
    transaction, spent = spend_of(data)
    whole = {
        "txid": transaction.txid(),
        "wtxid": transaction.wtxid(),
        "inputs": len(transaction.inputs),
        "outputs": len(transaction.outputs),
        "fee": row["wanted"]["fee"],
        "faults": row["wanted"]["faults"],
    }
    answers = row["wanted"]["inputs"]
    if None in answers:
        answers = [mine or others for mine, others in zip(answers, rows[row["of"]]["wanted"]["inputs"])]
    return [whole, *(answer_of(it, transaction, index, spent[index]) for index, it in enumerate(answers))]


def is_met(lines: list[dict[str, Any]], found: list[dict[str, Any]]) -> bool:
    """Whether each line is there with each member that is wanted."""
    return len(lines) == len(found) and all(
        name in it and it[name] == value for line, it in zip(lines, found) for name, value in line.items()
    )


def is_blind(lines: list[dict[str, Any]], found: list[dict[str, Any]]) -> bool:
    """Whether a wanted member may be another one, and is met all the same."""
    changed = (
        [*lines[:place], {**line, name: "another"}, *lines[place + 1 :]]
        for place, line in enumerate(lines)
        for name in line
    )
    return any(is_met(it, found) for it in changed)


def printed_lines(data: bytes, curve: Verifier, trace: Trace) -> list[dict[str, Any]]:
    """The lines that real/judge prints."""
    try:
        return judge_input.answers_of(*judge_input.read(data), curve, trace)
    except Refused as why:
        return [{"refused": str(why)}]


def compare(count: Checks, rows: dict[str, Any], recorded: dict[str, Any], curve: Verifier, trace: Trace) -> None:
    """Each row is the recorded one, and what it wants is said."""
    for name in {**rows, **recorded}:
        row = rows.get(name)
        if row is None or row != recorded.get(name):
            count.check(False, f"{name}: made otherwise than it is recorded")
            continue
        data = input_of(row, rows)
        lines, found = wanted_lines(row, rows, data), printed_lines(data, curve, trace)
        count.check(is_met(lines, found) and not is_blind(lines, found), f"{name}: wanted {lines}, found {found}")


def list_at_once(rows: dict[str, Any], trace: Trace) -> None:
    """Has the scripts of all rows that are not refused listed by one run."""
    found = set()
    for row in rows.values():
        if "inputs" in row["wanted"]:
            transaction, spent = spend_of(input_of(row, rows))
            own = zip(transaction.inputs, spent)
            found.update(
                it.witness[-1]
                for it, output in own
                if it.witness and output and scripts.is_script_hash(output.program)
            )
    trace.paths(sorted(found))


def plant(rows: dict[str, Any], curve: Verifier, trace: Trace) -> list[str]:
    """The changes of the judge that no row sees."""
    unseen = []
    for name, (place, member, change), seen_by in PLANTS:
        chosen = [row for title, row in rows.items() if title.endswith(seen_by)]
        with mock.patch.object(place, member, change, create=True):
            inputs = [(row, input_of(row, rows)) for row in chosen]
            unseen += (
                [
                    name
                    for row, data in inputs
                    if is_met(wanted_lines(row, rows, data), printed_lines(data, curve, trace))
                ]
                if chosen
                else [name]
            )
    return unseen
