"""Tells what was found of a transaction and its inputs in lines for people. Tested, not proved."""
from typing import Any

RELAY = {
    "LOW_S": "a signature has a high s (BIP 146)",
    "NULLFAIL": "a signature that fails is not empty (BIP 146)",
    "MINIMALIF": "an item that IF or NOTIF takes is neither 01 nor empty",
    "MINIMALDATA": "a push or a number is not minimally encoded (BIP 62)",
    "WITNESS_PUBKEYTYPE": "a key is not compressed",
    "WITNESS_SCRIPT_SIZE": "the witness script has more than 3,600 bytes",
    "WITNESS_ITEMS": "the witness has more than 100 items beside the script",
    "WITNESS_ITEM_SIZE": "an item of the witness has more than 80 bytes",
}


FAULTS = {
    "NoOutputs": "it has no output, which consensus refuses",
    "SameOutpoint": "two inputs spend one output, which consensus refuses",
    "NoOutpoint": "an input spends no output, which only a coinbase does",
    "TooMuch": "its outputs, or what it spends, have more than 21 million bitcoins together, which consensus refuses",
    "OutputsExceed": "its outputs have more than what it spends, which consensus refuses",
    "TooHeavy": "its weight is above 4,000,000, so no block takes it (BIP 141)",
    "TooManySigops": "its signature checks cost more than 80,000, so no block takes it (BIP 141)",
}


def count_of(count: int, word: str) -> str:
    """A number of things."""
    return f"{count} {word}{'' if count == 1 else 's'}"


def whole_page(it: dict[str, Any]) -> str:
    fee = "a fee that is not known" if it["fee"] is None else f"a fee of {count_of(it['fee'], 'satoshi')}"
    faults = "".join(f"  fault   {each}: {FAULTS[each]}\n" for each in it["faults"])
    return (
        f"transaction {it['txid']}: {count_of(it['inputs'], 'input')}, {count_of(it['outputs'], 'output')},"
        f" {fee}\n{faults}{wait_line(it.get('lock'))}"
    )


WAITS = {
    "above_height": "in a block above height {}",
    "above_time": "once the median time past is above {}, in seconds since 1970",
    "blocks": "after {} blocks: no block less than that above the spent output's takes it",
    "units": "after {} units of 512 seconds of median time past",
}


def wait_line(wait: dict[str, int] | None) -> str:
    """How long a transaction or one of its inputs has to wait, if it has."""
    return "".join(f"  when    {WAITS[name].format(number)}\n" for name, number in (wait or {}).items())


def signature_line(it: dict[str, Any]) -> str:
    """An item that is a signature, and of which key."""
    if it["key"]:
        return f"  signed  item {it['item']} by {it['key']}\n"
    return f"  invalid item {it['item']}: a signature of no compressed key that stands here\n"


def head(it: dict[str, Any]) -> str:
    start = f"input {it['input']}, {it['outpoint']},"
    if it["answer"] == "clean":
        on = "its paths are not listed" if it["path"] is None else f"path {it['path']}"
        entries = f"{it['height']} {'entry' if it['height'] == 1 else 'entries'}"
        return f"{start} is clean: {on}; {count_of(it['counted'], 'opcode')} counted, {entries} at most\n"
    why = f"{it['reason']}: {it['says']}\n"
    if it["answer"] == "not judged":
        return f"{start} is not judged: {why}"
    at = f" at opcode {it['opcode']} ({it['op'] or 'end'}), byte {it['byte']}" if "opcode" in it else ""
    return (
        f"{start} {'stops' if it['answer'] == 'stops' else 'is stricter here: consensus takes it, and the machine stops'}{at}:"
        f" {why}"
    )


def page(it: dict[str, Any]) -> str:
    """The lines of one object."""
    if "txid" in it:
        return whole_page(it)
    found = head(it)
    found += "".join(signature_line(each) for each in it.get("signatures", []))
    found += "".join(f"  stack   {each or '-'}\n" for each in it.get("stack", []))
    found += wait_line(it.get("age"))
    found += "".join(f"  relay   {each}: {RELAY[each]}\n" for each in it.get("relay", []))
    return found + (f"  digest  {it['digest']}\n" if "digest" in it else "")
