"""The signed transactions of five cases of BOLT 3's Appendix C (static_remotekey, no anchors), and changed ones with
the answer that is wanted. Tested, not proved.

bolt3.json has the cases; its members say where they come from.
"""
import json
import os
from collections.abc import Iterator
from typing import Any

from real.lib.transaction import Output, Transaction, read_transaction, sha256

HERE = os.path.dirname(os.path.abspath(__file__))
FUNDING_SCRIPT_END, OFFERED_END, RECEIVED_END = 5, 26, 29
ALL = b"\x01"
# the HTLC transaction of docs/REAL.md
PLANNED = "commitment tx with seven outputs", 0


def read() -> dict[str, Any]:
    with open(os.path.join(HERE, "bolt3.json"), encoding="utf-8") as file:
        return json.load(file)


def signed_transaction(raw: str, items: list[bytes], script: bytes, value: int) -> tuple[Transaction, Output]:
    """A transaction with one input, which has these items and this script."""
    found = read_transaction(bytes.fromhex(raw), marked=False)
    found.inputs[0].witness = [*items, script]
    return found, Output(value, b"\x00\x20" + sha256(script))


def signatures_of(told: dict[str, Any], *names: str) -> list[bytes]:
    return [bytes.fromhex(told[it]) + ALL for it in names]


def commitments(told: dict[str, Any]) -> Iterator[tuple[str, Transaction, Output, int, int]]:
    """Each case's commitment, with the place at which a run of its script ends and its path."""
    for case in told["cases"]:
        ours, theirs = signatures_of(case, "local_signature_der", "remote_signature_der")
        items = (
            [b"", ours, theirs]
            if told["terms"]["keys"]["local_funding_pubkey"] < told["terms"]["keys"]["remote_funding_pubkey"]
            else [b"", theirs, ours]
        )
        script = bytes.fromhex(case["funding_witness_script"])
        yield case["name"], *signed_transaction(
            case["unsigned_tx_no_witness"], items, script, told["terms"]["funding_amount_sat"]
        ), FUNDING_SCRIPT_END, 0


def htlc_transactions(told: dict[str, Any]) -> Iterator[tuple[str, Transaction, Output, int, int]]:
    """Each HTLC transaction: path 1 of its script, by both keys (BOLT 3)."""
    preimages = {it["id"]: bytes.fromhex(it["preimage"]) for it in told["htlcs"]}
    for case in told["cases"]:
        for it in case["htlc_transactions"]:
            output = case["outputs"][it["commitment_output_index"]]
            success = it["kind"] == "success"
            items = [
                b"",
                *signatures_of(it, "remote_htlc_signature_der", "local_htlc_signature_der"),
                preimages[it["htlc"]] if success else b"",
            ]
            found = signed_transaction(
                it["unsigned_tx_no_witness"], items, bytes.fromhex(output["witness_script"]), output["value_sat"]
            )
            yield f"{case['name']}: HTLC {it['htlc']}", *found, RECEIVED_END if success else OFFERED_END, 1


def changed_rows(name: str, transaction: Transaction, spent: Output, end: int) -> Iterator[dict[str, Any]]:
    """The transaction with a changed signature, amount and order: each leaves a false entry at the end."""
    answer = [{"answer": "stops", "reason": "FalseEnd", "opcode": end}]
    items = transaction.inputs[0].witness
    for place in (1, 2):
        changed_items = list(items)
        changed_items[place] = items[place][:-2] + bytes([items[place][-2] ^ 1]) + ALL
        yield row(f"{name} / signature {place}", transaction, changed_items, spent, answer)
    yield row(f"{name} / amount", transaction, items, Output(spent.value + 1, spent.program), answer)
    yield row(f"{name} / order", transaction, [items[0], items[2], items[1], *items[3:]], spent, answer)


def row(
    name: str, transaction: Transaction, items: list[bytes], spent: Output, answers: list[dict[str, Any]]
) -> dict[str, Any]:
    transaction.inputs[0].witness = items
    return {
        "name": name,
        "transaction": transaction.bytes().hex(),
        "spent": [[spent.value, spent.program.hex()]],
        "answers": answers,
    }


def rows() -> Iterator[dict[str, Any]]:
    told = read()
    for name, transaction, spent, end, path in [*commitments(told), *htlc_transactions(told)]:
        items = transaction.inputs[0].witness
        yield row(name, transaction, items, spent, [{"answer": "clean", "path": path, "relay": []}])
        yield from changed_rows(name, transaction, spent, end)


def vectors() -> Iterator[tuple[str, str, Transaction, Output]]:
    """The id in the hash's own byte order and the digest of each transaction, with the transaction and what it spends."""
    told = read()
    cases = [*told["cases"], *(it for case in told["cases"] for it in case["htlc_transactions"])]
    for it, (_, transaction, spent, _, _) in zip(cases, [*commitments(told), *htlc_transactions(told)]):
        yield it["txid_hash_order"], it["bip143_digest"], transaction, spent


def plan(told: dict[str, Any], case_name: str, htlc: int) -> dict[str, Any]:
    """An HTLC transaction of the appendix, as the plan of an unsigned spend tells it."""
    case = next(it for it in told["cases"] if it["name"].startswith(case_name))
    it = next(it for it in case["htlc_transactions"] if it["htlc"] == htlc)
    output = case["outputs"][it["commitment_output_index"]]
    success = it["kind"] == "success"
    preimage = next(each["preimage"] for each in told["htlcs"] if each["id"] == htlc) if success else ""
    keys = [told["terms"]["keys"][each] for each in ("remote_htlcpubkey", "local_htlcpubkey")]
    wanted = [{"item": place, "key": key, "digest": it["bip143_digest"]} for place, key in enumerate(keys, 1)]
    witness = ["", None, None, preimage, output["witness_script"]]
    spent = {
        "value": output["value_sat"],
        "program": output["script_pubkey"],
        "script": output["witness_script"],
        "path": 1,
        "witness": witness,
        "signatures": wanted,
    }
    return {
        "transaction": it["unsigned_tx_no_witness"],
        "fee": output["value_sat"] - it["output_value_sat"],
        "inputs": [spent],
    }
