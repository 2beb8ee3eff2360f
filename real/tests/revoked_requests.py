"""Requests for `spend revoked` from BOLT 3's Appendix C, and what it has to answer by the appendix's own outputs.
Tested, not proved.
"""
from collections.abc import Iterator
from typing import Any

from real.lib.transaction import read_transaction, sha256, shown_id
from real.tests.revoked_states import FUNDING_KEYS, SHARED, SHARED_HTLCS, htlc, with_anchors, with_outputs
from real.tests.spend_requests import again, line, without

KEYS = {
    "revocation": "local_revocation_pubkey",
    "delayed": "local_delayedpubkey",
    "local_htlc": "local_htlcpubkey",
    "remote_htlc": "remote_htlcpubkey",
    "remote": "remote_payment_basepoint",
}
CONFIRMED = 502
# why no claim is on to_remote of a channel with anchors
REMOTE = {
    "to_remote": (
        "its script has CHECKSIGVERIFY, which no claim has: a wallet takes it by wsh(and_v(v:pk(KEY),older(1)))"
    )
}


def request(told: dict[str, Any], case: dict[str, Any], **changes: Any) -> dict[str, Any]:
    """What is asked of a case's commitment, with members changed."""
    asked = {
        "channel_type": "static_remotekey",
        "keys": {name: told["terms"]["keys"][it] for name, it in KEYS.items()},
        "delay_blocks": told["terms"]["local_delay"],
        "funding_keys": None,
        "htlcs": [htlc(told, it) for it in case["htlcs_given"]],
        "transaction": case["unsigned_tx_no_witness"],
        "confirmed_height": CONFIRMED,
    }
    return {**asked, **changes}


def others(named: Any, reasons: dict[str, str] | None = None) -> list[dict[str, Any]]:
    """What is said of outputs without a claim, by their indices and names."""
    why = reasons or {}
    return [
        {"index": index, "name": name, **({"reason": why[name]} if name in why else {})} for index, name in named
    ]


def owner_height(kind: str, expiry: int | None, waits: int, confirmed: int = CONFIRMED) -> int | None:
    """The first block in which the owner takes an output, by BIPs 65 and 68 and a delay of 144."""
    heights = {"to_local": confirmed + 144, "to_remote": None, "received": confirmed + waits}
    return max(confirmed + waits, (expiry or 0) + 1) if kind == "offered" else heights[kind]


def claim(
    told: dict[str, Any], txid: str, at: int, output: tuple[str, int, str, str, int | None], waits: int
) -> dict[str, Any]:
    """The claim on an output: its kind, value, program, script and expiry."""
    kind, value, program, script, expiry = output
    keys = {name: told["terms"]["keys"][it] for name, it in KEYS.items()}
    key = keys["remote"] if kind == "to_remote" else keys["revocation"]
    fills = {
        "outpoint": f"{txid}:{at}",
        "path": 0,
        "program": program,
        "script": script,
        "shell": None,
        "slots": [["exact", "01" if kind == "to_local" else key], ["sig", key]],
        "value": value,
    }
    return {"kind": kind, "owner_height": owner_height(kind, expiry, waits), "output": fills}


def answers(told: dict[str, Any]) -> Iterator[tuple[dict[str, Any], dict[str, Any]]]:
    """Requests with their answers: each commitment of the appendix, each of its HTLC transactions, one with another
    delay, and one with anchors.
    """
    for case in told["cases"]:
        outputs = []
        for it in case["outputs"]:
            script = it.get("witness_script") or f"76a914{it['script_pubkey'][4:]}88ac"
            outputs.append((it["kind"], it["value_sat"], it["script_pubkey"], script, it.get("cltv_expiry")))
        claims = [claim(told, case["txid_hash_order"], at, it, 0) for at, it in enumerate(outputs)]
        yield request(told, case), {"claims": claims, "others": []}
        local = [at for at, it in enumerate(outputs) if it[0] == "to_local"]
        left = [it for at, it in enumerate(claims) if at not in local]
        unknown = others((at, "unknown") for at in local)
        yield request(told, case, delay_blocks=145), {"claims": left, "others": unknown}
        for it in case["htlc_transactions"]:
            made = read_transaction(bytes.fromhex(it["unsigned_tx_no_witness"]))
            script = next(each[3] for each in outputs if each[0] == "to_local")
            output = ("to_local", made.outputs[0].value, made.outputs[0].program.hex(), script, None)
            txid = shown_id(bytes.fromhex(made.txid()))
            asked = request(told, case, transaction=it["unsigned_tx_no_witness"], htlcs=[])
            yield asked, {"claims": [claim(told, txid, 0, output, 0)], "others": []}
    yield from anchored(told, told["cases"][1])


def anchor_names(told: dict[str, Any], outputs: list[tuple[str, int, str, str, int | None]]) -> list[str]:
    """The names of outputs, where anchors have the keys of Appendix C's funding output."""
    ours, theirs = (told["terms"]["keys"][it] for it in FUNDING_KEYS)
    anchors = {ours: "own_anchor", theirs: "peer_anchor"}
    return [anchors[it[3][2:68]] if it[0] == "anchor" else it[0] for it in outputs]


def anchored(told: dict[str, Any], case: dict[str, Any]) -> Iterator[tuple[dict[str, Any], dict[str, Any]]]:
    """The outputs of a case as they are with anchors: to_remote and the anchors are among the others, and have names.
    Anchors have them where the funding keys are told.
    """
    outputs = [
        (kind, value, "0020" + sha256(bytes.fromhex(script)).hex(), script, expiry)
        for kind, value, script, expiry in with_anchors(told, case)
    ]
    transaction = with_outputs(case, [(value, program) for _, value, program, _, _ in outputs])
    txid = shown_id(bytes.fromhex(read_transaction(bytes.fromhex(transaction), marked=False).txid()))
    mine = [at for at, it in enumerate(outputs) if it[0] not in ("anchor", "to_remote")]
    claims = [claim(told, txid, at, outputs[at], 1) for at in mine]
    left = [(at, name) for at, name in enumerate(anchor_names(told, outputs)) if at not in mine]
    ours, theirs = (told["terms"]["keys"][it] for it in FUNDING_KEYS)
    asked = request(told, case, transaction=transaction, channel_type="anchors")
    yield {**asked, "funding_keys": {"own": ours, "peer": theirs}}, {"claims": claims, "others": others(left, REMOTE)}
    left = [(at, "unknown" if name.endswith("anchor") else name) for at, name in left]
    yield asked, {"claims": claims, "others": others(left, REMOTE)}


def shared(told: dict[str, Any]) -> Iterator[tuple[dict[str, Any], list[int | None]]]:
    """Two offered HTLCs of one hash, told in either order, and the first block of each output for its owner."""
    case, numbers = told["cases"][1], SHARED_HTLCS
    for order in (numbers, numbers[::-1]):
        htlcs = [htlc(told, it) for it in (1, *order)]
        least = min(it["expiry_height"] for it in htlcs[1:])
        asked = request(told, case, transaction=with_outputs(case, SHARED), htlcs=htlcs, confirmed_height=500)
        yield asked, [500, least + 1, least + 1, None, 644]


def unknown_notes(answer: dict[str, Any]) -> list[str]:
    """What is noted of the outputs without a name in an answer."""
    found = [it["index"] for it in answer["others"] if it["name"] == "unknown"]
    more = f" and {len(found) - 1} more" * (len(found) > 1)
    if not found:
        return []
    return [
        f"others: output {found[0]}{more}: no script of this commitment has this program: compare channel_type,"
        " delay_blocks, htlcs, keys and, for anchors, funding_keys"
    ]


def wrong_expiries(told: dict[str, Any]) -> Iterator[tuple[dict[str, Any], dict[str, Any]]]:
    """An expiry that is one block late: the script of an offered HTLC does not have it, so that heights are late too, and
    that of a received one has it, so that its output is another's.
    """
    case = told["cases"][1]
    outputs, txid = [], case["txid_hash_order"]
    for it in case["outputs"]:
        script = it.get("witness_script") or f"76a914{it['script_pubkey'][4:]}88ac"
        outputs.append((it["kind"], it["value_sat"], it["script_pubkey"], script, it.get("cltv_expiry")))
    for at, it in enumerate(case["outputs"]):
        if "htlc" in it:
            htlcs = [htlc(told, number) for number in case["htlcs_given"]]
            late = case["htlcs_given"].index(it["htlc"])
            htlcs[late] = {**htlcs[late], "expiry_height": it["cltv_expiry"] + 1}
            found = [(*each[:4], each[4] + 1) if place == at else each for place, each in enumerate(outputs)]
            is_known = it["kind"] == "offered"
            claims = [claim(told, txid, place, each, 0) for place, each in enumerate(found) if is_known or place != at]
            left = others([(at, "unknown")] * (not is_known))
            yield request(told, case, htlcs=htlcs), {"claims": claims, "others": left}


def unlisted(told: dict[str, Any]) -> Iterator[tuple[dict[str, Any], list[str]]]:
    """Two outputs of offered HTLCs of one hash, of which the request has both, or one; and the note."""
    case, numbers = told["cases"][1], SHARED_HTLCS
    asked = request(told, case, transaction=with_outputs(case, SHARED))
    for count in (2, 1):
        htlcs = [htlc(told, it) for it in (1, *numbers[:count])]
        note = (
            f"2 outputs are offered HTLCs of hash {htlcs[1]['hash']}, and htlcs has 1 of it: an expiry that is left out"
            " may be before the heights that are told"
        )
        yield {**asked, "htlcs": htlcs}, [note] * (count == 1)


def without_delay(told: dict[str, Any]) -> dict[str, Any]:
    """A commitment whose to_local waits for nothing (BOLT 3): its script pushes 0."""
    case, keys = told["cases"][1], told["terms"]["keys"]
    script = f"6321{keys[KEYS['revocation']]}6700b27521{keys[KEYS['delayed']]}68ac"
    transaction = with_outputs(case, [(5_000, "0020" + sha256(bytes.fromhex(script)).hex())])
    return request(told, case, transaction=transaction, delay_blocks=0)


def faults(told: dict[str, Any]) -> Iterator[tuple[str, str, int, str]]:
    """Requests with a part at fault, each with its refusal and the note that names the part."""
    asked = request(told, told["cases"][1])
    keys, htlcs = asked["keys"], asked["htlcs"]
    key = (
        "keys: wanted: an object of revocation, delayed, local_htlc, remote_htlc and remote, each a compressed key in"
        " hexadecimal"
    )
    one = (
        "wanted: an object of direction, offered or received, hash, 32 bytes in hexadecimal, and expiry_height, below"
        " 500000000"
    )
    raw = "transaction: wanted: a transaction in hexadecimal, with or without its witnesses (BIP 144)"
    blocks = "delay_blocks: wanted: a number of blocks, as an integer of at most 16 bits without quotes"
    height = "confirmed_height: wanted: a height, as an integer of at most 32 bits without quotes"
    funding = "funding_keys: wanted: an object of own and peer, each a compressed key in hexadecimal, or null"
    for members, note in (
        ({"channel_type": "anchor"}, "channel_type: wanted: static_remotekey or anchors, in quotes"),
        ({"confirmed_height": None}, height),
        ({"confirmed_height": 1 << 32}, height),
        ({"delay_blocks": 65_536}, blocks),
        ({"funding_keys": [keys["remote"], keys["remote"]]}, funding),
        ({"keys": without(keys, "remote")}, key),
        ({"keys": {**keys, "payment": keys["remote"]}}, key),
        ({"keys": {**keys, "delayed": "04" + keys["delayed"][2:]}}, key),
        ({"htlcs": [htlcs[0], {**htlcs[1], "direction": "recieved"}]}, f"htlcs[1]: {one}"),
        ({"htlcs": [{**htlcs[0], "expiry_height": 500_000_000}]}, f"htlcs[0]: {one}"),
        ({"htlcs": [{**htlcs[0], "hash": "07" * 31}]}, f"htlcs[0]: {one}"),
        ({"htlcs": {}}, "htlcs: wanted: an array"),
        ({"transaction": asked["transaction"][:-2]}, raw),
        ({"transaction": "0g"}, raw),
        ({"secret": "07" * 32}, "secret: no member of this name belongs here"),
    ):
        yield line({**asked, **members}), "BadShape", 2, note
    yield line(without(asked, "keys")), "BadShape", 2, "keys: it is missing"
    delays, remotes = '"delay_blocks":143,"delay_blocks":144', f'"remote":"","remote":"{keys["remote"]}"'
    for name, one, twice in (("delay_blocks", delays[19:], delays), ("remote", remotes[12:], remotes)):
        text = line(asked).replace(one, twice)
        yield text, "BadShape", 2, f"{name}: {again(text, twice)}"
    yield "[]", "BadShape", 2, "the request: wanted: an object"
    yield "{", "NotJson", 1, "the text ends too early: line 1, column 1"
