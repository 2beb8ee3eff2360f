"""Requests for `spend close` from BOLT 3's Appendix C, and what it has to answer by the appendix's own outputs and HTLC
transactions. Tested, not proved.
"""
from collections.abc import Iterator
from typing import Any

from real.lib.transaction import read_transaction, sha256, shown_id
from real.tests import revoked_requests
from real.tests.revoked_requests import REMOTE, anchor_names, others
from real.tests.revoked_states import FUNDING_KEYS, SHARED, SHARED_HTLCS, htlc, with_anchors, with_outputs
from real.tests.spend_requests import line, without

CONFIRMED, DELAY = 502, 144
# why no claim is on one's own HTLCs of a channel with anchors
HTLC = dict.fromkeys(
    ("offered", "received"),
    "its HTLC transaction pays no fee, so it needs an input of your own, which no claim has",
)
Output = tuple[str, int, str, str, int | None]


def request(told: dict[str, Any], case: dict[str, Any], whose: str, **changes: Any) -> dict[str, Any]:
    """What is asked of a case's commitment, with all preimages, and with members changed."""
    asked = {
        **revoked_requests.request(told, case),
        "feerate_per_kw": case["feerate_per_kw"],
        "preimages": [it["preimage"] for it in told["htlcs"]],
        "whose": whose,
        "confirmed_height": CONFIRMED,
    }
    return {**asked, **changes}


def keys_of(told: dict[str, Any]) -> dict[str, str]:
    return {name: told["terms"]["keys"][it] for name, it in revoked_requests.KEYS.items()}


def element(kind: str, heights: tuple[int | None, int | None], output: dict[str, Any]) -> dict[str, Any]:
    return {"kind": kind, "from_height": heights[0], "deadline_height": heights[1], "output": output}


def placed(txid: str, at: int, output: Output, path: int, shell: str | None, slots: list[list[str]]) -> dict[str, Any]:
    _, value, program, script, _ = output
    return {
        "outpoint": f"{txid}:{at}",
        "path": path,
        "program": program,
        "script": script,
        "shell": shell,
        "slots": slots,
        "value": value,
    }


def direct(told: dict[str, Any], txid: str, at: int, output: Output, hashes: dict[int, str], waits: int) -> Any:
    """What one claims of an output of the peer's commitment, by BIPs 65 and 68."""
    kind, _, _, _, expiry = output
    keys, least = keys_of(told), CONFIRMED + waits
    after = max(least, (expiry or 0) + 1)
    if kind == "to_remote":
        slots = [["exact", keys["remote"]], ["sig", keys["remote"]]]
        return element(kind, (CONFIRMED, None), placed(txid, at, output, 0, None, slots))
    top = ["preimage", hashes[at]] if kind == "offered" else ["exact", ""]
    slots = [top, ["sig", keys["remote_htlc"]]]
    heights = (least, after) if kind == "offered" else (after, least)
    return element(kind, heights, placed(txid, at, output, 2, None, slots))


def second_stage(
    told: dict[str, Any], txid: str, at: int, output: Output, hashes: dict[int, str], made: dict[str, Any]
) -> Any:
    """What one claims of an HTLC of one's own commitment: by the appendix's HTLC transaction, with its digest."""
    kind, _, _, _, expiry = output
    keys, after = keys_of(told), max(CONFIRMED, (expiry or 0) + 1)
    top = ["exact", ""] if kind == "offered" else ["preimage", hashes[at]]
    token = keys["remote_htlc"] + made["bip143_digest"] + "01"
    slots = [top, ["sig", keys["local_htlc"]], ["exact", token], ["exact", ""]]
    heights = (after, CONFIRMED) if kind == "offered" else (CONFIRMED, after)
    return element(kind, heights, placed(txid, at, output, 1, made["unsigned_tx_no_witness"], slots))


def delayed(told: dict[str, Any], txid: str, at: int, output: Output) -> Any:
    slots = [["exact", ""], ["sig", keys_of(told)["delayed"]]]
    return element("to_local", (CONFIRMED + DELAY, None), placed(txid, at, output, 1, None, slots))


def outputs_of(case: dict[str, Any]) -> list[Output]:
    return [
        (
            it["kind"],
            it["value_sat"],
            it["script_pubkey"],
            it.get("witness_script") or f"76a914{it['script_pubkey'][4:]}88ac",
            it.get("cltv_expiry"),
        )
        for it in case["outputs"]
    ]


def answers(told: dict[str, Any]) -> Iterator[tuple[dict[str, Any], dict[str, Any]]]:
    """Requests with their answers: each commitment of the appendix as one's own and as the peer's, without preimages
    too, each of its HTLC transactions, and one with anchors.
    """
    for case in told["cases"]:
        outputs, txid = outputs_of(case), case["txid_hash_order"]
        hashes = {
            at: next(known["payment_hash"] for known in told["htlcs"] if known["id"] == it["htlc"])
            for at, it in enumerate(case["outputs"])
            if "htlc" in it
        }
        made = {it["commitment_output_index"]: it for it in case["htlc_transactions"]}
        local = [at for at, it in enumerate(outputs) if it[0] == "to_local"]
        remote = [at for at, it in enumerate(outputs) if it[0] == "to_remote"]
        htlcs = [at for at, it in enumerate(outputs) if it[0] in ("offered", "received")]
        own = {at: second_stage(told, txid, at, outputs[at], hashes, made[at]) for at in htlcs}
        own.update({at: delayed(told, txid, at, outputs[at]) for at in local})
        peers = {at: direct(told, txid, at, outputs[at], hashes, 0) for at in (*htlcs, *remote)}
        named = [(at, it[0]) for at, it in enumerate(outputs)]
        for whose, claims in (("own", own), ("peer", peers)):
            for preimages, unpaid in ((None, ""), ([], "received" if whose == "own" else "offered")):
                left = {at: it for at, it in claims.items() if it["kind"] != unpaid}
                asked = request(told, case, whose)
                answer = {
                    "claims": [left[at] for at in sorted(left)],
                    "others": others(it for it in named if it[0] not in left),
                }
                yield asked if preimages is None else {**asked, "preimages": preimages}, answer
        for it in case["htlc_transactions"]:
            found = read_transaction(bytes.fromhex(it["unsigned_tx_no_witness"]))
            output = "to_local", found.outputs[0].value, found.outputs[0].program.hex(), outputs[local[0]][3], None
            second = shown_id(bytes.fromhex(found.txid()))
            asked = request(told, case, "own", transaction=it["unsigned_tx_no_witness"], htlcs=[], preimages=[])
            yield asked, {"claims": [delayed(told, second, 0, output)], "others": []}
            yield {**asked, "whose": "peer"}, {"claims": [], "others": others([(0, "to_local")])}
    yield from anchored(told, told["cases"][1])


def anchored(
    told: dict[str, Any], case: dict[str, Any]
) -> Iterator[tuple[dict[str, Any], dict[str, Any]]]:
    """The outputs of a case as they are with anchors: the HTLCs of the peer's commitment wait for a block, those of
    one's own are named, and so are to_remote and the anchors.
    """
    outputs = [
        (kind, value, "0020" + sha256(bytes.fromhex(script)).hex(), script, expiry)
        for kind, value, script, expiry in with_anchors(told, case)
    ]
    transaction = with_outputs(case, [(value, program) for _, value, program, _, _ in outputs])
    txid = shown_id(bytes.fromhex(read_transaction(bytes.fromhex(transaction), marked=False).txid()))
    numbers = {it["cltv_expiry"]: it["payment_hash"] for it in told["htlcs"]}
    hashes = {at: numbers[it[4]] for at, it in enumerate(outputs) if it[4] is not None}
    ours, theirs = (told["terms"]["keys"][it] for it in FUNDING_KEYS)
    names = anchor_names(told, outputs)
    changes = {"transaction": transaction, "channel_type": "anchors"}
    told_keys = {"own": ours, "peer": theirs}
    for whose in ("own", "peer"):
        claims = {}
        for at, it in enumerate(outputs):
            if whose == "own" and it[0] == "to_local":
                claims[at] = delayed(told, txid, at, it)
            if whose == "peer" and it[4] is not None:
                claims[at] = direct(told, txid, at, it, hashes, 1)
        for keys in (told_keys, None):
            named = [
                (at, name if keys or not name.endswith("anchor") else "unknown")
                for at, name in enumerate(names)
                if at not in claims
            ]
            answer = {"claims": [claims[at] for at in sorted(claims)], "others": others(named, HTLC if whose == "own" else REMOTE)}
            yield request(told, case, whose, **changes, funding_keys=keys), answer


def bounds(told: dict[str, Any]) -> Iterator[tuple[dict[str, Any], list[tuple[int | None, int | None]]]]:
    """Appendix C's commitment in blocks about the expiries of its HTLCs, in the order of its outputs: received until 500,
    offered until 502, received until 501, offered until 503, received until 504, to_remote and to_local.
    """
    case = told["cases"][1]
    for confirmed in (0, 499, 500, 501, 502, 503, 504, 505):
        after = {expiry: max(confirmed, expiry + 1) for expiry in range(500, 505)}
        received = [(confirmed, after[it]) for it in (500, 501, 504)]
        offered = [(after[it], confirmed) for it in (502, 503)]
        own = [received[0], offered[0], received[1], offered[1], received[2], (confirmed + DELAY, None)]
        yield request(told, case, "own", confirmed_height=confirmed), own
        taken = [(late, soon) for soon, late in received]
        paid = [(soon, late) for late, soon in offered]
        peers = [taken[0], paid[0], taken[1], paid[1], taken[2], (confirmed, None)]
        yield request(told, case, "peer", confirmed_height=confirmed), peers
    yield request(told, case, "own", confirmed_height=None), [(None, None)] * 6


def shared(told: dict[str, Any]) -> Iterator[tuple[dict[str, Any], list[int]]]:
    """Two offered HTLCs of one hash, told in either order and one of them twice: each of their outputs has a claim for
    each expiry. The lock times of the HTLC transactions.
    """
    case, numbers = told["cases"][1], SHARED_HTLCS
    for order in (numbers, numbers[::-1], (*numbers, numbers[0])):
        htlcs = [htlc(told, it) for it in (1, *order)]
        expiries = list(dict.fromkeys(it["expiry_height"] for it in htlcs[1:]))
        asked = request(told, case, "own", transaction=with_outputs(case, SHARED), htlcs=htlcs)
        yield asked, [0, *expiries, *expiries]


def unlisted(told: dict[str, Any]) -> Iterator[tuple[dict[str, Any], list[str]]]:
    """The same two outputs of one hash as `spend revoked` is asked about, and the note."""
    for asked, notes in revoked_requests.unlisted(told):
        whole = request(told, told["cases"][1], "own", transaction=asked["transaction"], htlcs=asked["htlcs"])
        yield whole, notes
        yield {**whole, "whose": "peer"}, notes


def low_values(told: dict[str, Any]) -> Iterator[tuple[dict[str, Any], list[str]]]:
    """Feerates by which the first HTLC transaction leaves 330 satoshis, or one less, or nothing: of the received HTLC of
    1,000 satoshis, and without preimages of the offered one of 2,000. Nothing hangs on it where the peer closed.
    """
    for value, weight, known in ((1_000, 703, {}), (2_000, 663, {"preimages": []})):
        for feerate in (0, 953, 954, 955, 2_520, 2_521, 2**32 - 1):
            left = max(value - weight * feerate // 1_000, 0)
            note = (
                f"claims[0]: by this feerate_per_kw its HTLC transaction leaves {left} of {value} satoshis, and nodes relay"
                " no such output below 330: a commitment has no output for such an HTLC (BOLT 3), so its feerate is"
                " another one"
            )
            asked = request(told, told["cases"][1], "own", feerate_per_kw=feerate, **known)
            yield asked, [note] * (left < 330)
            yield {**asked, "whose": "peer"}, []


def feerates(told: dict[str, Any]) -> Iterator[tuple[dict[str, Any], bool]]:
    """Feerates, and whether the HTLC transactions are those that the peer signed: by one of which each fee is the same,
    rounded down (BOLT 3, "Fee Calculation"), and by no other.
    """
    case = told["cases"][1]
    signed = case["feerate_per_kw"]
    for feerate in range(signed - 3, signed + 3):
        fees = [[it * weight // 1000 for weight in (663, 703)] for it in (feerate, signed)]
        yield request(told, case, "own", feerate_per_kw=feerate), fees[0] == fees[1]


def faults(told: dict[str, Any]) -> Iterator[tuple[str, str, int, str]]:
    """Requests with a part at fault, each with its refusal and the note that names the part."""
    asked = request(told, told["cases"][1], "own")
    height = "confirmed_height: wanted: a height, as an integer of at most 32 bits without quotes, or null"
    keys = "funding_keys: wanted: an object of own and peer, each a compressed key in hexadecimal, or null"
    feerate = "feerate_per_kw: wanted: satoshis for 1,000 units of weight, as an integer of at most 32 bits without quotes"
    one = told["terms"]["keys"][FUNDING_KEYS[0]]
    for members, note in (
        ({"confirmed_height": 1 << 32}, height),
        ({"confirmed_height": "502"}, height),
        ({"whose": "peers"}, "whose: wanted: own or peer, in quotes"),
        ({"funding_keys": {"own": one}}, keys),
        ({"funding_keys": {"own": one, "peer": "04" + one[2:]}}, keys),
        ({"feerate_per_kw": 1 << 32}, feerate),
        ({"preimages": ["07" * 31]}, "preimages[0]: wanted: 32 bytes in hexadecimal"),
        ({"channel_type": "anchor"}, "channel_type: wanted: static_remotekey or anchors, in quotes"),
        ({"secret": "07" * 32}, "secret: no member of this name belongs here"),
    ):
        yield line({**asked, **members}), "BadShape", 2, note
    yield line(without(asked, "whose")), "BadShape", 2, "whose: it is missing"
    yield "[]", "BadShape", 2, "the request: wanted: an object"
    yield "{", "NotJson", 1, "the text ends too early: line 1, column 1"
