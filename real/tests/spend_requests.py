"""Requests for the program `spend`, and the plans that it has to print, worked out anew from BIPs 68, 141 and 143.
Tested, not proved.
"""
import json
import os
import subprocess
from collections.abc import Iterator
from typing import Any

from real.lib.errors import NotRun
from real.lib.penalty_notes import is_curve_x
from real.lib.ripemd160 import ripemd160
from real.lib.transaction import Input, Output, Transaction, compact_size, sha256, shown_id
from real.tests import bolt3

TOP = os.path.dirname(os.path.dirname(os.path.dirname(os.path.abspath(__file__))))
SECONDS, SIGNATURE = 900, bytes(73)
CASE = "commitment tx with seven outputs"
MAX_MONEY = 2_100_000_000_000_000
PAID = (
    "destination: a program that is paid is P2PKH, P2SH, or a witness program of version 0 with 20 or 32 bytes, or of"
    " version 1 with 32"
)
# BOLT 3, "Dust Limits": the hash of a key and of a script, before version 0 and in it. Taproot's is as long as the hash
# of a script
DUST = (
    ("76a914" + "11" * 20 + "88ac", 546),
    ("a914" + "11" * 20 + "87", 540),
    ("0014" + "11" * 20, 294),
    ("0020" + "11" * 32, 330),
    ("5120" + "11" * 32, 330),
)


def line(value: dict[str, Any]) -> str:
    return json.dumps(value, separators=(",", ":")) + "\n"


def claim(told: dict[str, Any], index: int, path: int, slots: list[list[str]]) -> dict[str, Any]:
    """A claim on an output of the case's commitment."""
    case = next(it for it in told["cases"] if it["name"].startswith(CASE))
    output = case["outputs"][index]
    script = output.get("witness_script") or f"76a914{output['script_pubkey'][4:]}88ac"
    place = {
        "outpoint": f"{case['txid_hash_order']}:{index}",
        "path": path,
        "program": output["script_pubkey"],
        "script": script,
    }
    return {**place, "shell": None, "slots": slots, "value": output["value_sat"]}


def preimage_slot(told: dict[str, Any], htlc: int) -> list[str]:
    return ["preimage", next(it["payment_hash"] for it in told["htlcs"] if it["id"] == htlc)]


def request(
    told: dict[str, Any], outputs: list[dict[str, Any]], htlcs: list[int], feerate_per_kw: int
) -> dict[str, Any]:
    """What is asked of `spend`: these outputs pay the peer, by the preimages of these HTLCs."""
    to_remote = next(it["outputs"] for it in told["cases"] if it["name"].startswith(CASE))[5]["script_pubkey"]
    preimages = [it["preimage"] for it in told["htlcs"] if it["id"] in htlcs]
    return {"outputs": outputs, "preimages": preimages, "destination": to_remote, "feerate_per_kw": feerate_per_kw}


def requests(
    told: dict[str, Any]
) -> Iterator[tuple[dict[str, int | list[dict[str, Any | None | int | str]] | list[str] | str], list[int], int]]:
    """Of each request the sequence of each input and the lock time that BOLT 3 has for it: what the peer takes of a
    commitment, by a preimage and after a timeout; an output to the hash of a key; one after its delay; and what both
    keys sign.
    """
    keys = told["terms"]["keys"]
    peer, own, empty = ["sig", keys["remote_htlcpubkey"]], ["sig", keys["local_htlcpubkey"]], ["exact", ""]
    by_preimage, after_timeout = claim(told, 1, 2, [preimage_slot(told, 2), peer]), claim(told, 2, 2, [empty, peer])
    payment = keys["remote_payment_basepoint"]
    to_remote = claim(told, 5, 0, [["exact", payment], ["sig", payment]])
    delayed = claim(told, 6, 1, [empty, ["sig", keys["local_delayedpubkey"]]])
    by_both = claim(told, 0, 1, [preimage_slot(told, 0), own, peer, empty])
    yield request(told, [by_preimage, after_timeout], [2], 253), [0, 0], 501
    yield request(told, [to_remote], [], 1000), [0], 0
    yield request(told, [delayed, to_remote, by_both], [0], 5000), [144, 0, 0], 0
    yield request(told, [after_timeout, by_both], [0, 1, 2], 500), [0, 0], 501


def witness_of(it: dict[str, Any], preimages: dict[str, str]) -> list[str | None]:
    """The witness of a claim, with None in the place of each signature."""
    found = []
    for kind, given in reversed(it["slots"]):
        found.append(None if kind == "sig" else preimages[given] if kind == "preimage" else given)
    return found + ([] if it["program"].startswith("0014") else [it["script"]])


def weight_of(transaction: Transaction, witnesses: list[list[str | None]]) -> int:
    """The weight with signatures of 73 bytes."""
    signed = Transaction(
        transaction.version,
        [Input(it.outpoint, b"", it.sequence) for it in transaction.inputs],
        transaction.outputs,
        transaction.lock_time,
    )
    for it, witness in zip(signed.inputs, witnesses):
        it.witness = [SIGNATURE if item is None else bytes.fromhex(item) for item in witness]
    return 3 * len(signed.stripped_bytes()) + len(signed.bytes())


def wanted_plan(told: dict[str, Any], asked: dict[str, Any], sequences: list[int], lock_time: int) -> dict[str, Any]:
    """The plan that `spend` has to print."""
    preimages = {it["payment_hash"]: it["preimage"] for it in told["htlcs"]}
    witnesses = [witness_of(it, preimages) for it in asked["outputs"]]
    inputs = []
    for it, sequence in zip(asked["outputs"], sequences):
        txid, index = it["outpoint"].split(":")
        inputs.append(Input(bytes.fromhex(txid) + int(index).to_bytes(4, "little"), b"", sequence))
    transaction = Transaction(2, inputs, [Output(0, bytes.fromhex(asked["destination"]))], lock_time)
    weight = weight_of(transaction, witnesses)
    fee = -(-asked["feerate_per_kw"] * weight // 1000)
    transaction.outputs[0].value = sum(it["value"] for it in asked["outputs"]) - fee
    told_inputs = []
    for number, (it, witness) in enumerate(zip(asked["outputs"], witnesses)):
        digest = transaction.digest(number, bytes.fromhex(it["script"]), it["value"]).hex()
        keys = [given for kind, given in it["slots"] if kind == "sig"]
        places = [place for place, item in enumerate(witness) if item is None]
        wanted = [{"item": place, "key": key, "digest": digest} for place, key in zip(reversed(places), keys)]
        shown = {"explorer": transaction.inputs[number].shown_outpoint()}
        told_inputs.append(
            {
                **shown,
                **{name: it[name] for name in ("value", "program", "script", "path")},
                "witness": witness,
                "signatures": wanted,
            }
        )
    return {
        "transaction": transaction.stripped_bytes().hex(),
        "explorer": transaction.txid(),
        "fee": fee,
        "weight": weight,
        "inputs": told_inputs,
    }


def shown_request(asked: dict[str, Any]) -> dict[str, Any]:
    """The same request, with each outpoint as explorers show it."""
    outputs = []
    for it in asked["outputs"]:
        txid, index = it["outpoint"].split(":")
        outputs.append(
            {
                "explorer": f"{shown_id(bytes.fromhex(txid))}:{index}",
                **{name: value for name, value in it.items() if name != "outpoint"},
            }
        )
    return {**asked, "outputs": outputs}


def spend_answer(text: str, *words: str) -> tuple[str, int]:
    """What `spend` prints after these words, and its status."""
    return spend_answers(text, *words)[:2]


def spend_answers(text: str, *words: str) -> tuple[str, int, list[Any]]:
    """What `spend` prints after these words, its status, and its notes."""
    try:
        ran = subprocess.run(
            [os.path.join(TOP, "spend"), *words], input=text.encode(), capture_output=True, timeout=SECONDS
        )
    except (OSError, subprocess.TimeoutExpired):
        raise NotRun("spend does not run here") from None
    if ran.returncode not in (0, 1):
        raise NotRun(f"spend answers with status {ran.returncode}")
    return (
        ran.stdout.decode(),
        ran.returncode,
        [it[len("note: ") :] for it in ran.stderr.decode().splitlines() if it.startswith("note: ")],
    )


def changed_request(asked: dict[str, Any], **members: Any) -> str:
    return line({**asked, **members})


def keyed_claim(told: dict[str, Any], prefix: str, value: int) -> dict[str, Any]:
    """A claim on an output whose script has this before a key's check."""
    key = told["terms"]["keys"]["remote_htlcpubkey"]
    script = f"{prefix}21{key}ac"
    output = {
        "outpoint": "07" * 32 + ":0",
        "path": 0,
        "program": "0020" + sha256(bytes.fromhex(script)).hex(),
        "script": script,
    }
    return {**output, "shell": None, "slots": [["sig", key]], "value": value}


def bounds(told: dict[str, Any]) -> Iterator[tuple[dict[str, Any], list[int], int, list[dict[str, Any]], str, int]]:
    """Requests at a bound, each with the refusal of the one beyond it: all the bitcoins there are, and for each kind
    of destination the least that is no dust.
    """
    asked, _, _ = next(requests(told))
    late = asked["outputs"][1]
    whole = {**asked, "outputs": [{**late, "value": MAX_MONEY - 1}, keyed_claim(told, "", 1)]}
    whole = {**whole, "feerate_per_kw": 0, "least_feerate_per_kw": 0}
    yield whole, [0, 0], 501, [whole["outputs"][0], keyed_claim(told, "", 2)], "ValueTooLarge", 8
    for destination, dust in DUST:
        paying = {**asked, "outputs": [late], "preimages": [], "destination": destination, "feerate_per_kw": 1000}
        fee = wanted_plan(told, paying, [0], 501)["fee"]
        yield {**paying, "outputs": [{**late, "value": fee + dust}]}, [0], 501, [
            {**late, "value": fee + dust - 1}
        ], "Dust", 10


def givens(told: dict[str, Any]) -> Iterator[tuple[dict[str, Any], tuple[str, int] | None, list[str]]]:
    """Destinations and feerates that are taken, and those that are refused, each with its notes: both sides of each
    bound.
    """
    asked, _, _ = next(requests(told))
    late = {**asked["outputs"][1], "value": 1_000_000_000}
    paying = {**asked, "outputs": [late], "preimages": []}
    for most, limit in (
        ({}, 250_000),
        ({"most_feerate_per_kw": 300}, 300),
        ({"most_feerate_per_kw": 1_000_000}, 1_000_000),
    ):
        raised = (
            f"the feerate is {limit // 250} satoshis for a virtual byte, and above the limit that holds without"
            " most_feerate_per_kw"
        )
        units = (
            f"the feerate is {limit // 250} satoshis for a virtual byte, and {4 * limit} for 1,000 of them, for which"
            " bitcoin-cli estimatesmartfee tells it"
        )
        notes = [raised] if limit > 250_000 else [units] * (limit >= 2_500)
        yield {**paying, **most, "feerate_per_kw": limit}, None, notes
        over = (
            f"{limit + 1} satoshis for 1,000 units of weight are {(limit + 1) // 250} for a virtual byte;"
            f" most_feerate_per_kw raises the limit of {limit}"
        )
        yield {**paying, **most, "feerate_per_kw": limit + 1}, ("TooHighFeerate", 14), [over]
    for least, limit in (({}, 253), ({"least_feerate_per_kw": 25}, 25), ({"least_feerate_per_kw": 300}, 300)):
        least_paying = {**paying, **least, "feerate_per_kw": limit}
        yield least_paying, None, cheap_notes(told, least_paying)
        under = (
            "by default nodes pass on nothing below one satoshi for a virtual byte, 250 for 1,000 units of weight, or"
            f" from Bitcoin Core 29.1 on below a tenth of that; least_feerate_per_kw lowers the limit of {limit}"
        )
        yield {**least_paying, "feerate_per_kw": limit - 1}, ("TooLowFeerate", 15), [under]
    # the fee is rounded up, so that 250 is a satoshi for each virtual byte of any weight
    for feerate in (0, 24, 247, 248, 249, 250, 252):
        cheap = {**paying, "least_feerate_per_kw": 0, "feerate_per_kw": feerate}
        yield cheap, None, cheap_notes(told, cheap)
    both = {"least_feerate_per_kw": 301, "most_feerate_per_kw": 299}
    over = (
        "300 satoshis for 1,000 units of weight are 1 for a virtual byte; most_feerate_per_kw raises the limit of 299"
    )
    yield {**paying, **both, "feerate_per_kw": 300}, ("TooHighFeerate", 14), [over]
    for feerate, notes in (
        (2_499, []),
        (
            2_500,
            [
                "the feerate is 10 satoshis for a virtual byte, and 10000 for 1,000 of them, for which bitcoin-cli"
                " estimatesmartfee tells it"
            ],
        ),
    ):
        yield {**paying, "feerate_per_kw": feerate}, None, notes
    fee = wanted_plan(told, {**paying, "feerate_per_kw": 1000}, [0], 501)["fee"]
    for value, notes in (
        (10 * fee, []),
        (10 * fee - 1, [f"the fee is above a tenth of the value: {fee} of {10 * fee - 1} satoshis"]),
    ):
        yield {**paying, "outputs": [{**late, "value": value}], "feerate_per_kw": 1000}, None, notes
    key = told["terms"]["keys"]["remote_htlcpubkey"]
    curve = "5120" + "12" * 32
    known = [*ORIGINS, "0014" + "00" * 19 + "01", "0014" + "ff" * 19 + "fe", "0020" + sha256(bytes(2)).hex(), "5120" + POINT_H[:-2] + "c1"]
    for destination in (curve, *known, *(it for it, _ in DUST)):
        yield {**paying, "destination": destination}, None, destination_notes(destination)
    for destination, what in open_scripts(told):
        again = f"destination: what it pays to is the hash of {what}: anyone can spend from it, or nobody"
        yield {**paying, "destination": destination}, None, [again] * bool(what)
    # without the preimage RIPEMD-160 of its hash stands in the script
    pushed = "0014" + ripemd160(bytes.fromhex(preimage_slot(told, 1)[1])).hex()
    again = "destination: what it pays to is the hash of 32 bytes of 01: anyone can spend from it, or nobody"
    yield {**paying, "destination": pushed}, None, [again]
    for destination in OPEN:
        yield {**paying, "destination": destination}, ("BadDestination", 13), destination_notes(destination)
    cut = [it[:-2] for it, _ in DUST] + [
        "0014" + "11" * 19,
        "0015" + "11" * 21,
        "001f" + "11" * 31,
        "0021" + "11" * 33,
    ]
    other = [
        "6029" + "11" * 41,
        "5020" + "11" * 32,
        "6120" + "11" * 32,
        "",
        "6a0400010203",
        key,
        f"21{key}ac",
        late["script"],
    ]
    for destination in (*cut, *other):
        yield {**paying, "destination": destination}, ("BadDestination", 13), [PAID]
    yield {**paying, "destination": "", "feerate_per_kw": 250_001}, ("BadDestination", 13), [PAID]
    poor = {**paying, "destination": "", "outputs": [{**late, "value": 400}]}
    # an output without a program has 9 bytes, and an input that spends it 148 (BIP 141)
    yield poor, ("Dust", 10), [dust_note(wanted_plan(told, poor, [0], 501)["fee"], 400, 3 * (9 + 148))]


# programs without a rule: of version 1 with another length than taproot's, one of them pay to anchor, and of versions 2 and
# 16, from the shortest to the longest
OPEN = [
    *("51024e73", "5103" + "11" * 3, "5115" + "00" * 21, "511f" + "11" * 31, "5121" + "11" * 33, "5128" + "11" * 40),
    *("5220" + "11" * 32, "6002" + "11" * 2, "6003" + "11" * 3, "6028" + "11" * 40),
]
# the x coordinates of the points G and 2G (SEC 2, 2.4.1) and of the point H (BIP 341)
POINT_G = "79be667ef9dcbbac55a06295ce870b07029bfcdb2dce28d959f2815b16f81798"
POINT_2G = "c6047f9441ed7d6d3045406e95c07cd85c778e4b8cef3ca7abac09b95c709ee5"
POINT_H = "50929b74c1a04954b78b4b6035e97a5e078a5a0f28ec96d547bfee9ace803ac0"
# programs whose hash or key is nobody's secret: HASH160 of nothing, of 51 and of the key 1 (BIP 173), SHA-256 of nothing
# and of 51; then HASH160 of the keys 1 and -1 in 65 bytes and of -1 in 33, and SHA-256 of 00, of 6a and of ff; P2SH-P2WPKH,
# P2WSH and P2SH of P2PK, P2WSH of P2PKH, P2SH-P2WSH of P2PK and P2WSH of P2WPKH, all of the key 1, P2SH-P2WPKH of the key
# -1, and P2WSH of P2PK of H; taproot by BIP 86
SCRIPT_OF_G = "the hash of a script of the point G, whose private key is 1"
ORIGINS = {
    "76a914" + "00" * 20 + "88ac": "zeros",
    "a914" + "00" * 20 + "87": "zeros",
    "0020" + "00" * 32: "zeros",
    "0014b472a266d0bd89c13706a4132ccfb16f7c3b9fcb": "the hash of nothing",
    "0020e3b0c44298fc1c149afbf4c8996fb92427ae41e4649b934ca495991b7852b855": "the hash of nothing",
    "a914da1745e9b549bd0bfa1a569971c77eba30cd5a4b87": "the hash of the script 51",
    "00204ae81572f06e1b88fd5ced7a1a000945432e83e1551e6f721ee9c00b8cc33260": "the hash of the script 51",
    "0014751e76e8199196d454941c45d1b3a323f1433bd6": "the hash of the point G, whose private key is 1",
    "76a914751e76e8199196d454941c45d1b3a323f1433bd688ac": "the hash of the point G, whose private key is 1",
    "76a91491b24bf9f5288532960ac687abb035127b1d28a588ac": "the hash of the point G, whose private key is 1",
    "76a914bec08011c9e76dcc42e739a2d7752c2e3ac86e6e88ac": "the hash of the point -G, whose private key is n - 1",
    "0014adde4c73c7b9cee17da6c7b3e2b2eea1a0dcbe67": "the hash of the point -G, whose private key is n - 1",
    "00206e340b9cffb37a989ca544e6bb780a2c78901d3fb33738768511a30617afa01d": "the hash of the script 00",
    "0020189f40034be7a199f1fa9891668ee3ab6049f82d38c68be70f596eab2e1857b7": "the hash of the script 6a",
    "0020a8100ae6aa1940d0b663bb31cd466142ebbdbd5187131b92d93818987832eb89": "the hash of the script ff",
    "0014" + "ff" * 20: "bytes of ff",
    "a914" + "ff" * 20 + "87": "bytes of ff",
    "0020" + "ff" * 32: "bytes of ff",
    "a914bcfeb728b584253d5f3f70bcb780e9ef218a68f487": SCRIPT_OF_G,
    "00201863143c14c5166804bd19203356da136c985678cd4d27a1b8c6329604903262": SCRIPT_OF_G,
    "a91423b0ad3477f2178bc0b3eed26e4e6316f4e83aa187": SCRIPT_OF_G,
    "00203f4ae1eb3e75f3578491811d27eb59e23a512cf90c73b13c6acd4499f7c4d28b": SCRIPT_OF_G,
    "a914e4300531190587e3880d4c3004f5355d88ff928d87": SCRIPT_OF_G,
    "00208838f796bf4970b148779c05b74b8c49515b322d04035f7faa5d9b2375df2396": SCRIPT_OF_G,
    "a91448cc1845ab9f5099d4b36f02e148f7459d439fee87": (
        "the hash of a script of the point -G, whose private key is n - 1"
    ),
    "0020640ca8e9b8198ffa70b7d96d252f9f464444b1403715ab23cb3155492fafa786": (
        "the hash of a script of the point H of BIP 341, whose private key nobody knows"
    ),
    "5120" + POINT_G: "it is the point G, whose private key is 1: anyone can sign for it",
    "5120" + POINT_H: "it is the point H of BIP 341, whose private key nobody knows: nobody can sign for it",
    "5120da4710964f7852695de2da025290e24af6d8c281de5a0b902b7135fd9fd74d21": (
        "it is what BIP 86 makes of the point G, whose private key is 1: anyone can sign for it"
    ),
    "5120192c2a30cbd7d0352f94d4c31a43f767f1ef43d7ff6438839880ec075d81a9f6": (
        "it is what BIP 86 makes of the point H, whose private key nobody knows: nobody can sign for it"
    ),
}


def dust_note(fee: int, total: int, least: int) -> str:
    return (
        f"the fee is {fee} of {total} satoshis, and nodes relay no less than {least} to this destination:"
        f" {total - fee} are left"
    )


def destination_notes(destination: str) -> list[str]:
    """What is noted of a program that is paid: no rule stands for later versions, nor for taproot with another length
    (BIP 341).
    """
    code, size = int(destination[:2], 16), int(destination[2:4], 16)
    if destination in ORIGINS:
        origin = ORIGINS[destination]
        is_point = destination.startswith("5120")
        return [
            f"destination: {origin}"
            if is_point
            else f"destination: what it pays to is {origin}: anyone can spend from it, or nobody"
        ]
    if not 0x51 <= code <= 0x60:
        return []
    if (code, size) == (0x51, 32):
        off_curve = not is_curve_x(bytes.fromhex(destination[4:]))
        return ["destination: its 32 bytes are no key of the curve: nobody can spend from it (BIP 341)"] * off_curve
    return [
        "destination: anyone can spend from it today: no rule stands yet for witness version"
        f" {code - 0x50} with {size} bytes"
    ]


def open_scripts(told: dict[str, Any]) -> Iterator[tuple[str, str]]:
    """Programs of scripts of CHECKMULTISIG and of at most one byte, nested and not, and what they are called: nothing
    where the script has a key that is not known, wants three, or has two bytes.
    """
    byte, known = (
        "the P2WSH program of a script of at most one byte",
        "CHECKMULTISIG of keys that all know, or of its P2WSH program",
    )
    keys = [f"{sign}{x}" for x in (POINT_G, POINT_2G, POINT_H) for sign in ("02", "03")]
    other = told["terms"]["keys"]["remote_htlcpubkey"]

    def programs(script: str) -> list[str]:
        by_hash = "0020" + hash256(script)
        return [by_hash, f"a914{hash160(script)}87", f"a914{hash160(by_hash)}87"]

    for script in ("51", "", "00", "ac", "ff"):
        yield programs(script)[2], byte
    yield programs("5151")[2], ""
    for needed, found in (
        *((1, [it]) for it in keys),
        *((needed, [one, it]) for needed in (1, 2) for one in keys[:3] for it in keys),
    ):
        for program in programs(multisig(needed, found)):
            yield program, known
    for needed, found in ((1, [other]), (2, [keys[0], other]), (1, [other, keys[0]]), (2, keys[:3])):
        for program in programs(multisig(needed, found)):
            yield program, ""


def multisig(needed: int, keys: list[str]) -> str:
    return f"5{needed}{''.join('21' + it for it in keys)}5{len(keys)}ae"


def cheap_notes(told: dict[str, Any], asked: dict[str, Any]) -> list[str]:
    """What is noted of a fee below a satoshi for each virtual byte (BIP 141) of the greatest transaction."""
    plan = wanted_plan(told, asked, [0], 501)
    size = -(-plan["weight"] // 4)
    return [
        f"the fee is {plan['fee']} satoshis for at most {size} virtual bytes: by default nodes before Bitcoin Core 29.1"
        " pass on nothing below one for each, and later ones nothing below a tenth"
    ] * (plan["fee"] < size)


def named(told: dict[str, Any]) -> Iterator[tuple[dict[str, Any], tuple[str, int], list[str]]]:
    """Requests that are refused, with the note that names the output, the slot or the amounts."""
    asked, _, _ = next(requests(told))
    first, late = asked["outputs"]
    wanted, key = first["slots"][0][1], told["terms"]["keys"]["remote_htlcpubkey"]
    fee = wanted_plan(told, {**asked, "outputs": [late], "preimages": [], "feerate_per_kw": 1000}, [0], 501)["fee"]
    shell = "02000000" + "01" + first["outpoint"][:64] + "01000000" + "00" + "00000000" + "00" + "00000000"
    fixed = {**first, "shell": shell}
    measured = keyed_claim(told, "82014288", 2000)
    time = "no claim waits for a time: here lock times are heights, and ages are blocks"
    kept = "preimages has none whose SHA-256 is"
    rich, worth = {**late, "value": MAX_MONEY}, MAX_MONEY + first["value"]
    poor = {**asked, "feerate_per_kw": 1000}
    at_a_time, after_a_time = keyed_claim(told, "040065cd1db175", 2000), keyed_claim(told, "03010040b275", 2000)
    more = "outputs[1].slots[0]: the path asks for more of this signature than that it is valid: size 0 66 yes"
    yield {**asked, "outputs": [first, late, late]}, ("SameOutpoint", 5), ["outputs[2]: outputs[1] is the same one"]
    yield {**asked, "outputs": [late, fixed]}, ("FixedTransaction", 4), ["outputs[1].shell: wanted: null"]
    yield {**asked, "outputs": [first, measured]}, ("MeasuredSignature", 6), [more]
    yield (
        {**asked, "outputs": [late, first], "preimages": ["01" * 32]},
        ("NoPreimage", 7),
        [f"outputs[1].slots[0]: {kept} {wanted}"],
    )
    yield (
        {**asked, "outputs": [first, rich]},
        ("ValueTooLarge", 8),
        [f"the outputs have {worth} satoshis together, and there are at most {MAX_MONEY}"],
    )
    yield (
        {**poor, "outputs": [{**late, "value": fee}]},
        ("NothingLeft", 9),
        [f"the fee is {fee} satoshis, and the outputs have {fee} together"],
    )
    yield {**poor, "outputs": [{**late, "value": fee + 293}]}, ("Dust", 10), [dust_note(fee, fee + 293, 294)]
    yield (
        {**asked, "outputs": [first, at_a_time]},
        ("BadClaim", 3),
        [f"outputs[1].path: Unmet lock 500000000: {time}"],
    )
    yield (
        {**asked, "outputs": [first, after_a_time]},
        ("BadClaim", 3),
        [f"outputs[1].path: Unmet age 4194305: {time}"],
    )


def conditions(told: dict[str, Any]) -> Iterator[tuple[dict[str, Any], list[str]]]:
    """Plans by the first of two ways, and what is noted of the item that IF takes."""
    asked, _, _ = next(requests(told))
    key = told["terms"]["keys"]["remote_htlcpubkey"]
    script = f"6321{key}ac675168"
    output = {
        "outpoint": "07" * 32 + ":0",
        "path": 0,
        "program": "0020" + sha256(bytes.fromhex(script)).hex(),
        "script": script,
        "shell": None,
        "value": 1_000_000,
    }
    minimal = "outputs[0].slots[0]: nodes pass on no IF or NOTIF of anything but the empty item and 01 (minimal IF)"
    for item, notes in (("01", []), ("02", [minimal]), ("0100", [minimal])):
        yield {**asked, "outputs": [{**output, "slots": [["exact", item], ["sig", key]]}], "preimages": []}, notes


def scripted_claim(script: str, slots: list[list[str]], value: int, place: int = 0) -> dict[str, Any]:
    """A claim on an output of this script, by its first path."""
    program = "0020" + sha256(bytes.fromhex(script)).hex()
    output = {"outpoint": f"{'07' * 32}:{place}", "path": 0, "program": program, "script": script}
    return {**output, "shell": None, "slots": slots, "value": value}


def input_cost(told: dict[str, Any], it: dict[str, Any], feerate_per_kw: int) -> int:
    """The satoshis that the input of a claim costs at most (BIP 141)."""
    preimages = {htlc["payment_hash"]: htlc["preimage"] for htlc in told["htlcs"]}
    items = [SIGNATURE if item is None else bytes.fromhex(item) for item in witness_of(it, preimages)]
    weight = 4 * 41 + len(compact_size(len(items))) + sum(len(compact_size(len(item))) + len(item) for item in items)
    return -(-feerate_per_kw * weight // 1000)


def may_be_spent_otherwise(script: str) -> bool:
    """Whether a script has an IF or a NOTIF, or no check of a signature."""
    rest, codes = bytes.fromhex(script), []
    while rest:
        codes.append(rest[0])
        rest = rest[1 + (rest[0] if rest[0] <= 75 else 0) :]
    return bool({0x63, 0x64} & {*codes}) or not {0xAC, 0xAE} & {*codes}


def paid_again(asked: dict[str, Any]) -> list[str]:
    """What is noted of outputs that have the program that is paid."""
    places = (at for at, it in enumerate(asked["outputs"]) if it["program"] == asked["destination"])
    return [f"destination: outputs[{at}] has this program" for at in places]


def otherwise(outputs: list[dict[str, Any]]) -> list[str]:
    """What is noted of the first of several outputs that may be spent otherwise."""
    first = next((at for at, it in enumerate(outputs) if may_be_spent_otherwise(it["script"])), None)
    if first is None or len(outputs) == 1:
        return []
    return [
        f"outputs[{first}] may be spent otherwise: from then on this transaction of {len(outputs)} outputs is invalid as"
        " a whole"
    ]


def waiting(told: dict[str, Any]) -> Iterator[tuple[dict[str, Any], list[int], int, list[str]]]:
    """Plans of several outputs with unlike locks, each with its sequences, its lock time and its notes; and of equal
    ones.
    """
    with_it = "and with it all that one transaction spends"
    early = {**keyed_claim(told, "029000b275", 100_000), "outpoint": "08" * 32 + ":1"}
    later = keyed_claim(told, "029f01b275", 100_000)
    for asked, sequences, lock_time in requests(told):
        late = [f"outputs[{len(asked['outputs']) - 1}] waits for a block above height 501, {with_it}"]
        old = [f"outputs[0] waits for an age of 144 blocks, {with_it}"]
        if len(asked["outputs"]) > 1 and asked["feerate_per_kw"] == 253:
            yield asked, sequences, lock_time, [*paid_again(asked), *late, *otherwise(asked["outputs"])]
        if asked["feerate_per_kw"] == 5000:
            yield {**asked, "feerate_per_kw": 253}, sequences, lock_time, [
                *paid_again(asked),
                *old,
                *otherwise(asked["outputs"]),
            ]
    asked, _, _ = next(requests(told))
    paying = {**asked, "preimages": []}
    older = [f"outputs[1] waits for an age of 415 blocks, {with_it}"]
    yield {**paying, "outputs": [early, later]}, [144, 415], 0, older
    yield {**paying, "outputs": [early, {**later, **keyed_claim(told, "029000b275", 100_000)}]}, [144, 144], 0, []
    for value, notes in ((0, 1), (1, 0)):
        cheap = {**asked["outputs"][1], "outpoint": "09" * 32 + ":2"}
        cost = input_cost(told, cheap, 1000)
        least = {**cheap, "value": cost - 1 + value}
        note = f"outputs[0] has {cost - 1} satoshis, and its input costs {cost}: more is left without it"
        both = [least, {**asked["outputs"][1], "value": 1_000_000}]
        yield {**paying, "outputs": both, "feerate_per_kw": 1000}, [0, 0], 501, [*[note] * notes, *otherwise(both)]


def open_to_others(told: dict[str, Any]) -> Iterator[tuple[dict[str, Any], list[str]]]:
    """Plans of outputs that others can take, or that nobody can sign for, each with its notes."""
    asked, _, _ = next(requests(told))
    htlc = told["htlcs"][0]
    key = "02" + "11" * 32
    found = ripemd160(bytes.fromhex(htlc["payment_hash"])).hex()
    anyone = "anyone can spend by this path: no signature of a key that the script fixes is asked for"
    finder = (
        "whoever sees such a witness can spend too: what has a given hash is asked for, and no signature of a key that"
        " the script fixes"
    )
    nobody = f"nobody can sign for a key that is no point of the curve: {key}"
    by_all = [scripted_claim("51", [], 1_000_000, place) for place in range(3)]
    by_finder = scripted_claim(f"a914{found}87", [["preimage", htlc["payment_hash"]]], 1_000_000, 3)
    by_none = [scripted_claim(f"21{key}ac", [["sig", key]], 1_000_000, place) for place in (4, 5)]
    preimages = {"preimages": [htlc["preimage"]]}
    for outputs, notes in (
        (by_all[:1], [f"outputs[0]: {anyone}"]),
        (by_all, [f"outputs[0] and 2 more: {anyone}"]),
        ([*by_none, by_finder], [f"outputs[2]: {finder}", f"outputs[0] and 1 more: {nobody}"]),
        (
            [by_finder, by_all[1], by_none[0]],
            [f"outputs[1]: {anyone}", f"outputs[0]: {finder}", f"outputs[2]: {nobody}"],
        ),
    ):
        yield {**asked, **preimages, "outputs": outputs}, [*notes, *otherwise(outputs)]
    plain = keyed_claim(told, "", 1_000_000)
    alone = {**asked, "preimages": [], "outputs": [plain]}
    yield {**alone, "destination": plain["program"]}, ["destination: outputs[0] has this program"]
    zeros = {**plain, "outpoint": "00" * 32 + ":0"}
    yield {**alone, "outputs": [zeros]}, ["outputs[0]: no transaction has an id of zeros"]
    unrelayed = "outputs[0]: nodes pass on no spend of it: "
    pushes = "its script pushes a number by two bytes that an opcode of one byte pushes too (minimal pushes)"
    for before, slots, why in (
        ("011175", [], ""),
        ("011075", [], pushes),
        ("018175", [], pushes),
        ("75", [["exact", "00" * 80]], ""),
        ("75", [["exact", "00" * 81]], "it has a slot above 80 bytes"),
        ("75" * 99, [["exact", ""]] * 99, ""),
        ("75" * 100, [["exact", ""]] * 100, "it has more than 100 slots"),
        (("22" + "77" * 34 + "75") * 99, [], ""),
        (("22" + "77" * 34 + "75") * 100, [], "its script has more than 3600 bytes"),
    ):
        found = keyed_claim(told, before, 1_000_000)
        notes = [unrelayed + why] * bool(why)
        yield {**alone, "outputs": [{**found, "slots": [*slots, *found["slots"]]}]}, notes
    for alone, destination, what in own_bytes(told):
        again = f"destination: what it pays to is {what}: anyone can spend from it, or nobody"
        yield {**alone, "destination": destination}, [again] * bool(what)
    another = (
        "destination: it pays to a key that the script of outputs[0] has, or has the hash of, and that stands in no"
        " slot: see that it is yours"
    )
    for paying, destination, is_noted in others_keys(told):
        yield {**paying, "destination": destination}, [
            *[another] * is_noted, *otherwise(paying["outputs"])
        ]
    for outputs, notes in known_keys(told):
        yield {**asked, "preimages": [], "outputs": outputs}, [*notes, *otherwise(outputs)]


def hash160(text: str) -> str:
    return ripemd160(sha256(bytes.fromhex(text))).hex()


def hash256(text: str) -> str:
    return sha256(bytes.fromhex(text)).hex()


def own_bytes(told: dict[str, Any]) -> Iterator[tuple[dict[str, Any], str, str]]:
    """Requests, each with a destination that is made of its own bytes, and what that is called; nothing where a key or
    a script stands in its own place, so that its owner can spend.
    """
    asked, _, _ = next(requests(told))
    first = {**asked["outputs"][0], "value": 1_000_000}
    one = {**asked, "outputs": [first]}
    (_, payment_hash), (_, key) = first["slots"]
    preimage, txid, program, script = asked["preimages"][0], first["outpoint"][:64], first["program"], first["script"]
    x, shown, pushed = key[2:], shown_id(bytes.fromhex(txid)), script[6:46]
    for destination, what in (
        ("0020" + txid, "the id of outputs[0]"),
        ("5120" + shown, "the id of outputs[0]"),
        ("0020" + hash256(txid), "the hash of the id of outputs[0]"),
        (f"a914{hash160(shown)}87", "the hash of the id of outputs[0]"),
        ("0020" + preimage, "preimages[0]"),
        ("5120" + preimage, "preimages[0]"),
        # each byte of the preimage is 02, as all know
        ("0020" + payment_hash, "the hash of 32 bytes of 02"),
        ("5120" + payment_hash, "the hash of preimages[0]"),
        ("0014" + hash160(preimage), "the hash of 32 bytes of 02"),
        (f"76a914{hash160(preimage)}88ac", "the hash of 32 bytes of 02"),
        (f"a914{hash160(preimage)}87", "the hash of 32 bytes of 02"),
        ("0020" + hash256(payment_hash), "the hash of the payment hash in outputs[0].slots[0]"),
        ("0020" + x, "the x coordinate of a key of outputs[0]"),
        ("5120" + x, ""),
        ("0014" + hash160(x), "the hash of the x coordinate of a key of outputs[0]"),
        ("5120" + hash256(x), "the hash of the x coordinate of a key of outputs[0]"),
        ("0014" + hash160(key), ""),
        (f"a914{hash160('0014' + hash160(key))}87", ""),
        ("0020" + hash256("0014" + hash160(key)), "the hash of the P2WPKH program of a key of outputs[0]"),
        (f"76a914{hash160('0014' + hash160(key))}88ac", "the hash of the P2WPKH program of a key of outputs[0]"),
        (f"76a914{hash160(key)}88ac", ""),
        (f"a914{hash160(key)}87", "the hash of a key of outputs[0]"),
        ("0020" + hash256(key), "the hash of a key of outputs[0]"),
        ("0020" + hash256(program), "the hash of the program of outputs[0]"),
        ("0014" + hash160(program), "the hash of the program of outputs[0]"),
        (f"a914{hash160(program)}87", ""),
        ("5120" + program[4:], "the hash in the program of outputs[0]"),
        ("0014" + hash160(script), "the hash of the script of outputs[0]"),
        (f"a914{hash160(script)}87", ""),
        (f"a914{pushed}87", "a push of the script of outputs[0]"),
    ):
        yield one, destination, what
    payment, alone = told["terms"]["keys"]["remote_payment_basepoint"], {**asked, "preimages": []}
    by_key = {**alone, "outputs": [claim(told, 5, 0, [["exact", payment], ["sig", payment]])]}
    for destination, what in (
        (f"76a914{hash160(payment)}88ac", ""),
        (f"a914{hash160(payment)}87", "the hash in the program of outputs[0]"),
        ("0020" + payment[2:], "the x coordinate of a key of outputs[0]"),
    ):
        yield by_key, destination, what
    item = keyed_claim(told, "75", 1_000_000)
    given = {**alone, "outputs": [{**item, "slots": [["exact", "aa" * 32], *item["slots"]]}]}
    yield given, "0020" + "aa" * 32, "outputs[0].slots[0]"
    yield given, "0014" + hash160("aa" * 32), "the hash of 32 bytes of aa"


def others_keys(told: dict[str, Any]) -> Iterator[tuple[dict[str, Any], str, bool]]:
    """Requests that pay to a key of their script in its own place, and whether that is noted: the key of another path
    is, and one that a slot has is not.
    """
    asked, _, _ = next(requests(told))
    first = {**asked["outputs"][0], "value": 1_000_000}
    keys, script = told["terms"]["keys"], first["script"]
    revoking, own, peer = keys["local_revocation_pubkey"], keys["remote_htlcpubkey"], keys["local_htlcpubkey"]
    pushed = script[6:46]
    one = {**asked, "outputs": [first]}
    # the penalty's path: what has the hash is the key of a slot then
    penalty = {**first, "path": 0, "slots": [["exact", revoking], ["sig", revoking]]}
    taken = {**asked, "outputs": [penalty], "preimages": []}
    both = {**asked, "outputs": [first, {**penalty, "outpoint": "08" * 32 + ":1"}]}
    nested = f"a914{hash160('0014' + pushed)}87"
    for it, destination, is_noted in (
        (one, "0014" + pushed, True),
        (one, f"76a914{pushed}88ac", True),
        (one, nested, True),
        (one, f"a914{hash160('0014' + pushed[:-2] + '00')}87", False),
        (one, "0014" + pushed[:-2] + "00", False),
        (taken, "0014" + pushed, False),
        (taken, nested, False),
        (taken, "0014" + hash160(own), True),
        (one, "0014" + hash160(own), False),
        (one, "0014" + hash160(peer), True),
        (one, f"76a914{hash160(peer)}88ac", True),
        (one, f"a914{hash160('0014' + hash160(peer))}87", True),
        (one, "5120" + peer[2:], True),
        (one, "5120" + own[2:], False),
        # another output's slot has it
        (both, "0014" + pushed, False),
        (both, "0014" + hash160(peer), True),
    ):
        yield it, destination, is_noted


def known_keys(told: dict[str, Any]) -> Iterator[tuple[list[dict[str, Any]], list[str]]]:
    """Outputs whose keys all know, or nobody (SEC 2, 2.4.1; BIP 341), with their notes, and one of another key."""
    known = "a key that has to sign is one that all know: "
    generator = f"{known}the point G, whose private key is 1: anyone can sign for it"
    other = f"{known}the point H of BIP 341, whose private key nobody knows: nobody can sign for it"
    key = told["terms"]["keys"]["remote_htlcpubkey"]
    by_g, by_h = "02" + POINT_G, "02" + POINT_H

    def of_key(it: str, place: int) -> dict[str, Any]:
        return scripted_claim(f"21{it}ac", [["sig", it]], 1_000_000, place)

    pair = f"5221{by_g}21{by_g}52ae"
    both = scripted_claim(pair, [["sig", by_g], ["sig", by_g], ["exact", ""]], 1_000_000, 5)
    shared = scripted_claim(f"5221{by_g}21{key}52ae", [["sig", key], ["sig", by_g], ["exact", ""]], 1_000_000, 6)
    for outputs, notes in (
        ([of_key(key, 0)], []),
        ([of_key(by_g, 0)], [f"outputs[0]: {generator}"]),
        ([of_key(by_h, 0)], [f"outputs[0]: {other}"]),
        (
            [of_key("03" + POINT_G, 0)],
            [f"outputs[0]: {known}the point -G, whose private key is n - 1: anyone can sign for it"],
        ),
        (
            [of_key("02" + POINT_2G, 0)],
            [f"outputs[0]: {known}the point 2G, whose private key is 2: anyone can sign for it"],
        ),
        ([of_key(by_g[:-1] + "9", 0)], []),
        ([of_key(key, 0), of_key(by_g, 1), of_key(by_h, 2)], [f"outputs[1] and 1 more: {generator}"]),
        ([both], [f"outputs[0]: {generator}"]),
        ([of_key(key, 0), both, shared], [f"outputs[1] and 1 more: {generator}"]),
    ):
        yield outputs, notes


def no_json() -> Iterator[tuple[str, str]]:
    """Texts that are no JSON, and where."""
    yield "", "the text ends too early: line 1, column 0"
    yield "{", "the text ends too early: line 1, column 1"
    yield '{\n "outputs": [1,]}', "invalid JSON: line 2, column 16"


def again(text: str, twice: str) -> str:
    """What is said of a member that stands twice, where the text has this of both."""
    at = text.index(twice) + twice.rindex(',"') + 1
    return f"a member of this name stands twice in one object: again at byte {at}"


def without(it: dict[str, Any], name: str) -> dict[str, Any]:
    return {member: value for member, value in it.items() if member != name}


def bad_shapes(told: dict[str, Any]) -> Iterator[tuple[str, str]]:
    """What has another shape, and the note that names it: each member of a request and of an output."""
    asked, _, _ = next(requests(told))
    both = asked["outputs"]
    address, feerate = (
        "bc1qw508d6qejxtdg4y5r3zarvary0c5xw7kv8f3t4",
        "satoshis for 1,000 units of weight, as an integer of at most 32 bits without quotes",
    )
    slot = (
        '["sig",KEY], ["preimage",SHA256] or ["exact",BYTES], with a compressed key, a hash of 32 bytes or at most 520'
        " bytes in hexadecimal"
    )
    yield "[]", "the request: wanted: an object"
    for members, note in (
        ({"fee": 1}, "fee: no member of this name belongs here"),
        ({"a\nb": 1}, "?: no member of this name belongs here"),
        (
            {"destination": address},
            (
                "destination: wanted: bytes in hexadecimal, in quotes; of an address, those that bitcoin-cli"
                " validateaddress ADDRESS has as scriptPubKey"
            ),
        ),
        ({"destination": "0x0014"}, "destination: wanted: bytes in hexadecimal, in quotes; without 0x"),
        ({"destination": "001"}, "destination: wanted: bytes in hexadecimal, in quotes; two digits for each byte"),
        ({"destination": 5}, "destination: wanted: bytes in hexadecimal, in quotes"),
        ({"destination": "51" * 10_001}, "destination: wanted: at most 10000 bytes"),
        ({"feerate_per_kw": "253"}, f"feerate_per_kw: wanted: {feerate}"),
        ({"feerate_per_kw": 1 << 32}, f"feerate_per_kw: wanted: {feerate}"),
        ({"most_feerate_per_kw": None}, f"most_feerate_per_kw: wanted: {feerate}"),
        ({"preimages": ["02" * 32, "02" * 31]}, "preimages[1]: wanted: 32 bytes in hexadecimal"),
        ({"preimages": {}}, "preimages: wanted: an array"),
        ({"outputs": []}, "outputs: wanted: 1 to 4000 of them"),
        ({"outputs": [both[0], 5]}, "outputs[1]: wanted: an object"),
    ):
        yield changed_request(asked, **members), note
    yield line(without(asked, "feerate_per_kw")), "feerate_per_kw: it is missing"
    paths, feerates = '"path":1,"path":2', '"feerate_per_kw":500,"feerate_per_kw":253'
    text = line(asked).replace('"feerate_per_kw":253', feerates)
    yield text, f"feerate_per_kw: {again(text, feerates)}"
    text = line(asked).replace('"path":2', paths, 1)
    yield text, f"outputs[0].path: {again(text, paths)}"
    text = line({**asked, "outputs": [both[0], both[1]]}).replace('"path":2', paths).replace(paths, '"path":2', 1)
    yield text, f"outputs[1].path: {again(text, paths)}"
    for members, note in (
        ({"value": 0.001}, "value: wanted: satoshis, as an integer without point, sign and quotes"),
        ({"value": "100000"}, "value: wanted: satoshis, as an integer without point, sign and quotes"),
        ({"value": -100_000}, "value: wanted: satoshis, as an integer without point, sign and quotes"),
        ({"path": "1"}, "path: wanted: the number of a path from 0, without quotes"),
        (
            {"program": address},
            (
                "program: wanted: bytes in hexadecimal, in quotes; of an address, those that bitcoin-cli"
                " validateaddress ADDRESS has as scriptPubKey"
            ),
        ),
        ({"script": "0g"}, "script: wanted: bytes in hexadecimal, in quotes"),
        ({"shell": ""}, "shell: wanted: null"),
        (
            {"outpoint": "07" * 32},
            'outpoint: wanted: "TXID:INDEX", with 64 hexadecimal digits and an index below 2^32',
        ),
        ({"slots": [both[1]["slots"][0], ["sig", "04" + "11" * 64]]}, f"slots[1]: wanted: {slot}"),
        ({"slots": [["preimage", "11" * 20]]}, f"slots[0]: wanted: {slot}"),
        ({"txid": "07" * 32}, "txid: no member of this name belongs here"),
    ):
        yield changed_request(asked, outputs=[both[0], {**both[1], **members}]), f"outputs[1].{note}"
    either = (
        "outputs[1]: wanted: either outpoint, with the id in the hash's own byte order, or explorer, with the id as"
        " explorers show it"
    )
    for it in (without(both[1], "outpoint"), {**both[1], "explorer": both[1]["outpoint"]}):
        yield changed_request(asked, outputs=[both[0], it]), either


def bad_claims(told: dict[str, Any]) -> Iterator[tuple[str, str]]:
    """Claims that are not accepted, each in the second output, and the note that says why: the fact is the first that
    `enforce paths` lists of the path and that the slots do not show.
    """
    asked, _, _ = next(requests(told))
    first, good = asked["outputs"]
    keys = told["terms"]["keys"]
    empty, peer = good["slots"]
    shows = (
        "they do not show this fact; slot 0 is the top of the stack, so the last item of the witness before the script"
    )
    for members, note in (
        ({"script": "50"}, "script: BadOpcode 0"),
        ({"script": "5102aa"}, "script: Truncated 1"),
        ({"script": "63"}, "script: OpenBranch"),
        ({"path": 3}, "path: NoSuchPath: the number of the script's paths is 3, numbered from 0"),
        ({"slots": [peer]}, "slots: WrongArity: the number of the path's slots is 2, and 1 stand here"),
        (
            {"slots": [empty, ["sig", keys["local_htlcpubkey"]]]},
            f"slots: Unmet token 1 {keys['remote_htlcpubkey']} yes: {shows}",
        ),
        (
            {"program": first["program"]},
            "program: WrongProgram: it is not P2WSH of the script, nor P2WPKH with the script of BIP 143",
        ),
    ):
        yield changed_request(asked, outputs=[first, {**good, **members}]), f"outputs[1].{note}"


def faults(told: dict[str, Any]) -> Iterator[tuple[str, str, int, list[str]]]:
    """Requests with a part at fault, each with its refusal and the note that names the part."""
    for text, note in bad_shapes(told):
        yield text, "BadShape", 2, [note]
    for text, note in bad_claims(told):
        yield text, "BadClaim", 3, [note]
    for text, note in no_json():
        yield text, "NotJson", 1, [note]


def refusals(told: dict[str, Any]) -> Iterator[tuple[str, str, int]]:
    """Requests that `spend` refuses, and how: each refusal, and before the next one where both hold."""
    asked, _, _ = next(requests(told))
    both = asked["outputs"]
    fee = wanted_plan(told, {**asked, "outputs": both[1:], "preimages": [], "feerate_per_kw": 1000}, [0], 501)["fee"]
    fixed = {
        **both[0],
        "shell": "02000000" + "01" + both[0]["outpoint"][:64] + "01000000" + "00" + "00000000" + "00" + "00000000",
    }
    # SIZE, 66, EQUALVERIFY: a token has 66 bytes, and no signature in DER has to
    measured = keyed_claim(told, "82014288", 2000)
    # CHECKLOCKTIMEVERIFY for height 1, and for the first second of 1985-11-05, which is 500,000,000;
    # CHECKSEQUENCEVERIFY for 512 seconds
    at_height, at_second, after_seconds = (
        keyed_claim(told, prefix, 2000) for prefix in ("51b175", "040065cd1db175", "03010040b275")
    )
    bad = {**both[0], "path": 3}
    # it has the shape of a claim, and no path has the number 1
    least = {
        "outpoint": "07" * 32 + ":0",
        "path": 1,
        "program": "",
        "script": "51",
        "shell": None,
        "slots": [],
        "value": 0,
    }
    yield "", "NotJson", 1
    yield "{", "NotJson", 1
    yield "[]", "BadShape", 2
    yield changed_request(asked, more=1), "BadShape", 2
    yield changed_request(asked, feerate_per_kw=-1), "BadShape", 2
    yield changed_request(asked, outputs=[]), "BadShape", 2
    yield changed_request(asked, outputs=[least] * 4001), "BadShape", 2
    yield changed_request(asked, outputs=[bad], destination="51" * 10_001), "BadShape", 2
    yield changed_request(asked, outputs=[least] * 4000), "BadClaim", 3
    yield changed_request(asked, outputs=[bad], destination="51" * 10_000), "BadClaim", 3
    yield changed_request(asked, outputs=[{**both[0], "script": "51"}]), "BadClaim", 3
    yield changed_request(asked, outputs=[fixed, bad]), "BadClaim", 3
    yield changed_request(asked, outputs=[at_height, at_second]), "BadClaim", 3
    yield changed_request(asked, outputs=[after_seconds]), "BadClaim", 3
    yield changed_request(asked, outputs=[fixed]), "FixedTransaction", 4
    yield changed_request(asked, outputs=[both[0], fixed]), "FixedTransaction", 4
    yield changed_request(asked, outputs=[both[0], both[0]]), "SameOutpoint", 5
    yield changed_request(asked, outputs=[measured, measured]), "SameOutpoint", 5
    yield changed_request(asked, outputs=[both[0], measured], preimages=[]), "MeasuredSignature", 6
    yield changed_request(asked, outputs=[both[0], {**both[1], "value": MAX_MONEY}], preimages=[]), "NoPreimage", 7
    yield changed_request(asked, outputs=[both[0], {**both[1], "value": MAX_MONEY}]), "ValueTooLarge", 8
    yield changed_request(asked, outputs=[{**both[1], "value": fee}], feerate_per_kw=1000), "NothingLeft", 9
    yield changed_request(asked, outputs=[{**both[1], "value": fee + 1}], feerate_per_kw=1000), "Dust", 10
    yield " " * 4_194_305, "TooLong", 12
