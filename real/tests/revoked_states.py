"""Revoked states of BOLT 3's appendices, and what is known of their outputs. Tested, not proved."""
import json
from typing import Any

from real.lib import commitment, penalties, penalty_notes
from real.lib.commitment import Keys
from real.lib.curve import AnyCurve
from real.lib.penalties import State
from real.lib.spend_program import Known
from real.lib.trace_program import Trace
from real.lib.transaction import Output, read_transaction, sha256
from real.tests.checks import spender

# BOLT 3, Appendix E
BASE_SECRET = bytes(range(32))
SECRET = bytes(reversed(range(32)))
BASE, POINT = (
    "036d6caac248af96f6afa7f904f550253a0f3ef3f5aa2fe6838a95b216691468e2",
    "025f7117a78150fe2ef97db7cfc83bd57b2e2c0d0dd25eaf467a4a1c2a45ce1486",
)
DERIVED, DERIVED_PRIVATE = (
    "0235f2dbfaa89b57ec7b055afe29849ef7ddfeb1cefdb9ebdc43f5494984db29e5",
    "cbced912d3b21bf196a766651e436aff192362621ce317704ea2f75d87e7be0f",
)
REVOCATION, REVOCATION_PRIVATE = (
    "02916e326636d19c33f13e8c0c3a03dd157f332f3e99c317c141dd865eb01f8ff0",
    "d09ffff62ddb2297ab000cc85bcb4283fdeb6aa052affbc9dddcf33b61078110",
)
# the secrets of Appendix C's base points, each a byte that is repeated
PRIVATES = {"revocation": 0x22, "payment": 0x44, "htlc": 0x44, "owner_delayed": 0x33, "owner_htlc": 0x11}
DESTINATION = "0014" + "c7" * 20
# how the notes on destinations begin: of the generator's x coordinate (SEC 2) a key of the curve is made, and 5 is the x
# coordinate of no point
ANYONE, NOBODY = "destination: anyone can spend from it today", "destination: its 32 bytes are no key of the curve"
DESTINATION_NOTES = {
    "5220" + "11" * 32: ANYONE,
    "5103c7c7c7": ANYONE,
    "512079be667ef9dcbbac55a06295ce870b07029bfcdb2dce28d959f2815b16f81798": "destination: it is the point G, whose",
    "512050929b74c1a04954b78b4b6035e97a5e078a5a0f28ec96d547bfee9ace803ac0": "destination: it is the point H of BIP 341",
    "5120" + "12" * 32: "",
    "5115" + "00" * 21: ANYONE,
    "76a914" + "00" * 20 + "88ac": "destination: what it pays to is zeros",
    "0020" + "00" * 31 + "01": "",
    "a914b472a266d0bd89c13706a4132ccfb16f7c3b9fcb87": "destination: what it pays to is the hash of nothing",
    "0014751e76e8199196d454941c45d1b3a323f1433bd6": "destination: what it pays to is the hash of the point G",
    "00204ae81572f06e1b88fd5ced7a1a000945432e83e1551e6f721ee9c00b8cc33260": (
        "destination: what it pays to is the hash of the script 51"
    ),
    "5120" + "00" * 31 + "05": NOBODY,
    "5120" + "ff" * 32: NOBODY,
    DESTINATION: "",
}
HEIGHT = 501
# BOLT 3, "Dust Limits": the least value of an output by its kind; and what Bitcoin Core's policy has of taproot and of
# the shortest witness program
DUST_SAT = {
    DESTINATION: 294,
    "76a914" + "c7" * 20 + "88ac": 546,
    "a914" + "c7" * 20 + "87": 540,
    "0020" + "c7" * 32: 330,
    "5120" + "c7" * 32: 330,
    "5103c7c7c7": 243,
    "6028" + "c7" * 40: 354,
}
# no hash of a key or a script, no witness program of BIP 141
NO_ADDRESSES = (
    *(
        "",
        "6a",
        "51",
        "00",
        "4f02c7c7",
        "6102c7c7",
        "5101c7",
        "5103c7c7",
        "5102c7c7c7",
        "51024e73",
        "6002c7c7",
        "21" + "c7" * 33 + "ac",
    ),
    *(
        "0014" + "c7" * 19,
        "0014" + "c7" * 21,
        "0013" + "c7" * 19,
        "0020" + "c7" * 31,
        "0021" + "c7" * 33,
        "6029" + "c7" * 41,
    ),
    *(
        "76a914" + "c7" * 19 + "88ac",
        "76a914" + "c7" * 20 + "88ad",
        "a914" + "c7" * 20 + "88",
        "a914" + "c7" * 21 + "87",
    ),
)
# Appendix C's commitment with two offered HTLCs of one preimage: its outputs
SHARED_HTLCS, SHARED_PROGRAM = (5, 6), "0020305c12e1a0bc21e283c131cea1c66d68857d28b7b2fce0a6fbc40c164852121b"
SHARED = (
    (2_000, "0020748eba944fedc8827f6b06bc44678f93c0f9e6078b35c6331ed31e75f8ce0c2d"),
    (5_000, SHARED_PROGRAM),
    (5_000, SHARED_PROGRAM),
    (3_000_000, "0014cc1b07838e387deacd0e5232e1e8b49f4c29e484"),
    (6_987_686, "00204adb4e2f00643db396dd120d4e7dc17625f5f2c11a40d857accc862d6b7dd80e"),
)
# what inputs weigh that take an offered HTLC and to_local, with signatures of 72 bytes: 41 bytes of four units, and a
# witness (scripts of 133 and 77 bytes)
OFFERED_WEIGHT, TO_LOCAL_WEIGHT = 4 * 41 + 1 + 73 + 34 + 134, 4 * 41 + 1 + 73 + 2 + 78
# the names that the appendix gives the keys of the anchors
FUNDING_KEYS = ("local_funding_pubkey", "remote_funding_pubkey")
# the same of all that a transaction to the hash of a key has beside its inputs
REST_WEIGHT = 4 * (8 + 1 + 1 + 8 + 23) + 2


def private_key(name: str) -> bytes:
    return bytes([PRIVATES[name]]) * 32


def htlc(told: dict[str, Any], number: int) -> dict[str, int | str]:
    found = next(it for it in told["htlcs"] if it["id"] == number)
    return {
        "direction": "offered" if found["offered_by_local"] else "received",
        "hash": found["payment_hash"],
        "expiry_height": found["cltv_expiry"],
    }


def state(told: dict[str, Any], case: dict[str, Any], curve: AnyCurve, **changes: Any) -> dict[str, Any]:
    """A case of Appendix C as a revoked state, with members changed."""
    bases = {name: curve.public_key(private_key(name)).hex() for name in PRIVATES}
    found = {
        "transaction": case["unsigned_tx_no_witness"],
        "secret": told["terms"]["per_commitment_secret"],
        "delay_blocks": told["terms"]["local_delay"],
        "htlcs": [htlc(told, it) for it in case["htlcs_given"]],
        "bases": {**bases, **changes.pop("bases", {})},
        "destination": DESTINATION,
        "feerate_per_kw": 253,
        "height": HEIGHT,
        "confirmed_height": None,
    }
    return {**found, **changes}


def in_order(batches: list[list[int]], deadlines: list[int | None], values: list[int]) -> list[list[int]]:
    """Outputs that are taken together, in the order in which they are told: the least deadline first, and of these the
    greatest value.
    """

    def urgency(batch: list[int]) -> tuple[float, int]:
        each = [float("inf") if deadlines[it] is None else float(deadlines[it] or 0) for it in batch]
        return min(each), -sum(values[it] for it in batch)

    return sorted(batches, key=urgency)


def deadlines_of(case: dict[str, Any]) -> list[int | None]:
    return [deadline_of(it) for it in case["outputs"]]


def values_of(case: dict[str, Any]) -> list[int]:
    return [it["value_sat"] for it in case["outputs"]]


def penalties_of(
    given: dict[str, Any], curve: AnyCurve, trace: Trace, privates: list[bytes] | None = None, **options: bool
) -> list[dict[str, Any]] | None:
    keys = [private_key("revocation"), private_key("payment")] if privates is None else privates
    read = penalties.read_state(json.dumps(given))
    return list(penalties.penalties(read, keys, curve, trace, spend=spender(), **options))


def deadline_of(output: dict[str, int | str]) -> int | None:
    """The blocks after HEIGHT in which nobody else can take an output of a case that the next block has."""
    return {
        "to_local": 144,
        "to_remote": None,
        "received": 0,
        "offered": max(0, output.get("cltv_expiry", 0) - HEIGHT),
    }[output["kind"]]


def with_outputs(case: dict[str, Any], outputs: Any) -> str:
    """A case's transaction with other outputs."""
    found = read_transaction(bytes.fromhex(case["unsigned_tx_no_witness"]), marked=False)
    found.outputs = [Output(value, bytes.fromhex(program)) for value, program in outputs]
    return found.bytes().hex()


def state_and_table(given: dict[str, Any], curve: AnyCurve) -> tuple[State, dict[bytes, Known]]:
    """A state, and what is known of its outputs."""
    found = penalties.read_state(json.dumps(given))
    table, _ = penalties.known_outputs(found, keys_at(found, curve), spender())
    return found, table


def with_anchors(told: dict[str, Any], case: dict[str, Any]) -> list[tuple[str, int, str, int | None]]:
    """The outputs of a case's commitment as BOLT 3 has them with `option_anchors`, by the appendix's own scripts: `1
    CHECKSEQUENCEVERIFY DROP` stands before the last ENDIF of an HTLC's, and to_remote is `KEY CHECKSIGVERIFY 1
    CHECKSEQUENCEVERIFY`. The two anchors come first: `KEY CHECKSIG IFDUP NOTIF 16 CHECKSEQUENCEVERIFY ENDIF`, each
    with 330 satoshis.
    """
    keys = told["terms"]["keys"]
    found = [("anchor", 330, f"21{keys[it]}ac736460b268", None) for it in FUNDING_KEYS]
    for it in case["outputs"]:
        script = it.get("witness_script")
        if it["kind"] == "to_remote":
            script = f"21{keys['remote_payment_basepoint']}ad51b2"
        elif it["kind"] != "to_local":
            script = f"{script[:-2]}51b275{script[-2:]}"
        found.append((it["kind"], it["value_sat"], script, it.get("cltv_expiry")))
    return found


def anchored_state(
    told: dict[str, Any],
    case: dict[str, Any],
    curve: AnyCurve,
    outputs: list[tuple[str, int, str, int | None]],
    **changes: int | str,
) -> dict[str, Any]:
    """The state of a case's commitment with these outputs, in a channel with anchors."""
    transaction = with_outputs(
        case, [(value, "0020" + sha256(bytes.fromhex(script)).hex()) for _, value, script, _ in outputs]
    )
    funding_keys = [told["terms"]["keys"][it] for it in FUNDING_KEYS]
    return state(
        told,
        case,
        curve,
        **{"transaction": transaction, "channel_type": "anchors", "funding_keys": funding_keys, **changes},
    )


def anchored_deadlines(
    outputs: list[tuple[str, int, str, int | None]], height: int, confirmed_height: int
) -> list[int | None]:
    """The blocks after a height in which nobody else can take outputs of a channel with anchors, whose HTLC
    transactions wait for one block.
    """
    least = max(0, confirmed_height - height)
    return [
        {"to_local": max(0, confirmed_height + 143 - height), "received": least}.get(
            kind, max(least, (expiry or 0) - height)
        )
        for kind, _, _, expiry in outputs
    ]


def places_of(outputs: list[tuple[str, int, str, int | None]], *kinds: str) -> list[int]:
    return [at for at, it in enumerate(outputs) if it[0] in kinds]


def keys_at(found: State, curve: AnyCurve) -> Keys:
    return commitment.keys_of(curve, found.bases, curve.public_key(found.secret), False)


def output_names(given: dict[str, Any], curve: AnyCurve, others: list[int]) -> dict[str, dict[str, list[int]]]:
    found = penalties.read_state(json.dumps(given))
    return penalties.names_of(found, *penalties.known_outputs(found, keys_at(found, curve), spender()), others)


def notes_of(given: dict[str, Any], curve: AnyCurve, trace: Trace) -> list[str]:
    read = penalties.read_state(json.dumps(given))
    return list(penalty_notes.notes_of(read, penalties_of(given, curve, trace)))
