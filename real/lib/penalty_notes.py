"""What real/revoked says beside its answers, in words on standard error. Tested, not proved."""
from collections.abc import Iterator
from typing import Any

from real.lib import commitment, commitment_number, penalties
from real.lib.penalties import State
from real.lib.ripemd160 import ripemd160
from real.lib.transaction import read_transaction, sha256

# from ten satoshis for a virtual byte on a feerate is noted in other units; and how many transactions nodes are sure to
# take that spend one which no block has
NOTED_FEERATE, CHILDREN = 2_500, 24
# a fee that is above this part of what it is paid from, and the most blocks that an HTLC or a delay mostly has
DEAR, FAR = 10, 2_016
# the field of the curve (SEC 2, 2.4.1)
FIELD = 2**256 - 2**32 - 977
# the point G, whose private key is 1 (SEC 2, 2.4.1), and the x coordinate of the point H of BIP 341
G = bytes.fromhex("0279be667ef9dcbbac55a06295ce870b07029bfcdb2dce28d959f2815b16f81798")
H = bytes.fromhex("50929b74c1a04954b78b4b6035e97a5e078a5a0f28ec96d547bfee9ace803ac0")
HASHED = (
    (b"", "the hash of nothing"),
    (b"\x51", "the hash of the script 51"),
    (G, "the hash of the point G, whose private key is 1"),
)


def is_curve_x(bytes_of_x: bytes) -> bool:
    """Whether a point of the curve has this x coordinate (BIP 340)."""
    x = int.from_bytes(bytes_of_x, "big")
    return x < FIELD and pow(x**3 + 7, (FIELD - 1) // 2, FIELD) == 1


def origin_of(program: bytes) -> str | None:
    """What the hash of a program is, if no secret's: P2PKH, P2SH, P2WPKH or P2WSH."""
    paid = program[3:-2] if program[:1] == b"\x76" else program[2:-1] if program[:1] == b"\xa9" else program[2:]
    if 0x51 <= program[0] <= 0x60:
        return None
    if not any(paid):
        return "zeros"
    return next((name for item, name in HASHED if paid in (ripemd160(sha256(item)), sha256(item))), None)


def destination_notes(program: bytes) -> Iterator[str]:
    """Of a program that anybody can spend, or nobody (BIPs 141, 341)."""
    origin, version = origin_of(program), program[0] - 0x50
    if origin is not None:
        yield f"destination: what it pays to is {origin}: anyone can spend from it, or nobody"
    if not 1 <= version <= 16:
        return
    if version > 1 or len(program) != 34:
        yield (
            f"destination: anyone can spend from it today: no rule stands yet for witness version {version} with"
            f" {len(program) - 2} bytes"
        )
    elif program[2:] == G[1:]:
        yield "destination: it is the point G, whose private key is 1: anyone can sign for it"
    elif program[2:] == H:
        yield "destination: it is the point H of BIP 341, whose private key nobody knows: nobody can sign for it"
    elif not is_curve_x(program[2:]):
        yield "destination: its 32 bytes are no key of the curve: nobody can spend from it (BIP 341)"


def is_kept(state: State, found: list[dict[str, Any]]) -> bool:
    """Whether a penalty may be made invalid by another id of what it spends: an HTLC transaction of a channel with
    anchors, to which its owner may add inputs, that no block has.
    """
    is_open = state.channel_type == commitment.ANCHORS and state.confirmed_height is None
    return (
        is_open
        and not commitment_number.has_form(state.transaction)
        and any("to_local" in it["kinds"] for it in found[:-1])
    )


def lock_notes(state: State, found: list[dict[str, Any]]) -> Iterator[str]:
    """Of an HTLC-timeout transaction whose lock time the state contradicts: a block that has it is above its lock time,
    and a node that has it is not below.
    """
    lock, transaction = state.transaction.lock_time, state.transaction
    is_second = any("to_local" in it["kinds"] for it in found[:-1]) and not commitment_number.has_form(transaction)
    if not is_second or not 0 < lock < commitment.LOCKTIME_THRESHOLD:
        return
    if state.confirmed_height is not None and state.confirmed_height <= lock:
        yield f"the lock time is {lock}, so no block up to height {lock} has the transaction: compare confirmed_height"
    elif state.height < lock:
        yield f"the lock time is {lock}, so no node takes the transaction below height {lock}: compare height"
    if lock not in [it.expiry_height for it in state.htlcs if it.is_offered]:
        yield f"the lock time is {lock}, and no offered HTLC in htlcs has this expiry_height"


def spent_notes(state: State) -> Iterator[str]:
    """Of the outputs that are told to be gone, with their values, so that they can be compared."""
    for at in state.spent:
        yield (
            f"output {at}, counted from 0, with {state.transaction.outputs[at].value} satoshis, is told to be spent and"
            " left alone"
        )


def notes_of(state: State, found: list[dict[str, Any]]) -> Iterator[str]:
    """The notes, in their order."""
    sent = [it for it in found[:-1] if it["answer"] == penalties.TAKEN]
    yield from destination_notes(state.destination)
    paid = [at for at, it in enumerate(state.transaction.outputs) if it.program == state.destination]
    if paid:
        yield f"destination: output {paid[0]} of the transaction that was seen has this program"
    late = [it["outputs"] for it in found[:-1] if (it.get("deadline_blocks") or 0) > FAR]
    if late:
        yield (
            f"more than {FAR} blocks are left of outputs {places_of(late)}: compare height, confirmed_height and the"
            " expiries with the chain"
        )
    if is_kept(state, found):
        yield (
            "with anchors the owner may add inputs to this HTLC transaction, which gives it another id and makes this"
            " penalty worthless: make it of the transaction that a block has"
        )
    yield from lock_notes(state, found)
    yield from spent_notes(state)
    yield from feerate_notes(state.feerate_per_kw)
    cheap = [it["outputs"] for it in sent if it["fee"] < size_of(it)]
    if cheap:
        yield (
            "the fee is below one satoshi for a virtual byte, the least that nodes before Bitcoin Core 29.1 pass on by"
            f" default, and later ones a tenth of it: of outputs {places_of(cheap)}"
        )
    dear = [it["outputs"] for it in sent if it["fee"] * DEAR > it["value"]]
    if dear:
        yield f"the fee is above a tenth of the value: of outputs {places_of(dear)}"
    little = [
        it["outputs"]
        for it in found[:-1]
        if it["answer"] == penalties.TOO_LITTLE and it["value"] >= penalties.dust_sat(state.destination)
    ]
    if little:
        yield f"at this feerate too little is left to be passed on: of outputs {places_of(little)}"
    count = count_at_once(state, sent)
    if count < len(sent):
        yield (
            f"of {len(sent)} transactions nodes are sure to take the first {count} before a block has what they spend:"
            " send the others again after each block"
        )


def count_at_once(state: State, sent: list[dict[str, Any]]) -> int:
    """How many transactions, from the first, mempools take together with what they spend, while no block has that."""
    if state.confirmed_height is not None:
        return len(sent)
    size = penalties.seen_size(state)
    for count, it in enumerate(sent):
        size += size_of(it)
        if count == CHILDREN or size > penalties.FAMILY_SIZE:
            return count
    return len(sent)


def size_of(answer: dict[str, Any]) -> int:
    """The virtual size of the transaction of an answer."""
    return penalties.virtual_size(read_transaction(bytes.fromhex(answer["transaction"])))


def feerate_notes(feerate_per_kw: int) -> Iterator[str]:
    """Of a feerate that is high, or above the limit that a state has without its own: what it is in other units."""
    told = f"the feerate is {feerate_per_kw // 250} satoshis for a virtual byte"
    if feerate_per_kw > penalties.MOST_FEERATE:
        yield f"{told}, and above the limit that holds without most_feerate_per_kw"
    elif feerate_per_kw >= NOTED_FEERATE:
        yield (
            f"{told}, and {4 * feerate_per_kw} for 1,000 of them, for which bitcoin-cli estimatesmartfee tells it"
        )


def places_of(outputs: list[list[int]]) -> str:
    return ", ".join(str(at) for at in sorted(at for it in outputs for at in it))
