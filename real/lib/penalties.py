"""Penalties on a revoked commitment's outputs: built, signed, and judged before they are told (BOLT 5, "Revoked
Transaction Close Handling"). Tested, not proved.
"""
from collections.abc import Iterable, Iterator
from dataclasses import asdict, dataclass
from typing import Any

from real.lib import addresses, commitment, commitment_number, hints, judgement, scripts, signatures, summary
from real.lib.commitment import Keys
from real.lib.curve import AnyCurve
from real.lib.errors import Refused
from real.lib.plan import Shape, read_object
from real.lib.spend_program import Known, Spend
from real.lib.trace_program import Trace
from real.lib.transaction import MAX_MONEY, Digests, Input, Output, Transaction, compact_size, read_transaction, text

VERSION, SEQUENCE = 2, 0
# the longest signature that is made: DER with a low s, and the hash type
SIGNATURE_SIZE = 72
BASE_SIZE, MARKER_SIZE, INPUT_SIZE = 8, 2, 41
# the greatest weight that nodes pass on (Bitcoin Core, MAX_STANDARD_TX_WEIGHT), and what two more bytes of a number of
# inputs weigh
MAX_WEIGHT, COUNT_WEIGHT = 400_000, 8
# Bitcoin Core's default feerate for dust, and the sizes that it takes for the input that spends an output
# (GetDustThreshold)
DUST_FEERATE_PER_KVB, PLAIN_INPUT_SIZE, WITNESS_INPUT_SIZE = 3_000, 148, 67
MAX_FEERATE, MAX_HEIGHT, MAX_DELAY = 10_000_000, commitment.LOCKTIME_THRESHOLD - 1, 65_535
# the limits of the feerate where a state has no others: 1,000 satoshis for a virtual byte, and one
MOST_FEERATE, LEAST_FEERATE = 250_000, 253
# the most virtual bytes that a mempool takes of a transaction that no block has with all that spend it (Bitcoin Core,
# DEFAULT_DESCENDANT_SIZE_LIMIT_KVB)
FAMILY_SIZE = 101_000
# what both signatures of a commitment weigh with their script
FUNDING_WITNESS_WEIGHT = 2 + 1 + 1 + 2 * 73 + 72
MEMBERS = (
    *(
        "channel_type",
        "transaction",
        "secret",
        "delay_blocks",
        "htlcs",
        "bases",
        "funding_keys",
        "spent",
        "destination",
    ),
    *("network", "feerate_per_kw", "most_feerate_per_kw", "least_feerate_per_kw", "height", "confirmed_height"),
)
BASES = ("revocation", "payment", "htlc", "owner_delayed", "owner_htlc")
# more HTLCs than two sides of a channel may have (BOLT 2)
MAX_HTLCS = 966
# what is answered of outputs
TAKEN, TOO_LITTLE, NO_KEY, NOT_CLEAN = "taken", "too little to be passed on", "no key", "not clean"
NOT_HERE, NOT_HERE_REASON = "not claimed here", "BOLT 3's script needs CHECKSIGVERIFY, which the judge does not know"


@dataclass
class State:
    """A revoked state as it is stored, with the transaction that was seen, and how its outputs are to be taken."""

    channel_type: str
    transaction: Transaction
    secret: bytes
    delay_blocks: int
    htlcs: list[commitment.Htlc]
    bases: dict[str, bytes]
    # both keys of the funding output, if they are told: the keys of the anchors
    funding_keys: list[bytes]
    # the outputs that are told to be gone
    spent: list[int]
    destination: bytes
    feerate_per_kw: int
    height: int
    # the height of the block that has the transaction, if one has it
    confirmed_height: int | None


# what is named and not taken; the keys of anchors may be told in any order
NAMED = {"to_remote": "to_remote", "own_anchor": "anchor", "peer_anchor": "anchor"}
# what is known of an output whose program is another
NOTHING = Known("", b"", b"", [], b"", None)


@dataclass
class Take:
    """An output that is taken."""

    index: int
    output: Output
    known: Known


def read_htlc(shape: Shape) -> commitment.Htlc:
    direction = shape.check_names("direction", "hash", "expiry_height").member("direction", str)
    if direction not in ("offered", "received"):
        raise shape.refusal("direction")
    return commitment.Htlc(direction == "offered", shape.bytes("hash", 32), shape.number("expiry_height", MAX_HEIGHT))


def read_channel_type(shape: Shape) -> str:
    found = shape.member("channel_type", str, optional=True)
    if found is None:
        return commitment.STATIC_REMOTEKEY
    if found not in commitment.CHANNEL_TYPES:
        raise shape.refusal("channel_type")
    return found


def read_funding_keys(shape: Shape) -> list[bytes]:
    """Both keys, or none."""
    found = shape.member("funding_keys", list, optional=True) or []
    if len(found) not in (0, 2):
        raise shape.refusal("funding_keys")
    return [Shape({"key": it}, f"{shape.place}.funding_keys[{at}]").bytes("key", 33) for at, it in enumerate(found)]


def read_spent(shape: Shape, transaction: Transaction) -> list[int]:
    """The outputs that are gone, each once, in their order."""
    found = shape.member("spent", list, optional=True) or []
    for at, it in enumerate(found):
        if type(it) is not int or not 0 <= it < len(transaction.outputs) or it in found[:at]:
            why = f"outputs are counted from 0, and the transaction has {len(transaction.outputs)}; each stands once"
            raise Refused(str(shape.refusal(f"spent[{at}]")), why)
    return sorted(found)


def read_program(shape: Shape) -> bytes:
    """The program that is paid: in hexadecimal, or where a network is named by its address there."""
    network = shape.member("network", str, optional=True)
    if network is None:
        try:
            return shape.bytes("destination")
        except Refused as why:
            raise Refused(str(why), hints.hex_hint(shape.member("destination", str))) from None
    if network not in addresses.NETWORKS:
        raise shape.refusal("network")
    return addresses.program_of(shape.member("destination", str), network)


def read_destination(shape: Shape) -> bytes:
    """A program that wallets have an address for, and that not anyone can spend."""
    found = read_program(shape)
    if not scripts.is_address(found):
        raise shape.refusal("destination")
    if scripts.is_anyones(found):
        raise Refused(str(shape.refusal("destination")), "anyone can spend from it: it has no rule yet (BIP 141)")
    return found


def read_feerate(shape: Shape) -> int:
    """The feerate, within the limits that the state has for it."""
    found, most, least = (
        shape.number(name, MAX_FEERATE, optional=is_limit)
        for name, is_limit in (("feerate_per_kw", False), ("most_feerate_per_kw", True), ("least_feerate_per_kw", True))
    )
    most, least = MOST_FEERATE if most is None else most, LEAST_FEERATE if least is None else least
    told = f"{found} satoshis for 1,000 units of weight are {found / 250:g} for a virtual byte"
    if found > most:
        raise Refused(f"TooHighFeerate {most}", f"{told}; most_feerate_per_kw raises the limit")
    if found < least:
        raise Refused(
            f"TooLowFeerate {least}",
            f"{told}, and the limit is {least / 250:g}, which least_feerate_per_kw lowers; by default nodes before"
            " Bitcoin Core 29.1 pass on nothing below 1, and later ones nothing below 0.1",
        )
    return found


def read_confirmed_height(shape: Shape, height: int) -> int | None:
    """The height of the block that has the transaction, or null where none has it. It is always asked for: without it
    a deadline would be too late.
    """
    if "confirmed_height" not in shape.value:
        raise Refused(
            str(shape.refusal("confirmed_height")),
            "the height of the block that has the transaction is missing; null says that no block has it yet",
        )
    found = shape.number("confirmed_height", MAX_HEIGHT, optional=True)
    if found is not None and found > height:
        raise shape.refusal("confirmed_height")
    return found


def read_state(given: str | bytes) -> State:
    """The state that a JSON text tells."""
    shape = read_object(given, "state").check_names(*MEMBERS)
    transaction = read_transaction(shape.line("transaction"))
    bases = Shape(shape.member("bases", dict), "state.bases").check_names(*BASES)
    htlcs = [read_htlc(it) for it in shape.objects("htlcs")]
    if len(htlcs) > MAX_HTLCS:
        raise Refused("TooManyHtlcs")
    height = shape.number("height", MAX_HEIGHT)
    return State(
        read_channel_type(shape),
        transaction,
        shape.bytes("secret", 32),
        shape.number("delay_blocks", MAX_DELAY),
        htlcs,
        {name: bases.bytes(name, 33) for name in BASES},
        read_funding_keys(shape),
        read_spent(shape, transaction),
        read_destination(shape),
        read_feerate(shape),
        height,
        read_confirmed_height(shape, height),
    )


def deadline_of(known: Known, state: State) -> int | None:
    """The number of next blocks in which nobody else can take an output; None where nobody else ever can."""
    return None if known.owner_height is None else max(0, known.owner_height - 1 - state.height)


def least_deadline(found: Iterable[int | None]) -> int | None:
    """The least of deadlines; None where there is none."""
    return min((it for it in found if it is not None), default=None)


def known_outputs(state: State, keys: Keys, spend: Spend) -> tuple[dict[bytes, Known], dict[int, str]]:
    """The outputs of the transaction that are the commitment's, and the names of the others, by the proved rule."""
    funding = [it.hex() for it in state.funding_keys]
    return spend.revoked(
        {
            "channel_type": state.channel_type,
            "keys": {name: key.hex() for name, key in asdict(keys).items()},
            "delay_blocks": state.delay_blocks,
            "funding_keys": dict(zip(("own", "peer"), funding)) if funding else None,
            "htlcs": [
                {
                    "direction": "offered" if it.is_offered else "received",
                    "hash": it.payment_hash.hex(),
                    "expiry_height": it.expiry_height,
                }
                for it in state.htlcs
            ],
            "transaction": state.transaction.stripped_bytes().hex(),
            "confirmed_height": state.height + 1 if state.confirmed_height is None else state.confirmed_height,
        }
    )


def split_outputs(state: State, table: dict[bytes, Known]) -> tuple[list[Take], list[int]]:
    """The outputs that are the commitment's, and the indices of the others; without those that are told to be gone."""
    takes, others, gone = [], [], set(state.spent)
    for index, output in enumerate(state.transaction.outputs):
        known = table.get(output.program)
        if index in gone:
            continue
        if known is None:
            others.append(index)
        else:
            takes.append(Take(index, output, known))
    return takes, others


def is_htlc_transaction(state: State, table: dict[bytes, Known]) -> bool:
    """Whether the transaction is one that spends HTLCs of the commitment: it has an output with the script of
    to_local, and not the form of a commitment.
    """
    is_delayed = any(table.get(it.program, NOTHING).kind == "to_local" for it in state.transaction.outputs)
    return is_delayed and not commitment_number.has_form(state.transaction)


def names_of(
    state: State, table: dict[bytes, Known], names: dict[int, str], others: list[int]
) -> dict[str, dict[str, list[int]]]:
    """What other outputs of a channel with anchors are, which are not taken here: to_remote and the anchors, and what
    its owner added to an HTLC transaction, all of whose own outputs have one script.
    """
    if state.channel_type != commitment.ANCHORS:
        return {}
    found: dict[str, list[int]] = {}
    added = {"unknown": "added"} if is_htlc_transaction(state, table) else {}
    for index in others:
        kind = {**NAMED, **added}.get(names[index])
        if kind is not None:
            found.setdefault(kind, []).append(index)
    return {"named": found}


def witness_of(known: Known, signature: bytes) -> list[bytes]:
    ends = [known.key] if known.kind == "to_remote" else [*known.items, known.script]
    return [signature, *ends]


def input_weight(known: Known) -> int:
    """The greatest weight of the input that takes an output (BIP 141)."""
    items = witness_of(known, bytes(SIGNATURE_SIZE))
    return 4 * INPUT_SIZE + len(compact_size(len(items))) + sum(len(text(it)) for it in items)


def weight_of(takes: list[Take], destination: bytes) -> int:
    """The greatest weight of a transaction that takes outputs."""
    plain = BASE_SIZE + len(compact_size(len(takes))) + len(compact_size(1) + Output(0, destination).bytes())
    return 4 * plain + MARKER_SIZE + sum(input_weight(it.known) for it in takes)


def dust_sat(program: bytes) -> int:
    """The least value of an output with this program that Bitcoin Core passes on by default."""
    spending = WITNESS_INPUT_SIZE if scripts.is_witness_program(program) else PLAIN_INPUT_SIZE
    return DUST_FEERATE_PER_KVB * (len(Output(0, program).bytes()) + spending) // 1000


def unsigned_transaction(state: State, takes: list[Take]) -> tuple[Transaction | None, int]:
    """The transaction that takes outputs, and its fee; None where too little is left to be passed on."""
    value = sum(it.output.value for it in takes)
    fee = -(-weight_of(takes, state.destination) * state.feerate_per_kw // 1000)
    if value > MAX_MONEY or value - fee < dust_sat(state.destination):
        return None, fee
    txid = bytes.fromhex(state.transaction.txid())[::-1]
    inputs = [Input(txid + it.index.to_bytes(4, "little"), b"", SEQUENCE) for it in takes]
    return Transaction(VERSION, inputs, [Output(value - fee, state.destination)], 0), fee


def is_joined(it: Take, state: State, signing: dict[bytes, bytes]) -> bool:
    """Whether an output goes into the transaction of several: its key is there, nobody else can take it yet, and it
    has no less than what its input costs.
    """
    is_safe = it.known.key in signing and deadline_of(it.known, state) != 0
    return is_safe and input_weight(it.known) * state.feerate_per_kw <= 1000 * it.output.value


def virtual_size(transaction: Transaction) -> int:
    """The virtual size (BIP 141)."""
    return -(-(3 * len(transaction.stripped_bytes()) + len(transaction.bytes())) // 4)


def seen_size(state: State) -> int:
    """The virtual size of the transaction that was seen, with both signatures."""
    missing = 0 if any(it.witness for it in state.transaction.inputs) else -(-FUNDING_WITNESS_WEIGHT // 4)
    return virtual_size(state.transaction) + missing


def first_weight(state: State) -> int:
    """The greatest weight of the first transaction of several outputs: what mempools take together with what it spends,
    as long as no block has that.
    """
    return MAX_WEIGHT if state.confirmed_height is not None else min(MAX_WEIGHT, 4 * (FAMILY_SIZE - seen_size(state)))


def packs(takes: list[Take], destination: bytes, first: int = MAX_WEIGHT) -> list[list[Take]]:
    """As few transactions as take outputs in their order, none of them heavier than nodes pass on, and the first one
    not above a weight of its own.
    """
    rest = weight_of([], destination) + COUNT_WEIGHT
    found: list[list[Take]] = []
    left = 0
    for it in takes:
        weight = input_weight(it.known)
        if not found or weight > left:
            found, left = [*found, []], (MAX_WEIGHT if found else first) - rest
        found[-1].append(it)
        left -= weight
    return found


def urgency(batch: list[Take], state: State) -> tuple[bool, int, int]:
    """By what transactions are ordered: what somebody else can take first stands first, and of that the dearest."""
    deadline = least_deadline(deadline_of(it.known, state) for it in batch)
    return deadline is None, deadline or 0, -sum(it.output.value for it in batch)


def batches(takes: list[Take], state: State, signing: dict[bytes, bytes], is_one: bool) -> list[list[Take]]:
    """One transaction for each output. Or one for all that can be joined, more where one is too heavy, unless they have
    too little together, and one for each other output. The most urgent stands first.
    """
    together = [it for it in takes if is_one and is_joined(it, state, signing)]
    packed = packs(sorted(together, key=lambda it: urgency([it], state)), state.destination, first_weight(state))
    joined = [sorted(it, key=lambda each: each.index) for it in packed]
    joined = [it for it in joined if unsigned_transaction(state, it)[0] is not None]
    places = {each.index for it in joined for each in it}
    found = joined + [[it] for it in takes if it.index not in places]
    return sorted(found, key=lambda it: urgency(it, state))


def signed_transaction(
    transaction: Transaction, takes: list[Take], signing: dict[bytes, bytes], curve: AnyCurve
) -> Transaction:
    """The same with a signature in each input, each verified."""
    digests = Digests(transaction)
    for index, it in enumerate(takes):
        digest = digests.digest_of(index, it.known.script, it.output.value)
        der = curve.sign(signing[it.known.key], digest)
        if not curve.verify(it.known.key, digest, der):
            raise Refused(f"BadSignature {it.index}")
        transaction.inputs[index].witness = witness_of(it.known, der + bytes([signatures.ALL]))
    return transaction


def fault_of(transaction: Transaction, takes: list[Take], curve: AnyCurve, trace: Trace) -> str | None:
    """Why the judge does not find a transaction clean, or consensus refuses it as a whole; None where it is clean."""
    spent = [it.output for it in takes]
    faults = summary.summary_of(transaction, spent)["faults"]
    if faults:
        return str(faults[0])
    for it, found in zip(takes, judgement.judge(transaction, spent, curve, trace)):
        if found["answer"] != "clean" or found["path"] != 0 or found["relay"]:
            return f"output {it.index}: {found.get('reason', 'another path')}"
    return None


def answer_of(
    takes: list[Take], state: State, signing: dict[bytes, bytes], curve: AnyCurve, trace: Trace
) -> dict[str, Any]:
    """What is said of outputs: the transaction that takes them, after the judge found each of its inputs clean; or why
    there is none.
    """
    transaction, fee = unsigned_transaction(state, takes)
    value, deadline = sum(it.output.value for it in takes), least_deadline(
        deadline_of(it.known, state) for it in takes
    )
    answer = {
        "outputs": [it.index for it in takes],
        "kinds": [it.known.kind for it in takes],
        "value": value,
        "fee": fee,
    }
    missing = [
        "payment" if it.known.kind == "to_remote" else "revocation" for it in takes if it.known.key not in signing
    ]
    if missing:
        return {**answer, "answer": NO_KEY, "deadline_blocks": deadline, "key": missing[0]}
    if transaction is None:
        return {**answer, "answer": TOO_LITTLE}
    try:
        fault = fault_of(signed_transaction(transaction, takes, signing, curve), takes, curve, trace)
    except Refused as why:  # what is wrong with one transaction keeps back no other
        fault = str(why)
    if fault is not None:
        return {**answer, "answer": NOT_CLEAN, "deadline_blocks": deadline, "reason": fault}
    return {
        **answer,
        "answer": TAKEN,
        "deadline_blocks": deadline,
        "txid": transaction.txid(),
        "transaction": transaction.bytes().hex(),
    }


def not_here(state: State, keys: Keys, named: dict[str, Any]) -> Iterator[dict[str, Any]]:
    """To_remote of a channel with anchors, which nobody else can take: what a wallet takes it by."""
    for index in named.get("named", {}).get("to_remote", []):
        yield {
            "outputs": [index],
            "kinds": ["to_remote"],
            "value": state.transaction.outputs[index].value,
            "answer": NOT_HERE,
            "reason": NOT_HERE_REASON,
            "descriptor": f"wsh(and_v(v:pk({keys.remote.hex()}),older(1)))",
        }


def penalties(
    state: State,
    privates: list[bytes],
    curve: AnyCurve,
    trace: Trace,
    is_one: bool = False,
    is_legacy: bool = False,
    spend: Spend | None = None,
) -> Iterator[dict[str, Any]]:
    """All that is said: of each transaction of penalties, and of each output that none takes; and last of all outputs."""
    check_keys(state, curve, is_legacy)
    point = curve.public_key(state.secret)
    keys = commitment.keys_of(curve, state.bases, point, is_legacy)
    signing, unused = commitment.private_keys_of(curve, state.bases, privates, state.secret, point, is_legacy)
    trace.start()
    table, names = known_outputs(state, keys, spend or Spend())
    takes, others = split_outputs(state, table)
    named = names_of(state, table, names, others)
    yield from not_here(state, keys, named)
    ordered = batches(takes, state, signing, is_one)
    # the judge lists all scripts by one call, the most urgent first
    trace.ask_paths([it.known.script for batch in ordered for it in batch if it.known.key in signing])
    found: dict[str, list[int]] = {TAKEN: [], TOO_LITTLE: [], NO_KEY: [], NOT_CLEAN: []}
    for batch in ordered:
        answer = answer_of(batch, state, signing, curve, trace)
        found[answer["answer"]] += answer["outputs"]
        yield answer
    yield last_line(state, found, others, named, unused)


def check_keys(state: State, curve: AnyCurve, is_legacy: bool) -> None:
    """Whether the secret is a private key, and each base point and funding key a point."""
    if not curve.is_private(state.secret):
        raise Refused("BadSecret")
    for name, base in state.bases.items():
        if not curve.is_point(base):
            raise Refused(f"BadShape state.bases.{name}")
    for at, key in enumerate(state.funding_keys):
        if not curve.is_point(key):
            raise Refused(f"BadShape state.funding_keys[{at}]")
    if is_legacy and state.channel_type == commitment.ANCHORS:
        raise Refused("BadShape state.channel_type")


def last_line(
    state: State, found: dict[str, list[int]], others: list[int], named: dict[str, Any], unused: list[int]
) -> dict[str, Any]:
    """What is said of all outputs together."""
    taken, too_little, no_key, not_clean = (sorted(it) for it in found.values())
    last = {
        "transaction": state.transaction.txid(),
        "taken": taken,
        "too_little": too_little,
        "no_key": no_key,
        "others": others,
        **named,
    }
    optional = {"not_clean": not_clean, "spent": state.spent, "unused_keys": unused}
    return {**last, **{name: it for name, it in optional.items() if it}}


def is_left(last: dict[str, Any]) -> bool:
    """Whether the last line says that something is left: an output that matches nothing and is not named, one whose
    key is missing or whose transaction is not clean, or a key that is that of neither base point.
    """
    named = [at for it in last.get("named", {}).values() for at in it]
    unnamed = set(last["others"]) - set(named)
    return bool(unnamed or last["no_key"] or last.get("not_clean") or last.get("unused_keys"))
