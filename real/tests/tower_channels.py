"""Compares what real/revoked answers with what Electrum makes of the same outputs. Tested, not proved. Wants Debian's
python3-electrum.
"""
import dataclasses
import hashlib
import json
import os
import subprocess
from collections.abc import Iterator
from typing import Any

from electrum import ecc
from electrum.crypto import sha256d
from electrum.transaction import PartialTransaction, PartialTxOutput, Transaction, TxOutput

from real.lib import commitment_number, penalties
from real.lib.command import LEFT
from real.lib.curve import AnyCurve
from real.lib.errors import NotRun
from real.lib.trace_program import Trace, built_program
from real.lib.transaction import Output
from real.tests import channels
from real.tests.channels import HEIGHT, Channel, Known
from real.tests.checks import spender

REVOKED = os.path.join(os.path.dirname(os.path.dirname(os.path.abspath(__file__))), "revoked")
SECONDS = 900
# the hash of a key, and the least value of an output to it (BOLT 3, "Dust Limits")
DESTINATION, DUST_SAT = b"\x00\x14" + b"\xc7" * 20, 294
FEERATES_PER_KW = 253, 400, 1_000
TOO_LITTLE = "too little to be passed on"
# a channel with HTLCs, by which the comparison is tried itself
COMPARED_TWICE = 4
CHANGES = {*channels.BASES, "delay", "secret", "no HTLC", "direction", "hash", "expiry"}


class Once(Trace):
    """The judge, which is asked about each transaction once: what is changed leaves most of them as they are."""

    def __init__(self) -> None:
        super().__init__(built_program())
        self.told = {}

    def witness(self, transaction: Transaction, spent: list[Output]) -> list[dict[str, int | str]]:
        name = transaction.bytes(), *((it.value, it.program) for it in spent)
        if name not in self.told:
            self.told[name] = super().witness(transaction, spent)
        return self.told[name]


class Tally:
    """How much was compared, and how much of it differs."""

    def __init__(self, is_quiet: bool = False) -> None:
        self.channels = self.outputs = self.second = self.little = self.changes = self.named = self.differ = 0
        self.closes = self.claims = self.others = 0
        self.seen, self.is_quiet = set(), is_quiet

    def check(self, holds: bool, what: str) -> None:
        if not holds:
            self.differ += 1
            if not self.is_quiet:
                print(f"differs: {what}", flush=True)

    def add(self, answers: list[dict[str, Any]], is_second: bool) -> None:
        self.outputs += len(answers)
        self.second += len(answers) * is_second
        self.little += sum(it["answer"] == TOO_LITTLE for it in answers)

    def report(self) -> int:
        outputs = (
            f"{self.outputs} outputs ({self.second} of HTLC transactions, {self.little} too little to be passed on)"
        )
        print(
            f"towers: {self.channels} channels, half of them with anchors, {outputs}, {self.changes} changes by which"
            f" {self.named} outputs no longer match"
        )
        print(
            f"closes: {self.closes} transactions of commitments that are not revoked, {self.claims} claims,"
            f" {self.others} other outputs, {self.differ} differ"
        )
        return int(self.differ > 0)


def htlcs_of(channel: Channel) -> list[dict[str, Any]]:
    """The HTLCs of a channel, as the programs read them."""
    return [
        {
            "direction": "received" if it.is_received else "offered",
            "hash": it.payment_hash.hex(),
            "expiry_height": it.expiry_height,
        }
        for it in channel.htlcs
    ]


def state_of(channel: Channel, raw: str) -> dict[str, Any]:
    """What a tower stores of a channel's revoked state, with the transaction that it sees."""
    confirmed_height = channel.confirmed_height()
    return {
        "channel_type": "anchors" if channel.is_anchored else "static_remotekey",
        "funding_keys": [it.public.hex() for it in channels.funding_keys(channel)],
        "transaction": raw,
        "secret": channel.secret.hex(),
        "delay_blocks": channel.delay_blocks,
        "htlcs": htlcs_of(channel),
        "bases": {name: channels.public_key(it).hex() for name, it in channel.privates.items()},
        "destination": DESTINATION.hex(),
        "feerate_per_kw": FEERATES_PER_KW[channel.number % len(FEERATES_PER_KW)],
        "height": HEIGHT,
        "confirmed_height": confirmed_height,
    }


def private_keys_of(channel: Channel) -> list[bytes]:
    return [channel.privates[it] for it in ("payment", "revocation")]


def by_program(channel: Channel, raw: str) -> tuple[list[dict[str, Any]], int]:
    """What the program answers, with its status."""
    lines = [json.dumps(state_of(channel, raw)), *(it.hex() for it in private_keys_of(channel))]
    words = [REVOKED, *(["--legacy"] if channel.is_legacy else [])]
    ran = subprocess.run(
        words,
        input="".join(f"{it}\n" for it in lines),
        stdout=subprocess.PIPE,
        stderr=subprocess.PIPE,
        text=True,
        timeout=SECONDS,
    )
    if ran.returncode not in (0, LEFT):
        raise NotRun(ran.stderr.strip().removeprefix("real: not run: "))
    return [json.loads(it) for it in ran.stdout.splitlines()], ran.returncode


def by_call(channel: Channel, raw: str, curve: AnyCurve, trace: Trace) -> tuple[list[dict[str, Any]], int]:
    """The same, without a process of its own."""
    state = penalties.read_state(json.dumps(state_of(channel, raw)))
    privates, is_legacy = private_keys_of(channel), channel.is_legacy
    found = list(penalties.penalties(state, privates, curve, trace, is_legacy=is_legacy, spend=spender()))
    return found, LEFT if penalties.is_left(found[-1]) else 0


def is_signed(made: Transaction, output: PartialTxOutput, known: Known, signature: bytes) -> bool:
    """Whether the signature is the key's over the digest that Electrum computes (BIP 143)."""
    found = PartialTransaction.from_tx(made)
    spent = found.inputs()[0]
    spent.witness_utxo = TxOutput(scriptpubkey=output.scriptpubkey, value=output.value)
    if known.kind == "to_remote":
        spent.script_type, spent.pubkeys = "p2wpkh", [known.key]
    else:
        spent.script_type, spent.witness_script = "p2wsh", known.last
    digest = sha256d(bytes.fromhex(found.serialize_preimage(0)))
    return signature[-1:] == b"\x01" and ecc.ECPubkey(known.key).verify_message_hash(
        ecc.sig_string_from_der_sig(signature[:-1]), digest
    )


def items_of(known: Known) -> list[bytes]:
    """What stands between the signature and the end of a penalty's witness (BOLT 3)."""
    return {"to_local": [b"\x01"], "to_remote": []}.get(known.kind, [known.key])


def deadline_of(known: Known) -> int | None:
    """The number of next blocks before the first one in which somebody else can take the output."""
    return None if known.first_height is None else max(0, known.first_height - (HEIGHT + 1))


def urgency(known: Known, value: int) -> tuple[bool, int, int]:
    """By what answers are ordered: the least deadline first, and of these the greatest value."""
    deadline = deadline_of(known)
    return deadline is None, deadline or 0, -value


def faults_of(answer: dict[str, Any], transaction: PartialTransaction, at: int, known: Known) -> list[Any]:
    """What an answer has otherwise than Electrum has of the output that stands there."""
    output = transaction.outputs()[at]
    left_sat = output.value - answer["fee"]
    faults = {
        "outputs": answer["outputs"] != [at],
        "kinds": answer["kinds"] != [known.kind],
        "value": answer["value"] != output.value,
    }
    faults["answer"] = answer["answer"] != (TOO_LITTLE if left_sat < DUST_SAT else "taken")
    if answer["answer"] == "taken":
        faults["deadline_blocks"] = answer["deadline_blocks"] != deadline_of(known)
        made = Transaction(answer["transaction"])
        made.deserialize()
        witness = made.inputs()[0].witness_elements()
        faults["txid"] = made.txid() != answer["txid"]
        faults["outpoint"] = [it.prevout.to_str() for it in made.inputs()] != [f"{transaction.txid()}:{at}"]
        faults["paid"] = [(it.scriptpubkey, it.value) for it in made.outputs()] != [(DESTINATION, left_sat)]
        faults["script"] = witness[1:] != [*items_of(known), known.last]
        faults["signature"] = not is_signed(made, output, known, witness[0])
    return [name for name, it in faults.items() if it]


def names_of(channel: Channel, transaction: PartialTransaction) -> dict[str, list[int]]:
    """The outputs of a channel with anchors that are named and not taken."""
    found: dict[str, list[int]] = {}
    programs = channels.named_programs(channel)
    for at, it in enumerate(transaction.outputs()):
        if it.scriptpubkey in programs:
            found.setdefault(programs[it.scriptpubkey], []).append(at)
    return found


def compare(
    tally: Tally,
    name: str,
    channel: Channel,
    transaction: PartialTransaction,
    answered: tuple[list[dict[str, Any]], int],
) -> tuple[list[dict[str, Any]], list[int]]:
    """Each output whose program Electrum knows is taken as Electrum has it, and each other one is named. The answers,
    and the outputs that match nothing.
    """
    (*answers, last), status = answered
    outputs, known, named = transaction.outputs(), channels.outputs_by_program(channel), names_of(channel, transaction)
    apart = [it["outputs"][0] for it in answers if it["answer"] == penalties.NOT_HERE]
    tally.check(apart == named.get("to_remote", []), f"{name}: to_remote is named first: {apart}")
    answers = [it for it in answers if it["answer"] != penalties.NOT_HERE]
    own = [at for at, it in enumerate(outputs) if it.scriptpubkey in known]
    others = [at for at, it in enumerate(outputs) if it.scriptpubkey not in known]
    order = sorted(own, key=lambda it: urgency(known[outputs[it].scriptpubkey], outputs[it].value))
    little = sorted(at for at, it in zip(order, answers) if outputs[at].value - it["fee"] < DUST_SAT)
    wanted = {
        "transaction": transaction.txid(),
        "taken": [at for at in own if at not in little],
        "too_little": little,
        "no_key": [],
        "others": others,
        **({"named": named} if channel.is_anchored else {}),
    }
    others = [at for at in others if not any(at in it for it in named.values())]
    tally.check(last == wanted, f"{name}: {last}, and not {wanted}")
    tally.check(status == (LEFT if others else 0), f"{name}: status {status}")
    tally.check(len(answers) == len(own), f"{name}: {len(answers)} answers")
    for at, answer in zip(order, answers):
        faults = faults_of(answer, transaction, at, known[outputs[at].scriptpubkey])
        tally.check(not faults, f"{name}: output {at}: {faults}")
    return answers, others


def spoiled_answers(answer: dict[str, Any], known: Any) -> Iterator[Any]:
    """The answer for an output that is taken, with one thing wrong each, and which."""
    yield "outputs", {**answer, "outputs": [answer["outputs"][0] + 1]}
    yield "kinds", {**answer, "kinds": ["another"]}
    yield "value", {**answer, "value": answer["value"] + 1}
    yield "answer", {**answer, "answer": TOO_LITTLE}
    yield "deadline_blocks", {**answer, "deadline_blocks": (answer["deadline_blocks"] or 0) + 1}
    yield "paid", {**answer, "fee": answer["fee"] + 1}
    yield "txid", {**answer, "txid": "00" * 32}
    other = "ab" if known.last[-1] != 0xAB else "cd"
    yield "script", {**answer, "transaction": f"{answer['transaction'][:-10]}{other}{answer['transaction'][-8:]}"}
    later = Transaction(f"{answer['transaction'][:-8]}01000000")
    later.deserialize()
    yield "signature", {**answer, "transaction": str(later), "txid": later.txid()}


def check_itself(tally: Tally, answered: Any, transaction: Any, channel: Channel) -> None:
    """The comparison finds each thing that is wrong, so that it can fail."""
    (*answers, last), status = answered
    known = channels.outputs_by_program(channel)
    answer = next(it for it in answers if it["answer"] == "taken")
    at = answer["outputs"][0]
    for name, it in spoiled_answers(answer, known[transaction.outputs()[at].scriptpubkey]):
        found = faults_of(it, transaction, at, known[transaction.outputs()[at].scriptpubkey])
        tally.check(found == [name], f"the comparison itself: {found}, and not {name}")
    wrong = {**last, "taken": last["taken"][1:], "others": last["taken"][:1]}
    little = {**last, "taken": last["taken"][1:], "too_little": [*last["taken"][:1], *last["too_little"]]}
    rows = (
        ([*answers[1:], last], status),
        ([*answers, last], LEFT - status),
        ([*answers, wrong], status),
        ([*answers, little], status),
        ([*answers[::-1], last], status),
    )
    for it in rows:
        quiet = Tally(is_quiet=True)
        compare(quiet, "", channel, transaction, it)
        tally.check(quiet.differ, "the comparison itself")


def other_bytes(channel: Channel, name: str) -> bytes:
    return hashlib.sha256(f"another {name} of channel {channel.number}".encode()).digest()


def changed_parts(channel: Channel) -> Iterator[tuple[str, Channel]]:
    """The channel with one base point, the delay or the secret changed. The private key of a base point is changed
    with it.
    """
    for name in channels.BASES:
        yield name, dataclasses.replace(channel, privates={**channel.privates, name: other_bytes(channel, name)})
    yield "delay", dataclasses.replace(channel, delay_blocks=(channel.delay_blocks + 1) % 65_536)
    yield "secret", dataclasses.replace(channel, secret=other_bytes(channel, "secret"))


def changed_htlc(channel: Channel) -> Iterator[tuple[str, Channel]]:
    """The channel without one of its HTLCs, and with another direction, hash or expiry of it."""
    seen = channel.untrimmed_htlcs() or channel.htlcs
    if not seen:
        return
    it = seen[channel.number % len(seen)]
    instead = {
        "no HTLC": [],
        "direction": [dataclasses.replace(it, is_received=not it.is_received)],
        "hash": [dataclasses.replace(it, payment_hash=other_bytes(channel, "hash"))],
        "expiry": [dataclasses.replace(it, expiry_height=it.expiry_height - 1)],
    }
    place = next(place for place, other in enumerate(channel.htlcs) if other is it)
    for name, htlcs in instead.items():
        yield name, dataclasses.replace(channel, htlcs=[*channel.htlcs[:place], *htlcs, *channel.htlcs[place + 1 :]])


def watch_changes(
    tally: Tally, name: str, channel: Channel, transaction: PartialTransaction, raw: str, curve: AnyCurve, trace: Trace
) -> None:
    """With one part changed: what of the transaction still has a program that Electrum makes of the rest is taken, and
    what has none is named.
    """
    for part, changed in (*changed_parts(channel), *changed_htlc(channel)):
        _, others = compare(
            tally,
            f"{name}, another {part}",
            changed,
            transaction,
            by_call(changed, raw, curve, trace),
        )
        tally.changes, tally.named = tally.changes + 1, tally.named + len(others)
        tally.seen |= {part} if others else set()


def hex_of(transaction: PartialTransaction, number: int) -> str:
    """Its bytes: in each second four channels without witnesses."""
    return transaction.serialize_to_network(include_sigs=number // 4 % 2 == 0)


def check_number(tally: Tally, name: str, channel: Channel, raw: str) -> None:
    """The number that the commitment has is the channel's."""
    opener, other = channels.payment_bases(channel)
    found = commitment_number.commitment_numbers(
        json.dumps({"transaction": raw, "opener_payment": opener.hex(), "other_payment": other.hex()})
    )
    tally.check(
        found["commitment_number"] == channel.commitment_number,
        f"{name}: commitment number {found['commitment_number']}",
    )


def watch(tally: Tally, channel: Channel, curve: AnyCurve, trace: Trace) -> None:
    """All that is asked of one channel: its commitment by the program, and with each part changed; its number; each of
    its HTLC transactions, and the first with each part changed.
    """
    number, commitment = channel.number, channels.commitment_of(channel)
    name = f"channel {number}{' with anchors' * channel.is_anchored}"
    raw = hex_of(commitment, number)
    tally.channels += 1
    answered = by_program(channel, raw)
    answers, others = compare(tally, name, channel, commitment, answered)
    if number == COMPARED_TWICE and not channel.is_anchored:
        check_itself(tally, answered, commitment, channel)
    tally.check(not others, f"{name}: Electrum does not know its own outputs {others}")
    tally.add(answers, False)
    check_number(tally, name, channel, raw)
    watch_changes(tally, name, channel, commitment, raw, curve, trace)
    for place, it in enumerate(channel.untrimmed_htlcs()):
        second, where = channels.second_stage_of(channel, commitment, it), f"{name}, HTLC transaction {place}"
        raw = hex_of(second, number)
        answers, others = compare(
            tally, where, channel, second, by_call(channel, raw, curve, trace) if place else by_program(channel, raw)
        )
        tally.check(not others, f"{where}: Electrum does not know its output")
        tally.add(answers, True)
        if place == 0:
            watch_changes(tally, where, channel, second, raw, curve, trace)
