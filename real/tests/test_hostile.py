"""Tests of what is read: changed bytes are refused by name, strict DER is what an encoder writes, and scripts at
random are judged as consensus has them. Tested, not proved.
"""
import json
import random
from collections.abc import Callable

from real.lib import assembly, commitment_number, consensus, judgement, penalties, psbt, signatures
from real.lib.errors import Refused
from real.lib.plan import read_plan
from real.lib.ripemd160 import ripemd160
from real.lib.transaction import Input, Output, Transaction, hash160, read_transaction, sha256
from real.tests import bolt3, calls
from real.tests.checks import JudgeCase

MUTATIONS, TRANSACTIONS, INPUTS, TRIES = 4000, 3, 250, 40
KEYS = [bytes([2]) + bytes([7 + it]) * 32 for it in range(4)]
# NOTIF, 1, ELSE, 0, ENDIF: what was true is false
NEGATED = b"\x64\x51\x67\x00\x68"
PREIMAGE, DELAY, LOCK_TIME = b"\x09" * 32, 7, 600


def read_all_fields(given: bytes) -> None:
    """Reads a partially signed transaction as far as any tool does."""
    found = psbt.read(given)
    for index, fields in enumerate(found.inputs):
        psbt.spent_output(found, index)
        psbt.final_witness(fields)
        psbt.taproot_fields(fields)


def encoded_numbers(r: int, s: int) -> bytes:
    """Two numbers that are not negative in DER, with a hash type of ALL, by an encoder."""
    parts = [number.to_bytes(number.bit_length() // 8 + 1, "big") for number in (r, s)]
    body = b"".join(b"\x02" + bytes([len(it)]) + it for it in parts)
    return b"\x30" + bytes([len(body)]) + body + b"\x01"


def item_numbers(item: bytes | bytearray) -> tuple[int, int] | None:
    """The two numbers that stand where a signature in DER has them, whatever else stands there; None where they are
    cut.
    """
    try:
        first = item[4 : 4 + item[3]]
        second = item[6 + item[3] : 6 + item[3] + item[5 + item[3]]]
    except IndexError:
        return None
    return int.from_bytes(first, "big"), int.from_bytes(second, "big")


class Drawn:
    """A curve on which a signature says by its first byte whose it is, so that runs at random need no real one."""

    def verify(self, key: bytes, _digest: bytes, der: bytes) -> bool:
        return len(key) == signatures.KEY_SIZE and der[4] == key[1]

    def has_low_s(self, der: bytes) -> bool:
        return der[-1] != 1


def push(data: bytes) -> bytes:
    return bytes([len(data)]) + data


def drawn_part(chance: random.Random, depth: int) -> bytes:
    """A part of a script at random: what wallets write, and single opcodes of the machine."""
    key = push(chance.choice(KEYS))
    if depth and chance.random() < 0.35:
        inner = [drawn_script(chance, depth - 1) for _ in range(2)]
        return chance.choice((b"\x63", b"\x64")) + inner[0] + b"\x67" + inner[1] + b"\x68"
    return chance.choice(
        (
            key + b"\xac",
            key + b"\xac",
            key + b"\x7c\xac",
            b"\xa9" + push(hash160(PREIMAGE)) + b"\x88",
            b"\x82\x01\x20\x88",
            b"\x82\x01\x27\x88",
            b"\x01\x05\xac" + NEGATED,
            b"\x52" + push(KEYS[2]) + push(KEYS[3]) + b"\x52\xae" + NEGATED,
            bytes([0x50 + chance.randrange(1, 3)]) + push(KEYS[0]) + push(KEYS[1]) + b"\x52\xae",
            b"\x57\xb2\x75",
            b"\x02\x58\x02\xb1\x75",
            b"\x02\x07\x00\xb2\x75",
            bytes([chance.choice((0x00, 0x51, 0x75, 0x76, 0x7C, 0x82, 0x87, 0x88, 0xAC, 0xAE, 0x67))]),
        )
    )


def drawn_script(chance: random.Random, depth: int) -> bytes:
    return b"".join(drawn_part(chance, depth) for _ in range(chance.choice((0, 1, 1, 1, 2, 3))))


def drawn_item(chance: random.Random) -> bytes:
    signature = encoded_numbers(chance.choice(KEYS)[1] << 240 | chance.getrandbits(200), 1 + chance.getrandbits(3))
    return chance.choice(
        (b"", b"", b"\x01", signature, signature, signature, PREIMAGE, chance.choice(KEYS), b"\x00", b"\x30\x06")
    )


def drawn_witness(chance: random.Random, script: bytes) -> list[bytes]:
    """Items at random: where some of a few tries are valid by consensus, these."""
    blank = Transaction(2, [Input(bytes(36), b"", DELAY)], [], LOCK_TIME)
    for _ in range(TRIES):
        items = [drawn_item(chance) for _ in range(chance.randrange(5))]
        if consensus.end_of(consensus.Spend(blank, 0, bytes(32), Drawn()), script, items).valid:
            break
    return [*items, script]


def drawn_case(chance: random.Random) -> tuple[Transaction, list[Output]]:
    """A transaction with scripts and witnesses at random, and what it spends."""
    scripts = [drawn_script(chance, 2) for _ in range(INPUTS)]
    inputs = [
        Input(bytes(32) + place.to_bytes(4, "little"), b"", DELAY, drawn_witness(chance, it))
        for place, it in enumerate(scripts)
    ]
    return Transaction(2, inputs, [Output(1, b"\x51")], LOCK_TIME), [
        Output(5, b"\x00\x20" + sha256(it)) for it in scripts
    ]


class HostileTest(JudgeCase):
    """Hostile bytes, encodings and scripts at random."""

    def survives(self, name: str, read: Callable[[bytes], object], given: bytes) -> None:
        """Whether a reader of changed bytes returns, or refuses by name, and nothing else."""
        chance = random.Random(name)
        for number in range(MUTATIONS):
            changed = bytearray(given[: chance.randrange(len(given)) if number % 4 == 0 else None])
            for _ in range(chance.randrange(1, 4)):
                if changed:
                    changed[chance.randrange(len(changed))] = chance.randrange(256)
            try:
                read(bytes(changed))
            except Refused:
                pass
            except Exception as why:  # any other end is what is looked for
                self.check(False, f"{name}, number {number}: {type(why).__name__} {why}")
                return
        self.check(True, name)

    def test_hostile_bytes(self) -> None:
        """Each reader, with changed bytes."""
        told = bolt3.read()
        plan = json.dumps(bolt3.plan(told, *bolt3.PLANNED)).encode()
        _, transaction, _, _, _ = next(bolt3.htlc_transactions(told))
        self.survives("changed transactions", read_transaction, transaction.bytes())
        self.survives("changed plans", lambda it: assembly.make(read_plan(it)), plan)
        self.survives("changed partially signed transactions", read_all_fields, assembly.make(read_plan(plan)).bytes())
        self.survives(
            "changed base64",
            lambda it: read_all_fields(psbt.decoded_bytes(it)),
            assembly.make(read_plan(plan)).base64().encode(),
        )
        self.survives("changed revoked states", penalties.read_state, calls.state_lines(calls.SEEN).encode())
        self.survives(
            "changed commitments with payment base points",
            commitment_number.commitment_numbers,
            json.dumps({"transaction": calls.SEEN.stripped_bytes().hex(), **calls.PAYMENTS}).encode(),
        )

    def test_strict_encodings(self) -> None:
        """An item is in strict DER exactly where an encoder writes it of the numbers that it has."""
        chance, strict = random.Random("strict"), 0
        for _ in range(MUTATIONS):
            item = bytearray(
                encoded_numbers(
                    chance.getrandbits(chance.choice((1, 8, 250, 256))),
                    chance.getrandbits(chance.choice((7, 128, 255))),
                )
            )
            for _ in range(chance.randrange(3)):
                item[chance.randrange(len(item) - 1)] = chance.choice(
                    (0, 1, 2, 0x30, 0x7F, 0x80, len(item) - 3, chance.randrange(256))
                )
            numbers = item_numbers(item)
            holds = numbers is not None and encoded_numbers(*numbers) == item and len(item) <= signatures.LONGEST
            if signatures.is_strict_der(bytes(item)) != holds:
                self.check(False, f"strict DER of {item.hex()}")
            strict += holds
        self.check(0 < strict < MUTATIONS, "encodings that are strict and others")

    def test_drawn_cases(self) -> None:
        """The judge with tokens and a run by the rules of consensus with signatures agree, but for the rules that are
        stricter. Each kind of answer comes.
        """
        chance, seen = random.Random("drawn"), {}
        for _ in range(TRANSACTIONS):
            for it in judgement.judge(*drawn_case(chance), Drawn(), self.trace):
                kind = it["answer"], it.get("reason") if it["answer"] != "stops" else None
                seen[kind] = seen.get(kind, 0) + 1
                if it.get("reason") in ("Disagreement", "DigestDiffers"):
                    self.check(False, f"a script at random: {it}")
        wanted = [("clean", None), ("stops", None)]
        wanted += [("not judged", it) for it in ("MeasuredSignature", "AmbiguousItem", "NotListed")]
        wanted += [
            ("stricter here", it)
            for it in ("FailedCheck Number", "FailedCheck KeyForm", "FailedCheck TokenForm", "OpenBranch")
        ]
        self.check(all(seen.get(it, 0) for it in wanted), f"answers of scripts at random: {seen}")

    def test_bounds(self) -> None:
        """What is looked at is bounded over all inputs: two of them, and each alone is within the bound."""
        signature, keys = encoded_numbers(1, 1), [bytes([2]) + place.to_bytes(32, "big") for place in range(1, 251)]
        checked = [[signature] * 300 + keys + [b"\x51" + b"\x75" * place + b"\x51"] for place in (1, 2)]
        # seven branches have too many paths to be listed
        branched = [[(b"\x63" * 7 + b"\x68" * 7 + b"\x51" * place)] for place in (9_200, 9_201)]
        for witnesses, reasons in (
            (checked, ["NotOneValue", "TooManyChecks"]),
            (branched, ["MissingOperand", "TooManySteps"]),
        ):
            inputs = [Input(bytes(32) + place.to_bytes(4, "little"), b"", 0, it) for place, it in enumerate(witnesses)]
            spent = [Output(5, b"\x00\x20" + sha256(it[-1])) for it in witnesses]
            found = judgement.judge(Transaction(2, inputs, [Output(1, b"\x51")], 0), spent, Drawn(), self.trace)
            self.check(
                [it["reason"] for it in found] == reasons, f"{reasons}, and not {[it['reason'] for it in found]}"
            )
        # 20 items, each of 520 bytes, and 201 copies of one: 36 times 114,920 bytes are within the bound
        copied = [
            judgement.Case(place, Input(bytes(36), b"", 0), None, b"\x76" * 201, [bytes(520)] * 20)
            for place in range(37)
        ]
        judgement.attempt(copied, judgement.within_budget, judgement.Budget())
        self.check(
            [it.settled and it.settled.reason for it in copied] == [None] * 36 + ["TooMuchStack"], "stacks with copies"
        )

    def test_hashes(self) -> None:
        """RIPEMD-160 of two texts, as its authors print them, and HASH160 of each length by both hashers, where this
        Python has one.
        """
        for given, wanted in (
            (b"", "9c1185a5c5e9fc54612808977ee8f548b2258d31"),
            (b"abc", "8eb208f7e05d987a9b044a8e98c6b087f15a0bfc"),
        ):
            self.check(ripemd160(given).hex() == wanted, f"RIPEMD-160 of {given}")
        self.check(all(hash160(bytes(it)) == ripemd160(sha256(bytes(it))) for it in range(200)), "HASH160")
