"""Tests of the judge with real signatures: the recorded rows, the signed transactions of BOLT 3's Appendix C, and both
sides of each limit. Tested, not proved.
"""
import os
from collections.abc import Callable
from typing import Any

from real.lib import judge_text, judgement
from real.lib.trace_program import Trace
from real.lib.transaction import Output, Transaction, read_transaction
from real.tests import bolt3, calls
from real.tests.checks import CurveCase
from real.tests.judged_rows import is_wanted, judge_rows, recorded_rows, row_answer

SUCCESS = os.path.join(os.path.dirname(os.path.abspath(__file__)), "success.txt")


class Changing:
    """A judge whose answers are changed."""

    def __init__(self, trace: Trace, change: Callable) -> None:
        self.trace, self.change = trace, change

    def paths(self, scripts: list[bytes]) -> list[dict[str, Any]]:
        return self.trace.paths(scripts)

    def witness(self, transaction: Transaction, spent: list[Output]) -> list[dict[str, Any]]:
        return [self.change(it) for it in self.trace.witness(transaction, spent)]


def large_transaction(inputs: int, outputs: int) -> Transaction:
    it = read_transaction(bytes.fromhex(bolt3.plan(bolt3.read(), *bolt3.PLANNED)["transaction"]), marked=False)
    made = [type(it.inputs[0])(bytes(32) + place.to_bytes(4, "little"), b"", 0, [b"\x51"]) for place in range(inputs)]
    return Transaction(2, made, it.outputs[:1] * outputs, 0)


class JudgementTest(CurveCase):
    """What becomes of each input."""

    @classmethod
    def setUpClass(cls) -> None:
        super().setUpClass()
        cls.rows = recorded_rows()

    def test_rows(self) -> None:
        """The answer of each row is the wanted one."""
        judge_rows(self, [*self.rows, *bolt3.rows()], self.curve, self.trace)

    def test_relay(self) -> None:
        """Each rule of relay is wanted of a row, and told in words."""
        seen = {name for row in self.rows for answer in row.get("answers", []) for name in answer.get("relay", [])}
        self.check(seen == set(judge_text.RELAY), f"rules of relay: {seen}")

    def test_comparison(self) -> None:
        """A wanted answer that is changed is not met, so that the comparison can fail."""
        row = next(it for it in self.rows if "answers" in it)
        found = row_answer(row, self.curve, self.trace)
        for wanted in (
            [{**row["answers"][0], "answer": "other"}],
            [{**row["answers"][0], "path": 7}],
            [],
            row["answers"] * 2,
        ):
            self.check(not is_wanted({"answers": wanted}, found), "the comparison itself")

    def test_vectors(self) -> None:
        """Ids and digests are those that the appendix's cases have."""
        for txid, digest, transaction, spent in bolt3.vectors():
            self.check(transaction.txid() == bytes.fromhex(txid)[::-1].hex(), "an id as explorers show it")
            self.check(
                transaction.digest(0, transaction.inputs[0].witness[-1], spent.value).hex() == digest,
                "a digest of BIP 143",
            )

    def test_guards(self) -> None:
        """A digest of the judge's that is another one, and a clean run that consensus does not take, are told."""
        named = {it["name"]: it for it in self.rows}
        clean = next(it for name, it in named.items() if name.endswith("/ no_fault"))
        bad = named[clean["name"].replace("no_fault", "signature")]
        found = row_answer(clean, self.curve, Changing(self.trace, lambda it: {**it, "digest": "00" * 32}))["answers"][
            0
        ]
        self.check(found["reason"] == "DigestDiffers", "another digest")
        found = row_answer(
            bad,
            self.curve,
            Changing(self.trace, lambda it: {"path": 0, "counted": 0, "height": 0, "digest": it["digest"]}),
        )["answers"][0]
        self.check(found["reason"] == "Disagreement", "a clean run of a bad signature")
        found = row_answer(bad, self.curve, Changing(self.trace, lambda it: {**it, "opcode": it["opcode"] - 1}))[
            "answers"
        ][0]
        self.check(found["reason"] == "Disagreement", "a stop of a bad signature at another opcode")
        found = row_answer(bad, self.curve, Changing(self.trace, lambda it: {**it, "stack": ["01"]}))["answers"][0]
        self.check(found["reason"] == "Disagreement", "another stack where a bad signature stops")
        stop = {"stopped": "FalseEnd", "opcode": 0, "op": None, "byte": 0, "says": "", "stack": []}
        found = row_answer(clean, self.curve, Changing(self.trace, lambda it: {**stop, "digest": it["digest"]}))[
            "answers"
        ][0]
        self.check(found["reason"] == "Disagreement", "a stop of a good signature")

    def test_large_transactions(self) -> None:
        """One input or output more than are judged."""
        for inputs, outputs, reason in ((4001, 1, "TooManyInputs"), (1, 4001, "TooManyOutputs")):
            found = judgement.judge(
                large_transaction(inputs, outputs), [Output(5, calls.PROGRAM)] * inputs, self.curve, self.trace
            )
            self.check(
                {(it["answer"], it["reason"]) for it in found} == {("not judged", reason)} and len(found) == inputs,
                reason,
            )
        large = large_transaction(1, 1)
        for size, reason in ((10_000, None), (10_001, "TooLongOutput")):
            large.outputs = [Output(1, bytes(size))]
            self.check(
                judgement.judge(large, [Output(5, calls.PROGRAM)], self.curve, self.trace)[0].get("reason") == reason,
                f"an output of {size} bytes",
            )
        found = judgement.judge(large_transaction(1, 4000), [Output(5, calls.PROGRAM)], self.curve, self.trace)
        self.check(found[0]["answer"] == "clean", "4,000 outputs")

    def test_limits(self) -> None:
        """Witnesses on both sides of their limits: items, the bytes of one, and signatures times keys."""
        formed, keys = [bytes.fromhex("3006020101020101") + b"\x01"] * 400, [
            bytes([2]) + bytes([1, it]) * 16 for it in range(251)
        ]
        self.rows = [
            ([b""] * 1000, "StackTooTall"),
            ([b""] * 1001, "TooManyItems"),
            ([bytes(10_000)], "ItemTooLong"),
            ([bytes(10_001)], "TooLongItem"),
            ([*formed, *keys], "TooManyChecks"),
        ]
        for items, reason in self.rows:
            given = large_transaction(1, 1)
            given.inputs[0].witness = [*items, calls.SCRIPT]
            found = judgement.judge(given, [Output(5, calls.PROGRAM)], self.curve, self.trace)[0]
            self.check(found["reason"] == reason, f"{reason}, and not {found['reason']}")

    def test_order(self) -> None:
        """Of two signatures that are valid, each in the place of the other, the order is named; and not where each
        stands in its own.
        """
        with open(SUCCESS, encoding="utf-8") as file:
            transaction, spent = file.read().splitlines()
        value, program = spent.split()
        for is_swapped in (False, True):
            given = read_transaction(bytes.fromhex(transaction))
            if is_swapped:
                given.inputs[0].witness[1:3] = given.inputs[0].witness[2:0:-1]
            found = judgement.judge(given, [Output(int(value), bytes.fromhex(program))], self.curve, self.trace)[0]
            self.check(
                ("in the order of the keys" in found.get("says", "")) == is_swapped, f"swapped: {is_swapped}: {found}"
            )
