"""Tests of what is told of a whole transaction, on both sides of each limit, worked by hand from BIP 141 and from what
Bitcoin calls a transaction. Tested, not proved.
"""
from collections.abc import Sequence

from real.lib import judge_text, summary
from real.lib.transaction import MAX_MONEY, Input, Output, Transaction, hash160, sha256
from real.tests.checks import CheckedCase

KEY_HASH = b"\x00\x14" + hash160(b"a key")
# 10,000 and 1 checks of one signature; a check of many is one of 20 keys in an output, and of as many as the number
# before it in a witness script
CHECKS, CHECK, CHECK_MANY = b"\xac" * 10_000, b"\xac", b"\x52\xae"
CUT, PUSHED, LONG_PUSHED = b"\x05\xac\xac", b"\x4c\x02\xac\xac", b"\x4d\x02\x00\xac\xac\xae"


def transaction(
    outputs: list[tuple[int, bytes]], witness: tuple[bytes, ...] = (b"\x51",), count: int = 1, script: bytes = b""
) -> Transaction:
    inputs = [Input(bytes([7]) * 32 + it.to_bytes(4, "little"), script, 0, list(witness)) for it in range(count)]
    return Transaction(2, inputs, [Output(value, program) for value, program in outputs], 0)


def spent_outputs(it: Transaction, value: int = 5) -> list[Output]:
    """Outputs to the scripts at the end of the inputs' witnesses."""
    return [Output(value, b"\x00\x20" + sha256(each.witness[-1])) for each in it.inputs]


def of_weight(weight: int) -> Transaction:
    """A transaction of this weight: its outputs' programs have the bytes that are missing, and its witness the units."""
    plain = transaction([(1, bytes(9_999))] * 99 + [(1, bytes(1_000))])
    missing = weight - 3 * len(plain.stripped_bytes()) - len(plain.bytes())
    return transaction(
        [(1, bytes(9_999))] * 99 + [(1, bytes(1_000 + missing // 4))], (b"\x51" + b"\x07" * (missing % 4),)
    )


def faults(it: Transaction, spent: Sequence[Output | None]) -> list[str]:
    return summary.summary_of(it, spent)["faults"]


class SummaryTest(CheckedCase):
    """What is told of whole transactions."""

    def test_weight(self) -> None:
        for weight, wanted in ((4_000_000, []), (4_000_001, ["TooHeavy"])):
            it = of_weight(weight)
            self.check(3 * len(it.stripped_bytes()) + len(it.bytes()) == weight, f"a transaction of weight {weight}")
            self.check(faults(it, spent_outputs(it, 100)) == wanted, f"faults of weight {weight}")

    def test_sums(self) -> None:
        """Totals above 21 million bitcoins, more outputs than inputs, and what is not known."""
        for outputs, value, wanted in (
            ([(5, b"")], 5, []),
            ([(6, b"")], 5, ["OutputsExceed"]),
            ([], 5, ["NoOutputs"]),
            ([(MAX_MONEY, b"")], MAX_MONEY, []),
            ([(MAX_MONEY, b""), (1, b"")], MAX_MONEY, ["TooMuch", "OutputsExceed"]),
        ):
            it = transaction(outputs)
            self.check(faults(it, spent_outputs(it, value)) == wanted, f"faults of {outputs} of {value}")
        two = transaction([(5, b"")], count=2)
        self.check(
            faults(two, [Output(MAX_MONEY, KEY_HASH), Output(1, KEY_HASH)]) == ["TooMuch"], "inputs of too much"
        )
        told = summary.summary_of(two, [None, Output(1, KEY_HASH)])
        self.check((told["fee"], told["faults"]) == (None, []), "a spent output that is not known")

    def test_outpoints(self) -> None:
        for outpoint, wanted in (
            (bytes(32) + b"\xff" * 4, ["NoOutpoint"]),
            (bytes(36), []),
            (b"\x01" + bytes(31) + b"\xff" * 4, []),
        ):
            it = transaction([(5, b"")])
            it.inputs[0].outpoint = outpoint
            self.check(faults(it, spent_outputs(it)) == wanted, f"faults of the outpoint {outpoint.hex()}")
        same = transaction([(5, b"")], count=2)
        same.inputs[1].outpoint = same.inputs[0].outpoint
        self.check(faults(same, spent_outputs(same)) == ["SameOutpoint"], "one outpoint twice")

    def test_locks(self) -> None:
        """What a lock time asks for: nothing where all inputs are final."""
        final = 0xFFFFFFFF
        for lock_time, sequences, wanted in (
            (0, (0,), None),
            (1, (0,), {"above_height": 1}),
            (499_999_999, (final - 1,), {"above_height": 499_999_999}),
            (500_000_000, (0,), {"above_time": 500_000_000}),
            (7, (final, final), None),
            (7, (final, 0), {"above_height": 7}),
        ):
            it = transaction([(5, b"")], count=len(sequences))
            it.lock_time = lock_time
            for each, sequence in zip(it.inputs, sequences):
                each.sequence = sequence
            self.check(
                summary.summary_of(it, spent_outputs(it))["lock"] == wanted,
                f"a lock time of {lock_time} with {sequences}",
            )
        told = judge_text.page({**summary.summary_of(transaction([(5, b"")]), [None]), "lock": {"above_time": 9}})
        self.check(told.endswith("  when    once the median time past is above 9, in seconds since 1970\n"), told)

    def test_sigops(self) -> None:
        """What signature checks cost: 4 in a program or an input's script, 1 in a witness."""
        for outputs, script, witness, wanted in (
            ([], b"", b"", 0),
            ([CHECK], b"", b"", 4),
            ([CHECK_MANY, b"\xad"], b"", b"", 84),
            ([CUT, PUSHED], b"", b"", 0),
            ([LONG_PUSHED], CHECK, b"", 84),
            ([], b"", CHECK_MANY + b"\x60\xaf\x00\xae" + CHECK + b"\xad", 2 + 16 + 20 + 2),
            ([], b"", PUSHED + b"\x4e\x01\x00\x00\x00\xac" + CHECK + b"\x4d\x01", 1),
        ):
            it = transaction([(1, each) for each in outputs], (CHECK, witness), script=script)
            self.check(
                summary.cost(it, spent_outputs(it)) == wanted,
                f"the cost of {[it.hex() for it in outputs]}, {script.hex()} and {witness.hex()}",
            )
        it = transaction([(1, CHECK)], (b"", CHECKS))
        self.check(summary.cost(it, [Output(5, KEY_HASH)]) == 5, "the cost of the hash of a key")
        self.check(
            [summary.cost(it, [each]) for each in (None, Output(5, b"\x51"))] == [4, 4],
            "the cost of what is not known, and of another kind",
        )
        for more, wanted in (([], []), ([(1, CHECK)], ["TooManySigops"])):
            it = transaction([(1, CHECKS), (1, CHECKS), *more])
            self.check(faults(it, spent_outputs(it)) == wanted, "faults of signature checks")

    def test_told_faults(self) -> None:
        """Each fault is found of some transaction, and told in words."""
        coinbase, same = transaction([(5, b"")]), transaction([(MAX_MONEY, b""), (1, b"")], count=2)
        coinbase.inputs[0].outpoint = summary.NO_OUTPOINT
        same.inputs[1].outpoint = same.inputs[0].outpoint
        many = transaction([(1, CHECKS), (1, CHECKS), (1, CHECK)], (b"", CHECKS))
        found = (faults(it, spent_outputs(it)) for it in (transaction([]), coinbase, same, many, of_weight(4_000_001)))
        seen = {name for names in found for name in names}
        self.check(seen == set(judge_text.FAULTS), f"each fault is seen, and told in words: {seen}")
