"""What the tests of this folder share: how they count, and which curve and which judge they ask. Tested, not proved."""
import functools
import io
import os
import unittest
from types import TracebackType
from typing import Protocol

from real.lib.curve import AnyCurve, Recorded
from real.lib.spend_program import Spend
from real.lib.trace_program import Trace, built_program

HERE = os.path.dirname(os.path.abspath(__file__))
RECORD = os.path.join(HERE, "record.json")


class Checks(Protocol):
    """What checks are given to: a count, or a test that counts."""

    def check(self, holds: bool, what: str) -> None:
        """Counts one check, and says what differs where it does not hold."""


class Count:
    """How many were tried, and how many answered otherwise."""

    def __init__(self) -> None:
        self.tried = self.differ = 0

    def check(self, holds: bool, what: str) -> None:
        self.tried += 1
        if not holds:
            self.note_difference(what)

    def note_difference(self, what: str) -> None:
        self.differ += 1
        print(f"differs: {what}", flush=True)

    def report(self, name: str) -> int:
        print(f"real: {self.tried} {name}, {self.differ} differ")
        return int(self.differ > 0)


@functools.cache
def judge() -> Trace:
    """The judge that ./trace runs now, which all tests ask."""
    return Trace(built_program())


@functools.cache
def spender() -> Spend:
    """The program that ./spend runs now."""
    return Spend(built_program("spend"), io.StringIO())


class CheckedCase(unittest.TestCase):
    """A test whose checks all run, whether one of them fails or not. They are counted."""

    count = Count()

    def check(self, holds: bool, what: str) -> None:
        CheckedCase.count.tried += 1
        if not holds:
            with self.subTest(what):
                self.fail(what)


class JudgeCase(CheckedCase):
    """A test that asks the judge."""

    trace: Trace

    @classmethod
    def setUpClass(cls) -> None:
        cls.trace = judge()


class CurveCase(JudgeCase):
    """A test that asks a curve too: the record, unless real/test chooses the library."""

    curve: AnyCurve
    chosen: AnyCurve | None = None

    @classmethod
    def setUpClass(cls) -> None:
        super().setUpClass()
        cls.curve = CurveCase.chosen or Recorded.read(RECORD)


Failure = tuple[type[BaseException], BaseException, TracebackType] | tuple[None, None, None]


class Differences(unittest.TestResult):
    """Prints a line for each check that fails, and for what ends a test early, which is one check more."""

    def __init__(self, count: Count) -> None:
        super().__init__()
        self.count = count

    def addSubTest(self, test: unittest.TestCase, subtest: unittest.TestCase, err: Failure | None) -> None:
        super().addSubTest(test, subtest, err)
        if err is not None:
            self.count.note_difference(str(err[1]))

    def addFailure(self, test: unittest.TestCase, err: Failure) -> None:
        super().addFailure(test, err)
        self.count.check(False, str(err[1]))

    def addError(self, test: unittest.TestCase, err: Failure) -> None:
        super().addError(test, err)
        self.count.check(False, f"{test}: {err[1]!r}")


def run_cases(*cases: type[CheckedCase]) -> Count:
    """Runs all tests of these cases, and counts what they check from nothing."""
    count = CheckedCase.count = Count()
    for case in cases:
        unittest.defaultTestLoader.loadTestsFromTestCase(case).run(Differences(count))
    return count
