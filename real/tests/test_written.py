"""Tests by answers that were written down before the judge was asked (written.jsonl). Tested, not proved."""
import os
import sys
import unittest
from typing import Any

from real.lib.curve import Curve
from real.lib.errors import NotRun
from real.tests import written_answers
from real.tests.checks import HERE, JudgeCase
from real.tests.judged_rows import electrum_rows

WRITTEN = os.path.join(HERE, "written.jsonl")


def recorded_rows() -> dict[str, Any]:
    with open(WRITTEN, encoding="utf-8") as file:
        return written_answers.rows_of(file)


def made_rows() -> dict[str, Any]:
    """What Electrum makes now, or where it is missing what it made."""
    try:
        return written_answers.rows_of(electrum_rows(program="written"))
    except NotRun as why:
        print(f"real: not run: {why}", file=sys.stderr)
        return recorded_rows()


class WrittenTest(JudgeCase):
    """What is said of Electrum's transactions. Signatures are verified by the library."""

    curve: Curve
    made: dict[str, Any]

    @classmethod
    def setUpClass(cls) -> None:
        super().setUpClass()
        try:
            cls.curve = Curve()
        except NotRun as why:
            raise unittest.SkipTest(str(why)) from None
        cls.made = made_rows()
        written_answers.list_at_once(cls.made, cls.trace)

    def test_rows(self) -> None:
        """Each row is the recorded one, and what it wants is said."""
        written_answers.compare(self, self.made, recorded_rows(), self.curve, self.trace)

    def test_planted_changes(self) -> None:
        """Each change of the judge is seen by its rows."""
        self.assertEqual(written_answers.plant(self.made, self.curve, self.trace), [])
