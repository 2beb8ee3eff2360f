"""Tests of the paths that the library for C lists: they are those of the program `trace`. Tested, not proved."""
import unittest

from real.lib import c_library
from real.lib.transaction import read_transaction
from real.tests import bolt3
from real.tests.checks import JudgeCase
from real.tests.judged_rows import recorded_rows


class BindingTest(JudgeCase):
    """The scripts of the rows."""

    @classmethod
    def setUpClass(cls) -> None:
        if c_library.binding() is None:
            raise unittest.SkipTest("the library for C is missing here")
        super().setUpClass()

    def test_listings(self) -> None:
        found = [read_transaction(bytes.fromhex(it["transaction"])) for it in (*recorded_rows(), *bolt3.rows())]
        given = (it.witness[-1] for each in found for it in each.inputs if it.witness)
        chosen = [it for it in dict.fromkeys(given) if it]
        for script, by_trace in zip(chosen, self.trace.by_program(chosen)):
            by_library = c_library.listing_of(self.trace.library, script)
            self.check(c_library.is_same(by_library, by_trace), f"the listing of {script.hex()}")
            changed = {"paths": by_library["paths"][1:]} if by_library.get("paths") else {"refused": "other"}
            self.check(not c_library.is_same(changed, by_trace), "the comparison itself")
