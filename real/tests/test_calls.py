"""Tests of the programs as they are called: what each prints, its status and its notes. Tested, not proved."""
import os
import subprocess
import sys
from typing import Any

from real.tests.calls import HERE, JUDGE, KNOWN_KEY, NOTED, PSBT, REVOKED, SIGN, WIF
from real.tests.checks import CheckedCase

# of each call the tool, its words, its input, what it prints, and its status
ROWS = [
    (tool, *row)
    for tool, rows in (("judge", JUDGE), ("psbt", PSBT), ("sign", SIGN), ("revoked", REVOKED))
    for row in rows
]


def run_tool(tool: str, words: str, given: str | bytes, **streams: Any) -> subprocess.CompletedProcess[bytes]:
    data = given if isinstance(given, bytes) else given.encode()
    program = os.path.join(os.path.dirname(HERE), tool)
    return subprocess.run([sys.executable, program, *words.split()], input=data, **streams)


class CallsTest(CheckedCase):
    """Calls with hostile or wrong input."""

    def test_answers(self) -> None:
        """A call prints what is wanted, and ends so."""
        for tool, words, given, printed, status in ROWS:
            ran = run_tool(tool, words, given, capture_output=True)
            said = ran.stderr.decode() if status in (2, 3) else ran.stdout.decode()
            self.check(
                said == printed and ran.returncode == status,
                (
                    f"real/{tool} {words}: status {ran.returncode}, {said[:200]!r}, {ran.stderr.decode()[-200:]!r};"
                    f" wanted {status}, {printed[:200]!r}"
                ),
            )

    def test_failed_writes(self) -> None:
        """A call that can't write ends with status 1, and without a word of Python's. The first of each status 0 and 1
        is made.
        """
        first = {
            (tool, status): (tool, words, given) for tool, words, given, _, status in reversed(ROWS) if status < 2
        }
        for tool, words, given in first.values():
            with open("/dev/full", "wb") as full:
                ran = run_tool(tool, words, given, stdout=full, stderr=subprocess.PIPE)
            is_told = b"Traceback" not in ran.stderr and b"note: standard output can't be written" in ran.stderr
            self.check(
                ran.returncode == 1 and is_told,
                f"real/{tool} {words}: status {ran.returncode} where nothing can be written",
            )

    def test_notes(self) -> None:
        """A refusal says its note on standard error, and no key there or anywhere."""
        for tool, words, given, note in NOTED:
            ran = run_tool(tool, words, given, capture_output=True)
            said = ran.stderr.decode()
            has_key = any(it.encode() in ran.stdout + ran.stderr for it in (WIF, KNOWN_KEY))
            self.check(
                ran.returncode == 1 and f"note: {note}" in said and not has_key,
                f"real/{tool} {words}: status {ran.returncode}, {said[-300:]!r}; wanted the note {note!r}",
            )
