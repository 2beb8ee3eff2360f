"""Asks the proved program `spend` which outputs of a transaction are a revoked commitment's. How it is asked is tested,
not proved.
"""
import json
import os
import subprocess
import sys
from dataclasses import dataclass
from typing import Any, TextIO

from real.lib.errors import NotRun, Refused
from real.lib.trace_program import NO_BUILD, SECONDS, TOP, not_run


@dataclass
class Known:
    """An output whose program is known: what it is, its script, and the items that stand between the signature and the
    script. The key signs. The owner can take it in a block of this height and above; None where it never can.
    """

    kind: str
    program: bytes
    script: bytes
    items: list[bytes]
    key: bytes
    owner_height: int | None


def known_of(claim: dict[str, Any]) -> Known:
    """What a claim of the program says of its output."""
    output = claim["output"]
    slots = [(kind, bytes.fromhex(given)) for kind, given in output["slots"]]
    return Known(
        claim["kind"],
        bytes.fromhex(output["program"]),
        bytes.fromhex(output["script"]),
        [given for kind, given in slots if kind == "exact"],
        next(given for kind, given in slots if kind == "sig"),
        claim["owner_height"],
    )


class Spend:
    """The program `spend`. What it says on standard error is passed on."""

    def __init__(self, program: str = os.path.join(TOP, "spend"), notes: TextIO = sys.stderr) -> None:
        self.program, self.notes = program, notes

    def revoked(self, asked: dict[str, Any]) -> tuple[dict[bytes, Known], dict[int, str]]:
        """The outputs of a transaction that are a revoked commitment's, by their programs, and the names of the others
        by their indices.
        """
        try:
            ran = subprocess.run(
                [self.program, "revoked"], input=json.dumps(asked).encode(), capture_output=True, timeout=SECONDS
            )
        except (OSError, subprocess.TimeoutExpired):
            raise NotRun(f"{self.program} does not run here") from None
        said = ran.stderr.decode(errors="replace")
        if ran.returncode != NO_BUILD:
            print(said, end="", file=self.notes)
        if ran.returncode not in (0, 1) or not ran.stdout:
            raise not_run(self.program, ran.returncode, said)
        found = json.loads(ran.stdout)
        if "refused" in found:
            raise Refused(
                "BadShape state.transaction", "it has more parts than are read here, or a value beyond all bitcoins"
            )
        table: dict[bytes, Known] = {}
        for it in map(known_of, found["claims"]):
            table.setdefault(it.program, it)
        return table, {it["index"]: it["name"] for it in found["others"]}
