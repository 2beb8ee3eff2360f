"""Transactions with the answers that are wanted of the judge: rows.jsonl, and what real/tests/cases prints. Tested,
not proved.
"""
import itertools
import json
import os
import subprocess
from typing import Any

from real.lib import judgement
from real.lib.curve import AnyCurve
from real.lib.errors import NotRun, Refused
from real.lib.trace_program import Trace
from real.lib.transaction import Output, read_transaction
from real.tests.checks import Checks

HERE = os.path.dirname(os.path.abspath(__file__))
ROWS = os.path.join(HERE, "rows.jsonl")


def recorded_rows() -> list[dict[str, Any]]:
    with open(ROWS, encoding="utf-8") as file:
        return [json.loads(it) for it in file]


def row_answer(row: dict[str, Any], curve: AnyCurve, trace: Trace) -> dict[str, Any]:
    """What is answered of a row's transaction."""
    try:
        spent = [Output(value, bytes.fromhex(program)) for value, program in row["spent"]]
        return {"answers": judgement.judge(read_transaction(bytes.fromhex(row["transaction"])), spent, curve, trace)}
    except Refused as why:
        return {"refused": str(why)}


def is_wanted(row: dict[str, Any], found: dict[str, Any]) -> bool:
    """Whether the answer is the wanted one: each member that is wanted is there."""
    if "refused" in row or "refused" in found:
        return row.get("refused") == found.get("refused")
    pairs = list(itertools.zip_longest(row["answers"], found["answers"], fillvalue={}))
    return all(
        wanted and all(name in answer and answer[name] == value for name, value in wanted.items())
        for wanted, answer in pairs
    )


def judge_rows(count: Checks, rows: list[dict[str, Any]], curve: AnyCurve, trace: Trace) -> None:
    for row in rows:
        found = row_answer(row, curve, trace)
        count.check(
            is_wanted(row, found), f"{row['name']}: wanted {row.get('refused') or row['answers']}, found {found}"
        )


def electrum_rows(*words: str, program: str = "cases") -> list[str]:
    """The lines that a command of this folder prints of Electrum's transactions."""
    ran = subprocess.run([os.path.join(HERE, program), *words], capture_output=True, text=True)
    if ran.returncode != 0:
        raise NotRun(ran.stderr.strip().removeprefix("real: not run: "))
    return ran.stdout.splitlines()
