"""The rows of the answers that were written down beforehand: transactions by Electrum, one fault planted in each, and
what is wanted of real/judge.

The answers follow from the sheet of written_ways.py, which is worked by hand from the pages and the standards: nothing
here runs a script or asks a judge. Tested, not proved.
"""
from collections.abc import Iterator
from typing import Any

from real.tests import written_specials, written_spends
from real.tests import written_faults as faults
from real.tests import written_ways as ways
from real.tests.written_electrum import Spend
from real.tests.written_ways import corrected_row

LOCKED = ("to_local by delay", "received by timeout")  # these have faults of locks in more variants


def row_of(name: str, spend: Spend, answers: list[list[Any]], of: str | None = None) -> dict[str, Any]:
    """A row with a transaction of its own."""
    wanted = {"fee": spend.fee(), "faults": ["OutputsExceed"] if spend.fee() < 0 else [], "inputs": answers}
    if of:
        return {"name": name, "of": of, "text": spend.text(), "wanted": wanted}
    return {"name": name, "text": spend.text(), "wanted": wanted}


def fee_of(spend: Spend, edit: list[list[int | str]]) -> int:
    """What an edited transaction pays."""
    fee = spend.fee()
    for change in edit:
        if change[0] == "line":
            fee += change[2] - spend.claims[change[1]].value
        if change[0] == "output":
            fee -= change[2] - spend.outputs[change[1]][1]
    return fee


def fault_row(name: str, spend: Spend, kind: int, variant: int, pick: int) -> dict[str, Any] | None:
    """The row of a fault; None where it has no meaning for this way to spend."""
    fault = faults.FAULTS[kind](spend, variant, pick)
    if fault is None:
        return None
    said, change, answers = fault
    title = f"{name}, {faults.KINDS[kind]}: {said}"
    if not isinstance(change, list):
        return row_of(title, change, answers, name)
    if change[0][0] == "output" and change[0][1] < len(spend.outputs) - 1:
        return corrected_row(
            {
                "name": title,
                "of": name,
                "edit": change,
                "wanted": {"fee": fee_of(spend, change), "faults": [], "inputs": answers},
            },
            "the last output, which has no satoshis",
            "an output of less than none can not be made",
        )
    if isinstance(answers, dict):
        return {"name": title, "of": name, "edit": change, "wanted": answers}
    return {
        "name": title,
        "of": name,
        "edit": change,
        "wanted": {"fee": fee_of(spend, change), "faults": [], "inputs": answers},
    }


def rows() -> Iterator[dict[str, Any]]:
    """All rows: each transaction, three of the eight faults planted in it in turn, five where a script has a lock, and
    the single ones.
    """
    uses, order = {}, list(dict.fromkeys(ways.FAMILY.values()))
    begun = {}
    for name, spend in written_spends.spends():
        yield row_of(name, spend, [ways.clean_answer(claim.way) for claim in spend.claims])
        family = ways.FAMILY[spend.claims[spend.main].way]
        kind, left = begun.get(family, order.index(family)) % 8, 5 if family in LOCKED else 3
        while left:
            variant = uses.get((family, kind), 0)
            row = fault_row(name, spend, kind, variant + order.index(family), variant + order.index(family))
            if row is not None:
                uses[family, kind] = variant + 1
                left -= 1
                yield row
            kind = (kind + 1) % 8
        begun[family] = kind
    yield from written_specials.rows()
