"""Tests of the program `spend`: its plans, refusals and notes are those that are worked out here."""
import json

from real.tests import bolt3, close_requests, revoked_requests
from real.tests.checks import CheckedCase
from real.tests.spend_requests import (
    bounds,
    changed_request,
    conditions,
    faults,
    givens,
    line,
    named,
    open_to_others,
    refusals,
    requests,
    shown_request,
    spend_answer,
    spend_answers,
    waiting,
    wanted_plan,
)


def refused_line(name: str, number: int) -> str:
    return line({"refused": name, "number": number})


class SpendTest(CheckedCase):
    """Each plan is the one that is worked out here, and each refusal the one that is wanted."""

    told = bolt3.read()

    def test_plans(self) -> None:
        for asked, sequences, lock_time in requests(self.told):
            wanted = line(wanted_plan(self.told, asked, sequences, lock_time)), 0
            found = spend_answer(line(asked))
            self.check(found == wanted, f"a plan: {found}")
            found = spend_answer(line(shown_request(asked)))
            self.check(found == wanted, f"a plan by the ids that explorers show: {found}")

    def test_destinations_and_feerates(self) -> None:
        for asked, refusal, notes in givens(self.told):
            found = spend_answers(line(asked))
            plan = line(wanted_plan(self.told, asked, [0], 501)), 0
            wanted = plan if refusal is None else (refused_line(*refusal), 1)
            self.check(found == (*wanted, notes), f"a destination and a feerate: {found}")

    def test_causes(self) -> None:
        for asked, refusal, notes in named(self.told):
            found = spend_answers(line(asked))
            self.check(found == (refused_line(*refusal), 1, notes), f"a refusal whose cause is told: {found}")

    def test_conditions(self) -> None:
        for asked, notes in conditions(self.told):
            found = spend_answers(line(asked))
            wanted = line(wanted_plan(self.told, asked, [0], 0)), 0
            self.check(found == (*wanted, notes), f"a plan by an IF: {found}")

    def test_waiting(self) -> None:
        for asked, sequences, lock_time, notes in waiting(self.told):
            found = spend_answers(line(asked))
            wanted = line(wanted_plan(self.told, asked, sequences, lock_time)), 0
            self.check(found == (*wanted, notes), f"a plan of what waits: {found}")

    def test_open_to_others(self) -> None:
        for asked, notes in open_to_others(self.told):
            found = spend_answers(line(asked))
            wanted = line(wanted_plan(self.told, asked, [0] * len(asked["outputs"]), 0)), 0
            self.check(found == (*wanted, notes), f"a plan of what others can take: {found}")

    def test_faults(self) -> None:
        for text, name, number, notes in faults(self.told):
            found = spend_answers(text)
            self.check(
                found == (refused_line(name, number), 1, notes), f"a fault that is to be named by {notes}: {found}"
            )

    def test_bounds(self) -> None:
        """A request at a bound has its plan, and the one beyond it is refused."""
        for asked, sequences, lock_time, outputs, name, number in bounds(self.told):
            found = spend_answer(line(asked))
            wanted = line(wanted_plan(self.told, asked, sequences, lock_time)), 0
            self.check(found == wanted, f"a plan at a bound: {found}")
            found = spend_answer(changed_request(asked, outputs=outputs))
            self.check(found == (refused_line(name, number), 1), f"a refusal that is to be {name}: {found}")

    def test_refusals(self) -> None:
        for text, name, number in refusals(self.told):
            found = spend_answer(text)
            self.check(found == (refused_line(name, number), 1), f"a refusal that is to be {name}: {found}")


class RevokedTest(CheckedCase):
    """Which outputs of a transaction are a revoked commitment's: those that the appendix has, and no others."""

    told = bolt3.read()

    def test_answers(self) -> None:
        for asked, answer in revoked_requests.answers(self.told):
            found = spend_answers(line(asked), "revoked")
            wanted = line(answer), 0, revoked_requests.unknown_notes(answer)
            self.check(found == wanted, f"the outputs of a commitment: {found}")

    def test_wrong_expiries(self) -> None:
        for asked, answer in revoked_requests.wrong_expiries(self.told):
            found = spend_answers(line(asked), "revoked")
            wanted = line(answer), 0, revoked_requests.unknown_notes(answer)
            self.check(found == wanted, f"the outputs of a commitment with a late expiry: {found}")

    def test_shared_hashes(self) -> None:
        for asked, heights in revoked_requests.shared(self.told):
            claims = json.loads(spend_answer(line(asked), "revoked")[0])["claims"]
            found = [it["owner_height"] for it in claims]
            self.check(found == heights, f"the first blocks of outputs that share a script: {found}")

    def test_no_delay(self) -> None:
        (found,) = json.loads(spend_answer(line(revoked_requests.without_delay(self.told)), "revoked")[0])["claims"]
        told = found["kind"], found["owner_height"]
        self.check(told == ("to_local", revoked_requests.CONFIRMED), f"to_local without a delay: {told}")

    def test_claims_are_outputs(self) -> None:
        """What it answers is what a request for a spend takes."""
        asked, _ = next(revoked_requests.answers(self.told))
        outputs = [it["output"] for it in json.loads(spend_answer(line(asked), "revoked")[0])["claims"]]
        spending = {"outputs": outputs, "preimages": [], "destination": "0014" + "c7" * 20, "feerate_per_kw": 253}
        wanted = line(wanted_plan(self.told, spending, [0] * len(outputs), 0)), 0
        found = spend_answer(line(spending))
        self.check(found == wanted, f"a plan of what is claimed: {found}")

    def test_unlisted(self) -> None:
        for asked, notes in revoked_requests.unlisted(self.told):
            _, status, found = spend_answers(line(asked), "revoked")
            self.check((status, found) == (0, notes), f"notes on outputs that share a hash: {found}")

    def test_faults(self) -> None:
        for text, name, number, note in revoked_requests.faults(self.told):
            found = spend_answers(text, "revoked")
            wanted = refused_line(name, number), 1, [note]
            self.check(found == wanted, f"a fault that is to be named by {note}: {found}")


class CloseTest(CheckedCase):
    """What an unrevoked commitment lets one claim: what the appendix has, from the blocks of BIPs 65 and 68 on."""

    told = bolt3.read()

    def test_answers(self) -> None:
        for asked, answer in close_requests.answers(self.told):
            found = spend_answers(line(asked), "close")
            wanted = line(answer), 0, revoked_requests.unknown_notes(answer)
            self.check(found == wanted, f"the outputs of a commitment: {found}")

    def test_feerates(self) -> None:
        """By another feerate the HTLC transactions are others than those that the peer signed."""
        digests = sorted(it["bip143_digest"] for it in self.told["cases"][1]["htlc_transactions"])
        for asked, is_signed in close_requests.feerates(self.told):
            claims = json.loads(spend_answer(line(asked), "close")[0])["claims"]
            slots = [given for it in claims for kind, given in it["output"]["slots"] if kind == "exact"]
            found = sorted(it[66:-2] for it in slots if len(it) == 132)
            self.check((found == digests) == is_signed, f"by {asked['feerate_per_kw']} the peer signs {found}")

    def test_bounds(self) -> None:
        for asked, heights in close_requests.bounds(self.told):
            claims = json.loads(spend_answer(line(asked), "close")[0])["claims"]
            found = [(it["from_height"], it["deadline_height"]) for it in claims]
            self.check(found == heights, f"the blocks of claims: {found}")

    def test_shared_hashes(self) -> None:
        for asked, lock_times in close_requests.shared(self.told):
            claims = json.loads(spend_answer(line(asked), "close")[0])["claims"]
            shells = [it["output"]["shell"] for it in claims if it["kind"] != "to_local"]
            found = [int.from_bytes(bytes.fromhex(it)[-4:], "little") for it in shells]
            self.check(found == lock_times, f"the HTLC transactions of outputs that share a script: {found}")

    def test_claims_are_outputs(self) -> None:
        """What it answers of the peer's commitment is what a request for a spend takes."""
        asked = close_requests.request(self.told, self.told["cases"][1], "peer")
        outputs = [it["output"] for it in json.loads(spend_answer(line(asked), "close")[0])["claims"]]
        preimages = asked["preimages"]
        spending = {"outputs": outputs, "preimages": preimages, "destination": "0014" + "c7" * 20, "feerate_per_kw": 253}
        wanted = line(wanted_plan(self.told, spending, [0] * len(outputs), 504)), 0
        found = spend_answer(line(spending))
        self.check(found == wanted, f"a plan of what is claimed: {found}")

    def test_unlisted(self) -> None:
        for asked, notes in close_requests.unlisted(self.told):
            _, status, found = spend_answers(line(asked), "close")
            self.check((status, found) == (0, notes), f"notes on outputs that share a hash: {found}")

    def test_low_values(self) -> None:
        for asked, notes in close_requests.low_values(self.told):
            _, status, found = spend_answers(line(asked), "close")
            self.check((status, found) == (0, notes), f"notes on what HTLC transactions leave: {found}")

    def test_faults(self) -> None:
        for text, name, number, note in close_requests.faults(self.told):
            found = spend_answers(text, "close")
            wanted = refused_line(name, number), 1, [note]
            self.check(found == wanted, f"a fault that is to be named by {note}: {found}")
