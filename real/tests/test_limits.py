"""Tests of what keeps money from being lost by a slip: addresses, what mempools take, and one bad transaction among
good ones. Tested, not proved.
"""
import io
import json
import os
import subprocess
import sys
import tempfile
from typing import Any

from real.lib import addresses, penalties, penalty_notes
from real.lib.errors import NotRun, Refused
from real.lib.penalties import Take
from real.lib.spend_program import Spend
from real.lib.trace_program import SECONDS, Trace, built_program
from real.lib.transaction import Output
from real.tests import bolt3
from real.tests.checks import HERE, CurveCase
from real.tests.revoked_states import DESTINATION, HEIGHT, penalties_of, state

# addresses of BIPs 173 and 350, with their networks and programs; and one of regtest
ADDRESSES = (
    ("BC1QW508D6QEJXTDG4Y5R3ZARVARY0C5XW7KV8F3T4", "bitcoin", "0014751e76e8199196d454941c45d1b3a323f1433bd6"),
    (
        "tb1qrp33g0q5c5txsp9arysrx4k6zdkfs4nce4xj0gdcccefvpysxf3q0sl5k7",
        "testnet",
        "00201863143c14c5166804bd19203356da136c985678cd4d27a1b8c6329604903262",
    ),
    (
        "tb1qqqqqp399et2xygdj5xreqhjjvcmzhxw4aywxecjdzew6hylgvsesrxh6hy",
        "signet",
        "0020000000c4a5cad46221b2a187905e5266362b99d5e91c6ce24d165dab93e86433",
    ),
    (
        "bc1p0xlxvlhemja6c4dqv22uapctqupfhlxm9h8z3k2e72q4k9hcz7vqzk5jj0",
        "bitcoin",
        "512079be667ef9dcbbac55a06295ce870b07029bfcdb2dce28d959f2815b16f81798",
    ),
    ("bcrt1qw508d6qejxtdg4y5r3zarvary0c5xw7kygt080", "regtest", "0014751e76e8199196d454941c45d1b3a323f1433bd6"),
)
# invalid addresses of the same BIPs, and why each is refused
NO_ADDRESSES = (
    ("tc1qw508d6qejxtdg4y5r3zarvary0c5xw7kg3g4ty", "OtherNetwork"),
    ("bc1qw508d6qejxtdg4y5r3zarvary0c5xw7kv8f3t5", "BadChecksum"),
    ("BC13W508D6QEJXTDG4Y5R3ZARVARY0C5XW7KN40WF2", "BadChecksum"),
    ("bc1rw5uspcuh", "BadChecksum"),
    ("BC1QR508D6QEJXTDG4Y5R3ZARVARYV98GJ9P", "BadShape state.destination"),
    ("tb1qrp33g0q5c5txsp9arysrx4k6zdkfs4nce4xj0gdcccefvpysxf3q0sL5k7", "BadAddress"),
    ("bc1zw508d6qejxtdg4y5r3zarvaryvqyzf3du", "BadChecksum"),
    ("bc1qqqqqqqqqqqqqqqqqqqqqqqqqqqqqqqqqqqqqqqqq", "BadChecksum"),
    ("bc1gmk9yu", "BadAddress"),
    ("bc1p0xlxvlhemja6c4dqv22uapctqupfhlxm9h8z3k2e72q4k9hcz7vqh2y7hd", "BadChecksum"),
    ("BC1S0XLXVLHEMJA6C4DQV22UAPCTQUPFHLXM9H8Z3K2E72Q4K9HCZ7VQ54WELL", "BadChecksum"),
    ("bc1qw508d6qejxtdg4y5r3zarvary0c5xw7kemeawh", "BadChecksum"),
    ("bc1pw5dgrnzv", "BadAddress"),
    ("bc1p0xlxvlhemja6c4dqv22uapctqupfhlxm9h8z3k2e72q4k9hcz7v8n0nx0muaewav253zgeav", "BadAddress"),
    ("1BvBMSEYstWetqTFn5Au4m4GFg7xJaNVN2", "BadAddress"),
    (DESTINATION, "BadChecksum"),
    ("", "BadAddress"),
)
# anybody can spend from these today: versions 16, 2 and 1 with 40 bytes (BIP 350)
ANYONE = (
    *("BC1SW50QGDZ25J", "bc1zw508d6qejxtdg4y5r3zarvaryvaxxpcs"),
    "bc1pw508d6qejxtdg4y5r3zarvary0c5xw7kw508d6qejxtdg4y5r3zarvary0c5xw7kt5nd6y",
)
# the same in hexadecimal, and programs on the other side of that
ANYONES = ("5103c7c7c7", "5220" + "11" * 32, "6028" + "c7" * 40, "5121" + "c7" * 33, "511f" + "c7" * 31)
OWNED = ("5120" + "c7" * 32, "0020" + "c7" * 32, "76a914" + "c7" * 20 + "88ac", "a914" + "c7" * 20 + "87")


class LimitsTest(CurveCase):
    """States of one of Appendix C's cases."""

    told = bolt3.read()
    case = told["cases"][1]

    def found_with(self, **changes: Any) -> str:
        """The program that is paid, or the name of the refusal."""
        try:
            given = state(self.told, self.case, self.curve, **changes)
            return penalties.read_state(json.dumps(given)).destination.hex()
        except Refused as why:
            return str(why)

    def test_addresses(self) -> None:
        for address, network, program in ADDRESSES:
            found = self.found_with(destination=address, network=network)
            self.check(found == program, f"{address}: {found}")
            for other in addresses.NETWORKS:
                if addresses.NETWORKS[other] != addresses.NETWORKS[network]:
                    found = self.found_with(destination=address, network=other)
                    self.check(found == "OtherNetwork", f"{address} of {other}: {found}")
            self.check(self.found_with(destination=address) == "BadShape state.destination", f"{address}: no network")
        for address, name in NO_ADDRESSES:
            found = self.found_with(destination=address, network="bitcoin")
            self.check(found == name, f"{address}: {found}, and not {name}")
        for address in ANYONE:
            found = self.found_with(destination=address, network="bitcoin")
            self.check(found == "BadShape state.destination", f"{address}: {found}")
        for program in ANYONES:
            found = self.found_with(destination=program)
            self.check(found == "BadShape state.destination", f"{program}: {found}")
        for program in OWNED:
            self.check(self.found_with(destination=program) == program, f"{program}")
        self.check(self.found_with(network="mainnet") == "BadShape state.network", "an unknown network")

    def test_each_character(self) -> None:
        """An address with one character changed is refused, whichever it is."""
        address, network, _ = ADDRESSES[1]
        for at in range(len(address)):
            other = address[:at] + ("q" if address[at] != "q" else "p") + address[at + 1 :]
            found = self.found_with(destination=other, network=network)
            self.check(found in ("BadChecksum", "BadAddress"), f"{other}: {found}")

    def test_first_batch(self) -> None:
        """What mempools take while no block has the commitment: 101,000 virtual bytes with it, one more is too much."""
        given = state(self.told, self.case, self.curve)
        found = penalties.read_state(json.dumps(given))
        size = penalties.seen_size(found)
        self.check(penalties.first_weight(found) == min(400_000, 4 * (101_000 - size)), "the first weight")
        known = penalties.Known("offered", b"", bytes(133), [bytes(33)], b"", HEIGHT + 9)
        takes = [Take(at, Output(10_000, bytes(34)), known) for at in range(1_200)]
        for confirmed, most in ((None, penalties.first_weight(found)), (HEIGHT, 400_000)):
            found.confirmed_height = confirmed
            first, *rest = penalties.packs(takes, found.destination, penalties.first_weight(found))
            weights = [penalties.weight_of(it, found.destination) for it in (first, [*first, takes[0]])]
            self.check(weights[0] <= most < weights[1], f"the first of several, confirmed in {confirmed}: {weights}")
            self.check(sum(map(len, (first, *rest))) == 1_200, "each output is in one of them")

    def test_family(self) -> None:
        """How many transactions mempools take with the commitment: 24, or as many as its size leaves room for."""
        found = penalties.read_state(json.dumps(state(self.told, self.case, self.curve)))
        one = found.transaction.bytes().hex()
        size = penalties.virtual_size(found.transaction)
        for count in (24, 25):
            told = penalty_notes.count_at_once(found, [{"transaction": one}] * count)
            self.check(told == 24, f"{count} transactions: {told}")
        # the commitment leaves room for two transactions, and for one virtual byte less
        left = 2 * size
        program = found.transaction.outputs[0].program
        found.transaction.outputs[0].program += bytes(101_000 - penalties.seen_size(found) - left)
        found.transaction.outputs[0].program = program + bytes(
            len(found.transaction.outputs[0].program) - len(program) - (penalties.seen_size(found) - 101_000 + left)
        )
        self.check(101_000 - penalties.seen_size(found) == left, f"{penalties.seen_size(found)} and {left}")
        for more, wanted in ((0, 2), (1, 1)):
            found.transaction.outputs[0].program += bytes(more)
            told = penalty_notes.count_at_once(found, [{"transaction": one}] * 3)
            self.check(told == wanted, f"{left - more} virtual bytes left of {size} each: {told}")

    def test_bad_signature(self) -> None:
        """Where the library's signature of one output is not valid, that one is named, and all others are taken."""
        asked = penalties.read_state(json.dumps(state(self.told, self.case, self.curve)))
        good = penalties_of(state(self.told, self.case, self.curve), self.curve, self.trace)
        first = good[0]["outputs"][0]
        verify, calls = self.curve.verify, []

        def fails_once(key: bytes, digest: bytes, der: bytes) -> bool:
            calls.append(digest)
            return len(calls) > 1 and verify(key, digest, der)

        self.curve.verify = fails_once  # type: ignore[method-assign]
        try:
            found = penalties_of(state(self.told, self.case, self.curve), self.curve, self.trace)
        finally:
            self.curve.verify = verify  # type: ignore[method-assign]
        told = found[0]["answer"], found[0].get("reason")
        self.check(told == ("not clean", f"BadSignature {first}"), f"the first: {found[0]}")
        self.check(found[1:-1] == good[1:-1], "all others are taken as before")
        self.check(found[-1]["not_clean"] == [first] and penalties.is_left(found[-1]), f"the last line: {found[-1]}")
        self.check(len(asked.transaction.outputs) == len(good) - 1, "each output has an answer")

    def test_lines(self) -> None:
        """One process answers several transactions as a call each does; and so does the next one, where the first has
        read as much as it may.
        """
        rows = [(it, spent) for _, it, spent, _, _ in bolt3.htlc_transactions(self.told)][:6]
        trace, program = Trace(built_program()), built_program()
        wanted = []
        for made, spent in rows:
            text = f"{made.bytes().hex()}\n{spent.value} {spent.program.hex()}\n"
            ran = subprocess.run([program, "witness"], input=text.encode(), capture_output=True, timeout=SECONDS)
            wanted.append([json.loads(it) for it in ran.stdout.splitlines()])
        found, processes = [], set()
        for number, (made, spent) in enumerate(rows):
            if number == 4 and trace.judging:
                trace.judging.left = 100
            found.append(trace.witness(made, [spent]))
            processes.add(trace.judging and trace.judging.process.pid)
        self.check(found == wanted, f"several transactions by one process: {found}")
        self.check(len(processes) == 2, f"{len(processes)} processes")
        try:
            trace.witness(rows[0][0], [])
            self.check(False, "a transaction without what it spends is answered")
        except Refused as why:
            self.check(str(why) == "BadCount", f"a transaction without what it spends: {why}")
        self.check(trace.witness(rows[0][0], [rows[0][1]]) == wanted[0], "after a refusal the same process answers")

    def test_no_build(self) -> None:
        """Where a program has no build, one line says so, and what to call."""
        with tempfile.TemporaryDirectory() as folder:
            for name in ("spend", "trace"):
                program, notes = os.path.join(folder, name), io.StringIO()
                with open(program, "w", encoding="utf-8") as file:
                    file.write(f"#!/bin/sh\necho '{name}: rt is not on the path' >&2\nexit 3\n")
                os.chmod(program, 0o700)
                ask = Spend(program, notes).revoked if name == "spend" else Trace(program, notes).by_program
                found = ""
                try:
                    ask({} if name == "spend" else [b"\x51"])  # type: ignore[arg-type]
                except NotRun as why:
                    found = str(why)
                start = f"./{name} has no build here ({name}: rt is not on the path): call ./{name} --build where"
                self.check(found[: len(start)] == start and notes.getvalue() == "", f"{name}: {found!r}")

    def test_no_node(self) -> None:
        """Without a node real/regtest says so by name, with a status of its own."""
        with tempfile.TemporaryDirectory() as folder:
            program = os.path.join(os.path.dirname(HERE), "regtest")
            ran = subprocess.run([sys.executable, program, folder], capture_output=True, text=True, timeout=SECONDS)
        told = ran.stdout, ran.stderr, ran.returncode
        self.check(told == ("regtest: not run: no node\n", "", 5), f"without a node: {told}")
