"""Tests of penalties with real keys: BOLT 3's Appendix E, and the commitments and HTLC transactions of Appendix C as
revoked ones. Tested, not proved.
"""
import json
import unittest.mock
from collections.abc import Callable
from typing import Any

from real.lib import commitment_number, derivation, penalties, penalty_notes
from real.lib.errors import Refused
from real.lib.transaction import Input, Output, Transaction, hash160, read_transaction
from real.tests import bolt3
from real.tests.checks import CurveCase
from real.tests.revoked_states import (
    BASE,
    BASE_SECRET,
    DERIVED,
    DERIVED_PRIVATE,
    DESTINATION,
    DESTINATION_NOTES,
    DUST_SAT,
    HEIGHT,
    NO_ADDRESSES,
    OFFERED_WEIGHT,
    POINT,
    REST_WEIGHT,
    REVOCATION,
    REVOCATION_PRIVATE,
    SECRET,
    SHARED,
    SHARED_HTLCS,
    TO_LOCAL_WEIGHT,
    anchored_deadlines,
    anchored_state,
    deadline_of,
    deadlines_of,
    htlc,
    in_order,
    notes_of,
    output_names,
    penalties_of,
    places_of,
    private_key,
    state,
    state_and_table,
    values_of,
    with_anchors,
    with_outputs,
)


class PenaltiesTest(CurveCase):
    """Each case of Appendix C as a revoked commitment; and the one with the most outputs, where one is enough."""

    told = bolt3.read()
    case = told["cases"][1]

    def test_cases(self) -> None:
        """What is tried of each case."""
        for case in self.told["cases"]:
            self.check_case(case)
            self.check_one(case)
            self.check_second_stages(case)
            self.check_changes(case)
            self.check_legacy_key(case)

    def test_derivation(self) -> None:
        base, point = self.curve.public_key(BASE_SECRET), self.curve.public_key(SECRET)
        found = [
            base,
            point,
            derivation.derived_key(self.curve, base, point),
            derivation.derived_private_key(BASE_SECRET, base, point),
            derivation.revocation(self.curve, base, point),
            derivation.revocation_private_key(BASE_SECRET, base, SECRET, point),
        ]
        for name, it in zip((BASE, POINT, DERIVED, DERIVED_PRIVATE, REVOCATION, REVOCATION_PRIVATE), found):
            self.check(it.hex() == name, f"a key of BOLT 3's Appendix E: {name}")

    def test_packs(self) -> None:
        """Many outputs are taken in their order by as few transactions as nodes pass on: none has room for one more."""
        known = penalties.Known("offered", b"", bytes(133), [bytes(33)], b"", None)
        destination = bytes.fromhex(DESTINATION)
        takes = [penalties.Take(at, Output(1000, bytes(34)), known) for at in range(2_000)]
        found = penalties.packs(takes, destination)
        self.check([it.index for pack in found for it in pack] == [*range(2_000)], "each output in one transaction")
        for pack, after in zip(found, found[1:]):
            weights = penalties.weight_of(pack, destination), penalties.weight_of([*pack, after[0]], destination)
            self.check(weights[0] <= 400_000 < weights[1], f"the greatest weight of a transaction: {weights}")
        self.check(penalties.packs([], destination) == [], "no transaction of no outputs")

    def check_case(self, case: dict[str, Any]) -> None:
        """Each output of a case is taken on its own, the most urgent first, with the value and the script of the
        appendix, its fee and its deadline.
        """
        found = penalties_of(state(self.told, case, self.curve), self.curve, self.trace)
        singles = [[at] for at in range(len(case["outputs"]))]
        order = [it[0] for it in in_order(singles, deadlines_of(case), values_of(case))]
        kinds, wanted = [it["kinds"] for it in found[:-1]], [[case["outputs"][it]["kind"]] for it in order]
        self.check(kinds == wanted, f"{case['name']}: {kinds}")
        self.check_last_line(case["name"], found, range(len(wanted)))
        for index, it in zip(order, found):
            output = case["outputs"][index]
            where = f"{case['name']}: output {index}"
            self.check(it["outputs"] == [index] and it["value"] == output["value_sat"], where)
            made = read_transaction(bytes.fromhex(it["transaction"]))
            weight = 3 * len(made.stripped_bytes()) + len(made.bytes())
            self.check(253 * weight <= 1000 * it["fee"] < 253 * (weight + 3) + 1000, f"{where}: its fee")
            self.check(
                made.inputs[0].shown_outpoint() == f"{bytes.fromhex(case['txid_hash_order'])[::-1].hex()}:{index}",
                f"{where}: its outpoint",
            )
            self.check(
                made.outputs[0].value == output["value_sat"] - it["fee"]
                and made.outputs[0].program.hex() == DESTINATION,
                f"{where}: what is paid",
            )
            script = output.get("witness_script") or self.told["terms"]["keys"]["remote_payment_basepoint"]
            self.check(made.inputs[0].witness[-1].hex() == script, f"{where}: its script")
            self.check(it["deadline_blocks"] == deadline_of(output), f"{where}: its deadline")

    def check_last_line(
        self,
        name: str,
        found: list[dict[str, Any]],
        taken: Any = (),
        too_little: Any = (),
        no_key: Any = (),
        others: Any = (),
        named: dict[str, list[int]] | None = None,
    ) -> None:
        """What the last line says of all outputs, and that each of the lines before it has an answer that fits."""
        wanted = {
            "taken": [*taken],
            "too_little": [*too_little],
            "no_key": [*no_key],
            "others": [*others],
            **({} if named is None else {"named": named}),
        }
        last = {it: value for it, value in found[-1].items() if it != "transaction"}
        self.check(last == wanted, f"{name}: {last}, and not {wanted}")
        answers = {"taken": "taken", "too_little": "too little to be passed on", "no_key": "no key"}
        by_line = {
            it: sorted(at for line in found[:-1] if line["answer"] == answer for at in line["outputs"])
            for it, answer in answers.items()
        }
        self.check(by_line == {it: wanted[it] for it in answers}, f"{name}: {by_line}, and not {wanted}")
        sent = {it["answer"] for it in found[:-1] if "transaction" in it}
        self.check(sent <= {"taken"}, f"{name}: transactions of {sent}")

    def check_one(self, case: dict[str, Any]) -> None:
        """What nobody else can take yet is taken together."""
        found = penalties_of(state(self.told, case, self.curve), self.curve, self.trace, is_one=True)
        free = [
            at
            for at, it in enumerate(case["outputs"])
            if it["kind"] in ("to_local", "to_remote") or (it["kind"] == "offered" and it["cltv_expiry"] > HEIGHT)
        ]
        rest = [[at] for at in range(len(case["outputs"])) if at not in free]
        wanted = in_order([free, *rest], deadlines_of(case), values_of(case))
        outputs = [it["outputs"] for it in found[:-1]]
        self.check(outputs == wanted, f"{case['name']}: together, and one by one {outputs}")

    def test_shared_program(self) -> None:
        """Two offered HTLCs of one hash have one program: the deadline of both outputs is by the least expiry, in
        whatever order they are told.
        """
        transaction = with_outputs(self.case, SHARED)
        for numbers in (SHARED_HTLCS, SHARED_HTLCS[::-1]):
            for height, left in ((503, 2), (504, 1), (505, 0), (506, 0)):
                where = f"HTLCs {numbers} at {height}"
                given = state(
                    self.told,
                    self.case,
                    self.curve,
                    transaction=transaction,
                    htlcs=[htlc(self.told, it) for it in (1, *numbers)],
                    height=height,
                    confirmed_height=503,
                )
                found = penalties_of(given, self.curve, self.trace, is_one=True)
                wanted = [[0], [1, 2, 3, 4]] if left else [[1], [2], [0], [3, 4]]
                self.check_last_line(where, found, range(5))
                outputs = [it["outputs"] for it in found[:-1]]
                self.check(outputs == wanted, f"{where}: together {outputs}")
                alone = {
                    it["outputs"][0]: it["deadline_blocks"] for it in penalties_of(given, self.curve, self.trace)[:-1]
                }
                self.check(
                    alone == {0: 0, 1: left, 2: left, 3: None, 4: 503 + 143 - height}, f"{where}: deadlines {alone}"
                )

    def test_expiries(self) -> None:
        """An output whose HTLC has expired is in no transaction of several, where another HTLC of its hash expires
        much later.
        """
        at = next(at for at, it in enumerate(self.case["outputs"]) if it.get("htlc") == 2)
        for expiries in ((2000, 502), (502, 2000)):
            htlcs = [{**htlc(self.told, 2), "expiry_height": it} for it in expiries]
            found = penalties_of(
                state(self.told, self.case, self.curve, htlcs=htlcs, height=505, confirmed_height=504),
                self.curve,
                self.trace,
                is_one=True,
            )
            self.check(
                len(found) == 3 and at not in found[1]["outputs"],
                f"an HTLC of 502 and 2000, as {expiries}: together {found[1]['outputs']}",
            )
            self.check(
                found[0]["deadline_blocks"] == 0 and found[0]["outputs"] == [at],
                f"an HTLC of 502 and 2000, as {expiries}: {found[0]}",
            )

    def test_joined_outputs(self) -> None:
        """A transaction of several leaves out an output that has less than what its input costs there, on both sides
        of that.
        """
        feerate = 5_000
        programs = {
            it["htlc"] if it["kind"] == "offered" else it["kind"]: it["script_pubkey"]
            for it in self.case["outputs"]
            if it["kind"] != "received"
        }
        least = OFFERED_WEIGHT * feerate // 1000
        both = (REST_WEIGHT + OFFERED_WEIGHT + TO_LOCAL_WEIGHT) * feerate // 1000 + DUST_SAT[DESTINATION]
        alone = (REST_WEIGHT + TO_LOCAL_WEIGHT) * feerate // 1000 + DUST_SAT[DESTINATION]
        # the values of outputs, which HTLC each is of, what is together, and what has too little
        rows = [
            ((1_000, 1_000, 1_000, 5_000), (2, 3, 2, "to_local"), [3], [0, 1, 2]),
            ((least, least - 1, 5_000), (2, 3, "to_local"), [0, 2], [1]),
            ((least, both - least), (2, "to_local"), [0, 1], []),
            ((least, both - least - 1), (2, "to_local"), None, [0, 1]),
            ((least - 1, alone), (2, "to_local"), [1], [0]),
            ((least - 1, alone - 1), (2, "to_local"), None, [0, 1]),
        ]
        for values, kinds, together, little in rows:
            transaction = with_outputs(self.case, [(value, programs[it]) for value, it in zip(values, kinds)])
            found = penalties_of(
                state(self.told, self.case, self.curve, transaction=transaction, feerate_per_kw=feerate),
                self.curve,
                self.trace,
                is_one=True,
            )
            self.check_last_line(f"outputs of {values}", found, together or [], little)
            deadlines = [{2: 1, 3: 2, "to_local": 144}[it] for it in kinds]
            batches = [*([together] if together else []), *([at] for at in little)]
            wanted = in_order(batches, deadlines, list(values))
            self.check(
                [it["outputs"] for it in found[:-1]] == wanted,
                f"outputs of {values}: together {[it['outputs'] for it in found[:-1]]}",
            )

    def test_missing_key(self) -> None:
        """With one private key what it takes is taken, and each other output is told with the name of the key that is
        missing.
        """
        outputs = self.case["outputs"]
        remote = [at for at, it in enumerate(outputs) if it["kind"] == "to_remote"]
        rest = [at for at in range(len(outputs)) if at not in remote]
        for name, missing, mine, lost in (
            ("revocation", "payment", rest, remote),
            ("payment", "revocation", remote, rest),
        ):
            for is_one in (False, True):
                found = penalties_of(
                    state(self.told, self.case, self.curve), self.curve, self.trace, [private_key(name)], is_one=is_one
                )
                self.check_last_line(f"the key of {name} alone", found, mine, no_key=lost)
                lines = [it for it in found[:-1] if it["answer"] == "no key"]
                singles = [[at] for at in lost]
                order = [it[0] for it in in_order(singles, deadlines_of(self.case), values_of(self.case))]
                self.check(
                    [it["outputs"] for it in lines] == [[at] for at in order]
                    and {it["key"] for it in lines} == {missing},
                    f"the key of {name} alone: {lines}",
                )
                self.check(
                    [it["deadline_blocks"] for it in lines] == [deadline_of(outputs[at]) for at in order],
                    f"the key of {name} alone: deadlines {lines}",
                )
                self.check(penalties.is_left(found[-1]), f"the key of {name} alone: nothing is left")

    def test_dust(self) -> None:
        """The least value that is paid, by the kind of destination; and what is no destination."""
        found, table = state_and_table(state(self.told, self.case, self.curve), self.curve)
        takes, _ = penalties.split_outputs(found, table)
        found.feerate_per_kw = 0
        for destination, least in DUST_SAT.items():
            found.destination = bytes.fromhex(destination)
            paid = []
            for value in (least - 1, least):
                takes[0].output.value = value
                made, _ = penalties.unsigned_transaction(found, takes[:1])
                paid.append(made is not None and made.outputs[0].value == value)
            self.check(paid == [False, True], f"the least value of {destination}: {paid}")
        for destination in NO_ADDRESSES:
            self.refuses(
                "BadShape state.destination",
                lambda it=destination: penalties.read_state(
                    json.dumps(state(self.told, self.case, self.curve, destination=it))
                ),
            )

    def test_numbers(self) -> None:
        """The number of each case's commitment; and what is none."""
        terms = self.told["terms"]
        bases = {
            f"{side}_payment": terms["keys"][f"{name}_payment_basepoint"]
            for side, name in (("opener", "local"), ("other", "remote"))
        }
        mask = commitment_number.mask_of(*map(bytes.fromhex, bases.values()))
        self.check(mask == int(terms["mask"], 16), f"what a commitment number is masked with: {mask:x}")
        for case in self.told["cases"]:
            raw = case["unsigned_tx_no_witness"]
            found = commitment_number.commitment_numbers(json.dumps({"transaction": raw, **bases}))
            wanted = {
                "transaction": bytes.fromhex(case["txid_hash_order"])[::-1].hex(),
                "commitment_number": terms["commitment_number"],
                "secret_index": 2**48 - 1 - 42,
            }
            self.check(found == wanted, f"{case['name']}: {found}")
            # an HTLC transaction, another first byte of the lock time and of the sequence, and two inputs
            others = [
                *(it["unsigned_tx_no_witness"] for it in case["htlc_transactions"]),
                raw[:-2] + "21",
                raw.replace("38b02b80", "38b02b81", 1),
                raw[:8] + "02" + raw[10:92] * 2 + raw[92:],
            ]
            for it in others:
                self.refuses(
                    "NotCommitment",
                    lambda it=it: commitment_number.commitment_numbers(json.dumps({"transaction": it, **bases})),
                )
        good = {"transaction": self.told["cases"][0]["unsigned_tx_no_witness"], **bases}
        for name, given in (
            ("seen.other_payment", {**good, "other_payment": "04" * 33}),
            ("seen.opener", {**good, "opener": "02" * 33}),
            ("seen.transaction", bases),
        ):
            self.refuses(f"BadShape {name}", lambda it=given: commitment_number.commitment_numbers(json.dumps(it)))

    def check_second_stages(self, case: dict[str, Any]) -> None:
        """The output of each HTLC transaction is taken by the same call; of its HTLCs, delay and base points it wants
        the delay and two base points.
        """
        for it in case["htlc_transactions"]:
            given = state(self.told, case, self.curve, transaction=it["unsigned_tx_no_witness"], htlcs=[])
            found = penalties_of(given, self.curve, self.trace)
            where = f"{case['name']}: second stage of {it['htlc']}"
            self.check(found[0]["kinds"] == ["to_local"] and found[0]["value"] == it["output_value_sat"], where)
            self.check_last_line(where, found, [0])
            self.check_last_line(
                f"{where}, another delay",
                penalties_of({**given, "delay_blocks": 143}, self.curve, self.trace),
                others=[0],
            )

    def check_changes(self, case: dict[str, Any]) -> None:
        """With one base point, the delay, the secret or a part of an HTLC changed, what no longer matches is named."""
        other = self.curve.public_key(b"\x55" * 32).hex()
        made_of = {
            "revocation": ("to_local", "offered", "received"),
            "payment": ("to_remote",),
            "htlc": ("offered", "received"),
            "owner_delayed": ("to_local",),
            "owner_htlc": ("offered", "received"),
        }
        outputs = case["outputs"]
        rows = [
            ({"bases": {name: other}}, lambda it, kinds=kinds: it["kind"] in kinds) for name, kinds in made_of.items()
        ]
        rows.append(({"delay_blocks": 145}, lambda it: it["kind"] == "to_local"))
        rows.append(({"secret": "56" * 32}, lambda it: it["kind"] != "to_remote"))
        htlcs = [htlc(self.told, it) for it in case["htlcs_given"]]
        for number, it in zip(case["htlcs_given"], htlcs):
            turned = {**it, "direction": "offered" if it["direction"] == "received" else "received"}
            for instead in ([], [turned], [{**it, "hash": "57" * 32}]):
                left = [other for other in htlcs if other != it] + instead
                rows.append(({"htlcs": left}, lambda it, number=number: it.get("htlc") == number))
        for changes, is_lost in rows:
            found = penalties.split_outputs(
                *state_and_table(state(self.told, case, self.curve, **changes), self.curve)
            )
            self.check(
                found[1] == [at for at, it in enumerate(outputs) if is_lost(it)],
                f"{case['name']}: {list(changes)}, {found[1]}",
            )

    def test_deadlines(self) -> None:
        """Both sides of each deadline: the last block that nobody else's transaction can be in, and the next one."""
        at = {it["kind"]: place for place, it in enumerate(self.case["outputs"])}
        rows = [
            ("to_local", {"height": 600}, 144),
            ("to_local", {"height": 600, "confirmed_height": 600}, 143),
            ("to_local", {"height": 742, "confirmed_height": 600}, 1),
            ("to_local", {"height": 743, "confirmed_height": 600}, 0),
            ("to_local", {"height": 900, "confirmed_height": 600}, 0),
        ]
        known = penalties.Known("to_local", b"", b"", [], b"", 600)
        given = state(self.told, self.case, self.curve, height=600, confirmed_height=600, delay_blocks=0)
        found = penalties.deadline_of(known, penalties.read_state(json.dumps(given)))
        self.check(found == 0, f"the deadline of to_local without a delay: {found}")
        expiry = self.case["outputs"][at["offered"]]["cltv_expiry"]
        rows += [
            ("offered", {"height": expiry - 1}, 1),
            ("offered", {"height": expiry}, 0),
            ("offered", {"height": expiry + 9}, 0),
            ("received", {"height": 0}, 0),
            ("to_remote", {"height": 0}, None),
        ]
        for kind, changes, wanted in rows:
            found, table = state_and_table(state(self.told, self.case, self.curve, **changes), self.curve)
            known = table[bytes.fromhex(self.case["outputs"][at[kind]]["script_pubkey"])]
            self.check(
                penalties.deadline_of(known, found) == wanted,
                f"{self.case['name']}: the deadline of {kind} with {changes}",
            )

    def check_legacy_key(self, case: dict[str, Any]) -> None:
        """Before static_remotekey the remote key is derived: the output to the derived key is taken, and the one to
        the base point is named.
        """
        base = self.curve.public_key(private_key("payment"))
        key = derivation.derived_key(
            self.curve, base, self.curve.public_key(bytes.fromhex(self.told["terms"]["per_commitment_secret"]))
        )
        at = next(at for at, it in enumerate(case["outputs"]) if it["kind"] == "to_remote")
        before, after = ((b"\x00\x14" + hash160(it)).hex() for it in (base, key))
        given = state(self.told, case, self.curve)
        given["transaction"] = given["transaction"].replace(before, after)
        self.check(
            penalties_of(given, self.curve, self.trace)[-1]["others"] == [at],
            f"{case['name']}: a derived remote key is not the base point",
        )
        found = penalties_of(given, self.curve, self.trace, is_legacy=True)
        self.check(
            found[-1]["others"] == []
            and [it["kinds"] for it in found[:-1] if it["outputs"] == [at]] == [["to_remote"]],
            f"{case['name']}: a derived remote key",
        )

    def test_anchors(self) -> None:
        """With anchors each HTLC and to_local is taken by the scripts of such a channel; to_remote and the anchors are
        named by what they are.
        """
        outputs = with_anchors(self.told, self.case)
        mine, rest = places_of(outputs, "to_local", "offered", "received"), places_of(outputs, "to_remote", "anchor")
        named = {"to_remote": places_of(outputs, "to_remote"), "anchor": [0, 1]}
        given = anchored_state(self.told, self.case, self.curve, outputs)
        told = penalties_of(given, self.curve, self.trace)
        self.check_remote(outputs, told[0])
        found = told[1:]
        self.check_last_line("anchors", found, mine, others=rest, named=named)
        self.check(not penalties.is_left(found[-1]), "anchors: what is named is not left")
        deadlines = anchored_deadlines(outputs, HEIGHT, HEIGHT + 1)
        order = in_order([[at] for at in mine], deadlines, [it[1] for it in outputs])
        for (at,), it in zip(order, found):
            kind, value, script, _ = outputs[at]
            made = read_transaction(bytes.fromhex(it["transaction"]))
            between = "01" if kind == "to_local" else self.told["terms"]["keys"]["local_revocation_pubkey"]
            self.check(
                it["outputs"] == [at] and it["kinds"] == [kind] and it["value"] == value, f"anchors: output {at}: {it}"
            )
            self.check(
                [each.hex() for each in made.inputs[0].witness[1:]] == [between, script],
                f"anchors: output {at}: its witness",
            )
            self.check((made.inputs[0].sequence, made.lock_time) == (0, 0), f"anchors: output {at}: its locks")
        together = penalties_of(given, self.curve, self.trace, is_one=True)
        self.check([it["outputs"] for it in together[1:-1]] == [mine], f"anchors: together {together[1:-1]}")
        self.check_waits(self.case, outputs)
        self.check_other_type(self.case, outputs)

    def check_remote(self, outputs: list[tuple[str, int, str, int | None]], told: dict[str, Any]) -> None:
        """To_remote stands first, with its value and what a wallet takes it by."""
        (at,) = places_of(outputs, "to_remote")
        _, value, script, _ = outputs[at]
        key = script[2:68]
        wanted = {
            **{"outputs": [at], "kinds": ["to_remote"], "value": value, "answer": "not claimed here"},
            "reason": "BOLT 3's script needs CHECKSIGVERIFY, which the judge does not know",
            "descriptor": f"wsh(and_v(v:pk({key}),older(1)))",
        }
        self.check(told == wanted, f"anchors: to_remote {told}")

    def check_waits(self, case: dict[str, Any], outputs: list[tuple[str, int, str, int | None]]) -> None:
        """The owner's HTLC transactions wait for a block: both sides of that, before the expiry and after it."""
        mine = places_of(outputs, "to_local", "offered", "received")
        for height, confirmed_height, least in (
            (501, None, 1),
            (501, 501, 0),
            (502, None, 1),
            (502, 502, 0),
            (503, 500, 0),
            (499, None, 1),
        ):
            changes = {
                "height": height,
                **({} if confirmed_height is None else {"confirmed_height": confirmed_height}),
            }
            found = penalties_of(
                anchored_state(self.told, case, self.curve, outputs, **changes), self.curve, self.trace
            )
            since = height + 1 if confirmed_height is None else confirmed_height
            deadlines = anchored_deadlines(outputs, height, since)
            received = [deadlines[at] for at in places_of(outputs, "received")]
            self.check(set(received) == {least}, f"anchors at {height}: deadlines of received HTLCs {received}")
            wanted = [
                (it, deadlines[it[0]]) for it in in_order([[at] for at in mine], deadlines, [it[1] for it in outputs])
            ]
            told = [(it["outputs"], it["deadline_blocks"]) for it in found[1:-1]]
            self.check(told == wanted, f"anchors at {height}, in {confirmed_height}: {told}, and not {wanted}")

    def check_other_type(self, case: dict[str, Any], outputs: list[tuple[str, int, str, int | None]]) -> None:
        """A commitment that is told as of the other type: its HTLCs match nothing, and are named. So are anchors without
        their keys, and with the keys in either order.
        """
        local, htlcs, rest = (
            places_of(outputs, "to_local"),
            places_of(outputs, "offered", "received"),
            places_of(outputs, "to_remote", "anchor"),
        )
        given = anchored_state(self.told, case, self.curve, outputs)
        plain = {name: it for name, it in given.items() if name not in ("channel_type", "funding_keys")}
        self.check_last_line(
            "anchors, told as none", penalties_of(plain, self.curve, self.trace), local, others=sorted([*htlcs, *rest])
        )
        self.check_last_line(
            "anchors, told as static_remotekey",
            penalties_of({**plain, "channel_type": "static_remotekey"}, self.curve, self.trace),
            local,
            others=sorted([*htlcs, *rest]),
        )
        own = state(self.told, case, self.curve, channel_type="anchors")
        kinds = [it["kind"] for it in case["outputs"]]
        self.check_last_line(
            "no anchors, told as anchors",
            penalties_of(own, self.curve, self.trace),
            [at for at, it in enumerate(kinds) if it in ("to_local", "to_remote")],
            others=[at for at, it in enumerate(kinds) if it in ("offered", "received")],
            named={},
        )
        without = {name: it for name, it in given.items() if name != "funding_keys"}
        mine = sorted([*local, *htlcs])
        self.check_last_line(
            "anchors without their keys",
            penalties_of(without, self.curve, self.trace),
            mine,
            others=rest,
            named={"to_remote": places_of(outputs, "to_remote")},
        )
        turned = {**given, "funding_keys": given["funding_keys"][::-1]}
        names = output_names(turned, self.curve, rest)
        self.check(
            names == {"named": {"anchor": [0, 1], "to_remote": places_of(outputs, "to_remote")}},
            f"anchors whose keys are told in the other order: {names}",
        )
        second = case["htlc_transactions"][0]
        self.check_last_line(
            "anchors: a second stage",
            penalties_of({**given, "transaction": second["unsigned_tx_no_witness"]}, self.curve, self.trace),
            [0],
            named={},
        )

    def test_added(self) -> None:
        """What the owner of a channel with anchors adds to an HTLC transaction is named, and nothing is left; and not
        where its own output matches nothing.
        """
        outputs = with_anchors(self.told, self.case)
        second = read_transaction(
            bytes.fromhex(self.case["htlc_transactions"][0]["unsigned_tx_no_witness"]), marked=False
        )
        second.inputs.append(Input(bytes(31) + b"\x07" + bytes(4), b"", 0))
        second.outputs.append(Output(7_000, bytes.fromhex(DESTINATION)))
        given = anchored_state(self.told, self.case, self.curve, outputs, transaction=second.bytes().hex())
        found = penalties_of(given, self.curve, self.trace)
        self.check_last_line("anchors: an HTLC transaction with change", found, [0], others=[1], named={"added": [1]})
        self.check(not penalties.is_left(found[-1]), "anchors: what is added is not left")
        for changes in ({"delay_blocks": 143}, {"channel_type": "static_remotekey"}):
            others = [1] if "channel_type" in changes else [0, 1]
            found = penalties_of({**given, **changes}, self.curve, self.trace)
            self.check(
                (found[-1]["others"], found[-1].get("named", {})) == (others, {}) and penalties.is_left(found[-1]),
                f"anchors: an HTLC transaction with {changes}: {found[-1]}",
            )

    def test_spent(self) -> None:
        """Outputs that are told to be gone are in no transaction and no other list."""
        given, every = state(self.told, self.case, self.curve), range(len(self.case["outputs"]))
        for gone in ([0], [len(every) - 1, 1], [*every]):
            for is_one in (False, True):
                found = penalties_of({**given, "spent": gone}, self.curve, self.trace, is_one=is_one)
                left = [at for at in every if at not in gone]
                wanted = {"taken": left, "too_little": [], "no_key": [], "others": [], "spent": sorted(gone)}
                last = {name: it for name, it in found[-1].items() if name != "transaction"}
                self.check(last == wanted and not penalties.is_left(last), f"spent {gone}: {last}")
                self.check(
                    sorted(at for it in found[:-1] for at in it["outputs"]) == left,
                    f"spent {gone}: {[it['outputs'] for it in found[:-1]]}",
                )
        for bad, place in (([len(every)], 0), ([-1], 0), ([0, 0], 1), ([True], 0), (["0"], 0), ([0.0], 0)):
            self.refuses(
                f"BadShape state.spent[{place}]",
                lambda it=bad: penalties.read_state(json.dumps({**given, "spent": it})),
            )

    def test_keys(self) -> None:
        """A key of neither base point is told, and what the others take is taken all the same; where none is of one,
        the first is refused.
        """
        given, keys = state(self.told, self.case, self.curve), [
            private_key("revocation"),
            b"\x07" * 32,
            private_key("payment"),
        ]
        found = penalties_of(given, self.curve, self.trace, keys)
        last = found.pop()
        self.check(
            last.pop("unused_keys", None) == [1]
            and penalties.is_left({**last, "unused_keys": [1]})
            and not penalties.is_left(last),
            f"a key that is not used: {last}",
        )
        self.check_last_line("a key that is not used", [*found, last], range(len(self.case["outputs"])))
        self.refuses("UnusedKey 0", lambda: penalties_of(given, self.curve, self.trace, keys[1:2]))

    def test_feerates(self) -> None:
        """The limit of a feerate, and one that the state sets, each on both sides."""
        given = state(self.told, self.case, self.curve)
        for changes, most in (
            ({}, 250_000),
            ({"most_feerate_per_kw": 300}, 300),
            ({"most_feerate_per_kw": 10_000_000}, 10_000_000),
        ):
            self.check(
                penalties.read_state(json.dumps({**given, **changes, "feerate_per_kw": most})).feerate_per_kw == most,
                f"a feerate of {most}",
            )
            if most < 10_000_000:
                self.refuses(
                    f"TooHighFeerate {most}",
                    lambda it=changes, most=most: penalties.read_state(
                        json.dumps({**given, **it, "feerate_per_kw": most + 1})
                    ),
                )
        for changes, least in (({}, 253), ({"least_feerate_per_kw": 25}, 25), ({"least_feerate_per_kw": 300}, 300)):
            self.check(
                penalties.read_state(json.dumps({**given, **changes, "feerate_per_kw": least})).feerate_per_kw == least,
                f"a feerate of {least}",
            )
            self.refuses(
                f"TooLowFeerate {least}",
                lambda it=changes, least=least: penalties.read_state(
                    json.dumps({**given, **it, "feerate_per_kw": least - 1})
                ),
            )
        for name in ("feerate_per_kw", "most_feerate_per_kw", "least_feerate_per_kw"):
            self.refuses(
                f"BadShape state.{name}", lambda it=name: penalties.read_state(json.dumps({**given, it: 10_000_001}))
            )

    def test_notes(self) -> None:
        """Each note is said where it holds, and not on the other side of that."""
        good, outputs = state(self.told, self.case, self.curve), with_anchors(self.told, self.case)
        second = self.case["htlc_transactions"][0]["unsigned_tx_no_witness"]
        anchored = {
            **anchored_state(self.told, self.case, self.curve, outputs, transaction=second),
            **{"feerate_per_kw": 0, "least_feerate_per_kw": 0},
        }
        at = next(at for at, it in enumerate(self.case["outputs"]) if it["kind"] == "to_local")
        fee = TO_LOCAL_WEIGHT + REST_WEIGHT

        def only_local(value: int, **changes: int) -> dict[str, Any]:
            return {
                **good,
                "transaction": with_outputs(self.case, [(value, self.case["outputs"][at]["script_pubkey"])]),
                **changes,
            }

        def many(number: int) -> dict[str, Any]:
            return {
                **good,
                "transaction": with_outputs(self.case, [(5_000, self.case["outputs"][at]["script_pubkey"])] * number),
            }

        self.check(notes_of(only_local(1_000_000), self.curve, self.trace) == [], "a state without a note")
        rows = [
            ("with anchors the owner may add inputs", anchored, True),
            ("with anchors the owner may add inputs", {**anchored, "confirmed_height": HEIGHT}, False),
            ("with anchors the owner may add inputs", {**good, "transaction": second}, False),
            (
                "with anchors the owner may add inputs",
                anchored_state(self.told, self.case, self.curve, outputs),
                False,
            ),
            # the fee is rounded up, so that it is not below one satoshi for a virtual byte
            ("the fee is below one", {**good, "feerate_per_kw": 252, "least_feerate_per_kw": 252}, False),
            (
                "the fee is above a tenth of the value: of outputs 0",
                only_local(10 * fee - 1, feerate_per_kw=1_000),
                True,
            ),
            ("the fee is above a tenth", only_local(10 * fee, feerate_per_kw=1_000), False),
            (
                "at this feerate too little is left to be passed on: of outputs 0",
                only_local(fee + 293, feerate_per_kw=1_000),
                True,
            ),
            ("at this feerate too little", only_local(293), False),
            ("of 25 transactions nodes are sure to take the first 24", many(25), True),
            ("of 25 transactions nodes are sure to take the first 24", {**many(25), "confirmed_height": HEIGHT}, False),
            ("of 24 transactions", many(24), False),
        ]
        for start, given, holds in rows:
            found = notes_of(given, self.curve, self.trace)
            self.check(any(it.startswith(start) for it in found) == holds, f"a note that begins {start!r}: {found}")

    def test_lock_notes(self) -> None:
        """An HTLC-timeout transaction is in no block up to its lock time, and its lock time is an offered HTLC's expiry."""
        it = next(it for it in self.case["htlc_transactions"] if it["kind"] == "timeout")
        second = it["unsigned_tx_no_witness"]
        lock = int.from_bytes(bytes.fromhex(second)[-4:], "little")
        given = {**state(self.told, self.case, self.curve), "transaction": second, "height": lock}
        known = {**given, "htlcs": [{**each, "expiry_height": lock} for each in given["htlcs"]]}
        unknown = {**given, "htlcs": [{**each, "expiry_height": lock + 1} for each in given["htlcs"]]}
        found = [{"outputs": [0], "kinds": ["to_local"], "answer": "no key"}, {}]
        no_block = f"the lock time is {lock}, so no block up to height {lock} has the transaction: compare confirmed_height"
        no_node = f"the lock time is {lock}, so no node takes the transaction below height {lock}: compare height"
        no_htlc = f"the lock time is {lock}, and no offered HTLC in htlcs has this expiry_height"
        for asked, wanted in (
            (known, []),
            ({**known, "height": lock - 1}, [no_node]),
            ({**known, "confirmed_height": lock}, [no_block]),
            ({**known, "height": lock + 1, "confirmed_height": lock + 1}, []),
            (unknown, [no_htlc]),
            ({**known, "transaction": self.case["unsigned_tx_no_witness"]}, []),
        ):
            told = list(penalty_notes.lock_notes(penalties.read_state(json.dumps(asked)), found))
            self.check(told == wanted, f"notes on a lock time: {told}")

    def test_spent_notes(self) -> None:
        """Outputs that are told to be spent have a note with their values."""
        twice = state(self.told, self.case, self.curve, transaction=with_outputs(self.case, SHARED))
        told = list(penalty_notes.spent_notes(penalties.read_state(json.dumps({**twice, "spent": [1]}))))
        gone = "output 1, counted from 0, with 5000 satoshis, is told to be spent and left alone"
        self.check(told == [gone], f"notes on outputs that are spent: {told}")

    def test_destination_notes(self) -> None:
        """A program that anyone can spend, or nobody, has its note, and no other has one."""
        for program, start in DESTINATION_NOTES.items():
            found = list(penalty_notes.destination_notes(bytes.fromhex(program)))
            is_right = [it[: len(start)] for it in found] == [start] * bool(start)
            self.check(is_right, f"the notes on a destination {program}: {found}")

    def refuses(self, name: str, make: Callable) -> None:
        """Whether a call is refused by this name."""
        try:
            found = make() and "taken"
        except Refused as why:
            found = str(why)
        self.check(found == name, f"a fault that is to be refused as {name}: {found}")

    def test_refusals(self) -> None:
        good = state(self.told, self.case, self.curve)
        rows = [
            ("NoKey", good, []),
            ("BadKey 0", good, [bytes(32)]),
            ("BadSecret", {**good, "secret": "00" * 32}, None),
            ("BadShape state.bases.htlc", {**good, "bases": {**good["bases"], "htlc": "05" * 33}}, None),
            ("BadShape state.delay_blocks", {**good, "delay_blocks": 65536}, None),
            (
                "BadShape state.htlcs[0].expiry_height",
                {**good, "htlcs": [{**htlc(self.told, 0), "expiry_height": 500_000_000}]},
                None,
            ),
            (
                "BadShape state.htlcs[0].direction",
                {**good, "htlcs": [{**htlc(self.told, 0), "direction": "sent"}]},
                None,
            ),
            ("BadShape state.htlcs[0].amount", {**good, "htlcs": [{**htlc(self.told, 0), "amount": 1}]}, None),
            (
                "BadShape state.bases.owner_payment",
                {**good, "bases": {**good["bases"], "owner_payment": "02" * 33}},
                None,
            ),
            ("BadShape state.confirmed_hieght", {**good, "confirmed_hieght": HEIGHT}, None),
            ("BadShape state.?", {**good, "height\n": HEIGHT}, None),
            ("BadShape state.?", {**good, "\ud800": HEIGHT}, None),
            ("BadShape state.confirmed_height", {**good, "confirmed_height": HEIGHT + 1}, None),
            (
                "BadShape state.confirmed_height",
                {name: it for name, it in good.items() if name != "confirmed_height"},
                None,
            ),
            ("BadShape state.channel_type", {**good, "channel_type": "anchor"}, None),
            ("BadShape state.channel_type", {**good, "channel_type": 22}, None),
            ("BadShape state.funding_keys", {**good, "funding_keys": ["02" * 33]}, None),
            ("BadShape state.funding_keys[1].key", {**good, "funding_keys": [good["bases"]["htlc"], "02"]}, None),
            ("BadShape state.funding_keys[1]", {**good, "funding_keys": [good["bases"]["htlc"], "05" * 33]}, None),
            ("TooManyHtlcs", {**good, "htlcs": [htlc(self.told, 0)] * 967}, None),
            ("Trailing", {**good, "transaction": good["transaction"] + "00"}, None),
        ]
        for name, given, privates in rows:
            self.refuses(
                name, lambda given=given, privates=privates: penalties_of(given, self.curve, self.trace, privates)
            )
        self.refuses(
            "BadShape state.channel_type",
            lambda: penalties_of({**good, "channel_type": "anchors"}, self.curve, self.trace, is_legacy=True),
        )

    def test_notes_of_answers(self) -> None:
        """Notes on a deadline that is far away, and on a destination that the transaction pays itself."""
        given = state(self.told, self.case, self.curve)
        at = next(at for at, it in enumerate(self.case["outputs"]) if it["kind"] == "to_local")
        program = self.case["outputs"][at]["script_pubkey"]
        for deadline, destination, wanted in (
            (2_016, DESTINATION, []),
            (None, DESTINATION, []),
            (
                2_017,
                DESTINATION,
                [
                    "more than 2016 blocks are left of outputs 3: compare height, confirmed_height and the expiries"
                    " with the chain"
                ],
            ),
            (1, program, [f"destination: output {at} of the transaction that was seen has this program"]),
        ):
            read = penalties.read_state(json.dumps({**given, "destination": destination}))
            answer = {"outputs": [3], "kinds": ["to_local"], "value": 1, "fee": 1, "answer": "no key"}
            found = [{**answer, "deadline_blocks": deadline}, {}]
            told = list(penalty_notes.notes_of(read, found))
            self.check(told == wanted, f"notes on a deadline of {deadline}, to {destination}: {told}")

    def test_feerate_notes(self) -> None:
        """Notes on feerates in other units, and on fees by the virtual size (BIP 141) of their own transactions."""
        given, signed = state(self.told, self.case, self.curve), self.case["unsigned_tx_no_witness"]
        size = len(signed) // 2
        raised = {"most_feerate_per_kw": 300_000}
        cheap = (
            "the fee is below one satoshi for a virtual byte, the least that nodes before Bitcoin Core 29.1 pass on by"
            " default, and later ones a tenth of it: of outputs 3"
        )
        for feerate, changes, fee, wanted in (
            (253, {}, size, []),
            (253, {}, size - 1, [cheap]),
            (2_499, {}, size, []),
            (
                2_500,
                {},
                size,
                [
                    "the feerate is 10 satoshis for a virtual byte, and 10000 for 1,000 of them, for which bitcoin-cli"
                    " estimatesmartfee tells it"
                ],
            ),
            (
                250_000,
                raised,
                size,
                [
                    "the feerate is 1000 satoshis for a virtual byte, and 1000000 for 1,000 of them, for which"
                    " bitcoin-cli estimatesmartfee tells it"
                ],
            ),
            (
                250_001,
                raised,
                size,
                [
                    "the feerate is 1000 satoshis for a virtual byte, and above the limit that holds without"
                    " most_feerate_per_kw"
                ],
            ),
        ):
            read = penalties.read_state(json.dumps({**given, **changes, "feerate_per_kw": feerate}))
            answer = {"outputs": [3], "kinds": ["to_local"], "value": 20 * size, "fee": fee, "answer": "taken"}
            found = [{**answer, "deadline_blocks": 1, "transaction": signed}, {}]
            told = list(penalty_notes.notes_of(read, found))
            self.check(told == wanted, f"notes on a feerate of {feerate} and a fee of {fee}: {told}")

    def test_feerate_limits(self) -> None:
        """What is said of a feerate beyond a limit has both in satoshis for a virtual byte."""
        given = state(self.told, self.case, self.curve)
        relayed = "by default nodes before Bitcoin Core 29.1 pass on nothing below 1, and later ones nothing below 0.1"
        for changes, feerate, wanted in (
            (
                {},
                252,
                "252 satoshis for 1,000 units of weight are 1.008 for a virtual byte, and the limit is 1.012, which"
                f" least_feerate_per_kw lowers; {relayed}",
            ),
            (
                {"least_feerate_per_kw": 500},
                499,
                "499 satoshis for 1,000 units of weight are 1.996 for a virtual byte, and the limit is 2, which"
                f" least_feerate_per_kw lowers; {relayed}",
            ),
            (
                {},
                250_001,
                "250001 satoshis for 1,000 units of weight are 1000 for a virtual byte; most_feerate_per_kw raises the"
                " limit",
            ),
        ):
            try:
                found: Any = penalties.read_state(json.dumps({**given, **changes, "feerate_per_kw": feerate}))
            except Refused as why:
                found = why.note
            self.check(found == wanted, f"what is said of a feerate of {feerate}: {found}")

    def test_not_clean(self) -> None:
        """What the judge does not find clean is named with its reason, and all else is taken."""
        given, count = state(self.told, self.case, self.curve), len(self.case["outputs"])
        real = penalties.fault_of

        def doubt(*asked: Any) -> str | None:
            return "output 1: a reason" if asked[1][0].index == 1 else real(*asked)

        with unittest.mock.patch.object(penalties, "fault_of", doubt):
            found = penalties_of(given, self.curve, self.trace)
        (line,) = [it for it in found[:-1] if it["outputs"] == [1]]
        told = line["answer"], line["reason"], "transaction" in line
        self.check(told == ("not clean", "output 1: a reason", False), f"what is not clean: {line}")
        rest = [at for at in range(count) if at != 1]
        self.check((found[-1]["taken"], found[-1]["not_clean"]) == (rest, [1]), f"what is not clean: {found[-1]}")
        self.check(penalties.is_left(found[-1]), "what is not clean is left")
