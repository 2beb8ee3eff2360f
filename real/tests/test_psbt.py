"""Tests of partially signed transactions: each HTLC transaction of BOLT 3's Appendix C is made, signed and finished,
and faults are refused. Tested, not proved.
"""
import json
from collections.abc import Callable
from typing import Any

from real.lib import assembly, finalizer, judgement, psbt, scripts
from real.lib.errors import Refused
from real.lib.plan import read_plan
from real.lib.psbt import Partial
from real.lib.ripemd160 import ripemd160
from real.lib.signer import sign
from real.lib.transaction import Input, Output, Transaction, compact_size, hash160, sha256, text
from real.tests import bolt3, spend_requests
from real.tests.checks import CurveCase

# the order of the curve (SEC 2)
ORDER = int("fffffffffffffffffffffffffffffffebaaedce6af48a03bbfd25e8cd0364141", 16)


def push_of(key: bytes) -> bytes:
    return bytes([len(key)]) + key


def is_refused_as(name: str, make: Callable) -> bool:
    try:
        make()
    except Refused as why:
        return str(why).startswith(name)
    return False


def with_signatures(signed: str, change: Callable) -> Partial:
    found = psbt.read(psbt.decoded_bytes(signed.encode()))
    for fields in found.inputs:
        for key in [it for it in fields if psbt.kind_of(it)[0] == psbt.PARTIAL_SIG]:
            fields.update({key: change(fields.pop(key))})
    return found


def with_high_s(signature: bytes) -> bytes:
    """The same signature with the other s, which is as valid."""
    size = signature[3]
    first, second = signature[: 4 + size], ORDER - int.from_bytes(signature[6 + size : -1], "big")
    number = second.to_bytes(second.bit_length() // 8 + 1, "big")
    body = first[2:] + b"\x02" + push_of(number)
    return b"\x30" + push_of(body) + signature[-1:]


class PsbtTest(CurveCase):
    """Each HTLC transaction of the appendix, the hash of a key, and what spend makes."""

    def test_appendix(self) -> None:
        """Each HTLC transaction of the appendix from its plan: made, signed by both keys, finished. The signatures are
        those of the appendix.
        """
        told = bolt3.read()
        privates = [bytes.fromhex(told["terms"]["keys"][it]) for it in ("local_htlc_privkey", "remote_htlc_privkey")]
        wanted = {
            name: (transaction.bytes(), spent) for name, transaction, spent, _, _ in bolt3.htlc_transactions(told)
        }
        self.spend_key_hashes(privates)
        for case in told["cases"]:
            for it in case["htlc_transactions"]:
                plan = json.dumps(bolt3.plan(told, case["name"], it["htlc"]))
                made = assembly.make(read_plan(plan)).base64()
                signed = sign(psbt.read(psbt.decoded_bytes(made.encode())), privates, self.curve).base64()
                finished = assembly.finish(read_plan(plan), psbt.read(psbt.decoded_bytes(signed.encode())), self.curve)
                raw, spent = wanted[f"{case['name']}: HTLC {it['htlc']}"]
                self.check(finished.bytes() == raw, f"{case['name']}: HTLC {it['htlc']}, signed anew")
                self.check(
                    judgement.judge(finished, [spent], self.curve, self.trace)[0]["answer"] == "clean",
                    f"{case['name']}: HTLC {it['htlc']}, judged",
                )
                self.combine_and_finalize(made, privates, finished)
                self.refuse_faults(plan, signed, privates)
                self.finish_final_witness(plan, finished.inputs[0].witness)
                self.tell_preimage(told, it, made)

    def combine_and_finalize(self, made: str, privates: list[bytes], finished: Transaction) -> None:
        """Two signers' transactions are combined in both orders, and the final witness is the one that was wanted. With
        one signature no path is met.
        """

        def read() -> Partial:
            return psbt.read(psbt.decoded_bytes(made.encode()))

        signed = [sign(read(), [it], self.curve) for it in privates]
        for order in (signed, signed[::-1], [*signed, signed[0], read()]):
            combined = finalizer.combine(order)
            self.check(combined.bytes() == sign(read(), privates, self.curve).bytes(), "two signers, combined")
        final = finalizer.finalize(finalizer.combine(signed), self.curve, self.trace)
        fields = final.inputs[0]
        self.check(psbt.final_witness(fields) == finished.inputs[0].witness, "a final witness by a listed path")
        self.check(
            {psbt.kind_of(it)[0] for it in fields} == {psbt.WITNESS_UTXO, psbt.FINAL_SCRIPTWITNESS},
            f"what stays of an input that is final: {sorted(fields)}",
        )
        again = finalizer.finalize(psbt.read(final.bytes()), self.curve, self.trace)
        self.check(again.bytes() == final.bytes(), "what is final stays")
        for it in (signed[0], read()):
            self.check(
                is_refused_as("NoPath 0", lambda it=it: finalizer.finalize(it, self.curve, self.trace)),
                "a signature that is missing",
            )
        other = read()
        other.transaction.lock_time += 1
        self.check(is_refused_as("OtherSpend 1", lambda: finalizer.combine([read(), other])), "another transaction")
        other = read()
        other.inputs[0][psbt.key_of(psbt.SIGHASH_TYPE)] = bytes(4)
        self.check(is_refused_as("OtherField input 0 3", lambda: finalizer.combine([read(), other])), "another field")
        self.check(is_refused_as("NoTransaction", lambda: finalizer.combine([])), "nothing to combine")

    def test_origins(self) -> None:
        """The origin of a key stands in each input whose script has it, as BIP 174 writes it."""
        told = bolt3.read()
        case = told["cases"][1]
        plan = json.dumps(bolt3.plan(told, case["name"], case["htlc_transactions"][0]["htlc"]))
        key = json.loads(plan)["inputs"][0]["signatures"][0]["key"]

        def made(*origins: str) -> Partial:
            read = read_plan(plan)
            assembly.add_origins(read, list(origins))
            return assembly.make(read)

        found = psbt.with_kind(made(f"[d34db33f/48h/1'/7]{key}").inputs[0], psbt.BIP32_DERIVATION)
        path = b"".join(it.to_bytes(4, "little") for it in (0x80000030, 0x80000001, 7))
        self.check(found == {bytes.fromhex(key): bytes.fromhex("d34db33f") + path}, f"an origin: {found}")
        found = psbt.with_kind(made(f"[00000000]{key}").inputs[0], psbt.BIP32_DERIVATION)
        self.check(found == {bytes.fromhex(key): bytes(4)}, f"a root: {found}")
        bad = (f"d34db33f/48h{key}", f"[d34db33f/48x]{key}", f"[d34db33f/2147483648]{key}", f"[d34db33]{key}", key)
        for origin in bad:
            self.check(is_refused_as("BadOrigin 1", lambda it=origin: made(f"[00000000]{key}", it)), f"{origin}")
        self.check(is_refused_as("UnusedOrigin 0", lambda: made("[00000000]02" + "11" * 32)), "a key of no input")

    def spend_key_hashes(self, privates: list[bytes]) -> None:
        """An output to the hash of a key and one to a script, whose keys are in the witness and in the script, in one
        transaction.
        """
        keys = [self.curve.public_key(it) for it in privates]
        program, script = b"\x00\x14" + hash160(keys[0]), push_of(keys[1]) + b"\xac"
        spent = [Output(7_000, program), Output(8_000, b"\x00\x20" + sha256(script))]
        transaction = Transaction(
            2, [Input(bytes([5 + it]) * 36, b"", 7) for it in range(2)], [Output(14_000, program)], 0
        )
        inputs = []
        for index, (output, code, items) in enumerate(
            zip(spent, (scripts.key_script(program), script), ([None, keys[0].hex()], [None, script.hex()]))
        ):
            wanted = {
                "item": 0,
                "key": keys[index].hex(),
                "digest": transaction.digest(index, code, output.value).hex(),
            }
            inputs.append(
                {
                    "value": output.value,
                    "program": output.program.hex(),
                    "script": code.hex(),
                    "witness": items,
                    "signatures": [wanted],
                }
            )
        plan = json.dumps({"transaction": transaction.stripped_bytes().hex(), "inputs": inputs})
        made = assembly.make(read_plan(plan))
        self.check(
            [psbt.key_of(psbt.WITNESS_SCRIPT) in it for it in made.inputs] == [False, True],
            "a witness script where there is one",
        )
        signed = sign(made, privates, self.curve)
        self.check(
            [len(psbt.with_kind(it, psbt.PARTIAL_SIG)) for it in signed.inputs] == [1, 1],
            "a signature for each input's own key",
        )
        finished = assembly.finish(read_plan(plan), signed, self.curve)
        found = judgement.judge(finished, spent, self.curve, self.trace)
        self.check([it["answer"] for it in found] == ["clean", "clean"], f"the hash of a key, and a script: {found}")
        final = finalizer.finalize(signed, self.curve, self.trace)
        self.check(
            [psbt.final_witness(it) for it in final.inputs] == [it.witness for it in finished.inputs],
            "final witnesses of the hash of a key, and of a script",
        )

    def test_request(self) -> None:
        """What the program `spend` makes is signed by the peer's key, finished and judged: an HTLC by its preimage,
        and one after its timeout.
        """
        told = bolt3.read()
        plan, _ = spend_requests.spend_answer(spend_requests.line(next(spend_requests.requests(told))[0]))
        signed = sign(
            assembly.make(read_plan(plan)), [bytes.fromhex(told["terms"]["keys"]["remote_htlc_privkey"])], self.curve
        )
        finished = assembly.finish(read_plan(plan), signed, self.curve)
        spent = [it.output for it in read_plan(plan).inputs]
        found = judgement.judge(finished, spent, self.curve, self.trace)
        self.check(
            [(it["answer"], it.get("path")) for it in found] == [("clean", 2), ("clean", 2)],
            f"a spend of {len(spent)} outputs: {found}",
        )
        weight = 3 * len(finished.stripped_bytes()) + len(finished.bytes())
        self.check(weight <= json.loads(plan)["weight"] < weight + 8, f"a weight of {weight}")

    def finish_final_witness(self, plan: str, witness: list[bytes]) -> None:
        """A final witness in another order is put back into the order of the plan; one that lacks a signature is
        refused.
        """
        for items, holds in ((list(reversed(witness)), True), ([*witness[:1], *witness[2:]], False)):
            found = assembly.make(read_plan(plan))
            found.inputs[0][psbt.key_of(psbt.FINAL_SCRIPTWITNESS)] = compact_size(len(items)) + b"".join(
                map(text, items)
            )
            if holds:
                self.check(
                    assembly.finish(read_plan(plan), found, self.curve).inputs[0].witness == witness,
                    "a final witness in another order",
                )
            else:
                self.check(
                    is_refused_as(
                        "MissingSignature 0", lambda found=found: assembly.finish(read_plan(plan), found, self.curve)
                    ),
                    "a final witness without a signature",
                )

    def tell_preimage(self, told: dict[str, Any], htlc: dict[str, int | str], made: str) -> None:
        """The preimage of an HTLC-success transaction stands beside the hash that the script has: RIPEMD-160 of the
        payment hash.
        """
        found = psbt.with_kind(psbt.read(psbt.decoded_bytes(made.encode())).inputs[0], psbt.HASH160)
        payment = next(it for it in told["htlcs"] if it["id"] == htlc["htlc"])
        pair = {ripemd160(bytes.fromhex(payment["payment_hash"])): bytes.fromhex(payment["preimage"])}
        self.check(found == (pair if htlc["kind"] == "success" else {}), "a preimage that is told")

    def refuse_faults(self, plan: str, signed: str, privates: list[bytes]) -> None:
        """Signatures that are missing, changed, of another hash type, or for a key that nobody asked for are refused
        by name.
        """
        other = {**json.loads(plan)}
        other["transaction"] = other["transaction"][:-8] + "07000000"
        tried = [
            (
                "MissingSignature 0",
                lambda: assembly.finish(read_plan(plan), assembly.make(read_plan(plan)), self.curve),
            ),
            (
                "BadSignature 0",
                lambda: assembly.finish(read_plan(plan), with_signatures(signed, lambda it: it[:-1]), self.curve),
            ),
            (
                "BadSignature 0",
                lambda: assembly.finish(
                    read_plan(plan),
                    with_signatures(signed, lambda it: it[:-2] + bytes([it[-2] ^ 1]) + it[-1:]),
                    self.curve,
                ),
            ),
            ("HighS 0", lambda: assembly.finish(read_plan(plan), with_signatures(signed, with_high_s), self.curve)),
            (
                "HashType 0",
                lambda: assembly.finish(
                    read_plan(plan), with_signatures(signed, lambda it: it[:-1] + b"\x83"), self.curve
                ),
            ),
            ("OtherDigest 0", lambda: read_plan(json.dumps(other))),
            ("BadKey 0", lambda: sign(assembly.make(read_plan(plan)), [bytes(32), *privates], self.curve)),
            ("UnusedKey 2", lambda: sign(assembly.make(read_plan(plan)), [*privates, b"\x07" * 32], self.curve)),
        ]
        for name, make in tried:
            self.check(is_refused_as(name, make), f"a fault that is to be refused as {name}")
