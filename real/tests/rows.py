"""Single transactions that a judge of real signatures has to tell apart, built and signed by Electrum. Tested, not
proved.

Each function gives the name of a row, a transaction and the answer for each input, worked by hand from BIPs 16, 62,
65, 66, 112, 141, 143, 146 and 341. No program of this repository was asked.
"""
import hashlib
from collections.abc import Callable, Iterator
from typing import Any

from electrum import ecc, lnutil
from electrum.crypto import hash_160, sha256d
from electrum.transaction import PartialTransaction, PartialTxInput, TxOutpoint, TxOutput

from real.tests import claims as built
from real.tests.claims import Claim, Key
from real.tests.faults import clean_answer, stops, unjudged_answer

A, B = Key("first of a row"), Key("second of a row")
ORDER = int("fffffffffffffffffffffffffffffffebaaedce6af48a03bbfd25e8cd0364141", 16)
HASH_TYPES = {"NONE": 0x02, "SINGLE": 0x03, "ALL|ANYONECANPAY": 0x81, "SINGLE|ANYONECANPAY": 0x83}
# the bits of BIP 68: a lock that is off, and one in units of 512 seconds
OFF, SECONDS = 1 << 31, 1 << 22


def push(data: bytes) -> bytes:
    return bytes([len(data)]) + data


def pay_to(key: Key) -> bytes:
    """The script that wants one signature of this key."""
    return push(key.public) + b"\xac"


def stricter_answer(reason: str, opcode: int) -> dict[str, int | str]:
    return {"answer": "stricter here", "reason": reason, "opcode": opcode}


def integer(number: int) -> bytes:
    """A positive number in DER."""
    data = number.to_bytes(number.bit_length() // 8 + 1, "big")
    return b"\x02" + push(data)


def der(r: int, s: int) -> bytes:
    return b"\x30" + push(integer(r) + integer(s))


def numbers_of(signature: bytes) -> tuple[int, int]:
    """The two numbers of a signature in DER with its hash type."""
    length = signature[3]
    return int.from_bytes(signature[4 : 4 + length], "big"), int.from_bytes(signature[6 + length : -1], "big")


def invalid_signature(seed: str) -> bytes:
    """A signature of strict form that no key here has made."""
    r, s = (int.from_bytes(hashlib.sha256(f"{seed} {it}".encode()).digest(), "big") >> 2 for it in "rs")
    return der(r, s) + b"\x01"


class Spend:
    """A transaction of one input with a script of the row's own."""

    def __init__(
        self,
        script: bytes,
        signers: list[Key],
        items: Callable,
        sequence: int = built.FINAL - 1,
        lock_time: int = 0,
        version: int = 2,
    ) -> None:
        self.claim = Claim(
            "row",
            script,
            signers,
            items,
            0,
            0,
            sequence,
            lock_time,
            value=70_000,
            txid=hashlib.sha256(script).digest(),
        )
        output = TxOutput(scriptpubkey=built.key_hash(9).program(), value=69_000)
        self.transaction = PartialTransaction.from_io(
            [built.input_of(self.claim)], [output], locktime=lock_time, version=version, BIP69_sort=False
        )

    def digest(self) -> bytes:
        return sha256d(bytes.fromhex(self.transaction.serialize_preimage(0)))

    def row(self, name: str, answer: dict[str, Any]) -> dict[str, Any]:
        built.sign(self.transaction, [self.claim])
        return self.unsigned_row(name, self.claim.witness(), answer)

    def unsigned_row(self, name: str, items: list[bytes], answer: dict[str, Any]) -> dict[str, Any]:
        raw = built.transaction_hex(self.transaction, [items])
        return {"name": name, "transaction": raw, "spent": built.spent_outputs([self.claim]), "answers": [answer]}


def hash_types() -> Iterator[dict[str, Any]]:
    """Other hash types than ALL are named and not judged (BIP 143)."""
    for name, number in HASH_TYPES.items():
        spend = Spend(pay_to(A), [A], lambda it: it)
        spend.transaction.inputs()[0].sighash = number
        yield spend.row(f"hash type {name}", unjudged_answer("HashType"))
    for number in (0x00, 0x04, 0x41):
        spend = Spend(pay_to(A), [A], lambda it: it)
        built.sign(spend.transaction, [spend.claim])
        items = [spend.claim.signatures[0][:-1] + bytes([number]), spend.claim.script]
        yield spend.unsigned_row(f"hash type {number:02x}, which nobody defines", items, unjudged_answer("HashType"))


def high_s() -> Iterator[dict[str, Any]]:
    """A high s is valid by consensus; nodes do not relay it (BIP 146)."""
    spend = Spend(pay_to(A), [A], lambda it: it)
    built.sign(spend.transaction, [spend.claim])
    r, s = numbers_of(spend.claim.signatures[0])
    items = [der(r, ORDER - s) + b"\x01", spend.claim.script]
    yield spend.unsigned_row("a high s", items, {**clean_answer(0), "relay": ["LOW_S"]})


def two_keys() -> Iterator[dict[str, Any]]:
    """The other key that the same signature recovers to stands in the witness."""
    spend = Spend(b"\x75" + pay_to(A), [A], lambda it: it)
    built.sign(spend.transaction, [spend.claim])
    r, s = numbers_of(spend.claim.signatures[0])
    text = r.to_bytes(32, "big") + s.to_bytes(32, "big")
    found = {
        ecc.ECPubkey.from_sig_string(text, it, spend.digest()).get_public_key_bytes(compressed=True) for it in (0, 1)
    }
    other = (found - {A.public}).pop()
    yield spend.unsigned_row(
        "a signature of two keys", [spend.claim.signatures[0], other, spend.claim.script], unjudged_answer("TwoKeys")
    )


def der_preimages() -> Iterator[dict[str, Any]]:
    """A preimage of 32 bytes has the form of a signature, and is none."""
    preimage = bytes.fromhex("301d020c") + b"\x11" * 12 + bytes.fromhex("020d") + b"\x22" * 13 + b"\x01"
    script = lnutil.make_offered_htlc(B.public, A.public, B.public, hashlib.sha256(preimage).digest())
    yield Spend(script, [A], lambda it: [it[0], preimage]).row(
        "a preimage that looks like a signature", unjudged_answer("AmbiguousItem")
    )
    # a signature on path 0, and a preimage on path 1
    script = b"\x63" + pay_to(A) + b"\x67\xa9" + push(hash_160(preimage)) + b"\x87\x68"
    spend = Spend(script, [], lambda it: it)
    yield spend.unsigned_row(
        "a preimage that looks like a signature, where another path has one",
        [preimage, b"", script],
        unjudged_answer("AmbiguousItem"),
    )
    yield Spend(script, [A], lambda it: [it[0], b"\x01"]).row(
        "a signature where another path has a preimage", clean_answer(0)
    )
    other = bytes(32)
    script = b"\x63" + pay_to(A) + b"\x67\xa9" + push(hash_160(other)) + b"\x87\x68"
    yield Spend(script, [], lambda it: [other, b""]).row(
        "a preimage where another path has a signature", clean_answer(1)
    )


def encodings() -> Iterator[dict[str, Any]]:
    """Encodings that are not strict DER stop by consensus (BIP 66)."""
    spend = Spend(pay_to(A), [A], lambda it: it)
    built.sign(spend.transaction, [spend.claim])
    good = spend.claim.signatures[0]
    r, s = numbers_of(good)
    padded = b"\x30" + push(b"\x02" + push(b"\x00" + integer(r)[2:]) + integer(s)) + b"\x01"
    others = {
        "padded": padded,
        "cut": good[:-1],
        "with a byte after it": good[:-1] + b"\x00\x01",
        "negative": der(r, s)[:4] + b"\x80" + der(r, s)[5:] + b"\x01",
        "without its hash type": bytes.fromhex("3006020101020101"),
    }
    for name, item in others.items():
        yield spend.unsigned_row(f"a signature {name}", [item, spend.claim.script], stops("FailedCheck TokenForm", 1))
    yield spend.unsigned_row("an empty signature", [b"", spend.claim.script], stops("FalseEnd", 2))
    yield spend.unsigned_row(
        "r and s of zero", [bytes.fromhex("300602010002010001"), spend.claim.script], stops("FalseEnd", 2)
    )


def mixed_inputs() -> Iterator[dict[str, Any]]:
    """Inputs of other kinds are named, and the one of version 0 is judged with them."""
    key_hash = built.key_hash(8)
    public, private = key_hash.signers[0].public, key_hash.signers[0].secret
    nested = b"\x00\x14" + hash_160(A.public)
    legacy = b"\x76\xa9\x14" + hash_160(A.public) + b"\x88\xac"
    programs = [
        key_hash.program(),
        legacy,
        b"\xa9\x14" + hash_160(nested) + b"\x87",
        b"\x51\x20" + A.public[1:],
        b"\x52\x03abc",
        pay_to(B),
    ]
    inputs = [
        PartialTxInput(prevout=TxOutpoint(txid=bytes([40 + it]) * 32, out_idx=it), nsequence=it)
        for it in range(len(programs))
    ]
    for it, program in zip(inputs, programs):
        it.witness_utxo = TxOutput(scriptpubkey=program, value=50_000)
    inputs[0].script_type, inputs[0].pubkeys = "p2wpkh", [public]
    transaction = PartialTransaction.from_io(
        inputs, [TxOutput(scriptpubkey=programs[0], value=250_000)], locktime=0, version=2, BIP69_sort=False
    )
    signed = bytes.fromhex(transaction.sign_txin(0, private))
    made_up = invalid_signature("mixed")
    scripts = [b"", push(made_up) + push(A.public), push(nested), b"", b"", push(made_up)]
    witnesses = [[signed, public], [], [made_up, A.public], [b"\x07" * 64], [b"\x01"], []]
    answers = [
        clean_answer(0),
        unjudged_answer("LegacyInput"),
        unjudged_answer("NestedInput"),
        unjudged_answer("Taproot"),
        unjudged_answer("OtherWitnessProgram"),
        unjudged_answer("LegacyInput"),
    ]
    spent = [[50_000, it.hex()] for it in programs]
    yield {
        "name": "inputs of six kinds",
        "transaction": built.transaction_hex(transaction, witnesses, scripts),
        "spent": spent,
        "answers": answers,
    }


def input_script() -> Iterator[dict[str, Any]]:
    """A witness program of its own has no input script (BIP 141)."""
    spend = Spend(pay_to(A), [A], lambda it: it)
    built.sign(spend.transaction, [spend.claim])
    raw = built.transaction_hex(spend.transaction, [spend.claim.witness()], [b"\x51"])
    yield {
        "name": "an input script beside a witness",
        "transaction": raw,
        "spent": built.spent_outputs([spend.claim]),
        "answers": [{"answer": "stops", "reason": "InputScript"}],
    }


def unknown_opcodes() -> Iterator[dict[str, Any]]:
    """Opcodes that the machine does not know are named."""
    others = {
        "CHECKSIGVERIFY": push(A.public) + b"\xad\x51",
        "SHA256": b"\xa8" + push(hashlib.sha256(b"x").digest()) + b"\x87",
        "an anchor": pay_to(A) + b"\x73\x64\x60\xb2\x68",
    }
    for name, script in others.items():
        yield Spend(script, [A], lambda it: it).row(f"an unknown opcode: {name}", unjudged_answer("UnknownOpcode"))


def stricter_rules() -> Iterator[dict[str, Any]]:
    """What the machine here refuses and consensus lets pass."""
    uncompressed = Key("uncompressed").private.get_public_key_bytes(compressed=False)
    script = push(uncompressed) + b"\xac"
    relay = {"relay": ["WITNESS_PUBKEYTYPE"]}
    yield Spend(script, [Key("uncompressed")], lambda it: it).row(
        "a key of 65 bytes", {**stricter_answer("FailedCheck KeyForm", 1), **relay}
    )
    # 06 or 07 in place of 04 says whether y is even: consensus takes the right one, and 02 or 03 before 64 bytes is no
    # key
    right = 6 + (uncompressed[-1] & 1)
    for first, answer in (
        (right, {**stricter_answer("FailedCheck KeyForm", 1), **relay}),
        (right ^ 1, stops("FailedCheck KeyForm", 1)),
        (2, stops("FailedCheck KeyForm", 1)),
    ):
        script = push(bytes([first]) + uncompressed[1:]) + b"\xac"
        yield Spend(script, [Key("uncompressed")], lambda it: it).row(
            f"a key of 65 bytes that begins with {first:02x}", answer
        )
    yield from hash_of_long_key(uncompressed, relay)
    spend = Spend(bytes.fromhex("63006751670068"), [], lambda it: it)
    yield spend.unsigned_row("a second ELSE", [b"", spend.claim.script], stricter_answer("OpenBranch", 4))
    spend = Spend(bytes.fromhex("020100b1"), [], lambda it: it, lock_time=1)
    yield spend.unsigned_row(
        "a lock that is not minimally encoded",
        [spend.claim.script],
        {**stricter_answer("FailedCheck Number", 1), "relay": ["MINIMALDATA"]},
    )
    script = b"\x52" + push(A.public) + push(B.public) + bytes.fromhex("52ae6451670068")
    spend = Spend(script, [], lambda it: it)
    answer = {**stricter_answer("FailedCheck TokenForm", 4), "relay": ["NULLFAIL"]}
    yield spend.unsigned_row(
        "a signature of bad form that consensus never looks at",
        [b"", b"\x30", invalid_signature("top"), script],
        answer,
    )
    yield spend.unsigned_row(
        "a signature of bad form that consensus looks at",
        [b"", invalid_signature("deep"), b"\x30", script],
        stops("FailedCheck TokenForm", 4),
    )


def hash_of_long_key(key: bytes, relay: dict[str, list[str]]) -> Iterator[dict[str, Any]]:
    """The hash of a key of 65 bytes, whose signature is valid by consensus."""
    script = b"\x76\xa9\x14" + hash_160(key) + b"\x88\xac"
    claim = Claim(
        "row",
        script,
        [Key("uncompressed")],
        lambda it: [it[0], key],
        0,
        0,
        is_key_hash=True,
        value=70_000,
        txid=hashlib.sha256(key).digest(),
    )
    given = built.input_of(claim)
    given.pubkeys = [key]
    transaction = PartialTransaction.from_io(
        [given], [TxOutput(scriptpubkey=claim.program(), value=1_000)], locktime=0, version=2, BIP69_sort=False
    )
    built.sign(transaction, [claim])
    raw, answer = built.transaction_hex(transaction, [claim.witness()]), {
        **stricter_answer("FailedCheck KeyForm", 4),
        **relay,
    }
    yield {
        "name": "the hash of a key of 65 bytes",
        "transaction": raw,
        "spent": built.spent_outputs([claim]),
        "answers": [answer],
    }


def relay_rules() -> Iterator[dict[str, Any]]:
    """Clean by consensus, and not relayed."""
    script = pay_to(A) + b"\x64" + pay_to(B) + b"\x67\x00\x68"
    spend = Spend(script, [B], lambda it: [it[0], invalid_signature("first")])
    # path 0 is the branch of the NOTIF, which stands first
    yield spend.row("a failed signature that is not empty", {**clean_answer(0), "relay": ["NULLFAIL"]})
    yield Spend(script, [B], lambda it: [it[0], b""]).row("a failed signature that is empty", clean_answer(0))
    script = lnutil.make_commitment_output_to_local_witness_script(A.public, 144, B.public)
    yield Spend(script, [A], lambda it: [it[0], b"\x02"]).row(
        "a true item that is not 01", {**clean_answer(0), "relay": ["MINIMALIF"]}
    )
    for item in (b"\x00", b"\x80", b"\x00\x80"):
        answer = {**clean_answer(1), "relay": ["MINIMALIF"]}
        yield Spend(script, [B], lambda it, item=item: [it[0], item], sequence=144).row(
            f"a false item {item.hex()}, which is not empty", answer
        )
    long, longer = b"\x07" * 80, b"\x07" * 81
    for item, relay in ((long, []), (longer, ["WITNESS_ITEM_SIZE"])):
        script = b"\xa9" + push(hash_160(item)) + b"\x88" + pay_to(A)
        yield Spend(script, [A], lambda it, item=item: [it[0], item]).row(
            f"an item of {len(item)} bytes", {**clean_answer(0), "relay": relay}
        )
    for count, relay in ((99, []), (100, ["WITNESS_ITEMS"])):
        script = b"\x75" * count + pay_to(A)
        yield Spend(script, [A], lambda it, count=count: it + [b""] * count).row(
            f"{count + 1} items", {**clean_answer(0), "relay": relay}
        )
    for count, relay in ((3565, []), (3566, ["WITNESS_SCRIPT_SIZE"])):
        script = bytes([0x4B]) + b"\x05" * 75 + b"\x75"
        script = script * (count // 77) + pushes_of(count % 77) + pay_to(A)
        yield Spend(script, [A], lambda it: it).row(
            f"a script of {len(script)} bytes", {**clean_answer(0), "relay": relay}
        )


def pushes_of(count: int) -> bytes:
    """Pushes and drops of this many bytes (0, or 3 to 77)."""
    return push(b"\x05" * (count - 2)) + b"\x75" if count else b""


def measured_signatures() -> Iterator[dict[str, Any]]:
    """Facts on a signature's own slot other than its size."""
    script = b"\x76\xa9" + push(b"\x09" * 20) + b"\x87\x64" + pay_to(A) + b"\x67\x00\x68"
    yield Spend(script, [A], lambda it: it).row(
        "a signature whose hash is asked for", unjudged_answer("MeasuredSignature")
    )
    # a signature that is data: its token has 66 bytes, and takes the other branch
    script = bytes.fromhex("8201428763") + b"\x75" + pay_to(A) + b"\x67\x75" + pay_to(A) + b"\x68"
    yield Spend(script, [A], lambda it: [it[0], it[0]]).row(
        "a signature as data, whose size is asked for", unjudged_answer("MeasuredSignature")
    )
    script = b"\x76" + push(b"\x09" * 20) + b"\x87\x64" + pay_to(A) + b"\x67\x00\x68"
    yield Spend(script, [A], lambda it: it).row("a signature that is compared", unjudged_answer("MeasuredSignature"))
    # on path 1 one item is the key and its own signature
    script = b"\x63" + pay_to(A) + b"\x67\x76\xac\x68"
    yield Spend(script, [A], lambda it: [it[0], b"\x01"]).row(
        "a signature that is a key on another path", unjudged_answer("MeasuredSignature")
    )


def pushed_items() -> Iterator[dict[str, Any]]:
    """Scripts that push what looks like a signature or a token."""
    token = push(A.public + b"\x08" * 32 + b"\x01")
    yield Spend(b"\x75" + token + b"\x75" + pay_to(A), [A], lambda it: [it[0], b""]).row(
        "a token that the script pushes and drops", clean_answer(0)
    )
    # consensus refuses its form, and the machine has it answer false
    spend = Spend(token + pay_to(B) + b"\x64\x51\x67\x00\x68", [], lambda it: it)
    yield spend.unsigned_row(
        "a token that the script pushes as a signature", [spend.claim.script], unjudged_answer("PushedToken")
    )
    # a key can be made for a signature that stands in the script, since its digest has the script
    compact = A.private.sign(b"\x05" * 32)
    signature = der(int.from_bytes(compact[:32], "big"), int.from_bytes(compact[32:], "big")) + b"\x01"
    spend = Spend(push(signature) + b"\x7c\xac", [], lambda it: it)
    key = ecc.ECPubkey.from_sig_string(compact, 0, spend.digest()).get_public_key_bytes(compressed=True)
    yield spend.unsigned_row(
        "a signature that the script pushes",
        [key, spend.claim.script],
        {**stricter_answer("FailedCheck TokenForm", 2), "relay": []},
    )


def keys_of_scripts() -> Iterator[dict[str, Any]]:
    """Keys that a signature may be valid for, or not."""
    script = push(b"\x02" + b"\xff" * 32) + b"\xac"
    yield Spend(script, [A], lambda it: it).row("a key that is no point", stops("FalseEnd", 2))
    script = b"\x52" + push(A.public) + push(A.public) + push(B.public) + b"\x53\xae"
    yield Spend(script, [A], lambda it: [b"", it[0], it[0]]).row("one key twice", clean_answer(0))
    script = b"\x52" + push(A.public) + push(B.public) + b"\x52\xae"
    yield Spend(script, [A, B], lambda it: [b"", *it]).row("2 of 2", clean_answer(0))
    twice = (
        "the run ends with a false entry, as after a signature that is not the key's over the digest; but two"
        f" signatures are of one key, {A.public.hex()}"
    )
    yield Spend(script, [A], lambda it: [b"", it[0], it[0]]).row(
        "one signature twice", {**stops("FalseEnd", 5), "says": twice}
    )
    yield Spend(script, [A, B], lambda it: [b"\x01", *it]).row(
        "an extra item that is not empty", stops("FailedCheck Extra", 4)
    )
    yield Spend(script, [A, B], lambda it: it).row("no extra item", stops("MissingOperand", 4))
    yield Spend(script, [], lambda it: [b"", b"", b""]).row("two empty signatures", stops("FalseEnd", 5))


def relative_locks() -> Iterator[dict[str, Any]]:
    """BIPs 68 and 112: blocks and units of 512 seconds, what is off, and bits that nobody looks at."""

    def clean(age: dict[str, int] | None = None) -> dict[str, Any]:
        return {**clean_answer(0), "age": age}

    def stop(wanted: str, found: str) -> dict[str, int | str]:
        return {**stops("FailedCheck Sequence", 1), "says": f"the script asks for {wanted}, {found}"}

    blocks = "an age of 144 blocks"
    rows = [
        ("its own", "029000", 144, 2, clean({"blocks": 144})),
        ("one block less", "029000", 143, 2, stop(blocks, "and the input's sequence has 143 blocks")),
        (
            "version 1",
            "029000",
            144,
            1,
            stop(blocks, "and the transaction's version is 1: from 2 on sequences are ages"),
        ),
        ("version 80000000", "029000", 144, 1 << 31, clean({"blocks": 144})),
        (
            "a sequence that is off",
            "029000",
            OFF + 144,
            2,
            stop(blocks, "and the input's sequence 80000090 is none: its highest bit is set"),
        ),
        (
            "a final sequence",
            "029000",
            built.FINAL,
            2,
            stop(blocks, "and the input's sequence ffffffff is none: its highest bit is set"),
        ),
        (
            "blocks, where seconds are wanted",
            "03900040",
            144,
            2,
            stop("an age of 144 units of 512 seconds", "and the input's sequence has 144 blocks"),
        ),
        (
            "seconds, where blocks are wanted",
            "029000",
            SECONDS + 144,
            2,
            stop(blocks, "and the input's sequence has 144 units of 512 seconds"),
        ),
        ("seconds", "03900040", SECONDS + 145, 2, clean({"units": 145})),
        ("bit 16, which nobody looks at", "03900001", 144, 2, clean({"blocks": 144})),
        ("65,535 blocks", "03ffff00", 0xFFFF, 2, clean({"blocks": 65_535})),
        ("a lock that is off", "050000008000", built.FINAL, 1, clean()),
        ("a negative lock", "029080", 144, 2, stop("the age -144", "which is negative")),
        ("a lock of 6 bytes", "06900000000001", 144, 2, stops("FailedCheck Number", 1)),
    ]
    for name, pushed, sequence, version, answer in rows:
        script = bytes.fromhex(pushed) + b"\xb2\x75" + pay_to(A)
        yield Spend(script, [A], lambda it: it, sequence, 0, version).row(f"a relative lock: {name}", answer)


def absolute_locks() -> Iterator[dict[str, Any]]:
    """BIP 65: heights and times, and a final input."""

    def stop(wanted: str, found: str) -> dict[str, int | str]:
        return {**stops("FailedCheck LockTime", 1), "says": f"the script asks for the lock {wanted}, {found}"}

    rows = [
        ("its own", "02f401", 500, 0, clean_answer(0)),
        ("one block less", "02f401", 499, 0, stop("500", "and the transaction's lock time is 499")),
        ("version 2 and a sequence that is off", "02f401", 500, OFF, clean_answer(0)),
        (
            "a final input",
            "02f401",
            500,
            built.FINAL,
            stop("500", "and the input's sequence is ffffffff, which switches the transaction's lock time 500 off"),
        ),
        (
            "a time, where a height is wanted",
            "02f401",
            500_000_000,
            0,
            stop("500, a height", "and the transaction's lock time is 500000000, a time in seconds"),
        ),
        (
            "a height, where a time is wanted",
            "040065cd1d",
            499_999_999,
            0,
            stop("500000000, a time in seconds", "and the transaction's lock time is 499999999, a height"),
        ),
        ("a time", "040065cd1d", 500_000_000, 0, clean_answer(0)),
        ("the last time, of 5 bytes", "05ffffffff00", 0xFFFFFFFF, 0, clean_answer(0)),
        ("a negative lock", "02f481", 500, 0, stop("-500", "which is negative")),
        ("a lock of 6 bytes", "06f40100000001", 500, 0, stops("FailedCheck Number", 1)),
    ]
    for name, pushed, lock_time, sequence, answer in rows:
        script = bytes.fromhex(pushed) + b"\xb1\x75" + pay_to(A)
        yield Spend(script, [A], lambda it: it, sequence, lock_time).row(f"an absolute lock: {name}", answer)


def limits() -> Iterator[dict[str, Any]]:
    """The limits of a run (BIP 141): 201 opcodes with the keys of CHECKMULTISIG, items of 520 bytes."""
    for count, answer in ((200, {**clean_answer(0), "relay": ["WITNESS_ITEMS"]}), (201, unjudged_answer("NotListed"))):
        script = b"\x75" * count + pay_to(A)
        yield Spend(script, [A], lambda it, count=count: it + [b""] * count).row(f"{count + 1} opcodes", answer)
    for count, answer in ((201, {**clean_answer(0), "relay": ["WITNESS_ITEMS"]}), (202, stops("TooManyOps", 201))):
        spend = Spend(b"\x75" * count + b"\x51", [], lambda it: it)
        yield spend.unsigned_row(f"{count} opcodes, and no signature", [b""] * count + [spend.claim.script], answer)
    # an extra item, no signature of 20 keys, and DROP: 22 of them; nine leave 3
    none = b"\x00\x00" + push(A.public) * 20 + b"\x01\x14\xae\x75"
    relay = {"relay": ["WITNESS_SCRIPT_SIZE"]}
    for count, more, answer in ((9, 2, {**clean_answer(0), **relay}), (9, 3, unjudged_answer("NotListed"))):
        script = none * count + b"\x75" * more + pay_to(A)
        yield Spend(script, [A], lambda it, more=more: it + [b""] * more).row(
            f"{count} times 20 keys, and {more + 1} opcodes more", answer
        )
    for count, more, answer in (
        (9, 3, {**clean_answer(0), **relay}),
        (9, 4, stops("TooManyOps", 9 * 25 + 3)),
        (10, 0, stops("TooManyOps", 9 * 25 + 23)),
    ):
        spend = Spend(none * count + b"\x75" * more + b"\x51", [], lambda it: it)
        yield spend.unsigned_row(
            f"{count} times 20 keys, {more} opcodes more and no signature", [b""] * more + [spend.claim.script], answer
        )
    long = b"\x07" * 520
    script = b"\xa9" + push(hash_160(long)) + b"\x88" + pay_to(A)
    yield Spend(script, [A], lambda it: [it[0], long]).row(
        "an item of 520 bytes", {**clean_answer(0), "relay": ["WITNESS_ITEM_SIZE"]}
    )


def ends() -> Iterator[dict[str, Any]]:
    """What stands at the end."""
    for script, items, answer in (
        (b"", [b"\x01"], clean_answer(0)),
        (b"", [b"\x80"], stops("FalseEnd", 0)),
        (b"", [], stops("NotOneValue", 0)),
        (b"\x00", [], stops("FalseEnd", 1)),
        (b"\x51\x51", [], stops("NotOneValue", 2)),
        (b"\x63\x51", [b"\x01"], stops("OpenBranch", 2)),
        (b"\x51\x68", [], stops("OpenBranch", 1)),
        (b"\x51\x67\x68", [], stops("OpenBranch", 1)),
    ):
        spend = Spend(script, [], lambda it: it)
        yield spend.unsigned_row(
            f"the script {script.hex() or 'without an opcode'} on {items}", [*items, script], answer
        )


def anchors() -> Iterator[dict[str, Any]]:
    """The HTLC of a channel with anchors: the peer's signature of an HTLC transaction has another hash type, and one
    block has to pass on all paths but the penalty (BOLT 3).
    """
    keys, preimage, expiry, plain = built.htlc(77, True)
    script, opcode = plain[:-1] + b"\x51\xb2\x75\x68", 29
    yield Spend(script, [keys[0]], lambda it: [it[0], keys[0].public]).row("anchors: a penalty", clean_answer(0))
    yield Spend(script, [keys[1]], lambda it: [it[0], b""], sequence=1, lock_time=expiry).row(
        "anchors: a direct timeout", clean_answer(2)
    )
    yield Spend(script, [keys[1]], lambda it: [it[0], b""], sequence=0, lock_time=expiry).row(
        "anchors: a direct timeout in the same block", stops("FailedCheck Sequence", opcode)
    )
    spend = Spend(script, [keys[1]], lambda it: it, sequence=1)
    spend.transaction.inputs()[0].sighash = HASH_TYPES["SINGLE|ANYONECANPAY"]
    built.sign(spend.transaction, [spend.claim])
    peer = spend.claim.signatures[0]
    spend.transaction.inputs()[0].sighash = None
    spend.claim.signers, spend.claim.items = [keys[2]], lambda it: [b"", peer, it[0], preimage]
    yield spend.row("anchors: an HTLC-success transaction", unjudged_answer("HashType"))


def witnesses() -> Iterator[dict[str, Any]]:
    """Witnesses that fit no program, or are not there."""
    spend = Spend(pay_to(A), [A], lambda it: it)
    built.sign(spend.transaction, [spend.claim])
    signed = spend.claim.signatures[0]
    yield spend.unsigned_row("another script", [signed, pay_to(B)], {"answer": "stops", "reason": "OtherScript"})
    yield spend.unsigned_row(
        "an item of 521 bytes", [signed, b"\x07" * 521, spend.claim.script], stops("ItemTooLong", 0)
    )
    yield spend.unsigned_row("nothing but the script", [spend.claim.script], stops("MissingOperand", 1))
    forged = A.public + b"\x08" * 32 + b"\x01"
    yield {
        **spend.unsigned_row("a token over another digest", [forged, spend.claim.script], {}),
        "refused": "ForgedToken 0 0",
    }
    yield {
        **spend.unsigned_row("a token that nobody asks for", [signed, forged, spend.claim.script], {}),
        "refused": "ForgedToken 0 1",
    }
    script = b"\x88" + pay_to(A)
    yield Spend(script, [A], lambda it: [it[0], b"\x05", b"\x05"]).row(
        "a script whose paths are not listed", unjudged_answer("NotListed")
    )
    claim = built.place_claims([built.key_hash(12)], 12)[0]
    transaction = PartialTransaction.from_io(
        [built.input_of(claim)],
        [TxOutput(scriptpubkey=claim.program(), value=1_000)],
        locktime=0,
        version=2,
        BIP69_sort=False,
    )
    built.sign(transaction, [claim])
    spent = built.spent_outputs([claim])
    raw = transaction.serialize_to_network(include_sigs=False)
    yield {
        "name": "the hash of a key, and no witness",
        "transaction": raw,
        "spent": spent,
        "answers": [unjudged_answer("NoWitness")],
    }
    raw = built.transaction_hex(transaction, [claim.signatures])
    yield {
        "name": "the hash of a key, and one item",
        "transaction": raw,
        "spent": spent,
        "answers": [{"answer": "stops", "reason": "NotTwoItems"}],
    }
    spend = Spend(pay_to(A) + b"\x02\x07", [A], lambda it: it)
    yield spend.row("a push that is cut", {"answer": "stops", "reason": "Truncated 35"})


KINDS_OF_ROWS = (
    *(
        hash_types,
        high_s,
        two_keys,
        der_preimages,
        encodings,
        mixed_inputs,
        input_script,
        unknown_opcodes,
        stricter_rules,
        relay_rules,
    ),
    *(
        measured_signatures,
        pushed_items,
        keys_of_scripts,
        relative_locks,
        absolute_locks,
        limits,
        ends,
        anchors,
        witnesses,
    ),
)


def all_rows() -> Iterator[dict[str, Any]]:
    for make in KINDS_OF_ROWS:
        for row in make():
            yield {key: value for key, value in row.items() if not (key == "answers" and "refused" in row)}
