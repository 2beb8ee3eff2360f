"""Calls of real/judge, real/psbt, real/sign and real/revoked with hostile or wrong input: what each prints and its
status, worked by hand from docs/REAL.md. Tested, not proved.
"""
import base64
import json
import os
from typing import Any

from real.lib.psbt import (
    FINAL_SCRIPTWITNESS,
    MAGIC,
    NON_WITNESS_UTXO,
    SIGHASH_TYPE,
    VERSION,
    WITNESS_SCRIPT,
    WITNESS_UTXO,
    Partial,
    key_of,
    output_field,
)
from real.lib.transaction import MAX_MONEY, Input, Output, Transaction, read_transaction, sha256, text

HERE = os.path.dirname(os.path.abspath(__file__))
RECORD = os.path.join(HERE, "record.json")
BY_RECORD = f"--recorded {RECORD}"
USAGES = {
    "judge": "usage: real/judge [--text] [--recorded FILE], with the transaction on standard input\n",
    "psbt": (
        "usage: real/psbt make [--origin ORIGIN].. | combine | finalize [--recorded FILE] | finish [--recorded FILE]\n"
    ),
    "sign": "usage: real/sign [--recorded FILE], with private keys on standard input alone\n",
    "revoked": (
        "usage: real/revoked [--one] [--legacy] [--recorded FILE] | --number, with private keys on standard input"
        " alone\n"
    ),
}
SCRIPT = b"\x51"
PROGRAM = b"\x00\x20" + sha256(SCRIPT)
BEFORE = Transaction(2, [Input(bytes(36), b"", 0)], [Output(5, PROGRAM)], 0)
OUTPOINT = bytes.fromhex(BEFORE.txid())[::-1] + bytes(4)
# a transaction with one input, whose script is the number 1, and nothing to sign
ONE = Transaction(2, [Input(OUTPOINT, b"", 0, [SCRIPT])], [Output(4, b"\x51")], 0)
LINES = f"{ONE.bytes().hex()}\n5 {PROGRAM.hex()}\n"
CLEAN = {
    "input": 0,
    "outpoint": ONE.inputs[0].shown_outpoint(),
    "answer": "clean",
    "path": 0,
    "counted": 0,
    "height": 1,
}
CLEAN = {**CLEAN, "signatures": [], "digest": ONE.digest(0, SCRIPT, 5).hex(), "age": None, "relay": []}
WHOLE = {"txid": ONE.txid(), "wtxid": ONE.wtxid(), "inputs": 1, "outputs": 1, "fee": 1, "lock": None, "faults": []}


def bare_transaction() -> Transaction:
    return Transaction(2, [Input(OUTPOINT, b"", 0)], [Output(4, b"\x51")], 0)


def partial_base64(
    fields: dict[bytes, bytes] | None = None, whole: dict[bytes, bytes] | None = None, before: bytes = b""
) -> str:
    """A partially signed transaction of one input with these fields, in base64."""
    own = {key_of(0): before or bare_transaction().stripped_bytes(), **(whole or {})}
    return Partial(bare_transaction(), own, [fields or {}], [{}]).base64()


def line(value: dict[str, Any]) -> str:
    return json.dumps(value, separators=(",", ":")) + "\n"


def settled_line(reason: str, says: str) -> str:
    """The line of the one input where it is not judged."""
    return line({"input": 0, "outpoint": CLEAN["outpoint"], "answer": "not judged", "reason": reason, "says": says})


def refused_line(name: str) -> str:
    return line({"refused": name})


# outputs that exceed what is spent, two inputs of one output, and no output: each input is clean all the same
OVER = {**WHOLE, "fee": -1, "faults": ["OutputsExceed"]}
TWICE = Transaction(2, [Input(OUTPOINT, b"", 0, [SCRIPT]), Input(OUTPOINT, b"", 0, [SCRIPT])], [], 0)
TWICE_TOLD = {
    "txid": TWICE.txid(),
    "wtxid": TWICE.wtxid(),
    "inputs": 2,
    "outputs": 0,
    "fee": 10,
    "lock": None,
    "faults": ["NoOutputs", "SameOutpoint"],
}
BOTH = "".join(line({**CLEAN, "input": it, "digest": TWICE.digest(it, SCRIPT, 5).hex()}) for it in (0, 1))
UTXO = {key_of(WITNESS_UTXO): output_field(Output(5, PROGRAM))}
FINAL = {key_of(FINAL_SCRIPTWITNESS): b"\x01" + text(SCRIPT)}
UNSIGNED = {**WHOLE, "wtxid": ONE.txid()}
UNKNOWN = {**UNSIGNED, "fee": None}
# a push of 1 that is not the shortest one, which nodes don't pass on; and a transaction that waits for a height and a
# year
UNMINIMAL_SCRIPT = b"\x01\x01"
UNMINIMAL_PROGRAM = b"\x00\x20" + sha256(UNMINIMAL_SCRIPT)
UNMINIMAL = Transaction(2, [Input(OUTPOINT, b"", 0, [UNMINIMAL_SCRIPT])], [Output(4, b"\x51")], 0)
UNMINIMAL_IDS = {"txid": UNMINIMAL.txid(), "wtxid": UNMINIMAL.wtxid()}
UNMINIMAL_TOLD = {**CLEAN, "digest": UNMINIMAL.digest(0, UNMINIMAL_SCRIPT, 5).hex(), "relay": ["MINIMALDATA"]}
AGED = Transaction(2, [Input(OUTPOINT, b"", 52_560, [SCRIPT])], [Output(4, b"\x51")], 900_000)
AGED_TEXT = (
    f"transaction {AGED.txid()}: 1 input, 1 output, a fee of 1 satoshi\n  when    in a block above height"
    f" 900000\ninput 0, {ONE.inputs[0].shown_outpoint()}, is clean: path 0; 0 opcodes counted, 1 entry at most\n  when"
    "    after 52560 blocks: no block less than that above the spent output's takes it\n  digest "
    f" {AGED.digest(0, SCRIPT, 5).hex()}\n"
)
HEX = ONE.bytes().hex()
STRIPPED = ONE.stripped_bytes().hex()
TOKEN = Transaction(2, [Input(OUTPOINT, b"", 0, [b"\x03" + bytes(64) + b"\x01", SCRIPT])], [], 0).bytes().hex()
MANY = "ff" + "ff" * 8

JUDGE = [
    ("", "", refused_line("Truncated"), 1),
    ("--text", "", "refused Truncated\n", 1),
    ("", "zz", refused_line("BadHex"), 1),
    ("", "0", refused_line("BadHex"), 1),
    ("", b"\xff\xfe", refused_line("BadHex"), 1),
    (BY_RECORD, LINES, line(WHOLE) + line(CLEAN), 0),
    (BY_RECORD, LINES.replace("\n", "\r\n") + "\n", line(WHOLE) + line(CLEAN), 0),
    (BY_RECORD, LINES.upper(), line(WHOLE) + line(CLEAN), 0),
    (
        BY_RECORD,
        f"{HEX}\n3 {PROGRAM.hex()}",
        line(OVER) + line({**CLEAN, "digest": ONE.digest(0, SCRIPT, 3).hex()}),
        1,
    ),
    (BY_RECORD, f"{TWICE.bytes().hex()}\n5 {PROGRAM.hex()}\n5 {PROGRAM.hex()}", line(TWICE_TOLD) + BOTH, 1),
    ("", HEX, refused_line("BadCount"), 1),
    ("", LINES + f"5 {PROGRAM.hex()}", refused_line("BadCount"), 1),
    ("", f"{HEX}\n5", refused_line("BadLine 2"), 1),
    ("", f"{HEX}\n5  {PROGRAM.hex()}", refused_line("BadLine 2"), 1),
    ("", f"{HEX}\n-5 {PROGRAM.hex()}", refused_line("BadLine 2"), 1),
    ("", f"{HEX}\n0.5 {PROGRAM.hex()}", refused_line("BadLine 2"), 1),
    ("", f"{HEX}\n2100000000000001 {PROGRAM.hex()}", refused_line("BadLine 2"), 1),
    ("", f"{HEX}\n{'9' * 5000} {PROGRAM.hex()}", refused_line("BadLine 2"), 1),
    ("", f"{HEX}\n5 bc1q", refused_line("BadLine 2"), 1),
    (
        BY_RECORD,
        f"{UNMINIMAL.bytes().hex()}\n5 {UNMINIMAL_PROGRAM.hex()}",
        line({**WHOLE, **UNMINIMAL_IDS}) + line(UNMINIMAL_TOLD),
        4,
    ),
    (f"--text {BY_RECORD}", f"{AGED.bytes().hex()}\n5 {PROGRAM.hex()}", AGED_TEXT, 0),
    ("", HEX[:-2], refused_line("Truncated"), 1),
    ("", HEX + "00", refused_line("Trailing"), 1),
    ("", f"02000000{MANY}", refused_line("Truncated"), 1),
    ("", "02000000" + "01" + "00" * 36 + MANY, refused_line("Truncated"), 1),
    ("", "02000000" + "fd0100" + "00" * 36, refused_line("LongCount"), 1),
    ("", "020000000002" + HEX[12:], refused_line("BadMarker"), 1),
    ("", "020000000001" + "00" + "00" + "00000000", refused_line("NoInputs"), 1),
    ("", STRIPPED[:8] + "0001" + STRIPPED[8:-8] + "00" + STRIPPED[-8:], refused_line("NoWitness"), 1),
    (
        "",
        "02000000" + "01" + "00" * 41 + "01" + (MAX_MONEY + 1).to_bytes(8, "little").hex() + "00" + "00000000",
        refused_line("ValueTooLarge"),
        1,
    ),
    ("", TOKEN, refused_line("BadCount"), 1),
    ("", f"{TOKEN}\n5 51", refused_line("ForgedToken 0 0"), 1),
    ("", "00" * 4_194_305, refused_line("TooLong"), 1),
    ("", MAGIC, refused_line("Truncated"), 1),
    ("", "cHNidP8=", refused_line("Truncated"), 1),
    ("", "cHNidP\xe9", refused_line("BadBase64"), 1),
    ("", "cHNidP8", refused_line("BadBase64"), 1),
    ("", partial_base64(whole={key_of(VERSION): b"\x02\x00\x00\x00"}), refused_line("PsbtVersion 2"), 1),
    ("", partial_base64(whole={key_of(VERSION): b"\x02"}), refused_line("BadField VERSION"), 1),
    ("", (MAGIC + b"\x00").hex(), refused_line("NoTransaction"), 1),
    (
        "",
        MAGIC + (b"\x01\x00" + text(bare_transaction().stripped_bytes())) * 2 + b"\x00" * 3,
        refused_line("DuplicateField"),
        1,
    ),
    ("", partial_base64(before=ONE.bytes()), refused_line("SignedTransaction"), 1),
    ("", partial_base64({key_of(WITNESS_UTXO, b"\x01"): b""}), refused_line(f"BadField {WITNESS_UTXO}"), 1),
    ("", partial_base64({key_of(WITNESS_UTXO): b"\x05"}), refused_line("Truncated"), 1),
    ("", partial_base64({key_of(NON_WITNESS_UTXO): ONE.bytes()}), refused_line("OtherTransaction 0"), 1),
    (
        "",
        partial_base64(
            {**FINAL, key_of(NON_WITNESS_UTXO): BEFORE.bytes(), key_of(WITNESS_UTXO): output_field(Output(6, PROGRAM))}
        ),
        refused_line("OtherOutput 0"),
        1,
    ),
    (BY_RECORD, partial_base64({**FINAL, **UTXO}), line(WHOLE) + line(CLEAN), 0),
    (
        BY_RECORD,
        base64.b64decode(partial_base64({**FINAL, key_of(NON_WITNESS_UTXO): BEFORE.bytes()})),
        line(WHOLE) + line(CLEAN),
        0,
    ),
    (
        BY_RECORD,
        partial_base64({key_of(0x13): b""}),
        line(UNKNOWN) + settled_line("TaprootFields", "the input has the fields TAP_KEY_SIG (BIP 371)"),
        1,
    ),
    (
        BY_RECORD,
        partial_base64(FINAL),
        line({**WHOLE, "fee": None})
        + settled_line("NoOutput", "neither WITNESS_UTXO nor NON_WITNESS_UTXO tells what the input spends"),
        1,
    ),
    (
        BY_RECORD,
        partial_base64(UTXO),
        line(UNSIGNED)
        + settled_line("NotFinal", "the input has no FINAL_SCRIPTWITNESS; real/psbt finish makes it from signatures"),
        1,
    ),
    (
        BY_RECORD,
        partial_base64({key_of(WITNESS_UTXO): output_field(Output(5, b"\x51"))}),
        line(UNSIGNED) + settled_line("LegacyInput", "the output is no witness program (BIP 141)"),
        1,
    ),
    ("--texts", "", USAGES["judge"], 2),
    ("--recorded", "", USAGES["judge"], 2),
    (f"{BY_RECORD} --text", "", USAGES["judge"], 2),
    ("--recorded /nowhere", LINES, "real: not run: there is no record in /nowhere\n", 3),
]
# a script with a key, and one with an opcode that the machine does not know
KEYED = b"\x21" + b"\x02" * 33 + b"\xac"
KEYED_PROGRAM = b"\x00\x20" + sha256(KEYED)
BAD_SCRIPT = b"\x51\xa8"
BAD_PROGRAM = b"\x00\x20" + sha256(BAD_SCRIPT)
PLAN = {
    "transaction": bare_transaction().stripped_bytes().hex(),
    "fee": 1,
    "inputs": [{"value": 5, "program": PROGRAM.hex(), "script": "51", "witness": ["51"], "signatures": []}],
}
MADE = partial_base64({**UTXO, key_of(SIGHASH_TYPE): b"\x01\x00\x00\x00", key_of(WITNESS_SCRIPT): SCRIPT})


def changed_plan(**members: Any) -> str:
    return json.dumps({**PLAN, **members})


def other_input(**members: Any) -> str:
    return changed_plan(inputs=[{**PLAN["inputs"][0], **members}])


PSBT = [
    ("make --origin [0a0b0c0d/48h]02" + "11" * 32, json.dumps(PLAN), "refused UnusedOrigin 0\n", 1),
    ("make --origin 0a0b0c0d", json.dumps(PLAN), "refused BadOrigin 0\n", 1),
    ("make --origin", "", USAGES["psbt"], 2),
    ("combine", f"{MADE}\n{MADE}\n", MADE + "\n", 0),
    ("combine", "", "refused NoTransaction\n", 1),
    ("combine now", "", USAGES["psbt"], 2),
    (f"finalize {BY_RECORD}", "", "refused BadMagic\n", 1),
    ("finalize --origin", "", USAGES["psbt"], 2),
    ("make", json.dumps(PLAN), MADE + "\n", 0),
    ("make", json.dumps(PLAN, indent=1), MADE + "\n", 0),
    ("make", "", "refused NotJson\n", 1),
    ("make", "[" * 100_000, "refused NotJson\n", 1),
    ("make", b"\xff", "refused NotJson\n", 1),
    ("make", '{"fee":1,"fee":1}', "refused NotJson\n", 1),
    ("make", "[]", "refused BadShape plan\n", 1),
    ("make", changed_plan(transaction=5), "refused BadShape transaction\n", 1),
    ("make", changed_plan(transaction="00"), "refused Truncated\n", 1),
    ("make", changed_plan(transaction=HEX), "refused NoInputs\n", 1),
    ("make", changed_plan(fee=True), "refused BadShape fee\n", 1),
    ("make", changed_plan(fee=2), "refused OtherFee\n", 1),
    ("make", changed_plan(inputs=[]), "refused OtherInputs\n", 1),
    ("make", changed_plan(inputs=[5]), "refused BadShape inputs[0]\n", 1),
    ("make", other_input(value=-1), "refused BadShape inputs[0].value\n", 1),
    ("make", other_input(value=10**4000), "refused BadShape inputs[0].value\n", 1),
    ("make", changed_plan(fee=10**4000), "refused BadShape fee\n", 1),
    ("make", json.dumps(PLAN).replace('"fee": 1', '"fee": ' + "9" * 1_000_000), "refused BadShape fee\n", 1),
    ("make", json.dumps(PLAN).replace('"fee": 1', '"fee": 1e0'), "refused BadShape fee\n", 1),
    (
        "make",
        other_input(program=BAD_PROGRAM.hex(), script=BAD_SCRIPT.hex(), witness=[BAD_SCRIPT.hex()]),
        "refused BadScript 0\n",
        1,
    ),
    ("make", other_input(value=4.0), "refused BadShape inputs[0].value\n", 1),
    ("make", other_input(value=3), "refused OtherFee\n", 1),
    ("make", other_input(script="52"), "refused OtherScript 0\n", 1),
    ("make", other_input(script="5 1"), "refused BadShape inputs[0].script\n", 1),
    ("make", other_input(witness=[]), "refused OtherWitness 0\n", 1),
    ("make", other_input(witness=[7, "51"]), "refused BadShape inputs[0].witness[0].item\n", 1),
    ("make", other_input(witness=[None, "51"]), "refused OtherPlaces 0\n", 1),
    (
        "make",
        other_input(witness=[None, "51"], signatures=[{"item": 0, "key": "02" * 33, "digest": "00" * 32}]),
        "refused OtherKey 0\n",
        1,
    ),
    (
        "make",
        other_input(
            program=KEYED_PROGRAM.hex(),
            script=KEYED.hex(),
            witness=[None, KEYED.hex()],
            signatures=[{"item": 0, "key": "02" * 33, "digest": "00" * 32}],
        ),
        "refused OtherDigest 0\n",
        1,
    ),
    ("make", other_input(previous=HEX), "refused OtherTransaction 0\n", 1),
    (
        "make",
        other_input(derivations=[{"key": "02" * 33, "fingerprint": "00000000", "path": "m/x"}]),
        "refused BadShape inputs[0].derivations[0].path\n",
        1,
    ),
    ("make", changed_plan(fees=1), "refused BadShape fees\n", 1),
    ("make", changed_plan(weight="951"), "refused BadShape weight\n", 1),
    ("make", other_input(path=0), MADE + "\n", 0),
    ("make", changed_plan(explorer=bare_transaction().txid()), MADE + "\n", 0),
    ("make", changed_plan(explorer=bytes.fromhex(bare_transaction().txid())[::-1].hex()), "refused OtherId\n", 1),
    ("make", other_input(explorer=bare_transaction().inputs[0].shown_outpoint()), MADE + "\n", 0),
    (
        "make",
        other_input(explorer=bare_transaction().inputs[0].shown_outpoint() + "0"),
        "refused OtherOutpoint 0\n",
        1,
    ),
    ("make", other_input(explorer=0), "refused BadShape inputs[0].explorer\n", 1),
    ("make", other_input(path="0"), "refused BadShape inputs[0].path\n", 1),
    ("make", other_input(prevoius=HEX), "refused BadShape inputs[0].prevoius\n", 1),
    ("make", other_input(**{"a\nrefused": HEX}), "refused BadShape inputs[0].?\n", 1),
    (
        "make",
        other_input(signatures=[{"item": 0, "key": "02" * 33, "digest": "00" * 32, "hash": 1}]),
        "refused BadShape inputs[0].signatures[0].hash\n",
        1,
    ),
    (
        "make",
        other_input(derivations=[{"key": "02" * 33, "fingerprint": "00000000", "path": "m/1", "root": 1}]),
        "refused BadShape inputs[0].derivations[0].root\n",
        1,
    ),
    (f"finish {BY_RECORD}", json.dumps(PLAN), "refused BadMagic\n", 1),
    (f"finish {BY_RECORD}", f"{json.dumps(PLAN)}\n{MADE}", LINES, 0),
    (f"finish {BY_RECORD}", f"{json.dumps(PLAN, indent=1)}\n{MADE}", LINES, 0),
    (f"finish {BY_RECORD}", json.dumps(PLAN, indent=1).encode() + b"\n" + base64.b64decode(MADE), LINES, 0),
    (f"finish {BY_RECORD}", f"{json.dumps(PLAN)[:-1]}\n{MADE}", "refused NotJson\n", 1),
    ("make", changed_plan(transaction=PLAN["transaction"] + "\n"), MADE + "\n", 0),
    (
        "make",
        other_input(previous=BEFORE.bytes().hex(), value=6).replace('"fee": 1', '"fee": 2'),
        "refused OtherOutput 0\n",
        1,
    ),
    (
        f"finish {BY_RECORD}",
        f"{json.dumps(PLAN)}\n{partial_base64({key_of(0x13): b''})}",
        "refused TaprootField 0 TAP_KEY_SIG\n",
        1,
    ),
    (
        f"finish {BY_RECORD}",
        f"{json.dumps(PLAN)}\n{partial_base64({key_of(SIGHASH_TYPE): bytes.fromhex('83000000')})}",
        "refused HashType 0\n",
        1,
    ),
    (
        f"finish {BY_RECORD}",
        f"{json.dumps(PLAN)}\n{partial_base64({key_of(WITNESS_SCRIPT): bytes.fromhex('52')})}",
        "refused OtherScript 0\n",
        1,
    ),
    (
        f"finish {BY_RECORD}",
        f"{json.dumps(PLAN)}\n{partial_base64({key_of(WITNESS_UTXO): output_field(Output(6, PROGRAM))})}",
        "refused OtherOutput 0\n",
        1,
    ),
    ("", "", USAGES["psbt"], 2),
    ("make now", "", USAGES["psbt"], 2),
    (f"make {BY_RECORD}", "", USAGES["psbt"], 2),
]
# a private key of BOLT 3's Appendix C, which everybody knows
KNOWN_KEY = "bb13b121cdc357cd2e608b0aea294afca36e2b34cf958e2e6451a2f274694491"
BAD = partial_base64({key_of(WITNESS_UTXO): output_field(Output(5, BAD_PROGRAM)), key_of(WITNESS_SCRIPT): BAD_SCRIPT})
SIGN = [
    ("", "", "refused BadMagic\n", 1),
    ("", MADE, "refused NoKey\n", 1),
    (BY_RECORD, f"{BAD}\n{KNOWN_KEY}", "refused BadScript 0\n", 1),
    (BY_RECORD, f"{partial_base64()}\n{KNOWN_KEY}", "refused NoOutput 0\n", 1),
    (BY_RECORD, f"{partial_base64(UTXO)}\n{KNOWN_KEY}", "refused NoScript 0\n", 1),
    (
        BY_RECORD,
        f"{partial_base64({**UTXO, key_of(WITNESS_SCRIPT): BAD_SCRIPT})}\n{KNOWN_KEY}",
        "refused OtherScript 0\n",
        1,
    ),
    (
        BY_RECORD,
        f"{partial_base64({**UTXO, key_of(0x17): b''})}\n{KNOWN_KEY}",
        "refused TaprootField 0 TAP_INTERNAL_KEY\n",
        1,
    ),
    (
        BY_RECORD,
        f"{partial_base64({**UTXO, key_of(SIGHASH_TYPE): bytes.fromhex('02000000')})}\n{KNOWN_KEY}",
        "refused HashType 0\n",
        1,
    ),
    (BY_RECORD, f"{MADE}\n{KNOWN_KEY}", "refused UnusedKey 0\n", 1),
    ("", f"{MADE}\n07", "refused BadKey 0\n", 1),
    ("", f"{MADE}\n{'0g' * 32}", "refused BadKey 0\n", 1),
    ("07", MADE, USAGES["sign"], 2),
    ("--recorded", MADE, USAGES["sign"], 2),
]
with open(os.path.join(HERE, "backup.json"), encoding="utf-8") as file:
    BACKUP = json.load(file)
with open(os.path.join(HERE, "seen.txt"), encoding="utf-8") as file:
    SEEN = read_transaction(bytes.fromhex(file.read().strip()), marked=False)
# private keys of revocation and payment base points, which everybody knows, and the number of BOLT 3's commitments
REVOCATION_KEY, PAYMENT_KEY = "22" * 32, "44" * 32
PAYMENTS = {"opener_payment": BACKUP["bases"]["owner_htlc"], "other_payment": BACKUP["bases"]["payment"]}
NUMBER = {"transaction": SEEN.txid(), "commitment_number": 42, "secret_index": 281_474_976_710_613}


def seen_transaction(*places: tuple[int, int | None]) -> Transaction:
    """The transaction of the page with some of its outputs (the second is to_remote); a value may be told."""
    outputs = [Output(value or SEEN.outputs[at].value, SEEN.outputs[at].program) for at, value in places]
    return Transaction(SEEN.version, SEEN.inputs, outputs, SEEN.lock_time)


def state_lines(transaction: Transaction, *keys: str, **members: Any) -> str:
    """What real/revoked reads."""
    return "\n".join([json.dumps({**BACKUP, "transaction": transaction.stripped_bytes().hex(), **members}), *keys])


def without(transaction: Transaction, name: str) -> str:
    """The same without a member of the state."""
    given = json.loads(state_lines(transaction))
    del given[name]
    return json.dumps(given)


def answer_lines(
    transaction: Transaction,
    *answers: dict[str, Any],
    taken: tuple[()] = (),
    too_little: Any = (),
    no_key: Any = (),
    others: Any = (),
) -> str:
    """What real/revoked prints where it makes no transaction."""
    last = {
        "transaction": transaction.txid(),
        "taken": [*taken],
        "too_little": [*too_little],
        "no_key": [*no_key],
        "others": [*others],
    }
    return "".join(map(line, [*answers, last]))


# to_remote alone, with one satoshi less than what is passed on, and among outputs of nobody's
REMOTE, LITTLE, NOBODYS = (
    seen_transaction((1, None)),
    seen_transaction((1, 111 + 293)),
    Transaction(2, SEEN.inputs, [Output(5, b"\x51")], 0),
)
ANSWER = {"outputs": [0], "kinds": ["to_remote"], "value": 3_000_000, "fee": 111}
NO_PAYMENT = {**ANSWER, "answer": "no key", "deadline_blocks": None, "key": "payment"}
REVOKED = [
    ("--number", json.dumps({"transaction": SEEN.stripped_bytes().hex(), **PAYMENTS}), line(NUMBER), 0),
    ("--number", "", refused_line("NotJson"), 1),
    ("--number", json.dumps({"transaction": HEX, **PAYMENTS}), refused_line("NotCommitment"), 1),
    ("--number", json.dumps({"transaction": HEX[:-2], **PAYMENTS}), refused_line("Truncated"), 1),
    (
        "--number",
        json.dumps({**PAYMENTS, "transaction": HEX, "opener_payment": "02" * 32}),
        refused_line("BadShape seen.opener_payment"),
        1,
    ),
    ("--number", state_lines(SEEN), refused_line("BadShape seen.secret"), 1),
    ("--number", json.dumps({"transaction": SEEN.stripped_bytes().hex() + "\n", **PAYMENTS}), line(NUMBER), 0),
    (
        "--number",
        json.dumps(
            {"transaction": SEEN.stripped_bytes().hex(), **PAYMENTS, "other_payment": PAYMENTS["opener_payment"]}
        ),
        refused_line("BadShape seen.other_payment"),
        1,
    ),
    ("", "", refused_line("NotJson"), 1),
    (BY_RECORD, state_lines(SEEN), refused_line("NoKey"), 1),
    (BY_RECORD, state_lines(SEEN, "07"), refused_line("BadKey 0"), 1),
    (BY_RECORD, state_lines(SEEN, "0g" * 32), refused_line("BadKey 0"), 1),
    (
        BY_RECORD,
        state_lines(SEEN, PAYMENT_KEY, confirmed_height=502),
        refused_line("BadShape state.confirmed_height"),
        1,
    ),
    (
        BY_RECORD,
        state_lines(SEEN, PAYMENT_KEY, confirmed_hieght=501),
        refused_line("BadShape state.confirmed_hieght"),
        1,
    ),
    (BY_RECORD, state_lines(SEEN, PAYMENT_KEY, destination="6a"), refused_line("BadShape state.destination"), 1),
    (BY_RECORD, state_lines(SEEN, PAYMENT_KEY, secret="zz"), refused_line("BadShape state.secret"), 1),
    (BY_RECORD, state_lines(SEEN, PAYMENT_KEY, feerate_per_kw=250_001), refused_line("TooHighFeerate 250000"), 1),
    (BY_RECORD, without(SEEN, "confirmed_height"), refused_line("BadShape state.confirmed_height"), 1),
    (BY_RECORD, state_lines(SEEN, PAYMENT_KEY, spent=[3]), refused_line("BadShape state.spent[0]"), 1),
    (BY_RECORD, state_lines(REMOTE, REVOCATION_KEY), answer_lines(REMOTE, NO_PAYMENT, no_key=[0]), 4),
    (
        BY_RECORD,
        state_lines(REMOTE, "", REVOCATION_KEY, "").replace(", ", ",\n "),
        answer_lines(REMOTE, NO_PAYMENT, no_key=[0]),
        4,
    ),
    (BY_RECORD, state_lines(REMOTE, REVOCATION_KEY, spent=[0]), answer_lines(REMOTE).replace("}", ',"spent":[0]}'), 0),
    (f"--one {BY_RECORD}", state_lines(REMOTE, REVOCATION_KEY), answer_lines(REMOTE, NO_PAYMENT, no_key=[0]), 4),
    (
        BY_RECORD,
        state_lines(LITTLE, PAYMENT_KEY),
        answer_lines(LITTLE, {**ANSWER, "value": 404, "answer": "too little to be passed on"}, too_little=[0]),
        0,
    ),
    (BY_RECORD, state_lines(NOBODYS, PAYMENT_KEY), answer_lines(NOBODYS, others=[0]), 4),
    ("--number --one", "", USAGES["revoked"], 2),
    ("--one --one", "", USAGES["revoked"], 2),
    ("--recorded", "", USAGES["revoked"], 2),
    (PAYMENT_KEY, "", USAGES["revoked"], 2),
]


# a private key of BOLT 3's Appendix C in the form of wallets
WIF = "L3VN4ehb73SgLx7PpKVZPrF1nLprMhxMzRHKQgBniu9obeagx92j"
NOTED = [
    (
        "judge",
        "",
        f"{HEX}\n0.001 {PROGRAM.hex()}",
        "line 2: a value stands here in satoshis: 0.001 bitcoins, as a node prints them, are 100000\n",
    ),
    (
        "judge",
        "",
        f"{HEX}\n0.00000005 {PROGRAM.hex()}",
        "line 2: a value stands here in satoshis: 0.00000005 bitcoins, as a node prints them, are 5\n",
    ),
    (
        "judge",
        "",
        f"{HEX}\n-100000 {PROGRAM.hex()}",
        "line 2: a value is a whole number of satoshis, in digits alone\n",
    ),
    (
        "judge",
        "",
        f"{HEX}\n100,000 {PROGRAM.hex()}",
        "line 2: a value is a whole number of satoshis, in digits alone\n",
    ),
    (
        "judge",
        "",
        f"{HEX}\n2100000000000001 {PROGRAM.hex()}",
        "line 2: a value has at most 2100000000000000 satoshis, 21 million bitcoins\n",
    ),
    (
        "judge",
        "",
        f"{HEX}\n5\t{PROGRAM.hex()}",
        "line 2: one blank, and no tab, stands between the value and the program\n",
    ),
    ("judge", "", f"{HEX}\n{PROGRAM.hex()} 5", "line 2: the value stands first, and then the program\n"),
    ("judge", "", f"{HEX}\n5 0x{PROGRAM.hex()}", "line 2: hexadecimal stands here without 0x\n"),
    (
        "judge",
        "",
        f"{HEX}\n5 bc1qw508d6qejxtdg4y5r3zarvary0c5xw7kv8f3t4",
        "line 2: this is an address; its program is what bitcoin-cli",
    ),
    ("judge", "", f"{HEX}\n5 {PROGRAM.hex()[:-1]}", "line 2: 67 hexadecimal digits are no whole bytes\n"),
    ("judge", "", f"{HEX}\n5", "line 2: a line has two words: a value in satoshis, and a program in hexadecimal\n"),
    (
        "judge",
        "",
        f"{HEX[:-1]}\n5 {PROGRAM.hex()}",
        f"line 1, the transaction: {len(HEX) - 1} hexadecimal digits are no whole bytes\n",
    ),
    (
        "judge",
        "",
        f"5 {PROGRAM.hex()}\n{HEX}",
        "line 1, the transaction: hexadecimal stands here without blanks and line ends\n",
    ),
    ("judge", "", HEX, "lines after the transaction: 0; inputs: 1; each input has a line, with value and program\n"),
    (
        "judge",
        "",
        LINES + f"5 {PROGRAM.hex()}",
        "lines after the transaction: 2; inputs: 1; each input has a line, with value and program\n",
    ),
    (
        "sign",
        "",
        f"{MADE}\n{WIF}",
        "key 0: this has the form of a wallet's private key (WIF); 32 bytes in hexadecimal are wanted\n",
    ),
    (
        "sign",
        "",
        f"{MADE}\n0x{KNOWN_KEY}",
        "key 0: a private key stands here as 32 bytes in hexadecimal, 64 digits, without 0x\n",
    ),
    (
        "revoked",
        "",
        state_lines(SEEN, json.dumps(BACKUP)),
        "key 0: this begins as JSON: one object is read, and then private keys\n",
    ),
    (
        "revoked",
        "",
        state_lines(SEEN, BACKUP["bases"]["htlc"]),
        "key 0: this has the form of a public key; a private key has 32 bytes\n",
    ),
    (
        "revoked",
        "",
        state_lines(SEEN, destination="bcrt1qw508d6qejxtdg4y5r3zarvary0c5xw7kygt080"),
        "this is an address; its program is what bitcoin-cli",
    ),
    (
        "revoked",
        "",
        without(SEEN, "confirmed_height"),
        "the height of the block that has the transaction is missing; null says that no block has it yet\n",
    ),
    (
        "revoked",
        "",
        state_lines(SEEN, feerate_per_kw=1_000_000),
        (
            "1000000 satoshis for 1,000 units of weight are 4000 for a virtual byte; most_feerate_per_kw raises the"
            " limit\n"
        ),
    ),
]
