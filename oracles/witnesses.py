#!/usr/bin/env python3
"""Transactions for `trace witness`, with digests made anew by BIP 143, and what is said of their inputs, worked by hand from BIPs 65, 112, 141 and 147.

  oracles/witnesses.py            compares what ./trace witness prints of all inputs of one transaction, and of four of another one, with it; status 1 where they differ
  oracles/witnesses.py --given    prints the text of the first one that `trace witness` reads; --json and --pages print what it answers
"""
import json
import os
import subprocess
import sys

from bitcoin import (
    VERSION, Transaction, compact_size, key_program, key_script, little_endian, script_program, sized_data,
)

TOP = os.path.dirname(os.path.dirname(os.path.abspath(__file__)))
LOCK_TIME = 120
FINAL = 0xFFFFFFFF
KEYS = [bytes([2]) + bytes([byte]) * 32 for byte in (0x11, 0x22)]
# HASH160 of the first key
KEY_HASH = bytes.fromhex("adfce54f529b2154e3c361bbe3f7d41db0635717")
PUSHES = [b"\x21" + key for key in KEYS]
TO_LOCAL = b"\x63" + PUSHES[0] + bytes.fromhex("67029000b275") + PUSHES[1] + bytes.fromhex("68ac")
BOTH = b"\x52" + PUSHES[0] + PUSHES[1] + b"\x52\xae"
LATER = bytes.fromhex("0164b175") + PUSHES[0] + b"\xac"
MANY = b"\x63\x67\x68" * 7
NO_KEY = b"\x04" + KEYS[0][1:]
LONG = bytes(range(256)) * 2


def dropped_push(count):
    """A push of this number of bytes, which are unlike each other, and a DROP."""
    return bytes([count]) + bytes(range(count)) + b"\x75"


def signed_script(*counts):
    """A script that drops pushes of these lengths and takes a signature by the first key."""
    return b"".join(map(dropped_push, counts)) + PUSHES[0] + b"\xac"


def multi_sig_script(pairs):
    """CHECKMULTISIG of no signature and two keys, after this number of DUPs with their DROPs."""
    return b"\x00\x00" + b"\x76\x75" * pairs + PUSHES[0] + PUSHES[1] + b"\x52\xae"


# scripts whose lengths stand on both sides of the second form of a length, and of an item's limit
SIZES = {252: signed_script(75, 75, 61), 253: signed_script(75, 75, 62), 300: signed_script(75, 75, 75, 32), 520: signed_script(75, 75, 75, 75, 75, 75, 21)}
SAYS = {
    "MissingOperand": "the stack has too few entries",
    "FailedCheck Number": "an entry is no number: it is too long, or not minimally encoded",
    "FailedCheck KeyCount": "the number of keys is negative or above 20",
    "FailedCheck SigCount": "the number of signatures is negative or above that of the keys",
    "FailedCheck KeyForm": "a key is not 33 bytes that begin with 02 or 03",
    "FailedCheck Extra": "the extra item of CHECKMULTISIG is not empty",
    "TooManyOps": "more than 201 opcodes are counted",
    "StackTooTall": "more than 1,000 entries would stand on the stack",
    "ItemTooLong": "an item of the witness has more than 520 bytes",
    "Truncated 1": "the last item of the witness is no script of the opcodes here",
    "FailedCheck Verify": "the two entries on top differ",
    "FailedCheck TokenForm": "a signature is neither empty nor a token of 66 bytes",
    "FailedCheck LockTime": "the lock on top is negative, of the other kind or above the transaction's lock time, or the input is final",
    "FailedCheck Sequence": "the version is below 2, the input's sequence is disabled, or the relative lock on top is negative, of the other kind or above it",
    "OpenBranch": "an IF, ELSE or ENDIF stands alone",
    "NotOneValue": "the run ends with another number of entries than one",
    "FalseEnd": "the run ends with a false entry, as after a signature that is not the key's over the digest",
    "OtherProgram": "the program is not of version 0 with the hash of a key or of a script",
    "NotTwoItems": "the program has the hash of a key, and the witness has not two items",
    "NoScript": "the program has the hash of a script, and the witness has no item",
    "OtherScript": "the last item of the witness has another hash than the program",
    "BadOpcode 1": "the last item of the witness is no script of the opcodes here",
}


def clean_run(path, counted, height):
    return {"path": path, "counted": counted, "height": height}


def stops(cause, opcode, op, byte, *stack):
    return {"stopped": cause, "opcode": opcode, "op": op, "byte": byte, "stack": stack}


def refusal(fault):
    return {"refused": fault}


def script_row(script, items, said):
    """The input of a script that is alone in its program, with the sequence 0."""
    return 0, script_program(script), script, [*items, script], said


# Of each input: its sequence, the program that it spends, its script code, its witness (a number is the token of the key with this index, a negative one lacks its
# last byte), and what is said of it. A stack has the top first; in it a number is that token again.
ROWS = [
    (144, script_program(TO_LOCAL), TO_LOCAL, [1, b"", TO_LOCAL], clean_run(1, 6, 2)),
    (0, script_program(TO_LOCAL), TO_LOCAL, [0, b"\x01", TO_LOCAL], clean_run(0, 6, 2)),
    (0, script_program(TO_LOCAL), TO_LOCAL, [1, b"\x01", TO_LOCAL], stops("FalseEnd", 9, None, 77, b"")),
    (143, script_program(TO_LOCAL), TO_LOCAL, [1, b"", TO_LOCAL], stops("FailedCheck Sequence", 4, "CHECKSEQUENCEVERIFY", 39, b"\x90\x00", 1)),
    (0, script_program(TO_LOCAL), TO_LOCAL, [-1, b"\x01", TO_LOCAL], stops("FailedCheck TokenForm", 8, "CHECKSIG", 76, KEYS[0], -1)),
    (0, script_program(TO_LOCAL), TO_LOCAL, [b"\x05", TO_LOCAL + b"\x51"], refusal("OtherScript")),
    (0, script_program(TO_LOCAL), TO_LOCAL, [], refusal("NoScript")),
    (0, key_program(KEY_HASH), key_script(KEY_HASH), [0, KEYS[0]], clean_run(0, 4, 4)),
    (0, key_program(b"\x33" * 20), key_script(b"\x33" * 20), [b"", KEYS[0]], stops("FailedCheck Verify", 3, "EQUALVERIFY", 23, b"\x33" * 20, KEY_HASH, KEYS[0], b"")),
    (0, key_program(KEY_HASH), key_script(KEY_HASH), [KEYS[0]], refusal("NotTwoItems")),
    (0, b"\x51", b"", [], refusal("OtherProgram")),
    (0, script_program(b"\x51\x93"), b"", [b"\x51\x93"], refusal("BadOpcode 1")),
    (0, script_program(BOTH), BOTH, [b"", 0, 1, BOTH], clean_run(0, 3, 7)),
    (0, script_program(BOTH), BOTH, [b"", 1, 0, BOTH], stops("FalseEnd", 5, None, 71, b"")),
    (0, script_program(LATER), LATER, [0, LATER], clean_run(0, 3, 2)),
    (FINAL, script_program(LATER), LATER, [0, LATER], stops("FailedCheck LockTime", 1, "CHECKLOCKTIMEVERIFY", 2, b"\x64", 0)),
    (0, script_program(MANY), MANY, [b"\x01"] * 8 + [MANY], clean_run(None, 21, 8)),
    (0, script_program(b"\x63"), b"\x63", [b"\x01", b"\x63"], stops("OpenBranch", 1, None, 1)),
    (0, script_program(b"\x51"), b"\x51", [b"\x07", b"\x51"], stops("NotOneValue", 1, None, 1, b"\x01", b"\x07")),
    (0, script_program(b"\x51\x02\xff"), b"", [b"\x51\x02\xff"], refusal("Truncated 1")),
    script_row(b"\x55\x88", [], stops("MissingOperand", 1, "EQUALVERIFY", 1, b"\x05")),
    # numbers: not minimally encoded, of five bytes and of six as a lock, of four bytes and of five as a count
    script_row(b"\x02\x01\x00\xb1", [], stops("FailedCheck Number", 1, "CHECKLOCKTIMEVERIFY", 3, b"\x01\x00")),
    script_row(b"\xb1", [b"\x00\x00\x00\x00\x01"], stops("FailedCheck LockTime", 0, "CHECKLOCKTIMEVERIFY", 0, b"\x00\x00\x00\x00\x01")),
    script_row(b"\xb2", [b"\x00\x00\x00\x00\x00\x01"], stops("FailedCheck Number", 0, "CHECKSEQUENCEVERIFY", 0, b"\x00\x00\x00\x00\x00\x01")),
    script_row(b"\xae", [b"\x00\x00\x00\x01"], stops("FailedCheck KeyCount", 0, "CHECKMULTISIG", 0, b"\x00\x00\x00\x01")),
    script_row(b"\xae", [b"\x00\x00\x00\x00\x01"], stops("FailedCheck Number", 0, "CHECKMULTISIG", 0, b"\x00\x00\x00\x00\x01")),
    # 21 keys, a negative number of them, two signatures for one key
    script_row(b"\x01\x15\xae", [], stops("FailedCheck KeyCount", 1, "CHECKMULTISIG", 2, b"\x15")),
    script_row(b"\x01\x81\xae", [], stops("FailedCheck KeyCount", 1, "CHECKMULTISIG", 2, b"\x81")),
    script_row(b"\x52" + PUSHES[0] + b"\x51\xae", [], stops("FailedCheck SigCount", 3, "CHECKMULTISIG", 36, b"\x01", KEYS[0], b"\x02")),
    script_row(b"\x21" + NO_KEY + b"\xac", [0], stops("FailedCheck KeyForm", 1, "CHECKSIG", 34, NO_KEY, 0)),
    (0, script_program(BOTH), BOTH, [b"\x01", 0, 1, BOTH], stops("FailedCheck Extra", 4, "CHECKMULTISIG", 70, b"\x02", KEYS[1], KEYS[0], b"\x02", 1, 0, b"\x01")),
    # the 202nd opcode that counts, and the keys of a CHECKMULTISIG, with which 201 and 203 count
    script_row(b"\x76\x75" * 101, [b"\x09"], stops("TooManyOps", 201, "DROP", 201, b"\x09", b"\x09")),
    script_row(multi_sig_script(99), [], clean_run(0, 201, 5)),
    script_row(multi_sig_script(100), [], stops("TooManyOps", 205, "CHECKMULTISIG", 271, b"\x02", KEYS[1], KEYS[0], b"", b"")),
    script_row(b"\x51" * 1001, [], stops("StackTooTall", 1000, "PUSH", 1000, *[b"\x01"] * 1000)),
    # items of 520 and of 521 bytes
    script_row(b"\x75\x51", [LONG + b"\x00" * 8], clean_run(0, 1, 1)),
    script_row(b"\x75\x51", [LONG + b"\x00" * 9], stops("ItemTooLong", 0, "DROP", 0, LONG + b"\x00" * 9)),
    *(script_row(script, [0], clean_run(0, script.count(b"\x75") + 1, 2)) for script in SIZES.values()),
]
# those of another transaction: a clean run on a path without items and one on none, a stop with a stack, and a refusal
FEW = [
    (0, script_program(b"\x51"), b"\x51", [b"\x51"], clean_run(0, 0, 1)),
    ROWS[16],
    ROWS[18],
    ROWS[10],
]
OUTPUTS = [(1000, key_program(b"\x07" * 20))]


def value(index):
    """What an input's output has, in satoshis."""
    return 1000 * index + 5


def transaction_of(rows):
    """The transaction without its witnesses. Each input spends the first output of a transaction of its own."""
    inputs = [(bytes([index + 1]) * 32 + little_endian(0, 4), row[0]) for index, row in enumerate(rows)]
    return Transaction(inputs, OUTPUTS, LOCK_TIME)


def digest(rows, index):
    """The digest for an input (BIP 143, hash type ALL)."""
    return transaction_of(rows).digest(rows[index][2], value(index), index)


def bytes_of(item, rows, index):
    """An item of a witness or a stack."""
    if isinstance(item, bytes):
        return item
    if item < 0:
        return KEYS[item + 1] + digest(rows, index)
    return KEYS[item] + digest(rows, index) + b"\x01"


def given_text(rows):
    """The text that is read."""
    tx = little_endian(VERSION, 4) + b"\x00\x01" + transaction_of(rows).body()
    for index, row in enumerate(rows):
        items = [bytes_of(item, rows, index) for item in row[3]]
        tx += compact_size(len(items)) + b"".join(map(sized_data, items))
    lines = [(tx + little_endian(LOCK_TIME, 4)).hex()] + [f"{value(index)} {row[1].hex()}" for index, row in enumerate(rows)]
    return "".join(f"{line}\n" for line in lines)


def object_of(rows, index):
    """What is said of an input, for programs."""
    said = dict(rows[index][4])
    stack = [bytes_of(item, rows, index).hex() for item in said.pop("stack", [])]
    if "path" in said:
        return {"input": index, **said, "digest": digest(rows, index).hex()}
    says = SAYS[said.get("stopped") or said["refused"]]
    if "refused" in said:
        return {"input": index, **said, "says": says}
    return {"input": index, **said, "says": says, "stack": stack, "digest": digest(rows, index).hex()}


def page_of(rows, index):
    """The same for people."""
    it = object_of(rows, index)
    if "refused" in it:
        return f"input {index} is refused: {it['refused']}: {it['says']}\n"
    if "path" in it:
        on = "its paths are not listed" if it["path"] is None else f"on path {it['path']}"
        comma = "," if it["path"] is None else ""
        return f"input {index} runs clean{comma} {on}: {it['counted']} opcode{'' if it['counted'] == 1 else 's'} counted, {it['height']} {'entry' if it['height'] == 1 else 'entries'} at most\n"
    stack = "".join(f"  stack   {item or '-'}\n" for item in it["stack"])
    return f"input {index} stops at opcode {it['opcode']} ({it['op'] or 'end'}), byte {it['byte']}: {it['stopped']}: {it['says']}\n{stack}  digest  {it['digest']}\n"


def jsons(rows):
    return "".join(json.dumps(object_of(rows, index), separators=(",", ":")) + "\n" for index in range(len(rows)))


def pages(rows):
    return "".join(page_of(rows, index) for index in range(len(rows)))


def is_told(rows, *words):
    """Whether the program says this of the inputs, and returns that one of them does not run clean."""
    ran = subprocess.run(["./trace", "witness", *words], input=given_text(rows), capture_output=True, encoding="utf-8")
    return (ran.stdout, ran.returncode) == ((pages if words else jsons)(rows), 1)


def main(words):
    os.chdir(TOP)
    for word, make in (("--given", given_text), ("--json", jsons), ("--pages", pages)):
        if word in words:
            sys.stdout.write(make(ROWS))
            return 0
    differ = sum(not is_told(rows, *form) for rows in (ROWS, FEW) for form in ((), ("--text",)))
    print(f"witnesses: {len(ROWS)} inputs of a transaction and {len(FEW)} of another, each told twice: {differ} differ")
    return int(differ > 0)


if __name__ == "__main__":
    if sys.argv[1:] == ["--help"]:
        raise SystemExit(__doc__)
    sys.exit(main(sys.argv[1:]))
