"""The worked towers of bindings/: a revoked commitment of BOLT 3's appendix C from bytes to the digests of its penalty. Each of the four programs has to print the same bytes, and these are worked out here, from the
appendix's scripts and by real/lib/transaction.py (BIP 143, BIP 144): no program of this repository is asked.
"""
import os
import sys

sys.dont_write_bytecode = True
TOP = os.path.dirname(os.path.dirname(os.path.dirname(os.path.abspath(__file__))))
sys.path.insert(0, TOP)
import revocations

from real.lib.transaction import Digests, Input, Output, Transaction

PROGRAM, FEE, HEIGHT = "0014" + 20 * "c7", 4_321, 501


def words(row):
    """What a tower reads of a revoked commitment."""
    values, rows = row.values, [(revocations.DIRECTIONS[direction], expiry, payment_hash) for direction, payment_hash, expiry in row.htlcs]
    kept = [row.tx, revocations.CHANNELS[values["type"]], values["delay"], *(values[it] for it in revocations.revoked.NAMES), HEIGHT, PROGRAM, FEE]
    return "\n".join([" ".join(map(str, kept)), *(" ".join(map(str, it)) for it in rows)]) + "\n"


def penalty(row):
    """What a tower has to print: the claims with their deadlines, the other outputs, and the unsigned penalty with what is to be signed."""
    lines, inputs, signed = [], [], []
    for index, output in enumerate(row.outputs):
        if not row.is_claimed(output):
            continue
        height = revocations.owner_height(row, output, HEIGHT)
        lines.append(f"claim {index} kind {revocations.KINDS[output['kind']]} until {0 if height == '-' else height}")
        _, _, value, _, _, _, script, _, _, item, key = row.claim(index, output).split()
        item, key, script = item.removeprefix("exact:"), key.removeprefix("sig:"), bytes.fromhex(script)
        tail = [] if output["kind"] == "to_remote" else [script]
        inputs.append(Input(bytes.fromhex(row.txid) + index.to_bytes(4, "little"), b"", 0, [b"", bytes.fromhex(item), *tail]))
        signed.append((key, script, int(value)))
    lines += [f"other {index}" for index, it in enumerate(row.outputs) if not row.is_claimed(it)]
    whole = Transaction(2, inputs, [Output(sum(value for _, _, value in signed) - FEE, bytes.fromhex(PROGRAM))], 0)
    digests = Digests(whole)
    lines.append(f"tx {whole.bytes().hex()}")
    lines += [f"sign {at} 0 {key} {digests.digest_of(at, script, value).hex()}" for at, (key, script, value) in enumerate(signed)]
    return "\n".join(lines) + "\n"


def cases():
    """The commitments of the appendix, and the one with anchors: what a tower reads, and what it has to print."""
    first = {}
    for row in revocations.revoked.rows():
        if len(row.outputs) > 1 and row.values == dict(revocations.revoked.OWN, type=row.channel_type):
            first.setdefault(row.tx, row)
    return {words(it): penalty(it) for it in first.values()}
