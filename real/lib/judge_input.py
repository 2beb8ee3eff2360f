"""Reads what real/judge is given: a transaction with the outputs that it spends, as lines or partially signed. Tested,
not proved.
"""
from typing import Any

from real.lib import hints, judgement, psbt, scripts, summary
from real.lib.curve import Verifier
from real.lib.errors import Refused, bytes_of
from real.lib.trace_program import Trace
from real.lib.transaction import MAX_MONEY, Output, Transaction, read_transaction

# a transaction, what it spends (None where that is not known), and what settles some of its inputs
Given = tuple[Transaction, list[Output | None], dict[int, judgement.Settled]]


def output_of(number: int, line: str) -> Output:
    """A value and a program, as line `number` of the input has them."""
    words = line.split(" ")
    if (
        len(words) != 2
        or not (words[0].isascii() and words[0].isdecimal() and len(words[0]) <= 16)
        or int(words[0]) > MAX_MONEY
    ):
        raise Refused(f"BadLine {number}", f"line {number}: {hints.line_hint(line)}")
    try:
        return Output(int(words[0]), bytes_of(words[1]))
    except Refused:
        raise Refused(f"BadLine {number}", f"line {number}: {hints.line_hint(line)}") from None


def transaction_bytes(line: str) -> bytes:
    """The bytes of the transaction, which the first line has."""
    try:
        return bytes_of(line)
    except Refused:
        raise Refused("BadHex", f"line 1, the transaction: {hints.hex_hint(line)}") from None


def read_lines(given: bytes) -> Given:
    """A transaction and the outputs that it spends, as lines."""
    try:
        lines = given.decode("ascii").splitlines()
    except UnicodeDecodeError:
        raise Refused("BadHex", "the input has bytes above 127, and is no partially signed transaction") from None
    while lines and not lines[-1].strip():
        lines.pop()
    transaction = read_transaction(transaction_bytes(lines[0].strip() if lines else ""))
    if len(lines) - 1 != len(transaction.inputs):
        raise Refused(
            "BadCount",
            (
                f"lines after the transaction: {len(lines) - 1}; inputs: {len(transaction.inputs)}; each input has a"
                " line, with value and program"
            ),
        )
    return transaction, [output_of(number, line.strip()) for number, line in enumerate(lines[1:], 2)], {}


def unjudged_reason(fields: dict[bytes, bytes], output: Output | None) -> judgement.Settled | None:
    """Why an input of a partially signed transaction is not judged, or None. Outputs of other kinds than version 0 are
    named later.
    """
    taproot = psbt.taproot_fields(fields)
    if taproot:
        return judgement.Settled("TaprootFields", f"the input has the fields {', '.join(taproot)} (BIP 371)")
    if output is None:
        return judgement.Settled("NoOutput", "neither WITNESS_UTXO nor NON_WITNESS_UTXO tells what the input spends")
    is_judged = scripts.is_key_hash(output.program) or scripts.is_script_hash(output.program)
    if is_judged and psbt.final_witness(fields) is None:
        return judgement.Settled(
            "NotFinal", "the input has no FINAL_SCRIPTWITNESS; real/psbt finish makes it from signatures"
        )
    return None


def read_partial(given: bytes) -> Given:
    """A partially signed transaction, with what it says of the outputs that it spends: None where it says nothing."""
    found = psbt.read(psbt.decoded_bytes(given))
    outputs, settled = [], {}
    for index, (it, fields) in enumerate(zip(found.transaction.inputs, found.inputs)):
        output = psbt.spent_output(found, index)
        why = unjudged_reason(fields, output)
        if why:
            settled[index] = why
        it.witness = psbt.final_witness(fields) or []
        it.script = fields.get(psbt.key_of(psbt.FINAL_SCRIPTSIG), b"")
        outputs.append(output)
    return found.transaction, outputs, settled


def read(given: bytes) -> Given:
    """The transaction, the outputs that it spends, and what settles some inputs. No item may have the form of a token."""
    transaction, spent, settled = (read_partial if psbt.is_partial(given) else read_lines)(given)
    judgement.refuse_tokens(transaction)
    return transaction, spent, settled


def answers_of(
    transaction: Transaction,
    spent: list[Output | None],
    settled: dict[int, judgement.Settled],
    curve: Verifier,
    trace: Trace,
) -> list[dict[str, Any]]:
    """What is told of a transaction, and of each of its inputs."""
    return [summary.summary_of(transaction, spent), *judgement.judge(transaction, spent, curve, trace, settled)]
