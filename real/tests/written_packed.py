"""Partially signed transactions (BIP 174) by Electrum, in three forms, and with one field changed. Tested, not proved."""
import base64
from collections.abc import Iterator
from typing import Any

from real.tests import written_ways as ways
from real.tests.written_electrum import Channel, Spend, digest_of, transaction
from real.tests.written_spends import channel_spend, wallet_spend


def number(value: int) -> bytes:
    """A count of BIP 144, below 65,536."""
    return bytes([value]) if value < 253 else b"\xfd" + value.to_bytes(2, "little")


def field(key: bytes, value: bytes) -> bytes:
    """One field of a map."""
    return number(len(key)) + key + number(len(value)) + value


def partial_bytes(unsigned: bytes, inputs: list[list[tuple[bytes, bytes]]], outputs: int) -> bytes:
    """A partially signed transaction of these maps."""
    maps = [[(b"\x00", unsigned)]] + inputs + [[]] * outputs
    return b"psbt\xff" + b"".join(b"".join(field(*one) for one in fields) + b"\x00" for fields in maps)


def fields_of(spend: Spend) -> tuple[bytes, list[list[tuple[bytes, bytes]]]]:
    """The unsigned transaction, and of each input the fields WITNESS_UTXO and FINAL_SCRIPTWITNESS."""
    tx = spend.signed_transaction()
    inputs = []
    for txin, claim in zip(tx.inputs(), spend.claims):
        spent = transaction.TxOutput(scriptpubkey=claim.program(), value=claim.value)
        inputs.append([(b"\x01", spent.serialize_to_network()), (b"\x08", txin.witness)])
    return bytes.fromhex(tx.serialize_to_network(include_sigs=False)), inputs


def row(name: str, data: bytes, form: str, wanted: dict[str, Any]) -> dict[str, Any]:
    """A row with a partially signed transaction."""
    return {"name": name, "psbt": base64.b64encode(data).decode(), "as": form, "wanted": wanted}


def clean_rows() -> Iterator[dict[str, Any]]:
    """Electrum's own, in each of the three forms."""
    channels = [Channel(n, 144 + n, 500 + n) for n in (1, 2, 3)]
    made = [
        (f"{way}, partially signed", channel_spend(channels[k % 3], way))
        for k, way in enumerate(
            (
                "to_local by delay",
                "to_local by revocation",
                "to_remote",
                "offered by revocation",
                "offered by preimage",
                "received by revocation",
                "received by timeout",
                "second stage by delay",
                "second stage by revocation",
            )
        )
    ]
    made += [
        (f"{way}, partially signed", channels[0].htlc_transaction(way))
        for way in ("offered by timeout", "received by success")
    ]
    made += [("funding, partially signed", channels[1].commitment()), ("close, partially signed", channels[2].close())]
    made += [
        (f"{way}, partially signed", wallet_spend(way, 20 + k))
        for k, way in enumerate(("wallet key", "key hash", "second and third of three"))
    ]
    for k, (name, spend) in enumerate(made):
        wanted = {"fee": spend.fee(), "faults": [], "inputs": [ways.clean_answer(claim.way) for claim in spend.claims]}
        yield row(name, base64.b64decode(spend.partial_base64()), ("base64", "hex", "bytes")[k % 3], wanted)


def changed_rows() -> Iterator[dict[str, Any]]:
    """One field is missing, another, twice, or of a later version."""
    channel = Channel(4, 99, 600)
    spend = channel_spend(channel, "to_local by revocation")
    unsigned, inputs = fields_of(spend)
    outputs, answers = len(spend.outputs), [ways.clean_answer(claim.way) for claim in spend.claims]
    parent = bytes.fromhex(channel.commitment().signed_transaction().serialize_to_network())
    stranger = bytes.fromhex(Channel(5, 99, 600).commitment().signed_transaction().serialize_to_network())
    full = {"fee": spend.fee(), "faults": [], "inputs": answers}
    main = spend.main
    assert main == 0

    def one(
        first: list[tuple[bytes, bytes]] | None,
        wanted: dict[str, Any],
        name: str,
        whole: bytes | None = None,
        whole_outputs: int = outputs,
    ) -> dict[str, Any]:
        return row(name, whole or partial_bytes(unsigned, [first] + inputs[1:], whole_outputs), "base64", wanted)

    def unjudged_answers(reason: str, fee: int | None) -> dict[str, Any]:
        return {"fee": fee, "faults": [], "inputs": [["not judged", reason]] + answers[1:]}

    utxo, witness = inputs[0]
    yield one([(b"\x00", parent), utxo, witness], full, "with the transaction that is spent")
    yield one([(b"\x00", parent), witness], full, "with it alone")
    yield one([(b"\x00", stranger), utxo, witness], {"refused": "OtherTransaction 0"}, "with another transaction")
    yield one(
        [(b"\x00", parent), (b"\x01", bytes([utxo[1][0] ^ 1]) + utxo[1][1:]), witness],
        {"refused": "OtherOutput 0"},
        "with another output",
    )
    yield one([witness], unjudged_answers("NoOutput", None), "without what is spent")
    yield one([utxo], unjudged_answers("NotFinal", spend.fee()), "without a final witness")
    yield one([utxo, utxo, witness], {"refused": "DuplicateField"}, "a field twice")
    yield one(
        [utxo, witness, (b"\x17", digest_of("internal"))],
        unjudged_answers("TaprootFields", spend.fee()),
        "with an internal key of taproot",
    )
    whole = partial_bytes(unsigned, inputs, outputs)
    later = (
        whole[:5]
        + field(b"\x00", unsigned)
        + field(b"\xfb", b"\x02\x00\x00\x00")
        + whole[5 + len(field(b"\x00", unsigned)) :]
    )
    yield one(None, {"refused": "PsbtVersion 2"}, "of version 2", later)
    yield ways.corrected_row(
        one(None, {"refused": "BadHex"}, "another magic", b"psbu" + whole[4:]),
        {"refused": "BadMagic"},
        "what does not begin as a partially signed transaction is read as lines",
    )
    yield one(
        None,
        {"refused": "NoTransaction"},
        "no transaction",
        b"psbt\xff\x00" + whole[5 + len(field(b"\x00", unsigned)) + 1 :],
    )
    signed = bytes.fromhex(spend.signed_transaction().serialize_to_network())
    yield one(None, {"refused": "SignedTransaction"}, "a signed transaction", partial_bytes(signed, inputs, outputs))


def packed_rows() -> Iterator[dict[str, Any]]:
    """All of them."""
    yield from clean_rows()
    yield from changed_rows()
