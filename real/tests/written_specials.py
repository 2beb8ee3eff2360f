"""Single transactions, each with the answer that is written down for it: what the eight kinds of fault do not meet.
Tested, not proved.
"""
from collections.abc import Iterator
from typing import Any

from real.tests import written_ways as ways
from real.tests.written_electrum import (
    Claim,
    ECPubkey,
    Spend,
    assembled_script,
    crypto,
    digest_of,
    ecc,
    key_program,
    lnutil,
    multisig,
    opcodes,
    program_of,
    public_key,
    secret_of,
    transaction,
)
from real.tests.written_faults import numbers
from real.tests.written_packed import packed_rows

PAID = b"\x00\x14" + digest_of("paid")[:20]


def single_spend(
    name: str,
    script: bytes | None,
    shape: list[bytes | None],
    secrets: list[bytes],
    sequence: int = 0xFFFFFFFD,
    value: int = 50_000,
    way: str | None = None,
    version: int = 2,
    lock_time: int = 0,
) -> Spend:
    """The spend of one output by a script of its own."""
    claim = Claim(way, (digest_of(name).hex(), 1), value, script, shape, secrets, sequence)
    return Spend([claim], [(PAID, value - 400)], version, lock_time).sign()


def row(name: str, text: list[str], answers: list[list[Any]], fee: int = 400, faults: Any = ()) -> dict[str, Any]:
    """A row that is told input by input."""
    return {"name": name, "text": text, "wanted": {"fee": fee, "faults": list(faults), "inputs": answers}}


def spend_row(name: str, spend: Spend, answer: list[Any], **more: Any) -> dict[str, Any]:
    """A row of one input."""
    return row(name, spend.text(), [answer], spend.fee(), **more)


def unjudged_answer(reason: str) -> list[str]:
    """An input about which nothing is said."""
    return ["not judged", reason]


def local_script(revocation: bytes, delay: bytes, delayed: bytes) -> bytes:
    """BOLT 3's to_local by Electrum, with the delay as these bytes."""
    return (
        assembled_script(opcodes.OP_IF, revocation, opcodes.OP_ELSE)
        + delay
        + assembled_script(
            opcodes.OP_CHECKSEQUENCEVERIFY, opcodes.OP_DROP, delayed, opcodes.OP_ENDIF, opcodes.OP_CHECKSIG
        )
    )


def to_local(name: str, item: bytes, delay: bytes = b"\x02\x90\x00", sequence: int = 144) -> Spend:
    """A spend of to_local with this item on top: by the revocation key where it is true."""
    revocation, delayed = secret_of(name + " revocation"), secret_of(name + " delayed")
    by_revocation = any(item[:-1]) or item[-1:] not in (b"", b"\x00", b"\x80")
    script = local_script(public_key(revocation), delay, public_key(delayed))
    return single_spend(name, script, [None, item], [revocation if by_revocation else delayed], sequence)


def ambiguous_items() -> Iterator[dict[str, Any]]:
    """Items in the form of a signature that are none."""
    preimage = b"\x30\x1d\x02\x0d" + b"\x11" * 13 + b"\x02\x0c" + b"\x22" * 12 + b"\x01"
    secrets = [secret_of(f"ambiguous {k}") for k in range(3)]
    keys = [public_key(secret) for secret in secrets]
    paid = crypto.sha256(preimage)
    spend = single_spend(
        "a preimage in the form of a signature, offered",
        lnutil.make_offered_htlc(*keys, paid),
        [None, preimage],
        secrets[1:2],
    )
    yield spend_row("a preimage in the form of a signature, offered", spend, unjudged_answer("AmbiguousItem"))
    spend = single_spend(
        "a preimage in the form of a signature, received",
        lnutil.make_received_htlc(*keys, paid, 777),
        [b"", None, None, preimage],
        secrets[1:],
    )
    yield spend_row("a preimage in the form of a signature, received", spend, unjudged_answer("AmbiguousItem"))
    name = "items exchanged, and the signature is of no key"
    spend = to_local(name, b"\x01")
    sig, true, script = spend.witnesses[0]
    spend.witnesses[0] = [true, sig[:-2] + bytes([sig[-2] ^ 1, 1]), script]
    yield spend_row(name, spend, unjudged_answer("AmbiguousItem"))
    name = "an item too many that is a signature of no key"
    spend = to_local(name, b"\x01")
    spend.witnesses[0].insert(0, spend.witnesses[0][0][:-2] + bytes([spend.witnesses[0][0][-2] ^ 1, 1]))
    answer = ways.stops("NotOneValue", 9, ["01", "item 0"], {0: None, 1: "push 1"})
    yield ways.corrected_row(
        spend_row(name, spend, answer),
        unjudged_answer("AmbiguousItem"),
        "no listed path has three items, so none has something else there, and the item is never looked at",
    )


def two_keys() -> Iterator[dict[str, Any]]:
    """A second key for which the signature is valid, as an item too many."""
    name = "a second key of the signature as an item too many"
    spend = to_local(name, b"\x01")
    sig = spend.witnesses[0][0]
    r, s = numbers(sig)
    found = {
        ECPubkey.from_sig_string(
            r.to_bytes(32, "big") + s.to_bytes(32, "big"), k, spend.digest(0)
        ).get_public_key_bytes()
        for k in (0, 1)
    }
    other = (found - {spend.claims[0].keys[0]}).pop()
    spend.witnesses[0].insert(0, other)
    yield spend_row(name, spend, unjudged_answer("TwoKeys"))


def opcodes_of_others() -> Iterator[dict[str, Any]]:
    """Scripts with opcodes that the machine does not know, and HTLCs of anchors, which have none."""
    secrets = [secret_of(f"anchors {k}") for k in range(3)]
    keys = [public_key(secret) for secret in secrets]
    remote = assembled_script(keys[0], opcodes.OP_CHECKSIGVERIFY, 1, opcodes.OP_CHECKSEQUENCEVERIFY)
    yield spend_row(
        "to_remote of a channel with anchors",
        single_spend("remote with anchors", remote, [None], secrets[:1], 1),
        unjudged_answer("UnknownOpcode"),
    )
    anchor = assembled_script(
        keys[0],
        opcodes.OP_CHECKSIG,
        opcodes.OP_IFDUP,
        opcodes.OP_NOTIF,
        16,
        opcodes.OP_CHECKSEQUENCEVERIFY,
        opcodes.OP_ENDIF,
    )
    yield spend_row(
        "an anchor", single_spend("anchor", anchor, [None], secrets[:1], value=730), unjudged_answer("UnknownOpcode")
    )
    lock = assembled_script(opcodes.OP_SHA256, digest_of("lock"), opcodes.OP_EQUALVERIFY, keys[0], opcodes.OP_CHECKSIG)
    yield spend_row(
        "a lock by SHA-256", single_spend("sha", lock, [None, b"x"], secrets[:1]), unjudged_answer("UnknownOpcode")
    )
    preimage = digest_of("preimage with anchors")
    plain = lnutil.make_offered_htlc(*keys, crypto.sha256(preimage))
    script = plain[:-1] + assembled_script(1, opcodes.OP_CHECKSEQUENCEVERIFY, opcodes.OP_DROP, opcodes.OP_ENDIF)
    spend = single_spend("offered with anchors", script, [None, preimage], secrets[1:2], 1)
    yield spend_row(
        "an offered HTLC of a channel with anchors, by preimage", spend, ["clean", 2, 21, 5, {0: "push 7"}, []]
    )
    spend = single_spend("offered with anchors", script, [None, preimage], secrets[1:2], 0)
    yield spend_row(
        "the same in the block of the commitment",
        spend,
        ways.stops("FailedCheck Sequence", 26, ["push 25", "01"], {0: "push 7"}),
    )


def pushed_tokens() -> Iterator[dict[str, Any]]:
    """A script that pushes a token, and a script whose paths can't be listed."""
    secret = secret_of("pushed")
    script = assembled_script(
        public_key(secret) + digest_of("any digest") + b"\x01", public_key(secret), opcodes.OP_CHECKSIG
    )
    yield spend_row(
        "a script that pushes a token", single_spend("pushed", script, [], []), unjudged_answer("PushedToken")
    )
    script = assembled_script(opcodes.OP_EQUALVERIFY, public_key(secret), opcodes.OP_CHECKSIG)
    yield spend_row(
        "two items are compared",
        single_spend("compared", script, [None, b"\x07", b"\x07"], [secret]),
        unjudged_answer("NotListed"),
    )
    key = assembled_script(public_key(secret))
    script = (
        assembled_script(opcodes.OP_IF)
        + key
        + assembled_script(opcodes.OP_ELSE)
        + key
        + assembled_script(opcodes.OP_ELSE, opcodes.OP_ENDIF, opcodes.OP_CHECKSIG)
    )
    answer = ["stricter here", "OpenBranch", 4, ["push 3", "item 0"], {0: "push 3"}, []]
    yield ways.corrected_row(
        spend_row("a second ELSE", single_spend("second else", script, [None, b""], [secret]), answer),
        unjudged_answer("NotListed"),
        "consensus takes a second ELSE, and the machine stops there whatever is listed",
    )


def repeated_signatures() -> Iterator[dict[str, Any]]:
    """A signature twice: the second is dropped, or measured."""
    secret = secret_of("twice")
    script = assembled_script(opcodes.OP_DROP, public_key(secret), opcodes.OP_CHECKSIG)
    spend = single_spend("dropped", script, [None, None], [secret, secret])
    yield spend_row("a signature twice, one dropped", spend, ["clean", 0, 2, 2, {0: "push 1", 1: "push 1"}, []])
    script = assembled_script(
        opcodes.OP_SIZE, 71, opcodes.OP_EQUALVERIFY, opcodes.OP_DROP, public_key(secret), opcodes.OP_CHECKSIG
    )
    spend = single_spend("measured", script, [None, None], [secret, secret])
    assert len(spend.witnesses[0][0]) == 71
    yield spend_row("a signature twice, one measured", spend, unjudged_answer("MeasuredSignature"))


def stricter_rules() -> Iterator[dict[str, Any]]:
    """What consensus takes and the machine does not."""
    secret = secret_of("uncompressed")
    key = ecc.ECPrivkey(secret).get_public_key_bytes(compressed=False)
    answer = ["stricter here", "FailedCheck KeyForm", 4, ["item 1", "item 0"], {0: None}, ["WITNESS_PUBKEYTYPE"]]
    script = assembled_script(
        opcodes.OP_DUP, opcodes.OP_HASH160, crypto.hash_160(key), opcodes.OP_EQUALVERIFY, opcodes.OP_CHECKSIG
    )
    yield spend_row(
        "the hash of an uncompressed key", single_spend("uncompressed", script, [None, key], [secret]), answer
    )
    spend = single_spend(
        "non-minimal delay",
        local_script(public_key(secret_of("a")), b"\x03\x90\x00\x00", public_key(secret)),
        [None, b""],
        [secret],
        144,
    )
    answer = ["stricter here", "FailedCheck Number", 4, ["push 3", "item 0"], {0: "push 6"}, ["MINIMALDATA"]]
    yield spend_row("a delay that is not minimally encoded", spend, answer)


def relay() -> Iterator[dict[str, Any]]:
    """What consensus takes and nodes do not pass on, and what is just within the rules of relay."""
    by_key, by_delay = "to_local by revocation", "to_local by delay"
    yield spend_row("true is 02", to_local("true is 02", b"\x02"), ways.clean_answer(by_key, ["MINIMALIF"]))
    yield spend_row("true is 0001", to_local("true is 0001", b"\x00\x01"), ways.clean_answer(by_key, ["MINIMALIF"]))
    yield spend_row(
        "true has 80 bytes", to_local("true has 80 bytes", b"\x01" * 80), ways.clean_answer(by_key, ["MINIMALIF"])
    )
    yield spend_row(
        "true has 81 bytes",
        to_local("true has 81 bytes", b"\x01" * 81),
        ways.clean_answer(by_key, ["MINIMALIF", "WITNESS_ITEM_SIZE"]),
    )
    for false in (b"\x00", b"\x80", b"\x00\x00", b"\x00\x80"):
        name = f"false is {false.hex()}"
        yield spend_row(name, to_local(name, false), ways.clean_answer(by_delay, ["MINIMALIF"]))
    yield spend_row(
        "a delay of 16 is pushed as bytes",
        to_local("sixteen", b"", b"\x01\x10", 16),
        ways.clean_answer(by_delay, ["MINIMALDATA"]),
    )
    for size, rules in ((80, []), (81, ["WITNESS_ITEM_SIZE"]), (520, ["WITNESS_ITEM_SIZE"])):
        yield spend_row(f"a timeout with {size} bytes", timeout(size), ways.clean_answer("received by timeout", rules))
    yield spend_row("a timeout with 521 bytes", timeout(521), ["stops", "ItemTooLong"])
    secret = secret_of("sizes")
    for drops, rules in ((99, []), (100, ["WITNESS_ITEMS"])):
        script = assembled_script(*[opcodes.OP_DROP] * drops, public_key(secret), opcodes.OP_CHECKSIG)
        spend = single_spend(f"{drops} items", script, [None] + [b""] * drops, [secret])
        yield spend_row(f"{drops + 1} items", spend, ["clean", 0, drops + 1, drops + 1, {0: f"push {drops}"}, rules])
    for rest, rules in ((21, []), (22, ["WITNESS_SCRIPT_SIZE"])):
        pushes = (b"\x4b" + b"\x33" * 75 + b"\x75") * 46 + bytes([rest]) + b"\x33" * rest + b"\x75"
        script = pushes + assembled_script(public_key(secret), opcodes.OP_CHECKSIG)
        spend = single_spend(f"{len(script)} bytes", script, [None], [secret])
        yield spend_row(f"a script of {len(script)} bytes", spend, ["clean", 0, 48, 2, {0: "push 94"}, rules])


def timeout(size: int) -> Spend:
    """A received HTLC by its timeout, with this number of bytes where BOLT 3 has the empty item."""
    name = f"timeout {size}"
    secrets = [secret_of(f"{name} {k}") for k in range(3)]
    script = lnutil.make_received_htlc(*[public_key(secret) for secret in secrets], digest_of(name), 4321)
    return single_spend(name, script, [None, b"\x44" * size], secrets[1:2], lock_time=4321)


def of_wallets() -> Iterator[dict[str, Any]]:
    """One transaction over all kinds of a wallet's outputs, signed by Electrum itself."""
    secrets = [secret_of(f"wallet {k}") for k in range(8)]
    keys = [public_key(secret) for secret in secrets]
    kinds = [
        ("p2pkh", keys[:1], b"\x76\xa9\x14" + crypto.hash_160(keys[0]) + b"\x88\xac"),
        ("p2wpkh", keys[1:2], key_program(keys[1])),
        ("p2wpkh-p2sh", keys[2:3], b"\xa9\x14" + crypto.hash_160(key_program(keys[2])) + b"\x87"),
        ("p2sh", keys[3:5], b"\xa9\x14" + crypto.hash_160(multisig(2, keys[3:5])) + b"\x87"),
        ("p2wsh", keys[5:8], program_of(multisig(2, keys[5:8]))),
        ("p2pk", keys[:1], assembled_script(keys[0], opcodes.OP_CHECKSIG)),
    ]
    inputs = []
    for number, (kind, own, _) in enumerate(kinds):
        txin = transaction.PartialTxInput(
            prevout=transaction.TxOutpoint(txid=digest_of(f"wallet {number}"), out_idx=number), nsequence=0xFFFFFFFD
        )
        txin.script_type, txin.pubkeys, txin.num_sig, txin._trusted_value_sats = kind, own, min(len(own), 2), 10_000
        inputs.append(txin)
    outputs = [transaction.PartialTxOutput(scriptpubkey=PAID, value=59_000)]
    tx = transaction.PartialTransaction.from_io(inputs, outputs, locktime=0, version=2, BIP69_sort=False)
    tx.sign({key.hex(): (secret, True) for key, secret in zip(keys, secrets)})
    text = [tx.serialize()] + [f"10000 {program.hex()}" for _, _, program in kinds]
    answers = [
        unjudged_answer("LegacyInput"),
        ways.clean_answer("wallet key"),
        unjudged_answer("NestedInput"),
        unjudged_answer("NestedInput"),
        ways.clean_answer("first and second of three"),
        unjudged_answer("LegacyInput"),
    ]
    yield row("all kinds of a wallet", text, answers, 1_000)


def neighbour_row(
    name: str,
    witness: list[bytes] | None,
    program: bytes | None,
    answer: list[Any],
    faults: Any = (),
    outpoint: tuple[str, int] | None = None,
    value: int = 20_000,
    script: bytes = b"",
) -> dict[str, Any]:
    """A key's hash that is clean, and another input with this witness and program."""
    good = Claim(
        "wallet key",
        (digest_of(name + " good").hex(), 0),
        30_000,
        None,
        [None, public_key(secret_of("good"))],
        [secret_of("good")],
        0xFFFFFFFE,
    )
    other = Claim(
        "wallet key",
        outpoint or (digest_of(name + " other").hex(), 3),
        value,
        None,
        [None, public_key(secret_of("other"))],
        [secret_of("other")],
        0xFFFFFFFE,
    )
    spend = Spend([good, other], [(PAID, 30_000)], 2, 0).sign()
    if witness is not None:
        spend.witnesses[1] = witness
    tx = spend.signed_transaction()
    tx.inputs()[1].script_sig = script
    text = [tx.serialize_to_network(), spend.text()[1], f"{value} {(program or other.program()).hex()}"]
    return row(name, text, [ways.clean_answer("wallet key"), answer], value, faults)


def neighbours() -> Iterator[dict[str, Any]]:
    """A clean input stands beside one that is not judged."""
    yield neighbour_row(
        "taproot", [digest_of("x") * 2], b"\x51\x20" + digest_of("taproot"), unjudged_answer("Taproot")
    )
    yield neighbour_row(
        "version 2", [b"\x01"], b"\x52\x20" + digest_of("later"), unjudged_answer("OtherWitnessProgram")
    )
    yield neighbour_row(
        "version 0 with 22 bytes",
        [b"\x01"],
        b"\x00\x16" + digest_of("later")[:22],
        unjudged_answer("OtherWitnessProgram"),
    )
    yield neighbour_row("not signed", [], None, unjudged_answer("NoWitness"))
    yield neighbour_row("an input script", None, None, ["stops", "InputScript"], script=b"\x00")
    yield neighbour_row("another script", [b"\x51"], program_of(b"\x52"), ["stops", "OtherScript"])
    yield neighbour_row("a key where a script is wanted", None, program_of(b"\x52"), ["stops", "OtherScript"])
    yield neighbour_row("a script alone", [b"\x51"], program_of(b"\x51"), ["clean", 0, 0, 1, {}, []])
    yield neighbour_row(
        "of a coinbase", None, None, ways.clean_answer("wallet key"), ["NoOutpoint"], ("00" * 32, 0xFFFFFFFF)
    )
    yield neighbour_row(
        "one outpoint twice",
        None,
        None,
        ways.clean_answer("wallet key"),
        ["SameOutpoint"],
        (digest_of("one outpoint twice good").hex(), 0),
    )
    yield neighbour_row(
        "too much", None, None, ways.clean_answer("wallet key"), ["TooMuch"], value=2_100_000_000_000_000
    )
    good = wallet("no outputs")
    good.outputs = []
    yield row("no outputs", good.sign().text(), [ways.clean_answer("wallet key")], 50_000, ["NoOutputs"])


def wallet(name: str) -> Spend:
    """The spend of one key's hash."""
    return single_spend(name, None, [None, public_key(secret_of(name))], [secret_of(name)], way="wallet key")


def refused_texts() -> Iterator[dict[str, Any]]:
    """Texts that are refused, each by the first fault from the left."""
    tx, line = wallet("refused").text()
    table = [
        ("an odd number of digits", [tx[:-1], line], "BadHex"),
        ("no hexadecimal", [tx[:-1] + "g", line], "BadHex"),
        ("a byte is missing", [tx[:-2], line], "Truncated"),
        ("a byte too many", [tx + "00", line], "Trailing"),
        ("a line is missing", [tx], "BadCount"),
        ("a line too many", [tx, line, line], "BadCount"),
        ("a line without its value", [tx, line.split(" ")[1]], "BadLine 2"),
        ("a value with a sign", [tx, "+" + line], "BadLine 2"),
        ("a long count", [tx[:12] + "fd0100" + tx[14:], line], "LongCount"),
        ("another marker", [tx[:10] + "02" + tx[12:], line], "BadMarker"),
        ("no inputs", [tx[:12] + "00" + tx[14:], line], "NoInputs"),
    ]
    for name, text, reason in table:
        yield {"name": name, "text": text, "wanted": {"refused": reason}}
    rich = wallet("refused")
    rich.outputs = [(PAID, 2**64 - 1)]
    yield {"name": "an output of 2^64 - 1 satoshis", "text": rich.text(), "wanted": {"refused": "ValueTooLarge"}}
    bare = wallet("refused").electrum().serialize_to_network(include_sigs=False)
    yield row("without witnesses", [bare, line], [unjudged_answer("NoWitness")])


def rows() -> Iterator[dict[str, Any]]:
    """All of them."""
    for part in (
        ambiguous_items,
        two_keys,
        opcodes_of_others,
        pushed_tokens,
        repeated_signatures,
        stricter_rules,
        relay,
        of_wallets,
        neighbours,
        refused_texts,
    ):
        yield from part()
    yield from packed_rows()
