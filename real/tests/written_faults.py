"""One fault planted in a transaction, and what is to be said of each of its inputs: eight kinds of fault, each in
several variants.

A fault is a name, an edit (or a transaction that was signed anew), and the answers: None is that of the transaction
without the fault. Tested, not proved.
"""
from typing import Any

from real.tests import written_ways as ways
from real.tests.written_electrum import (
    ORDER,
    Claim,
    Spend,
    assembled_script,
    crypto,
    digest_of,
    opcodes,
    public_key,
    secret_of,
)
from real.tests.written_ways import clean_answer, false_end, stops

KINDS = ("signature", "order", "extra item", "amount", "sequence", "lock time", "forged token", "measured signature")


def of_main(spend: Spend, answer: list[Any]) -> list[list[Any] | None]:
    """The answers where the main input alone is told otherwise."""
    answers = [None] * len(spend.claims)
    answers[spend.main] = answer
    return answers


def void_answer(
    claim: Claim, version: int, lock_time: int, sequence: int, keys: dict[int, str] | None = None
) -> list[Any]:
    """An input whose signatures are over another digest (or, with keys, are good): a lock of its script may stop it
    before.
    """
    keys = ways.void_keys(claim.way) if keys is None else keys
    if ways.FAMILY[claim.way] == "to_local by delay" and not ways.age_passes(version, sequence, claim.delay):
        return ways.sequence_stop(keys)
    if claim.way == "received by timeout" and not ways.height_passes(lock_time, sequence, claim.expiry):
        return ways.lock_time_stop(keys)
    return false_end(claim.way, keys)


def void_answers(spend: Spend, lock_time: int | None = None, sequence: int | None = None) -> list[list[Any]]:
    """The answers where all signatures are over another digest."""
    lock_time = spend.lock_time if lock_time is None else lock_time
    answers = []
    for number, claim in enumerate(spend.claims):
        own = sequence if sequence is not None and number == spend.main else claim.sequence
        answers.append(void_answer(claim, spend.version, lock_time, own))
    return answers


def signature_places(spend: Spend) -> list[int]:
    """The items of the main witness that are signatures."""
    return sorted(ways.WAYS[spend.claims[spend.main].way].keys)


def der(r: int, s: int) -> bytes:
    """Strict DER of two numbers (BIP 66)."""
    parts = b""
    for number in (r, s):
        body = number.to_bytes((number.bit_length() + 8) // 8, "big")
        parts += bytes([2, len(body)]) + body
    return bytes([0x30, len(parts)]) + parts


def numbers(signature: bytes) -> tuple[int, int]:
    """The two numbers of a signature."""
    length = signature[3]
    return int.from_bytes(signature[4 : 4 + length], "big"), int.from_bytes(signature[6 + length : -1], "big")


def signature_fault(
    spend: Spend, variant: int, pick: int
) -> tuple[str, list[list[int | str]], list[list[Any] | None]]:
    """A signature that is flipped, another's, empty, of a high s, of another hash type, or not in strict DER in one of
    three ways.
    """
    main, way = spend.main, spend.claims[spend.main].way
    places = signature_places(spend)
    item = places[pick % len(places)]
    given = spend.witnesses[main][item]
    keys = {k: v for k, v in ways.WAYS[way].keys.items() if k != item}
    r, s = numbers(given)
    types = (2, 3, 0x81, 0x82, 0x83)
    longer = bytes([0x30, given[1] + 1, 2, given[3] + 1, 0]) + given[4:]
    negative = bytearray(given)
    negative[6 + given[3]] |= 0x80
    table = [
        ("a bit of s is flipped", given[:-2] + bytes([given[-2] ^ 1, 1]), false_end(way, keys | {item: None})),
        ("by another key", spend.signature(main, secret_of(f"stranger {pick}")), false_end(way, keys | {item: None})),
        ("empty", b"", false_end(way, keys)),
        ("a high s", der(r, ORDER - s) + b"\x01", clean_answer(way, ["LOW_S"])),
        (
            "another hash type",
            spend.signature(main, spend.claims[main].secrets[pick % len(places)], types[pick % 5]),
            ["not judged", "HashType"],
        ),
        ("a zero before r", longer, ways.bad_form(way, item)),
        ("the hash type is missing", given[:-1], ways.bad_form(way, item)),
        ("a negative s", bytes(negative), ways.bad_form(way, item)),
    ]
    name, new, answer = table[variant % len(table)]
    return name, [["item", main, item, new.hex()]], of_main(spend, answer)


def other_script(spend: Spend) -> tuple[str, list[list[int | str]], list[list[str] | None]] | None:
    """Two keys of the script are exchanged: its hash is another one."""
    claim = spend.claims[spend.main]
    at = {
        "to_local by delay": (1, 6),
        "to_local by revocation": (1, 6),
        "offered by revocation": (7, 16),
        "offered by timeout": (7, 16),
        "offered by preimage": (7, 16),
        "received by revocation": (7, 18),
        "received by success": (7, 18),
        "received by timeout": (7, 18),
        "funding": (1, 2),
        "three": (1, 2),
    }.get(ways.FAMILY[claim.way])
    if at is None:
        return None
    parts = pieces(claim.script)
    parts[at[0]], parts[at[1]] = parts[at[1]], parts[at[0]]
    last = len(claim.shape)
    return (
        "two keys of the script are exchanged",
        [["item", spend.main, last, b"".join(parts).hex()]],
        of_main(spend, ["stops", "OtherScript"]),
    )


def order_fault(spend: Spend, variant: int, _pick: int) -> tuple[str, list[list[int | str]], list[list[Any] | None]]:
    """Two items of the witness are exchanged, or two keys of the script."""
    claim = spend.claims[spend.main]
    passes = ways.height_passes(spend.lock_time, claim.sequence, claim.expiry)
    table = ways.exchange_answers(claim.way, passes)
    choice = variant % (len(table) + 1)
    script = other_script(spend)
    if choice == len(table) and script:
        return script
    one, other, answer = table[choice % len(table)]
    return f"items {one} and {other} are exchanged", [["swap", spend.main, one, other]], of_main(spend, answer)


def extra_fault(spend: Spend, variant: int, pick: int) -> tuple[str, list[list[int | str]], list[list[Any] | None]]:
    """An item too many at either end, or an extra item of CHECKMULTISIG that is not empty."""
    main, way = spend.main, spend.claims[spend.main].way
    claim = spend.claims[main]
    if variant % 3 == 0:
        given = ("", "01", "55" * 32, public_key(secret_of("nobody")).hex())[pick % 4]
        return (
            "an item too many, the first",
            [["insert", main, 0, given]],
            of_main(spend, ways.bottom_item_answer(way)),
        )
    if variant % 3 == 1 and ways.FAMILY[way] in ways.PAIRED:
        answer = stops("FailedCheck Extra", ways.WAYS[way].check, ways.WAYS[way].stack, dict(ways.WAYS[way].keys))
        return (
            "the extra item is not empty",
            [["item", main, 0, ("00", "01", "55" * 32)[pick % 3]]],
            of_main(spend, answer),
        )
    table = ways.top_item_answers(way, ways.height_passes(spend.lock_time, claim.sequence, claim.expiry))
    given, answer = table[pick % len(table)]
    return "an item too many, before the script", [["insert", main, len(claim.shape), given]], of_main(spend, answer)


def amount_fault(spend: Spend, variant: int, pick: int) -> tuple[str, Any, list[list[Any] | None]]:
    """A spent output has another value than was signed, or a made one; or the outputs exceed what is spent."""
    main = spend.main
    claim = spend.claims[main]
    answer = of_main(spend, void_answer(claim, spend.version, spend.lock_time, claim.sequence))
    if variant % 4 == 0:
        return "the spent output has a satoshi more", [["line", main, claim.value + 1]], answer
    if variant % 4 == 1:
        return "the spent output has a satoshi less", [["line", main, claim.value - 1]], answer
    if variant % 4 == 2:
        last = max(k for k, (_, value) in enumerate(spend.outputs) if value)
        return (
            "an output is changed once it is signed",
            [["output", last, spend.outputs[last][1] - 1 - pick]],
            void_answers(spend),
        )
    rest = sum(value for _, value in spend.outputs[:-1])
    outputs = spend.outputs[:-1] + [(spend.outputs[-1][0], sum(c.value for c in spend.claims) - rest + 1 + pick)]
    return (
        "the outputs exceed what is spent",
        spend.changed_copy(outputs=outputs),
        [clean_answer(c.way) for c in spend.claims],
    )


def signed_fault(spend: Spend, name: str, keys: dict[int, str], **members: int) -> tuple[str, Spend, list[list[Any]]]:
    """A fault that was signed."""
    lock_time, sequence = members.get("lock_time", spend.lock_time), members.get(
        "sequence", spend.claims[spend.main].sequence
    )
    version = members.get("version", spend.version)
    changed = spend.with_main(sequence=sequence)
    changed = changed.changed_copy(lock_time=lock_time, version=version)
    answers = [clean_answer(claim.way) for claim in spend.claims]
    answers[spend.main] = void_answer(spend.claims[spend.main], version, lock_time, sequence, keys)
    return name, changed, answers


def delay_fault(spend: Spend, variant: int) -> tuple[str, Any, list[list[Any]]]:
    """A sequence that to_local's delay does not take."""
    main = spend.main
    claim = spend.claims[main]
    keys, delay = dict(ways.WAYS[claim.way].keys), claim.delay
    alone = len(spend.claims) == 1
    table = [
        lambda: ("lower once it is signed", [["sequence", main, delay - 1]], void_answers(spend, sequence=delay - 1)),
        lambda: signed_fault(spend, "one block too early", keys, sequence=delay - 1),
        lambda: signed_fault(spend, "disabled", keys, sequence=0x80000000 | delay),
        lambda: signed_fault(spend, "in units of time", keys, sequence=0x00400000 | delay),
        lambda: (
            "another bit once it is signed",
            [["sequence", main, claim.sequence ^ 0x00010000]],
            void_answers(spend, sequence=claim.sequence ^ 0x00010000),
        ),
        lambda: (
            signed_fault(spend, "version 1", keys, version=1)
            if alone
            else signed_fault(spend, "disabled, final", keys, sequence=0xFFFFFFFF)
        ),
    ]
    return table[variant % len(table)]()


def sequence_fault(spend: Spend, variant: int, pick: int) -> tuple[str, Any, list[list[Any]]]:
    """A sequence is changed once it is signed, or does not do for a lock of the script."""
    main = spend.main
    claim = spend.claims[main]
    if ways.FAMILY[claim.way] == "to_local by delay":
        return delay_fault(spend, variant)
    if claim.way == "received by timeout" and variant % 2 == 0:
        return signed_fault(spend, "final", dict(ways.WAYS[claim.way].keys), sequence=0xFFFFFFFF)
    new = (claim.sequence ^ 1, 0xFFFFFFFF, 144 + pick, claim.sequence ^ 0x80000000)[variant % 4]
    new = 0xFFFFFFFC if new == claim.sequence else new
    return "changed once it is signed", [["sequence", main, new]], void_answers(spend, sequence=new)


def lock_fault(spend: Spend, variant: int, pick: int) -> tuple[str, Any, list[list[Any]]]:
    """A lock time is changed once it is signed, or does not do for a lock of the script."""
    main = spend.main
    claim = spend.claims[main]
    if claim.way == "received by timeout":
        keys = dict(ways.WAYS[claim.way].keys)
        table = [
            lambda: (
                "below the expiry once it is signed",
                [["lock", claim.expiry - 1]],
                void_answers(spend, claim.expiry - 1),
            ),
            lambda: signed_fault(spend, "one block too early", keys, lock_time=claim.expiry - 1),
            lambda: signed_fault(spend, "a time", keys, lock_time=500000000 + pick),
            lambda: (
                "higher once it is signed",
                [["lock", spend.lock_time + 1]],
                void_answers(spend, spend.lock_time + 1),
            ),
        ]
        return table[variant % 4]()
    new = (spend.lock_time + 1, spend.lock_time + 700000 + pick, 500000000 + pick)[variant % 3]
    return "changed once it is signed", [["lock", new]], void_answers(spend, new)


def forged_fault(spend: Spend, variant: int, pick: int) -> tuple[str, list[list[int | str]], Any]:
    """A token stands in the place of a signature or of another item; or an item that is almost one."""
    main = spend.main
    claim = spend.claims[main]
    places = signature_places(spend)
    item = places[pick % len(places)]
    token = public_key(claim.secrets[pick % len(places)]) + spend.digest(main) + b"\x01"
    other = 0 if ways.FAMILY[claim.way] in ways.PAIRED else 1
    refused = {"refused": f"ForgedToken {main} {item}"}
    bad = of_main(spend, ways.bad_form(claim.way, item))
    near = [
        b"\x04" + token[1:],
        token[:-1] + b"\x02",
        token[:-1],
        token + b"\x01",
        token[:-1] + b"\x00",
        b"\x01" + token[1:],
    ]
    table = [
        ("the right one", [["item", main, item, token.hex()]], refused),
        ("of any 65 bytes", [["item", main, item, "03" + "5a" * 64 + "01"]], refused),
        ("almost one", [["item", main, item, near[pick % 6].hex()]], bad),
        ("in another place", [["item", main, other, token.hex()]], {"refused": f"ForgedToken {main} {other}"}),
        ("an item too many", [["insert", main, 0, token.hex()]], {"refused": f"ForgedToken {main} 0"}),
        ("almost one", [["item", main, item, near[(pick + 3) % 6].hex()]], bad),
    ]
    return table[variant % len(table)]


def pieces(script: bytes) -> list[bytes]:
    """The opcodes of a script with their pushes."""
    found, at = [], 0
    while at < len(script):
        length = 1 + (script[at] if script[at] <= 75 else 0)
        found.append(script[at : at + length])
        at += length
    return found


def question(variant: int, pick: int) -> bytes:
    """What a script asks of the signature that stands on top: its size, its hash or its bytes."""
    if variant == 0:
        return assembled_script(opcodes.OP_SIZE, 71 if pick % 3 else 70, opcodes.OP_EQUALVERIFY)
    if variant == 1:
        return assembled_script(
            opcodes.OP_DUP, opcodes.OP_HASH160, crypto.hash_160(digest_of(f"hash {pick}")), opcodes.OP_EQUALVERIFY
        )
    return assembled_script(opcodes.OP_DUP, digest_of(f"bytes {pick}") * 2 + b"\x30" * 7, opcodes.OP_EQUALVERIFY)


def measured_fault(spend: Spend, variant: int, pick: int) -> tuple[str, Spend, list[list[Any]]] | None:
    """The script asks for the size, the hash or the bytes of its signature, on the path that is taken or on another
    one with as many items.
    """
    claim = spend.claims[spend.main]
    family = ways.FAMILY[claim.way]
    if family == "to_remote":
        return None
    table = ways.OTHER_QUESTIONS if variant % 4 == 3 and family in ways.OTHER_QUESTIONS else ways.QUESTIONS
    at, swapped = table[family]
    asked = question(variant % 4 if variant % 4 < 3 else 0, pick)
    if swapped:
        asked = assembled_script(opcodes.OP_SWAP) + asked + assembled_script(opcodes.OP_SWAP)
    parts = pieces(claim.script)
    script = b"".join(parts[:at]) + asked + b"".join(parts[at:])
    name = (
        "on another path"
        if table is ways.OTHER_QUESTIONS
        else ("its size", "its hash", "its bytes", "its size")[variant % 4]
    )
    answers = [clean_answer(c.way) for c in spend.claims]
    answers[spend.main] = ["not judged", "MeasuredSignature"]
    return name, spend.with_main(script=script), answers


FAULTS = (
    signature_fault,
    order_fault,
    extra_fault,
    amount_fault,
    sequence_fault,
    lock_fault,
    forged_fault,
    measured_fault,
)
