"""Makes the calls that standard input names, a line each, and prints what each answers, as answers.c does."""
import re
import sys
from typing import List, Optional, Union

import enforce


def key(source: Union[bytes, int]) -> str:
    return f"slot {source}" if isinstance(source, int) else source.hex()


def fact_text(fact: enforce.Fact) -> str:
    holds = "yes" if fact.holds else "no"
    said = {
        "hash": lambda: f"{fact.constant.hex()} {holds}",
        "size": lambda: f"{fact.number} {holds}",
        "truth": lambda: holds,
        "is": lambda: f"{fact.constant.hex() or '-'} {holds}",
        "token": lambda: f"{key(fact.keys[0])} {holds}",
        "assigned": lambda: f"{','.join(map(key, fact.keys))} {holds}",
        "lock": lambda: str(fact.number),
        "age": lambda: str(fact.number),
    }
    slots = ",".join(map(str, fact.slots))
    return " ".join(it for it in (fact.word, slots, said.get(fact.word, str)()) if it)


def or_dash(number: Optional[int]) -> Union[int, str]:
    return "-" if number is None else number


def listing(script: bytes) -> str:
    paths = enforce.paths(script)
    lines = [f"paths {len(paths)}"]
    for k, it in enumerate(paths):
        lines.append(f"path {k} arity {it.arity} counted {it.counted} height {it.height} lock {or_dash(it.lock)} age {or_dash(it.age)}")
        lines += [f"  {fact_text(fact)}" for fact in it.facts]
    return "\n".join(lines)


def data(text: str) -> bytes:
    return bytes.fromhex("" if text == "-" else text)


def slot(text: str) -> enforce.Slot:
    kind, value = text.split("=")
    return {"s": enforce.Signature, "p": enforce.Preimage, "e": enforce.Exact}[kind](data(value))


def parts(text: str, separator: str) -> List[str]:
    return [] if text == "-" else text.split(separator)


def claim(text: str) -> enforce.Claim:
    script, program, txid, index, value, path, slots = text.split("/")
    return enforce.Claim(data(txid), int(index), int(value), data(script), data(program), int(path), tuple(map(slot, parts(slots, ","))))


def output(text: str) -> enforce.Output:
    value, script = text.split("/")
    return enforce.Output(int(value), data(script))


def spend(claims: str, outputs: str, preimages: str) -> str:
    found = enforce.unsigned_spend(list(map(claim, parts(claims, ";"))), list(map(output, parts(outputs, ";"))), list(map(data, parts(preimages, ","))))
    lines = [f"tx {found.tx.hex()}", f"weight {found.weight} fee {found.fee_sat}", ids(found)]
    return "\n".join([*lines, *(f"sign {it.input} {it.item} {it.key.hex()} {it.digest.hex()}" for it in found.signatures)])


def ids(found: Union[enforce.UnsignedSpend, enforce.Finished]) -> str:
    return f"txid {found.txid.hex()} shown {found.shown_txid.hex()}"


def signed(text: str) -> enforce.Signed:
    index, item, signature = text.split("/")
    return enforce.Signed(int(index), int(item), data(signature))


def finish(claims: str, outputs: str, preimages: str, signatures: str) -> str:
    given = list(map(claim, parts(claims, ";"))), list(map(output, parts(outputs, ";"))), list(map(data, parts(preimages, ",")))
    found = enforce.finish(*given, list(map(signed, parts(signatures, ","))))
    return f"tx {found.tx.hex()}\n{ids(found)}"


def due_line(text: str) -> str:
    found = enforce.accept(claim(text))
    return f"due {found.height} {found.sequence}"


def htlc(text: str) -> enforce.Htlc:
    direction, expiry, payment_hash = text.split("/")
    return enforce.Htlc(int(direction), int(expiry), data(payment_hash))


def slot_text(it: enforce.Slot) -> str:
    if isinstance(it, enforce.GivenSignature):
        return f"g={it.key.hex()}:{it.digest.hex()}:{it.tx.hex()}"
    if isinstance(it, enforce.Signature):
        return f"s={it.key.hex()}"
    return f"p={it.hash.hex()}" if isinstance(it, enforce.Preimage) else f"e={it.item.hex() or '-'}"


def claim_text(it: enforce.Claim) -> str:
    slots = ",".join(map(slot_text, it.slots))
    return f"{it.script.hex() or '-'}/{it.program.hex() or '-'}/{it.txid.hex()}/{it.index}/{it.value}/{it.path}/{slots}"


def commitment_of(text: str, htlcs: str) -> enforce.Commitment:
    channel_type, delay, *keys, own, peers = text.split("/")
    funding = None if own == "-" else (data(own), data(peers))
    return enforce.Commitment(int(channel_type), int(delay), *map(data, keys), tuple(map(htlc, parts(htlcs, ";"))), funding)


def found_text(found: enforce.Found) -> str:
    lines = [f"found {it.kind} {it.from_height} {or_dash(it.deadline_height)} {claim_text(it.claim)}" for it in found.claims]
    return "\n".join([*lines, " ".join(["others", *(f"{it.index}:{it.kind}" for it in found.others)])])


def revoked(commitment: str, htlcs: str, tx: str, height: str) -> str:
    return found_text(enforce.revoked(commitment_of(commitment, htlcs), data(tx), int(height)))


def close(whose: str, commitment: str, htlcs: str, feerate: str, preimages: str, tx: str, height: str) -> str:
    known = list(map(data, parts(preimages, ",")))
    return found_text(enforce.close(int(whose), commitment_of(commitment, htlcs), int(feerate), known, data(tx), int(height)))


def form_text(kind: int, given: List[bytes], expiry_height: int, delay_blocks: int) -> str:
    first, second, third, payment_hash = given
    htlc_keys = {"revocation": first, "remote_htlc": second, "local_htlc": third, "payment_hash": payment_hash}
    makers = {
        enforce.FormKind.FUNDING: lambda: enforce.Funding(peers=second, own=third),
        enforce.FormKind.TO_LOCAL: lambda: enforce.ToLocal(revocation=first, delayed=third, delay_blocks=delay_blocks),
        enforce.FormKind.KEY_HASH: lambda: enforce.KeyHash(key=second),
        enforce.FormKind.OFFERED: lambda: enforce.Offered(**htlc_keys),
        enforce.FormKind.RECEIVED: lambda: enforce.Received(**htlc_keys, expiry_height=expiry_height),
        enforce.FormKind.OFFERED_WITH_ANCHORS: lambda: enforce.OfferedWithAnchors(**htlc_keys),
        enforce.FormKind.RECEIVED_WITH_ANCHORS: lambda: enforce.ReceivedWithAnchors(**htlc_keys, expiry_height=expiry_height),
    }
    # no class has another kind
    return enforce.form_script(makers[kind]()).hex() if kind in makers else "refused NoSuchForm"


def slots(script: str, path: str, keys: str, preimages: str) -> str:
    found = enforce.path_slots(data(script), int(path), list(map(data, parts(keys, ","))), list(map(data, parts(preimages, ","))))
    return ",".join(map(slot_text, found)) or "-"


def notes(script: str) -> str:
    return "\n".join(["notes", *(f"note {it.kind:d} {it.at}" for it in enforce.notes(data(script)))])


def answer(name: str, *words: str) -> str:
    if name == "slots":
        return slots(*words)
    if name == "notes":
        return notes(*words)
    if name == "revoked":
        return revoked(*words)
    if name == "close":
        return close(*words)
    if name == "claim":
        return due_line(*words)
    if name == "spend":
        return spend(*words)
    if name == "finish":
        return finish(*words)
    if name == "form":
        return form_text(int(words[0]), list(map(data, words[1:5])), int(words[5]), int(words[6]))
    script = data(words[0])
    if name == "text":
        return enforce.text(script).removesuffix("\n")
    return listing(script) if name == "list" else enforce.program(script).hex()


for line in sys.stdin:
    try:
        print(answer(*line.split()), ".", sep="\n")
    except enforce.Refused as refused:
        # the word, the number and the place, without what each counts
        print("refused " + re.sub(r" (?:at|of)(?: (?:byte|opcode|slot|key|HTLC|item))?(?= )", "", str(refused)), ".", sep="\n")
