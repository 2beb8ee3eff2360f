"""What callers of the library for C ask of claims and of spends, and what the answers have to be. It is worked out here from what others signed, and no program of this repository is asked.

The HTLC transactions of BOLT 3's appendix C and the transactions of real/tests/rows.jsonl, which Electrum built and signed, are taken apart: each input is a claim by the path that its witness takes, with a
signature's slot for each item that the record has as a valid signature. The transaction is then made again by real/lib/transaction.py, with the sequences and the lock time that BOLT 3 has for the claims, with the
empty item in the place of each signature, and with the digests of BIP 143. Where the claims ask for the sequence and the lock time that the signed one has, it is the signed transaction, whose signatures are over
these digests.

Each transaction is finished with the signatures that it was signed with: the answer has to be the signed transaction of others, byte by byte, where the claims ask for its sequence and its lock time.

The plans that the pages show are taken apart alike, and each of their digests is worked out again. The penalties of the dumps in examples/ wait for nothing (BOLT 5).
"""
import copy
import glob
import json
import os
import sys

sys.dont_write_bytecode = True
TOP = os.path.dirname(os.path.dirname(os.path.dirname(os.path.abspath(__file__))))
sys.path.insert(0, TOP)
from real.lib import plan as plans
from real.lib import scripts, signatures
from real.lib.curve import Recorded
from real.lib.transaction import Digests, Input, Output, Transaction, hash160, read_transaction, sha256
from real.tests import bolt3

ROWS, RECORD = f"{TOP}/real/tests/rows.jsonl", f"{TOP}/real/tests/record.json"
PAGES, DUMPS = f"{TOP}/docs/*.md", f"{TOP}/examples/dumps/*.json"
KEY = "02" + 32 * "11"
MAX_MONEY = 2_100_000_000_000_000
# BOLT 3: of these, the signed transaction has the sequence and the lock time that the script asks for
AS_SIGNED = ("delayed", "success")


def digits(data):
    return data.hex() or "-"


def slot_of(key, item):
    """The slot that an item fills, which a key signs or none does."""
    if key is not None:
        return f"s={key.hex()}"
    return f"p={sha256(item).hex()}" if len(item) == 32 else f"e={digits(item)}"


def sign_line(index, place, key, digest):
    return f"sign {index} {place} {key.hex()} {digest.hex()}\n"


def told_ids(whole):
    """The line of a transaction's id, in both orders."""
    txid = sha256(sha256(whole.stripped_bytes()))
    return f"txid {txid.hex()} shown {txid[::-1].hex()}\n"


def told_spend(whole, claimed, lines):
    """What is told of a transaction before anybody signs, whose inputs are worth so much: its bytes, its weight with 73 bytes for each signature (BIP 141), its fee, its id, and the lines of the signatures."""
    weight = 3 * len(whole.stripped_bytes()) + len(whole.bytes()) + 73 * len(lines)
    fee = claimed - sum(it.value for it in whole.outputs)
    return f"tx {whole.bytes().hex()}\nweight {weight} fee {fee}\n{told_ids(whole)}" + "".join(lines)


class Claim:
    """A claim: a script, the program of its output, the outpoint, the value, a path, and the slots, the top of the stack first, as callers read them."""

    def __init__(self, script, program, outpoint, value, path, slots):
        self.script, self.program, self.outpoint, self.value, self.path, self.slots = script, program, outpoint, value, path, slots

    def text(self):
        txid, index = self.outpoint[:32].hex(), int.from_bytes(self.outpoint[32:], "little")
        return "/".join(map(str, (digits(self.script), digits(self.program), txid, index, self.value, self.path, ",".join(self.slots) or "-")))

    def changed_copy(self, **values):
        found = copy.copy(self)
        found.__dict__.update(values)
        return found


class Signed:
    """An input of a signed transaction: the claim, the items that stand in its witness before anybody signs, and the keys that sign, by the items' places."""

    def __init__(self, kind, given, spent, path, digest, curve):
        self.kind, self.given, self.spent = kind, given, spent
        is_key_hash = scripts.is_key_hash(spent.program)
        self.script = scripts.key_script(spent.program) if is_key_hash else given.witness[-1]
        self.items, self.last = (given.witness, []) if is_key_hash else (given.witness[:-1], [self.script])
        self.keys = {}
        for place, item in enumerate(self.items):
            keys = signatures.candidate_keys(self.script, self.items) if signatures.is_strict_der(item) else []
            self.keys.update({place: key for key in keys if curve.verify(key, digest, item[:-1])})
        self.claim = Claim(self.script, spent.program, given.outpoint, spent.value, path, list(map(self.slot, reversed(range(len(self.items))))))

    def slot(self, place):
        return slot_of(self.keys.get(place), self.items[place])

    def blanks(self):
        """The witness before anybody signs."""
        return [b"" if place in self.keys else item for place, item in enumerate(self.items)] + self.last

    def preimages(self):
        return [it.hex() for place, it in enumerate(self.items) if len(it) == 32 and place not in self.keys]


def needs(kind, signed, lock_time):
    """The height and the sequence that a claim asks for (BOLT 3, BOLT 5)."""
    return (lock_time if kind == "direct_timeout" else 0, signed.given.sequence if kind == "delayed" else 0)


def from_bolt3(curve):
    """Each HTLC transaction of the appendix, with its kind, and what it spends."""
    for _, transaction, spent, end, path in bolt3.htlc_transactions(bolt3.read()):
        yield ["success" if end == bolt3.RECEIVED_END else "timeout"], transaction, [spent], [path]


def from_electrum():
    """Each transaction of Electrum's without a fault."""
    with open(ROWS, encoding="utf-8") as file:
        for row in map(json.loads, file):
            kinds, _, fault = row["name"].partition(" / ")
            if fault == "no_fault":
                spent = [Output(value, bytes.fromhex(program)) for value, program in row["spent"]]
                yield kinds.split()[1].split("+"), read_transaction(bytes.fromhex(row["transaction"])), spent, [it["path"] for it in row["answers"]]


def signed_inputs(curve):
    """The inputs of each signed transaction, with the transaction."""
    for kinds, transaction, spent, paths in [*from_bolt3(curve), *from_electrum()]:
        digests, found = Digests(transaction), []
        for index, (kind, given, output, path) in enumerate(zip(kinds, transaction.inputs, spent, paths)):
            code = scripts.key_script(output.program) if scripts.is_key_hash(output.program) else given.witness[-1]
            found.append(Signed(kind, given, output, path, digests.digest_of(index, code, output.value), curve))
        if not all(it.keys for it in found):
            raise SystemExit("library: the record has no signature of an input")
        yield transaction, found


def unsigned_transaction(transaction, inputs):
    """The transaction before anybody signs, and the lines of the signatures that it lacks: by input, the top of the stack first."""
    asked = [needs(it.kind, it, transaction.lock_time) for it in inputs]
    made = [Input(it.given.outpoint, b"", sequence, it.blanks()) for it, (_, sequence) in zip(inputs, asked)]
    whole = Transaction(2, made, transaction.outputs, max(height for height, _ in asked))
    if all(it.kind in AS_SIGNED for it in inputs) and whole.stripped_bytes() != Transaction(2, transaction.inputs, transaction.outputs, transaction.lock_time).stripped_bytes():
        raise SystemExit("library: the transaction that was signed is another one")
    digests = Digests(whole)
    lines = [
        sign_line(index, place, it.keys[place], digests.digest_of(index, it.script, it.spent.value))
        for index, it in enumerate(inputs)
        for place in sorted(it.keys, reverse=True)
    ]
    return whole, told_spend(whole, sum(it.spent.value for it in inputs), lines)


def asked(claims, outputs, preimages):
    shown = ";".join(f"{it.value}/{digits(it.program)}" for it in outputs)
    return f"{';'.join(it.text() for it in claims) or '-'} {shown or '-'} {','.join(preimages) or '-'}"


def spend(*asked_for):
    return f"spend {asked(*asked_for)}"


def finish(claims, outputs, preimages, signed):
    """With signatures, each an input, the place of an item and the item."""
    shown = ",".join(f"{index}/{place}/{digits(item)}" for index, place, item in signed)
    return f"finish {asked(claims, outputs, preimages)} {shown or '-'}"


def signatures_of(inputs):
    """The signatures of a signed transaction: by input, the top of the stack first."""
    return [(index, place, it.items[place]) for index, it in enumerate(inputs) for place in sorted(it.keys, reverse=True)]


def finished(transaction, inputs):
    """The transaction that is made of the claims, with the signatures that were given: where all claims ask for what was signed, that of the signer."""
    whole, told = unsigned_transaction(transaction, inputs)
    weight = int(told.split("weight ")[1].split()[0])
    for made, it in zip(whole.inputs, inputs):
        made.witness = it.items + it.last
    if not 0 <= weight - 3 * len(whole.stripped_bytes()) - len(whole.bytes()) <= 64 * len(signatures_of(inputs)):
        raise SystemExit("library: the transaction has another weight than is told")
    if all(it.kind in AS_SIGNED for it in inputs) and whole.bytes() != transaction.bytes():
        raise SystemExit("library: the transaction that was finished is another one")
    return f"tx {whole.bytes().hex()}\n{told_ids(whole)}"


def signed_spends():
    """The claims and the spends of what was signed."""
    found, first = {}, {}
    for transaction, inputs in signed_inputs(Recorded.read(RECORD)):
        _, told = unsigned_transaction(transaction, inputs)
        preimages = [preimage for it in inputs for preimage in it.preimages()]
        claims = [it.claim for it in inputs]
        found[spend(claims, transaction.outputs, preimages)] = told
        found[finish(claims, transaction.outputs, preimages, signatures_of(inputs))] = finished(transaction, inputs)
        for it in inputs:
            height, sequence = needs(it.kind, it, transaction.lock_time)
            found[f"claim {it.claim.text()}"] = f"due {height} {sequence}\n"
            first.setdefault(it.kind, (it, transaction))
    return found, first


def prepared(script, path, keys=(), preimages=()):
    return f"slots {digits(script)} {path} {','.join(map(digits, keys)) or '-'} {','.join(preimages) or '-'}"


def prepared_slots():
    """The slots of what was signed, by the keys that signed and the preimages that were given; and those of paths that ask for more than is given."""
    found = {}
    for _, inputs in signed_inputs(Recorded.read(RECORD)):
        for it in inputs:
            # the key of a hash is an item of the witness
            keys = [*dict.fromkeys([*it.keys.values(), *(item for item in it.items if len(item) == 33)])]
            found[prepared(it.script, it.claim.path, keys, it.preimages())] = ",".join(it.claim.slots) + "\n"
    one, two, three = (f"02{32 * byte}" for byte in ("11", "22", "33"))
    choice = bytes.fromhex(f"5221{one}21{two}21{three}53ae")
    hashed = bytes.fromhex("76a914") + hash160(bytes.fromhex(two)) + bytes.fromhex("88ac")
    known = 32 * "07"
    imaged = bytes.fromhex("82012088a914") + hash160(bytes.fromhex(known)) + bytes.fromhex("87")
    signed = {it: f"s={it}" for it in (one, two, three)}
    rows = [
        (choice, 0, [], [], f"{signed[three]},{signed[two]},e=-"),
        (choice, 0, [one], [], f"{signed[three]},{signed[one]},e=-"),
        (choice, 0, [three, one], [], f"{signed[three]},{signed[one]},e=-"),
        (choice, 0, [two, one], [], f"{signed[two]},{signed[one]},e=-"),
        (hashed, 0, [one, two], [], f"e={two},{signed[two]}"),
        (hashed, 0, [one], [], "refused Unmet 0"),
        (imaged, 0, [], [32 * "08", known], f"p={sha256(bytes.fromhex(known)).hex()}"),
        (imaged, 0, [], [32 * "08"], "refused Unmet 0"),
        (bytes.fromhex("63516752 68".replace(" ", "")), 0, [], [], "e=01"),
        (bytes.fromhex("6351675268"), 1, [], [], "e=-"),
        (bytes.fromhex("6351675268"), 2, [], [], "refused NoSuchPath"),
        (bytes.fromhex("51"), 0, [], [], "-"),
        (bytes.fromhex("51"), 2**64 - 1, [], [], "refused NoSuchPath"),
        (bytes.fromhex("ff"), 0, [], [], "refused BadOpcode 0"),
        (bytes.fromhex("6351"), 0, [], [], "refused OpenBranch"),
    ]
    found.update({prepared(script, path, list(map(bytes.fromhex, keys)), shown): f"{told}\n" for script, path, keys, shown, told in rows})
    return found


def noted_scripts():
    """Scripts by which others can spend, by which nobody can, and with branches that end by a stricter rule."""
    key, hashed = f"21{KEY}ac", 20 * "07"
    rows = {
        "51": [(1, 0)],
        "6351675268": [(1, 0), (1, 1)],
        f"a914{hashed}87": [(2, 0)],
        f"63a914{hashed}8767{key}68": [(2, 0)],
        f"63{key}6751 68".replace(" ", ""): [(1, 1)],
        key: [],
        "00": [(3, 0)],
        f"41{65 * '04'}ac": [(4, 1)],
        f"63{key}6741{65 * '04'}ac68": [(4, 5)],
    }
    found = {f"notes {script}": "notes\n" + "".join(f"note {kind} {at}\n" for kind, at in told) for script, told in rows.items()}
    return {**found, "notes ff": "refused BadOpcode 0\n", "notes 6351": "refused OpenBranch\n"}


def shown_plans():
    """The plans that the pages show, each with the paths of its inputs."""
    for page in sorted(glob.glob(PAGES)):
        with open(page, encoding="utf-8") as file:
            for line in file:
                if line.startswith('{"transaction":') and '"inputs":' in line:
                    yield plans.read_plan(line), [it["path"] for it in json.loads(line)["inputs"]]


def planned_claims(plan, paths):
    """The claims of a plan, and what is made of them before anybody signs."""
    whole, claims, lines = copy.deepcopy(plan.transaction), [], []
    for index, (given, it, path) in enumerate(zip(whole.inputs, plan.inputs, paths)):
        keys = {each.item: each.key for each in it.wanted}
        items = it.witness if scripts.is_key_hash(it.output.program) else it.witness[:-1]
        places = range(len(items))[::-1]
        claims.append(Claim(it.script, it.output.program, given.outpoint, it.output.value, path, [slot_of(keys.get(place), items[place]) for place in places]))
        given.witness = [item or b"" for item in it.witness]
        lines += [sign_line(index, place, keys[place], each.digest) for place in places for each in it.wanted if each.item == place]
    return claims, told_spend(whole, sum(it.output.value for it in plan.inputs), lines)


def from_pages():
    """The spends of the plans that the pages show, their claims, and those of dumps."""
    found = {}
    for plan, paths in shown_plans():
        claims, told = planned_claims(plan, paths)
        found[spend(claims, plan.transaction.outputs, [item.hex() for it in plan.inputs for item in it.preimages()])] = told
        for claim, given, it in zip(claims, plan.transaction.inputs, plan.inputs):
            # of an HTLC's claims that by a preimage waits for no height
            found[f"claim {claim.text()}"] = f"due {0 if it.preimages() else plan.transaction.lock_time} {given.sequence}\n"
    for file in sorted(glob.glob(DUMPS)):
        with open(file, encoding="utf-8") as text:
            found.update({f"claim {claim_of(it).text()}": "due 0 0\n" for it in penalties(json.load(text))})
    return found


def penalties(value):
    """The claims in a dump, wherever they stand."""
    if isinstance(value, dict) and "slots" in value:
        return [value]
    parts = value.values() if isinstance(value, dict) else value if isinstance(value, list) else []
    return [claim for part in parts for claim in penalties(part)]


def claim_of(told):
    """A claim as a dump has it."""
    txid, index = told["outpoint"].split(":")
    slots = [f"{kind[0]}={value or '-'}" for kind, value in told["slots"]]
    return Claim(bytes.fromhex(told["script"]), bytes.fromhex(told["program"]), bytes.fromhex(txid) + int(index).to_bytes(4, "little"), told["value"], told["path"], slots)


def changed_slots(slots, at, slot):
    return [*slots[:at], slot, *slots[at + 1 :]]


def refused_claims(first):
    """Changed claims, each refused for the first of its faults."""
    good = first["delayed"][0].claim
    slots = good.slots
    faults = [
        ({"path": 2}, "NoSuchPath"),
        ({"path": 2**64 - 1}, "NoSuchPath"),
        ({"path": 2, "slots": []}, "NoSuchPath"),
        ({"slots": slots[1:]}, "WrongArity"),
        ({"slots": [*slots, "e=-"]}, "WrongArity"),
        ({"slots": slots[1:], "program": good.program[:-1] + b"\x00"}, "WrongArity"),
        ({"program": good.program[:-1] + bytes([good.program[-1] ^ 1])}, "WrongProgram"),
        ({"program": b""}, "WrongProgram"),
        ({"program": b"\x00\x14" + good.program[2:22]}, "WrongProgram"),
        ({"path": 0}, "Unmet 0"),
        ({"slots": changed_slots(slots, 1, f"s={KEY}")}, "Unmet 1"),
        ({"slots": changed_slots(slots, 1, "e=-")}, "Unmet 1"),
        ({"slots": changed_slots(slots, 1, f"p={32 * '00'}")}, "Unmet 1"),
        ({"slots": changed_slots(slots, 1, f"e={520 * '00'}")}, "Unmet 1"),
        ({"slots": changed_slots(slots, 1, f"e={521 * '00'}")}, "ItemTooLong 1"),
        ({"slots": changed_slots(slots, 1, f"s=04{KEY[2:]}")}, "NotAKey 1"),
        ({"slots": changed_slots(changed_slots(slots, 0, f"e={521 * '00'}"), 1, f"s=04{KEY[2:]}")}, "ItemTooLong 0"),
        ({"slots": [f"s=01{KEY[2:]}"], "script": b"\xff"}, "NotAKey 0"),
        ({"script": b"\xff"}, "BadOpcode 0"),
        ({"script": b"\x51\x02\x00", "path": 7}, "Truncated 1"),
        ({"script": bytes(10_001)}, "TooLong"),
        ({"script": b"\x63\x51", "path": 7}, "OpenBranch"),
        # DUP IF IF 1 ELSE 1 ENDIF ELSE DROP 1 ENDIF: the second path asks for a true and a false slot 0
        ({"script": bytes.fromhex("7663635167516867755168"), "program": b"\x00\x20" + sha256(bytes.fromhex("7663635167516867755168")), "path": 1, "slots": ["e=01"]}, "Contradiction"),
    ]
    return {f"claim {good.changed_copy(**values).text()}": f"refused {word}\n" for values, word in faults}


def lone_claim(script, slots, path=0, value=1_000):
    """A claim on an output with this script."""
    script = bytes.fromhex(script)
    return Claim(script, b"\x00\x20" + sha256(script), bytes(32) + (7).to_bytes(4, "little"), value, path, slots)


def refused_spends(first):
    """Spends that are refused for the first of their faults, and those on the other side of each bound."""
    signed, transaction = first["success"]
    claim, outputs, preimages = signed.claim, transaction.outputs, signed.preimages()
    other = claim.changed_copy(outpoint=bytes(36))
    # SIZE 66 EQUALVERIFY KEY CHECKSIG measures the signature
    measured = lone_claim(f"8201428821{KEY}ac", [f"s={KEY}"])
    # KEY CHECKSIG wants no preimage
    without = lone_claim(f"21{KEY}ac", [f"s={KEY}"])
    program = outputs[0].program
    most, over = Output(claim.value, program), Output(claim.value + 1, program)
    faults = [
        ([], outputs, preimages, "NoInputs"),
        ([], [Output(MAX_MONEY + 1, program)], [], "NoInputs"),
        ([claim, claim], outputs, preimages, "SameOutpoint claim 1"),
        ([claim], [over], preimages, "OutputsExceed"),
        ([claim], [most, Output(1, b"")], preimages, "OutputsExceed"),
        ([claim, other, claim.changed_copy(value=1), other], [Output(2 * claim.value + 1, program)], preimages, "SameOutpoint claim 2"),
        ([claim, other], [Output(2 * claim.value + 1, program)], preimages, "OutputsExceed"),
        ([measured], [], [], "MeasuredSignature claim 0"),
        ([claim, measured, measured.changed_copy(outpoint=bytes(36))], [], [], "MeasuredSignature claim 1"),
        ([claim], [over], [], "OutputsExceed"),
        ([claim], outputs, [], "NoPreimage claim 0"),
        ([without, other, claim], [], [], "NoPreimage claim 1"),
        ([without, without.changed_copy(outpoint=bytes(36)), claim], [], [32 * "07"], "NoPreimage claim 2"),
        ([claim], [Output(MAX_MONEY + 1, program)], preimages, "ValueTooLarge output 0"),
        ([claim], [Output(MAX_MONEY + 1, bytes(10_001))], preimages, "ValueTooLarge output 0"),
        ([claim], [most, Output(MAX_MONEY, bytes(10_001))], preimages, "OverLimit output 1"),
        ([claim], [Output(MAX_MONEY, bytes(10_000))], preimages, "OutputsExceed"),
        ([claim.changed_copy(path=64)], [most, most, Output(MAX_MONEY + 1, program)], preimages, "ValueTooLarge output 2"),
        ([claim, other.changed_copy(path=64)], [over], preimages, "NoSuchPath claim 1"),
        ([claim.changed_copy(slots=[]), other.changed_copy(path=64)], outputs, preimages, "WrongArity claim 0"),
        ([claim, other, measured.changed_copy(slots=[f"s=04{KEY[2:]}"])], outputs, preimages, "NotAKey 0 claim 2"),
        ([claim, other.changed_copy(slots=changed_slots(claim.slots, 2, f"e={521 * '00'}"))], outputs, preimages, "ItemTooLong 2 claim 1"),
        ([claim, other.changed_copy(script=b"\x51\x51\xff")], outputs, preimages, "BadOpcode 2 claim 1"),
    ]
    return {spend(claims, given, shown): f"refused {word}\n" for claims, given, shown, word in faults}


def der(r, s, hash_type=1):
    """Two numbers in DER, with a hash type (BIP 66)."""
    numbers = b"".join(bytes([2, len(it)]) + it for it in (r, s))
    return bytes([0x30, len(numbers)]) + numbers + bytes([hash_type])


def longest(r_size, s_size):
    """Numbers of these sizes, each with the byte 00 that it needs before it."""
    return b"\x00" + (r_size - 1) * b"\x80", b"\x00" + (s_size - 1) * b"\x80"


ONE = b"\x01"
# by BIP 66: the shortest and the longest, a byte of 00 where it is needed and where it is the number, and a number whose first bit is not set
STRICT = [der(ONE, ONE), der(*longest(33, 33)), der(*longest(34, 32)), der(b"\x00\x80", b"\x00"), der(b"\x7f\xff", b"\x01\x00")]
NOT_STRICT = [
    b"",
    b"\x30",
    der(b"", ONE),
    der(ONE, b""),
    der(*longest(34, 33)),
    der(b"\x80", ONE),
    der(ONE, b"\x80"),
    der(b"\x00\x7f", ONE),
    der(ONE, b"\x00\x00"),
    der(ONE, ONE) + b"\x01",
    der(ONE, ONE)[:-1],
    b"\x31" + der(ONE, ONE)[1:],
    b"\x30\x05" + der(ONE, ONE)[2:],
    b"\x30\x06\x03" + der(ONE, ONE)[3:],
    b"\x30\x06\x02\x02" + der(ONE, ONE)[4:],
    b"\x30\x06\x02\x01\x01\x02\x00\x01\x01",
    # a token, which stands for a signature in the proofs
    bytes.fromhex(KEY) + bytes(32) + b"\x01",
]


def refused_finishes(first):
    """Signatures that are refused for the first of their faults, and those on the other side of each bound."""
    signed, transaction = first["success"]
    claims, outputs, preimages = [signed.claim], transaction.outputs, signed.preimages()
    (_, top, first_item), (_, below, second) = given = signatures_of([signed])
    found, late = {}, (0, below, second)
    for item in STRICT:
        whole, _ = unsigned_transaction(transaction, [signed])
        whole.inputs[0].witness = [item if place == top else it for place, it in enumerate(signed.items)] + signed.last
        found[finish(claims, outputs, preimages, [(0, top, item), late])] = f"tx {whole.bytes().hex()}\n{told_ids(whole)}"
    cases = [([(0, top, item), late], f"NotDer {top} input 0") for item in NOT_STRICT]
    cases += [([(0, top, first_item[:-1] + bytes([it])), late], f"NotSighashAll {top} input 0") for it in (0, 2, 3, 0x81, 0x82, 0x83, 0xFF)]
    cases += [
        ([], f"NoSignature {top} input 0"),
        (given[:1], f"NoSignature {below} input 0"),
        (given[1:], f"NoSignature {top} input 0"),
        (given[::-1], f"NoSignature {top} input 0"),
        ([given[0], given[0]], f"NoSignature {below} input 0"),
        ([(1, top, first_item), late], f"NoSignature {top} input 0"),
        ([(0, top + 1, first_item), late], f"NoSignature {top} input 0"),
        ([*given, late], f"NotAsked {below} input 0"),
        ([*given, (7, 9, b"")], "NotAsked 9 input 7"),
        ([(0, top, b""), (0, below, b"")], f"NotDer {top} input 0"),
        ([given[0], (0, below, second[:-1])], f"NotDer {below} input 0"),
    ]
    found.update({finish(claims, outputs, preimages, rows): f"refused {word}\n" for rows, word in cases})
    # the spend is refused before its signatures
    before = [([], outputs, preimages, "NoInputs"), (claims, [Output(signed.claim.value + 1, outputs[0].program)], preimages, "OutputsExceed"), (claims, outputs, [], "NoPreimage claim 0"), ([*claims, *claims], outputs, preimages, "SameOutpoint claim 1"), ([signed.claim.changed_copy(path=64)], outputs, preimages, "NoSuchPath claim 0")]
    found.update({finish(*spent, []): f"refused {word}\n" for *spent, word in before})
    return found


def wanted_answers():
    """Each line that callers read, with what they must print."""
    found, first = signed_spends()
    return {**found, **prepared_slots(), **noted_scripts(), **from_pages(), **refused_claims(first), **refused_spends(first), **refused_finishes(first)}
