#!/usr/bin/env python3
"""What `enforce` notes on standard error of scripts and of scenarios, by rules of this file's own.

  oracles/notes.py    status 1 where a call notes something else

Opcodes have the names of Bitcoin Core's script.h. Which branches end by a rule that is stricter than consensus is worked by hand from BIPs 65, 66, 112, 141 and 147, and from docs/ENFORCE.md. By which branches nobody can spend is
worked out by dead_ends.py. Scripts are run by consensus too, on items that are unlike: no run may end well that goes the way of such a branch. That two facts of a path contradict
each other is found by trying items that are unlike in their bytes, their length, what they hash to, and whether they are true, a key or a token. The parts of scenarios are those of docs/SCENARIOS.md.
"""
import datetime
import itertools
import json
import os
import random
import subprocess
import sys

import bitcoin
from answers import LIMIT, program
from consensus import HASHES, NAMES, goes_past, is_taken, opcodes
from dead_ends import dead_ends, on_the_way

TOP = os.path.dirname(os.path.dirname(os.path.abspath(__file__)))

# ---- opcodes

CHECKSIGADD, PUSHDATA4, LOCK = 0xBA, 0x4E, 0xB1
# the field of secp256k1, the number of its points, and the point G (SEC 2, 2.4.1)
FIELD = 2**256 - 2**32 - 977
ORDER = 0xFFFFFFFFFFFFFFFFFFFFFFFFFFFFFFFEBAAEDCE6AF48A03BBFD25E8CD0364141
G = 0x79BE667EF9DCBBAC55A06295CE870B07029BFCDB2DCE28D959F2815B16F81798, 0x483ADA7726A3C4655DA4FBFC0E1108A8FD17B448A68554199C47D08FFB10D4B8
KNOWN = {*range(0x4C), *range(0x51, 0x61), 0x63, 0x64, 0x67, 0x68, 0x75, 0x76, 0x7C, 0x82, 0x87, 0x88, 0xA9, 0xAC, 0xAE, 0xB1, 0xB2}


def opcode_rows():
    """Each byte that is no opcode of the table, after a push of 10."""
    for byte in range(256):
        if byte not in KNOWN:
            at = byte - 0x4C
            what = f"OP_{NAMES[at]} in Bitcoin, which is not in the table" if at < len(NAMES) else "which is no opcode of Bitcoin"
            if byte == CHECKSIGADD:
                what = "OP_CHECKSIGADD in tapscript (BIP 342), which is no opcode of version 0"
            notes = [f"byte 1 is {byte:02x}, {what}", "pushed before it: the number 10 at byte 0"]
            yield f"5a{byte:02x}", notes
            # two more after a number, unless they are what a PUSHDATA pushes
            yield f"5a{byte:02x}5193ad", notes + ["not in the table either: 93 (OP_ADD) at byte 3, ad (OP_CHECKSIGVERIFY) at byte 4"] * (byte > PUSHDATA4)
    # of those after the first 16 are named, and the others are counted
    for count, rest in ((15, ""), (16, ""), (17, ", and 1 more"), (18, ", and 2 more")):
        named = ", ".join(f"93 (OP_ADD) at byte {at}" for at in range(2, 2 + min(count, 16)))
        yield "5aad" + "93" * count, ["byte 1 is ad, OP_CHECKSIGVERIFY in Bitcoin, which is not in the table", "pushed before it: the number 10 at byte 0", f"not in the table either: {named}{rest}"]


# ---- keys


def y_of(x):
    """The even y coordinate of the point that has this x coordinate, if there is one."""
    y = pow(x**3 + 7, (FIELD + 1) // 4, FIELD)
    return None if x >= FIELD or (y * y - x**3 - 7) % FIELD else y if y % 2 == 0 else FIELD - y


def is_point(x):
    """Whether a point of secp256k1 has this x coordinate."""
    return y_of(x) is not None


def plus(one, other):
    """The sum of two points whose sum is a point."""
    if one == other:
        slope = 3 * one[0] ** 2 * pow(2 * one[1], -1, FIELD)
    else:
        slope = (other[1] - one[1]) * pow(other[0] - one[0], -1, FIELD)
    x = (slope**2 - one[0] - other[0]) % FIELD
    return x, (slope * (one[0] - x) - one[1]) % FIELD


def times(factor):
    """G, this many times."""
    found, doubled = None, G
    while factor:
        if factor % 2:
            found = doubled if found is None else plus(found, doubled)
        doubled, factor = plus(doubled, doubled), factor // 2
    return found


def short(point):
    """A key of 33 bytes."""
    return f"{2 + point[1] % 2:02x}{point[0]:064x}"


def long(point, first=4):
    """A key of 65 bytes, with this first byte."""
    return f"{first:02x}{point[0]:064x}{point[1]:064x}"


# ---- branches that end by a stricter rule

KEY = "02" + "12" * 32
OTHER = "03" + "22" * 32
THIRD = "02" + "44" * 32
DER = "300602010102010101"
LONG = long((int("12" * 32, 16), y_of(int("12" * 32, 16))))
NO_KEY = "no key here (a key has 33 bytes, and begins with 02 or 03)"
NO_SIGNATURE = "no signature here (signatures are tokens)"
NO_NUMBER = "no number here (numbers are minimally encoded)"
NONE = "no witness satisfies the script by the rules of this profile"
EXACT = [f"{NONE}: each branch ends as in consensus"]


def push(item):
    return bitcoin.push(bytes.fromhex(item)).hex()


def end(opcode, item, rule, has_others=False):
    count = len(item) // 2
    tail = "; consensus is laxer, and may let others spend"
    if rule == NO_KEY:
        tail = "; in consensus no signature is valid for it, and other keys of this check may sign" if has_others else "; in consensus its check is false, and nobody can spend where that has to be true"
        if is_long_key(item):
            tail = "; consensus takes this one, and nodes relay no spend with it"
        elif count in (32, 65):
            tail = (", as taproot alone has them" if count == 32 else ", nor a point of the curve") + tail
    return f"a branch ends at opcode {opcode}: {item} ({count} byte{'s' * (count > 1)}) is {rule}{tail}"


def is_long_key(item):
    """Whether libsecp256k1 reads bytes as a key: 04, or 06 where y is even, or 07 where it is odd, and a point of the curve."""
    first, x, y = (int(it or "0", 16) for it in (item[:2], item[2:66], item[66:]))
    return len(item) == 130 and x < FIELD and y < FIELD and (y * y - x**3 - 7) % FIELD == 0 and first in (4, 6 + y % 2)


def strict_notes(*ends):
    """No path, and these ends."""
    return [f"{NONE}, which are stricter than consensus", *(end(*it) for it in ends)]


def integer(size):
    """An integer in DER whose first byte would be a sign without the zero before it."""
    return "02" + f"{size:02x}" + "00" + "80" * (size - 1)


def signature(*sizes):
    """A signature in DER (BIP 66) with integers of these sizes, and its hash type."""
    body = "".join(map(integer, sizes))
    return f"30{len(body) // 2:02x}{body}01"


CHECK = push(LONG) + "ac"
# two numbers that differ, so that the branch ends as in consensus
DEAD = "515288"


def branch_opcodes(count):
    """Opcodes with this number of branches."""
    return "" if count == 1 else f"63{branch_opcodes(count // 2)}67{branch_opcodes(count - count // 2)}68"


def many_keys(count, number):
    """CHECKMULTISIG of no signature and this many keys, the deepest of them one of 65 bytes."""
    return "0000" + push(LONG) + push(KEY) + "76" * (count - 2) + number + "ae"


ENDS = [
    # in a branch of a script without a path: the first, the second, one in another, one after they join, and both
    (f"63{CHECK}670068", strict_notes((2, LONG, NO_KEY))),
    (f"630067{CHECK}68", strict_notes((4, LONG, NO_KEY))),
    (f"640067{CHECK}68", strict_notes((4, LONG, NO_KEY))),
    (f"64{CHECK}670068", strict_notes((2, LONG, NO_KEY))),
    (f"63630067006867{CHECK}68", strict_notes((8, LONG, NO_KEY))),
    (f"63630067{CHECK}68670068", strict_notes((5, LONG, NO_KEY))),
    (f"63516752687575{CHECK}", strict_notes((8, LONG, NO_KEY))),
    (f"63{CHECK}67020100b168", strict_notes((2, LONG, NO_KEY), (5, "0100", NO_NUMBER))),
    # a branch that is taken or left out by a constant; an IF within what is left out
    (f"51630067{CHECK}68", EXACT),
    (f"0063{CHECK}670068", EXACT),
    (f"00640067{CHECK}68", EXACT),
    (f"5164{CHECK}670068", EXACT),
    (f"00630067{CHECK}68", strict_notes((5, LONG, NO_KEY))),
    (f"51640067{CHECK}68", strict_notes((5, LONG, NO_KEY))),
    (f"5163{CHECK}670068", strict_notes((3, LONG, NO_KEY))),
    (f"0064{CHECK}670068", strict_notes((3, LONG, NO_KEY))),
    (f"00635163006700680067{CHECK}68", strict_notes((11, LONG, NO_KEY))),
    (f"63{CHECK}6800", strict_notes((2, LONG, NO_KEY))),
    # 16, 17 and 20 keys; 21 are too many in consensus too
    (many_keys(16, "60"), strict_notes((19, LONG, NO_KEY))),
    (many_keys(17, "0111"), strict_notes((20, LONG, NO_KEY))),
    (many_keys(20, "0114"), strict_notes((23, LONG, NO_KEY))),
    (many_keys(21, "0115"), EXACT),
    # two keys: the first that is none is named; a key of 33 bytes that begins with 04, and one of 32
    (f"0000{push('02aa')}{push('03bb')}52ae", strict_notes((5, "03bb", NO_KEY, True))),
    (f"0000{push(OTHER[:64])}51ae", strict_notes((4, OTHER[:64], NO_KEY, True))),
    (f"63{push(KEY)}ac67{push(OTHER[:64])}ac68", [end(5, OTHER[:64], NO_KEY)]),
    (f"00{push('04' + KEY[2:])}ac", strict_notes((2, "04" + KEY[2:], NO_KEY))),
    (f"00{push(KEY[:64])}ac", strict_notes((2, KEY[:64], NO_KEY))),
    # signatures of 72 and 73 bytes; one of 74 is none in consensus either
    (f"{push(signature(33, 32))}{push(KEY)}ac", strict_notes((2, signature(33, 32), NO_SIGNATURE))),
    (f"{push(signature(33, 33))}{push(KEY)}ac", strict_notes((2, signature(33, 33), NO_SIGNATURE))),
    (f"{push(signature(34, 33))}{push(KEY)}ac", EXACT),
    # the same before a key that is none: the key is named where consensus takes the signature
    (f"{push(signature(33, 33))}{CHECK}", strict_notes((2, LONG, NO_KEY))),
    (f"{push(signature(34, 33))}{CHECK}", EXACT),
    (f"51{CHECK}", EXACT),
    # counts of keys that are not minimally encoded: 1, 20 and 21 of two bytes, 1 of four and of five, 0 with a sign, -1 and -1 of two bytes
    (f"0000{push(KEY)}020100ae", strict_notes((4, "0100", NO_NUMBER))),
    (many_keys(20, "021400"), strict_notes((23, "1400", NO_NUMBER))),
    (many_keys(21, "021500"), EXACT),
    (f"0000{push(KEY)}0401000000ae", strict_notes((4, "01000000", NO_NUMBER))),
    (f"0000{push(KEY)}050100000000ae", EXACT),
    (f"0000020080ae", strict_notes((3, "0080", NO_NUMBER))),
    (f"0000{push(KEY)}0181ae", EXACT),
    (f"0000{push(KEY)}020180ae", EXACT),
    # counts of signatures: 1 of one key, 2 of one key, and 2 of two keys
    (f"00020100{push(KEY)}51ae", strict_notes((4, "0100", NO_NUMBER))),
    (f"00020200{push(KEY)}51ae", EXACT),
    (f"00020200{push(KEY)}{push(OTHER)}52ae", strict_notes((5, "0200", NO_NUMBER))),
    (f"0052{push(KEY)}51ae", EXACT),
    # an extra item that is not empty, before a key that is none (BIP 147)
    (f"5100{push(LONG)}51ae", EXACT),
    (f"0000{push(LONG)}51ae", strict_notes((4, LONG, NO_KEY))),
    # locks of five and of six bytes, 0 with a sign, -1 of one byte and of two, by both opcodes
    *((f"050100000000{lock}7551", strict_notes((1, "0100000000", NO_NUMBER))) for lock in ("b1", "b2")),
    *((f"06010000000000{lock}7551", EXACT) for lock in ("b1", "b2")),
    *((f"0180{lock}7551", strict_notes((1, "80", NO_NUMBER))) for lock in ("b1", "b2")),
    *((f"0181{lock}7551", EXACT) for lock in ("b1", "b2")),
    *((f"020180{lock}7551", EXACT) for lock in ("b1", "b2")),
    # what a hash can be, of 20 bytes and not of 19 or 21; and a length, 0 and 520 and not 521, -1 or 20 in two bytes
    (f"76a9{push('77' * 20)}88{CHECK}", strict_notes((5, LONG, NO_KEY))),
    (f"76a9{push('77' * 19)}88{CHECK}", EXACT),
    (f"76a9{push('77' * 21)}88{CHECK}", EXACT),
    (f"820088{CHECK}", strict_notes((4, LONG, NO_KEY))),
    (f"820208028875{CHECK}", strict_notes((5, LONG, NO_KEY))),
    (f"820209028875{CHECK}", EXACT),
    (f"82018188{CHECK}", EXACT),
    (f"8202140088{CHECK}", EXACT),
    # ends with a script that has a path too
    (f"63{CHECK}67{push(KEY)}ac68", [end(2, LONG, NO_KEY)]),
    (f"63{push(KEY)}ac67{CHECK}68", [end(5, LONG, NO_KEY)]),
]
ENDS += [
    # a key of 75 bytes, the longest push
    (f"{push('07' * 75)}ac", strict_notes((1, "07" * 75, NO_KEY))),
    # constants in CHECKMULTISIG: a signature that is none, alone and below one of the witness, which is checked first; one in DER
    (f"00{push('aabb')}51{push(LONG)}51ae", EXACT),
    (f"{push('aabb')}7c52{push(KEY)}{push(LONG)}52ae", strict_notes((6, LONG, NO_KEY))),
    (f"00{push(DER)}51{push(LONG)}51ae", strict_notes((5, LONG, NO_KEY))),
    # no signature of one key is true, and the empty signature is false
    (f"0000{push(KEY)}51ae64{CHECK}6800", EXACT),
    (f"0000{push(KEY)}51ae63{CHECK}6800", strict_notes((7, LONG, NO_KEY))),
    (f"00{push(KEY)}ac63{CHECK}6800", EXACT),
    (f"00{push(KEY)}ac64{CHECK}6800", strict_notes((5, LONG, NO_KEY))),
    # the length of a hash, of a constant and of the empty item; what a constant hashes to
    (f"76a98201148875{CHECK}", strict_notes((7, LONG, NO_KEY))),
    (f"76a98201158875{CHECK}", EXACT),
    (f"5582518875{CHECK}", strict_notes((6, LONG, NO_KEY))),
    (f"5582528875{CHECK}", EXACT),
    (f"0082008875{CHECK}", strict_notes((6, LONG, NO_KEY))),
    (f"0082518875{CHECK}", EXACT),
    (f"00a9{push(bitcoin.hash160(b'').hex())}88{CHECK}", strict_notes((5, LONG, NO_KEY))),
    (f"51a9{push(bitcoin.hash160(b'').hex())}88{CHECK}", EXACT),
    # zero with a sign is false, and so is zero of two bytes; one of two bytes is true
    *((f"{push(it)}63{CHECK}6800", EXACT) for it in ("80", "0080", "0000")),
    *((f"{push(it)}63{CHECK}6800", strict_notes((3, LONG, NO_KEY))) for it in ("81", "0100", "8000")),
    # two branches that come to one opcode: each rule is named once, with the bytes of the branch that is followed first
    (f"63{push(LONG)}67{push('02aa')}68ac", strict_notes((5, LONG, NO_KEY))),
    (f"63{push(DER)}{push(KEY)}67{push(LONG)}68ac", strict_notes((6, DER, NO_SIGNATURE), (6, LONG, NO_KEY))),
    # the 64th branch is followed
    (f"63{branch_opcodes(63)}67{CHECK}68", [end(branch_opcodes(63).count("6") + 3, LONG, NO_KEY), f"anyone can spend by path {', '.join(map(str, range(63)))}: no signature of a key that the script fixes is asked for"]),
]
# no signature in consensus (BIP 66): a tag, a length, a negative or padded integer, none, a second tag, more bytes after it
ENDS += [
    (f"{push(it)}{push(KEY)}ac", EXACT)
    for it in ("310602010102010101", "300702010102010101", "300502010102010101", "300602018002010101", "30070202000102010101", "3005020002010101", "300602010103010101", "30070201010201010101", "30060201010201")
]


def with_dead_ends(code, notes):
    """Notes on a listed script, with those on branches by which nobody can spend: they come after what is said of all branches and of stricter ends."""
    first = sum(it.startswith((NONE, "a branch ends")) for it in notes)
    return [*notes[:first], *(note for _, note in dead_ends(code)), *notes[first:]]


# ---- relative locks (BIP 68, BIP 112)


def span(seconds):
    """About how long seconds are."""
    for unit, name in ((60, "minutes"), (3600, "hours"), (86_400, "days")):
        if seconds < 2 * {"minutes": 3600, "hours": 86_400, "days": 2**64}[name]:
            return f"{(seconds + unit // 2) // unit} {name}"
    raise AssertionError


def units_note(units):
    return f"path 0 waits {units} unit{'s' * (units != 1)} of 512 seconds, about {span(512 * units)}, which its age does not tell: that is in blocks (BIP 68)"


def age_note(blocks):
    return f"path 0 waits {blocks} blocks, about {span(600 * blocks)} at ten minutes each"


def day_of(seconds):
    return datetime.datetime.fromtimestamp(seconds, datetime.timezone.utc)


def time_note(lock):
    return f"path 0 can be taken once the median time past is above {lock}, {day_of(lock):%Y-%m-%d} in UTC: its lock is a time, in seconds since 1970 (BIP 113)"


def height_note(lock):
    """By the times of blocks 481,824 and 840,000, and by ten minutes a block after them."""
    first, halving = 1_503_539_857, 1_713_571_767
    seconds = first + (lock - 481_824) * (halving - first) // (840_000 - 481_824) if lock < 840_000 else halving + 600 * (lock - 840_000)
    return f"path 0 can be taken in blocks above height {lock}, on Bitcoin's main chain from about {day_of(seconds):%Y-%m} on"


def doubt_of(n):
    """What is said of a lock time that holds nobody up, or nearly for ever. Block 481,824 is the first to which BIP 141 applies; its time is 1,503,539,857. 2100 begins with 4,102,444,800."""
    if n < (481_824 if n < 500_000_000 else 1_503_539_857):
        return "holds nobody up on Bitcoin's main chain, which had passed it before it had witness scripts (BIP 141); CHECKSEQUENCEVERIFY waits a number of blocks"
    if 5_000_000 < n < 500_000_000:
        return f"waits for a height that is some {(n - 900_000) // 52_560} years away: from 500000000 on a number is a time (BIP 65)"
    return "waits until after the year 2099" if 4_102_444_800 <= n < 2**32 - 1 else None


def turned_notes(n, opcode, is_turned):
    """What is noted of a lock whose bytes give another number in the other order, where that is a usual one."""
    item = bitcoin.number_item(n)
    other = int.from_bytes(item, "big")
    return [f"opcode 1, {opcode} of {n}: the same bytes in the other order are {other}, and a number is little-endian"] * is_turned


def doubt_notes(code):
    """What is noted of the absolute locks of a script, by the number that is pushed right before each."""
    found = opcodes(bytes.fromhex(code))
    for at, (item, op) in enumerate(zip(found, found[1:]), 1):
        n = int.from_bytes(item, "little") if isinstance(item, bytes) and len(item) <= 5 else -1
        if op == LOCK and n >= 0 and item == bitcoin.number_item(n) and doubt_of(n):
            yield f"opcode {at}, CHECKLOCKTIMEVERIFY of {n}, {doubt_of(n)}"


def key_rows():
    """A signature of a key whose x coordinate is drawn, or next to a bound: half of them are of no point. The same key twice in a CHECKMULTISIG, by a number and by a push of it."""
    drawn = random.Random(7)
    for x in [0, 1, 2, 3, FIELD - 1, FIELD, FIELD + 1, 2**256 - 1, *(drawn.getrandbits(256) for _ in range(60))]:
        key = f"{2 + x % 2:02x}{x:064x}"
        yield f"{push(key)}ac", [f"opcode 0: {key} is no point of the curve: nobody can sign for this key"] * (not is_point(x))
    for keys in ([KEY, OTHER, KEY], [KEY, KEY], [KEY, OTHER, THIRD], [KEY, "03" + KEY[2:], OTHER], [KEY, *(f"02{x:064x}" for x in list(filter(is_point, range(1, 99)))[:16])]):
        yield f"52{''.join(map(push, keys))}{number(len(keys))}ae", list(twice_notes([("assigned", tuple(keys), True)], [0]))
    # what is no key of this CHECKMULTISIG is not compared
    yield f"{push(KEY)}7551{push(KEY)}{push(OTHER)}52ae", []
    yield from long_key_rows(drawn)
    yield from known_key_rows()


def long_key_rows(drawn):
    """65 bytes in the place of a key: of points that are drawn, with each first byte, and near misses: y as it stands on the other side, by one more, and by the field more, x of no point, and zeros."""
    points = [(x, y) for x in (drawn.getrandbits(256) for _ in range(12)) if is_point(x) for y in (y_of(x), FIELD - y_of(x))]
    small = next((x, y_of(x)) for x in range(1, 99) if is_point(x))
    near = [long(small), long((small[0] + FIELD, small[1])), long((points[0][0], points[0][1] + 1)), long((points[1][0], points[2][1])), long((0, 0)), long((1, 1)), "04" + "ff" * 64]
    for item in [*near, *(long(point, first) for point in points for first in range(2, 9))]:
        yield f"{push(item)}ac", [*key_program(item), *strict_notes((1, item, NO_KEY))]
        yield f"63{push(KEY)}67{push(item)}68ac", [end(5, item, NO_KEY)]
    for item in near[:4]:
        yield f"51{push(KEY)}{push(item)}52ae", strict_notes((4, item, NO_KEY, True))


def key_program(item):
    """What is noted of 65 bytes with a CHECKSIG, which have the form of P2PK after 04."""
    return ["these bytes have the form of an output's program, P2PK: such an output has no witness script; this key spends it"] * (item[:2] == "04")


# points whose private key all know: G times this number
KNOWN_KEYS = {1: "the point G, whose private key is 1", ORDER - 1: "the point -G, whose private key is n - 1"}
KNOWN_KEYS |= {2: "the point 2G, whose private key is 2", ORDER - 2: "the point -2G, whose private key is n - 2"}
KNOWN_KEYS |= {3: "the point 3G, whose private key is 3", ORDER - 3: "the point -3G, whose private key is n - 3"}
KNOWN_KEYS |= {(ORDER + 1) // 2: "the point G/2, whose private key is (n + 1) / 2", (ORDER - 1) // 2: "the point -G/2, whose private key is (n - 1) / 2"}


def known_key_rows():
    """Keys of 33 and of 65 bytes whose private key all know, and the next ones, which have no note; and a point of which 65 bytes are no key."""
    for factor, name in {**KNOWN_KEYS, 4: "", ORDER - 4: "", 5: "", (ORDER + 3) // 2: ""}.items():
        point = times(factor)
        note = f"is {name}: anyone can sign for it"
        yield f"{push(short(point))}ac", [f"opcode 0: {short(point)} {note}"] * bool(name)
        for first in (4, 6, 7):
            item = long(point, first)
            yield f"63{push(KEY)}67{push(item)}68ac", [end(5, item, NO_KEY)] + [f"opcode 3: {item} {note}"] * (bool(name) and is_long_key(item))


def twice_notes(facts, slots):
    """What is noted of the keys that a path has twice, in one fact or in two that differ, or with their negations."""
    seen = []
    for (kind, what, holds), slot in zip(facts, slots):
        own = []
        for key in ((what,) if kind == "token" else what) if kind in ("token", "assigned") and holds else ():
            other = next((it for it in [*own, *(it for fact, keys in seen if fact != (kind, what, slot) for it in keys)] if it[2:] == key[2:]), None)
            if other is not None:
                yield f"path 0 has the key {key} twice: who has it signs for both" if other == key else f"path 0 has the key {key} and its negation {other}: who has one has both"
            own.append(key)
        seen.append(((kind, what, slot), own))


def constant_rows():
    """An IF and a NOTIF of each of some constants, with an ELSE and without: which branch no run takes. Pushes of each number of a byte."""
    for constant in ("00", "51", "60", "0180", "020000", "02aabb"):
        is_true = constant not in ("00", "0180", "020000")
        for code, name in (("63", "IF"), ("64", "NOTIF")):
            is_run = is_true == (name == "IF")
            for other in ("67" + push(OTHER), ""):
                unrun = ("ELSE", 3) if is_run else (name, 1)
                note = f"the branch after the {unrun[0]} at opcode {unrun[1]} is never run, so nobody can spend by it: a constant decides the {name} at opcode 1"
                if other or not is_run:
                    yield f"{constant}{code}{push(KEY)}{other}68" + ("ac" if other else f"{push(THIRD)}ac" if not is_run else "ac"), [note] * (bool(other) or not is_run)
    for value in range(256):
        short = 0x50 + value if 1 <= value <= 16 else 0x4F if value == 0x81 else None
        note = f"opcode 0, a push of {value:02x} (1 byte): nodes relay no spend that runs it, since the opcode {short or 0:02x} pushes the same (minimal pushes)"
        yield f"01{value:02x}75{push(KEY)}ac", [note] * (short is not None)


def relay_rows():
    """Items and scripts on both sides of what nodes relay (Bitcoin Core's `MAX_STANDARD_P2WSH_STACK_ITEMS`, `.._STACK_ITEM_SIZE` and `.._SCRIPT_SIZE`)."""
    anyone = "anyone can spend by path 0: no signature of a key that the script fixes is asked for"
    for count in (99, 100):
        yield "75" * count, [anyone] + ["nodes relay no spend by path 0: it asks for more than 100 items, or for one above 80 bytes"] * (count + 1 > 100)
    for size in (80, 81):
        yield f"82{number(size)}8875{push(KEY)}ac", ["nodes relay no spend by path 0: it asks for more than 100 items, or for one above 80 bytes"] * (size > 80)
    code = (push("77" * 34) + "75") * 100
    for more in ("", push("") + "75"):
        length = len(code + more) // 2
        yield code + more, [anyone] + [f"the script has {length} bytes, and nodes relay no spend of one above 3600"] * (length > 3600)


def asked_note(item, what, means="whoever sees the script knows it, so it keeps nobody out"):
    return f"path 0 asks for what has the hash {item}, {what}: {means}"


NOBODY = "nobody has that, so nobody can spend by this path"


def origin_rows():
    """Bytes in the place of a HASH160 that are no secret's: zeros, ff, the hash of nothing, of its SHA-256, of a byte, of 32 of one, of a number in 32 bytes, and of a point that all know or nobody; and others."""
    h = "50929b74c1a04954b78b4b6035e97a5e078a5a0f28ec96d547bfee9ace803ac0"
    nobodys = "the point H of BIP 341, whose private key nobody knows"
    hashed = [("", "nothing"), (bitcoin.sha256(b"").hex(), "the SHA-256 of nothing"), (bitcoin.sha256(b"\x07").hex(), "")]
    hashed += [*((f"{byte:02x}", f"the script {byte:02x}") for byte in (0x00, 0x01, 0x4F, 0x51, 0x6A, 0x80, 0xAC, 0xFE, 0xFF)), ("0000", ""), ("5151", "")]
    hashed += [(f"{byte:02x}" * count, f"32 bytes of {byte:02x}" if count == 32 else "") for byte in (0x00, 0x01, 0x7F, 0xFF) for count in (31, 32, 33)]
    hashed += [(f"{n:064x}", f"the number {n} in 32 bytes") for n in (1, 2, 16)] + [(f"{n:064x}", "") for n in (17, 255, 256, 1 << 248)]
    hashed += [(short(times(factor)), name) for factor, name in KNOWN_KEYS.items()] + [(short(times(4)), "")]
    hashed += [(long(times(factor)), KNOWN_KEYS[factor]) for factor in (1, ORDER - 1)] + [(long((G[0], G[1] + 1)), ""), (long(G, 6), "")]
    hashed += [("02" + h, nobodys), ("03" + h, nobodys), (h, "")]
    found = [(text, bitcoin.hash160(bytes.fromhex(text)).hex(), f"the hash of {what}" if what else "") for text, what in hashed]
    for _, item, what in found:
        yield f"a9{push(item)}88{push(KEY)}ac", [asked_note(item, what)] * bool(what)
    # a hash that nothing asks for, and one that is dropped
    yield f"{push(found[0][1])}75{push(KEY)}ac", []
    for item, what in (("00" * 20, "zeros"), ("00" * 19 + "01", ""), ("ff" * 20, "bytes of ff"), ("ff" * 19 + "fe", "")):
        yield f"a9{push(item)}88{push(KEY)}ac", [asked_note(item, what, NOBODY)] * bool(what)
        yield f"76a9{push(item)}88ac", [KEY_HASH, BY_HASH] + [asked_note(item, what, NOBODY)] * bool(what)
    yield from sized_rows(found)
    yield from signed_rows(found)


KEY_HASH = "these bytes have the form of an output's program, P2PKH: such an output has no witness script; the key with this hash spends it"
BY_HASH = "a key is taken by its hash on path 0: by consensus, though not by relay policy, an uncompressed key with that hash is taken too"


def sized_rows(found):
    """The same hashes, of an item of 32 bytes."""
    for text, item, what in found:
        is_met = len(text) == 64
        means = asked_note(item, what) if is_met else f"path 0 asks for what has the hash {item}, {what}, and for another size than that has: nobody can spend by this path"
        yield f"82012088a9{push(item)}88{push(KEY)}ac", [means] * bool(what)


def signed_rows(found):
    """The same hashes, of a key that signs."""
    for text, item, what in found:
        anyones = any(text in (short(times(it)), long(times(it))) for it in KNOWN_KEYS)
        means = "anyone can sign for it" if anyones else "nobody can sign for that, so nobody can spend by this path"
        yield f"76a9{push(item)}88ac", [KEY_HASH, BY_HASH] + [asked_note(item, what, means)] * bool(what)


def pushed_rows():
    """Hashes of what the same script pushes: of a key of this branch and of another one, of the bytes of a payment hash, and with a size that is not the item's; beside each one that is not pushed, the hash of a key that signs itself, and a hash that must not hold."""
    drawn = random.Random(11)
    for _ in range(4):
        x = next(x for x in iter(lambda: drawn.getrandbits(256), None) if is_point(x))
        key, item = f"03{x:064x}", f"{drawn.getrandbits(256):064x}"
        of_key, of_item = (bitcoin.hash160(bytes.fromhex(it)).hex() for it in (key, item))
        yield f"a9{push(of_key)}88{push(key)}ac", [asked_note(of_key, "the HASH160 of what opcode 3 pushes")]
        yield f"a9{push(of_key)}88{push(KEY)}ac", []
        yield f"63a9{push(of_key)}88{push(KEY)}ac67029000b275{push(key)}ac68", [asked_note(of_key, "the HASH160 of what opcode 10 pushes")]
        yield f"63a9{push(of_item)}88{push(KEY)}ac67029000b275{push(key)}ac68", []
        yield f"a9{push(of_item)}88{push(item)}75{push(KEY)}ac", [asked_note(of_item, "the HASH160 of what opcode 3 pushes")]
        # the item has 33 bytes, or 32
        for size, asked, at_item in ((32, of_key, key), (33, of_key, key), (32, of_item, item), (31, of_item, item)):
            is_met = size == len(at_item) // 2
            origin = "the HASH160 of what opcode 6 pushes"
            means = asked_note(asked, origin) if is_met else f"path 0 asks for what has the hash {asked}, {origin}, and for another size than that has: nobody can spend by this path"
            yield f"82{number(size)}88a9{push(asked)}88{push(at_item)}75{push(KEY)}ac", [means]
        # the hash of a key that signs, which another branch has; and the same where the hash must not hold
        yield f"76a9{push(of_key)}8763ac6775029000b275{push(key)}ac68", [BY_HASH]
        yield f"76a9{push(of_key)}8763{DEAD}6775029000b275{push(key)}ac68", []


def shown_rows():
    """Bytes that are asked for as they stand: of the sizes of a hash, and of others."""
    for size in (19, 20, 21, 31, 32, 33):
        item = "".join(f"{7 * n % 251:02x}" for n in range(size))
        note = f"path 0 asks for these {size} bytes as they stand, {item}: whoever sees the script has them, so they keep nobody out: is a HASH160 missing?"
        yield f"{push(item)}88{push(KEY)}ac", [note] * (size in (20, 32))
        # dropped, or compared with a hash
        yield f"{push(item)}75{push(KEY)}ac", []
    yield f"a9{push('07' * 20)}88{push(KEY)}ac", []


def dropped_rows():
    """Checks whose answer is dropped, and the same with answers that count."""
    free = "nothing depends on the check of a signature on path 0: the empty item serves as well"
    anyone = "anyone can spend by path 0: no signature of a key that the script fixes is asked for"
    yield f"{push(KEY)}ac75{push(OTHER)}ac", [free]
    yield f"{push(KEY)}ac63{push(OTHER)}ac670068", []
    yield f"{push(KEY)}ac7551", [anyone, free]
    yield f"52{push(KEY)}{push(OTHER)}52ae75{push(THIRD)}ac", [free]
    yield f"52{push(KEY)}{push(OTHER)}52ae63{push(THIRD)}ac670068", []
    # the answer is brought to the top and dropped, and the item above it is
    yield f"{push(KEY)}ac517c75", [anyone, free]
    yield f"{push(KEY)}ac7c75", []
    drops = "opcode {}, DROP, drops what opcode {}, EQUAL, found: nothing depends on that comparison"
    yield f"a9{push('07' * 20)}8775{push(KEY)}ac", [drops.format(3, 2)]
    yield f"a9{push('07' * 20)}88{push(KEY)}ac", []


AROUND = "path {0} asks for no other signature or preimage than path {1}, and does not wait: the lock of path {1} holds nobody up"


def shortcut_rows():
    """A path that waits, and one that does not, with each of some rules of who signs; and both with locks."""
    negated = "03" + KEY[2:]
    one, two = (lambda key: f"{push(key)}ac"), (lambda m, *keys: f"{number(m)}{''.join(map(push, keys))}{number(len(keys))}ae")
    hashed = lambda key: f"a9{push('07' * 20)}88{push(key)}ac"
    rules = [
        (one(KEY), one(KEY), True), (one(KEY), one(OTHER), False), (one(KEY), one(negated), True),
        (one(KEY), two(2, KEY, OTHER), True), (two(2, KEY, OTHER), one(KEY), False), (one(THIRD), two(2, KEY, OTHER), False),
        (two(2, KEY, OTHER, THIRD), two(2, KEY, OTHER), True), (two(2, KEY, OTHER, THIRD), two(1, KEY, OTHER, THIRD), False),
        (two(1, KEY, OTHER), two(2, KEY, OTHER, THIRD), True), (two(2, KEY, OTHER), two(2, KEY, OTHER, THIRD), False), (two(1, KEY, OTHER), one(OTHER), True),
        (hashed(KEY), one(KEY), False), (one(KEY), hashed(KEY), True), (hashed(KEY), hashed(KEY), True),
    ]
    locks = [(number(144) + "b2", None), (number(800_000) + "b1", height_note(800_000)), (number((1 << 22) + 144) + "b2", units_note(144))]
    for (fast, slow, is_noted), (lock, waits) in itertools.product(rules, locks):
        for at, script in ((1, f"63{fast}67{lock}75{slow}68"), (0, f"63{lock}75{slow}67{fast}68")):
            yield script, [it.replace("path 0", f"path {at}") for it in [waits] if it] + [AROUND.format(1 - at, at)] * is_noted
    # both wait, and nobody can ever take the one that waits
    yield f"63{number(144)}b275{one(KEY)}67{number(145)}b275{one(KEY)}68", []
    yield f"63{one(KEY)}67{number(2**32 - 1)}b175{one(KEY)}68", ["nobody can ever spend by path 1: its lock time is 4294967295, and no median time past is above that (BIP 113)"]


def operand_rows():
    """CHECKMULTISIGs that no rule decides: with a lock's number in the place of a signature, and with a number that the witness brings."""
    gives_up = "no rule decides it on what stands on the stack there, so the listing gives up: whether anyone can spend, or nobody, is not said"
    keys = push(KEY) + push(OTHER) + push(THIRD)
    for lock in (144, 52_560):
        missing = f"on a branch {bitcoin.number_item(lock).hex()} ({len(bitcoin.number_item(lock))} bytes) stands there in the place of a signature: is a DROP missing?"
        yield f"635367{number(lock)}b25268{keys}53ae", [f"opcode 11 is OP_CHECKMULTISIG: {gives_up}", missing]
        yield f"63{number(lock)}b252675368{keys}53ae", [f"opcode 11 is OP_CHECKMULTISIG: {gives_up}", missing]
    brings = "where the witness brings the number of signatures, it may be 0, and anyone can spend: compare the number of keys with the keys before it"
    yield f"52{keys}54ae", [f"opcode 5 is OP_CHECKMULTISIG: {gives_up}", brings]
    yield f"{keys}53ae", [f"opcode 4 is OP_CHECKMULTISIG: {gives_up}", brings]


def empty_rows():
    """An item of no bytes, whose hash is that of nothing, or another one, or neither."""
    nothing, other = bitcoin.hash160(b"").hex(), "33" * 20
    for hashed, holds in ((nothing, True), (other, True), (nothing, False), (other, False)):
        who = ["whoever sees such a witness can spend too by path 0: what has a given hash is asked for, and no signature of a key that the script fixes", asked_note(nothing, "the hash of nothing")]
        if not holds:
            who = ["anyone can spend by path 0: no signature of a key that the script fixes is asked for"]
        if (hashed == nothing) != holds:
            who = [f"no witness meets path 0: 'size 0 0 yes' and 'hash 0 {hashed} {'yes' if holds else 'no'}' contradict each other"]
        yield f"820088a9{push(hashed)}87" + ("" if holds else f"63{DEAD}675168"), who


def length_rows():
    """A byte before a script that is its length: a push, or an opcode that leaves no sound script; and sound scripts with as many bytes as their first opcode and one more."""
    length = "these bytes begin with the length of the {} bytes after it, as a script stands in serialisations: leave the length out".format
    lone, padded = push(KEY) + "ac", f"{push(KEY)}{push(OTHER)}52ae" + "7675" * 6
    yield f"23{lone}", [length(35), "anyone can spend by path 0: no signature of a key that the script fixes is asked for"]
    yield f"63a9{push('33' * 20)}88{lone}670160b275{push(OTHER)}ac68", []
    yield f"6352{padded}{'7675' * 8}", [length(99), "the IF or NOTIF at opcode 0 has no ENDIF"]
    yield f"52{padded}", []


def shared_rows():
    """Two numbers before one lock: each is noted."""
    for one, other in ((65_536, 144), (144, 65_536), (65_536, 65_537)):
        asks = [f"opcode 5, CHECKSEQUENCEVERIFY of {n}, asks for an age of {n % 65_536} block{'s' * (n % 65_536 != 1)}: of a number only bits 0 to 15, 22 and 31 count (BIP 68)" for n in (one, other) if n >= 65_536]
        slow = int(other % 65_536 > 0)
        yield f"63{number(one)}67{number(other)}68b275{push(KEY)}ac", [*asks, AROUND.format(1 - slow, slow)]


def lock_rows():
    """A CHECKSEQUENCEVERIFY of each bit alone, of 0, of the greatest numbers of two, four and five bytes, and of ages with further bits; then a signature."""
    bits = [1 << bit for bit in range(39)]
    for n in [0, 0xFFFF, 2**31 - 1, 2**39 - 1, *bits, *(144 + bit for bit in bits[8:]), *(bit + (1 << 22) for bit in bits[:16]), (1 << 22) + (1 << 16) + 5]:
        age = n & 0xFFFF
        unit = ("block" if age == 1 else "blocks") if not n >> 22 & 1 else f"{'unit' if age == 1 else 'units'} of 512 seconds"
        asks = "nothing: bit 31 switches the lock off (BIP 68)" if n >> 31 & 1 else f"an age of {age} {unit}: of a number only bits 0 to 15, 22 and 31 count (BIP 68)"
        is_plain = age > 0 and n in (age, age + (1 << 22))
        waits = [] if n >> 31 & 1 else [units_note(age)] * (age > 0) if n >> 22 & 1 else [age_note(age)] * (age > 2016)
        yield f"{number(n)}b275{push(KEY)}ac", [f"opcode 1, CHECKSEQUENCEVERIFY of {n}, asks for {asks}"] * (not is_plain) + waits
    # ages whose bytes in the other order are two weeks at most, or whole days where the age has none; and others
    for n, is_turned in ((8_193, True), (20_685, True), (20_684, False), (24_624, False), (8_449, True), (32_519, True), (8_200, False), (8_640, False), (12_960, False), (4_033, False)):
        yield f"{number(n)}b275{push(KEY)}ac", [*turned_notes(n, "CHECKSEQUENCEVERIFY", is_turned), age_note(n)]
    # heights whose bytes in the other order are 1,999,999, 2,000,207 and 4,279,116
    for n, is_turned in ((8_356_894, True), (5_211_422, False), (5_000_001, False), (5_306_380, True)):
        code = f"{number(n)}b175{push(KEY)}ac"
        yield code, [*turned_notes(n, "CHECKLOCKTIMEVERIFY", is_turned), *doubt_notes(code)]
    # lock times: the greatest that a median time past is above, the greatest of 4 bytes, one more, the greatest of 5 bytes, and of two paths the second
    beyond = "a lock time has 4 bytes, so it is at most 4294967295"
    never = "nobody can ever spend by path 0: its lock time is 4294967295, and no median time past is above that (BIP 113)"
    bounds = (481_824, 500_000_000, 1_503_539_857, 4_102_444_800)
    for n in (0, 500, 700_000, 839_999, 840_000, 900_000, 5_000_000, 5_000_002, *(it for bound in bounds for it in (bound - 1, bound)), 2**32 - 2, 2**32 - 1, 2**32, 2**39 - 1):
        beyond_or_never = [f"no transaction has the lock time of path 0: {beyond}"] * (n >= 2**32) + [never] * (n == 2**32 - 1)
        code = f"{number(n)}b175{push(KEY)}ac"
        yield code, [*beyond_or_never, *doubt_notes(code), *wait_notes([("lock", n, True)] if n < 2**32 - 1 else [])]
    code = f"6351{number(499)}b17567{number(2**32)}b1755168"
    yield code, [f"no transaction has the lock time of path 1: {beyond}", "anyone can spend by path 0: no signature of a key that the script fixes is asked for", *doubt_notes(code)]


# ---- what consensus takes

# items of a witness that are unlike in whether they are true, a key, a signature, a length, or what they hash to
TRIED = [*map(bytes.fromhex, ("", "01", KEY, LONG, DER, "00" * 520)), *HASHES]
PIECES = ["00", "51", "52", push("80"), push("0100"), push(KEY), push(LONG), push(DER), push("aabb"), *("63 64 67 68 75 76 7c 82 87 88 a9 ac ae b1 b2 63 68 ac ae".split())]


def mixed_scripts(count):
    """Scripts of opcodes that are drawn from the pieces, each with an end that is false or has two elements; the same ones in each call."""
    drawn = random.Random(count)
    return ["".join(drawn.choices(PIECES, k=drawn.randint(3, 9))) + drawn.choice(("00", "5151", "7500", "5288")) for _ in range(count)]


def ends_so(notes):
    """Whether notes say that each branch ends as in consensus. What they say of locks may stand beside it."""
    return EXACT[0] in notes


def is_right(code, notes):
    """Whether notes agree with consensus: where they say that each branch ends as there, no run is taken, and the runs go on after each opcode at which they say that consensus is laxer."""
    script = bytes.fromhex(code)
    ends = [int(it.split()[5][:-1]) for it in notes if it.startswith("a branch ends")]
    well = not (ends_so(notes) and is_taken(opcodes(script), TRIED, 3)) and all(goes_past(script, index, TRIED, 3) for index in ends)
    well = well and not any(is_taken(on_the_way(code, ways), TRIED, 3) for ways, _ in dead_ends(code))
    if not well:
        print(f"{code[:400]}\n  by consensus it is not so: {notes}")
    return well


# ---- facts that contradict each other

HASHES = ("33" * 20, "44" * 20)


class Item:
    """An item of a witness: its bytes where they are known, else what may be asked of it."""

    def __init__(self, size, is_true, item=None, hashed=None, form=None):
        self.size, self.is_true, self.item, self.hashed, self.form = size, is_true, item, hashed, form


def items():
    """Items that are unlike in what facts ask for. `form` is `key`, or the key of a token."""
    for item in ("", "aa", "80", KEY):
        yield Item(len(item) // 2, item not in ("", "80"), item, form="key" if item == KEY else None)
    for hashed in (*HASHES, None):
        for size in (1, 2, 33, 65, 66):
            yield Item(size, True, hashed=hashed)
            yield Item(size, False, hashed=hashed)
        yield Item(33, True, hashed=hashed, form="key")
        yield from (Item(66, True, hashed=hashed, form=key) for key in (KEY, OTHER, THIRD))


ITEMS = list(items())
MEETS = {
    "hash": lambda it, what: it.hashed == what,
    "size": lambda it, what: it.size == what,
    "truth": lambda it, what: it.is_true,
    "is": lambda it, what: it.item == what,
    "key": lambda it, what: it.form == "key",
    "form": lambda it, what: it.size == 0 or it.form not in (None, "key"),
    "token": lambda it, what: it.form == what,
    "assigned": lambda it, what: it.form in what,
}


def text(fact, slot):
    """A fact as a listing has it."""
    kind, what, holds = fact
    if kind in ("lock", "age"):
        return f"{kind} {what}"
    said = "-" if what == "" else ",".join(what) if isinstance(what, tuple) else what
    return f"{kind} {slot}" + ("" if what is None else f" {said}") + ("" if kind in ("key", "form") else " yes" if holds else " no")


def contradict(one, other):
    """Whether no witness meets two facts of one slot, or no transaction two locks."""
    (kind, what, _), (second, value, _) = one, other
    if {kind, second} & {"lock", "age"}:
        parts = {"lock": 500_000_000, "age": 1 << 22}
        return kind == second and (what < parts[kind]) != (value < parts[kind])
    if "assigned" in (kind, second) and one[:2] != other[:2]:
        # of signatures that are assigned, the length alone is compared, with facts that hold
        rest = one if second == "assigned" else other
        return one[2] and other[2] and not any(it.size == 66 and MEETS[rest[0]](it, rest[1]) for it in ITEMS)
    return not any(all(MEETS[name](it, arg) == holds for name, arg, holds in (one, other)) for it in ITEMS)


def number(n):
    return bitcoin.pushed_number(n).hex()


def fact_opcodes(fact):
    """Opcodes that ask for a fact of the item on top, and leave the item there; and the facts that they ask for, in order."""
    kind, what, holds = fact
    first = []
    if kind in ("lock", "age"):
        return number(what) + {"lock": "b1", "age": "b2"}[kind] + "75", [fact]
    if kind == "key":
        return "76007cac75", [fact]
    if kind == "form":
        return f"76{push(KEY)}ac75", [fact]
    if kind == "token":
        code, first = f"76{push(what)}ac", [("form", None, True)]
    elif kind == "assigned":
        code, first = "76007c51" + "".join(map(push, what)) + f"{0x50 + len(what):02x}ae", [("form", None, True)]
    else:
        code = {"hash": lambda: f"76a9{push(what)}87", "size": lambda: f"82{number(what)}87", "truth": lambda: "76", "is": lambda: f"76{push(what)}87"}[kind]()
    return f"{code}{'63' if holds else '64'}67{DEAD}68", [*first, fact]


BOTH = [("hash", HASHES[0]), ("hash", HASHES[1]), ("size", 0), ("size", 1), ("size", 33), ("size", 66), ("truth", None), ("is", ""), ("is", "aa"), ("is", "80"), ("is", KEY), ("token", KEY), ("token", OTHER), ("assigned", (KEY,)), ("assigned", (KEY, OTHER))]
FACTS = [(*it, holds) for it in BOTH for holds in (True, False)]
FACTS += [("key", None, True), ("form", None, True), ("lock", 500, True), ("lock", 499_999_999, True), ("lock", 500_000_000, True), ("age", 144, True), ("age", 65535, True), ("age", (1 << 22) + 144, True)]


def spender_notes(facts, slots):
    """What a path with these facts leaves to others than those whose keys the script has."""
    held = [(kind, slot) for (kind, _, holds), slot in zip(facts, slots) if holds]
    kinds = {kind for kind, _ in held}
    if not kinds & {"token", "assigned"}:
        if "hash" in kinds:
            yield "whoever sees such a witness can spend too by path 0: what has a given hash is asked for, and no signature of a key that the script fixes"
        else:
            yield "anyone can spend by path 0: no signature of a key that the script fixes is asked for"
    if any(kind == "key" and ("hash", slot) in held for kind, slot in held):
        yield "a key is taken by its hash on path 0: by consensus, though not by relay policy, an uncompressed key with that hash is taken too"
    if any(kind in ("token", "assigned") and ("hash", slot) in held for kind, slot in held):
        yield "a signature with a given hash is asked for on path 0: what it signs has that hash in it, so nobody can ever make one"
    if any(kind in ("token", "assigned") and {("size", slot), ("is", slot)} & {*held} for kind, slot in held):
        yield "a signature of a given size, or with given bytes, is asked for on path 0: here it is a token of 66 bytes, and in Bitcoin it has 71 or 72 mostly, so the path may be met by nobody"
    if any(kind == "form" and not any(it in ("token", "assigned") and other == slot for (it, _, _), other in zip(facts, slots)) for (kind, _, _), slot in zip(facts, slots)):
        yield "nothing depends on the check of a signature on path 0: the empty item serves as well"
    yield from twice_notes(facts, slots)


def wait_notes(facts):
    """What is noted of the greatest locks by time."""
    times = [what for kind, what, _ in facts if kind == "lock" and what >= 500_000_000]
    heights = [what for kind, what, _ in facts if kind == "lock" and 481_824 <= what <= 5_000_000]
    ages = [what for kind, what, _ in facts if kind == "age" and 2_016 < what <= 65_535]
    units = [what & 0xFFFF for kind, what, _ in facts if kind == "age" and what >> 22 & 1]
    return [note(max(found)) for note, found in ((time_note, times), (height_note, heights), (age_note, ages), (units_note, units)) if found]


def note_of(one, other, texts):
    """What is noted of two facts of path 0 that contradict each other. A signature of Bitcoin has another length than a token, which is what a length or bytes are compared with here."""
    kinds = {one[0], other[0]}
    says = "'{}' and '{}' contradict each other".format(*texts)
    if kinds & {"form", "token", "assigned"} and kinds & {"size", "is"}:
        return f"by the rules of this profile no witness meets path 0, since a signature has 66 bytes: {says}"
    return f"no witness meets path 0: {says}"


def pair_rows():
    """Each pair of facts in both orders, of one slot and of two: the script, its listed facts, and the notes on them."""
    for one in FACTS:
        for other in FACTS:
            for swap in ("", "7c"):
                (code, asked), (more, then) = fact_opcodes(one), fact_opcodes(other)
                slots = [0] * len(asked) + [len(swap) // 2] * len(then)
                facts = asked + then
                notes, script = [], "76" + "75" + code + swap + more + "75" * (1 + len(swap) // 2) + "51"
                for at, fact in enumerate(facts):
                    before = [n for n in range(at) if (slots[n] == slots[at] or fact[0] in ("lock", "age")) and contradict(facts[n], fact)]
                    if before:
                        notes = [note_of(facts[before[0]], fact, (text(facts[before[0]], slots[before[0]]), text(fact, slots[at])))]
                        break
                waits = [] if notes else wait_notes(facts)
                notes = [*(notes or spender_notes(facts, slots)), *doubt_notes(script), *waits]
                yield script, [text(fact, slot) for fact, slot in zip(facts, slots)], notes


# ---- scenarios

SEED = "0a" * 32
TERMS = {"capacity": 100000, "opener": "A", "feerate": 1000, "dust": [546, 547], "delay": [144, 145], "minimum": [1000, 1001], "start": [80000000, 20000000]}
WORDS = {
    "side": ("A", '"A" or "B"'),
    "number": (0, "a whole number of at most 64 bits"),
    "short": (0, "a whole number of at most 32 bits"),
    "hash": (SEED, "32 bytes in hexadecimal"),
    "numbers": ([0, 0], "an array of two whole numbers of at most 64 bits"),
    "delays": ([0, 0], "an array of two whole numbers of at most 16 bits"),
    "seeds": ([SEED, SEED], "an array of two seeds of 32 bytes in hexadecimal"),
    "array": ([], "an array"),
}
# values that just miss a shape
MISSED = {
    "side": ("C", None), "number": (1 << 64, -1, "0"), "short": (1 << 32, -1), "hash": (SEED[2:], SEED + "00", "0g" * 32, 7),
    "numbers": ([0, 1 << 64], [1 << 64, 0], [0], [0, 0, 0], 0), "delays": ([0, 1 << 16], [1 << 16, 0], [0]), "seeds": ([SEED], [SEED, SEED[2:]], [SEED[2:], SEED]), "array": ({}, 0),
}
MEMBERS = {"seeds": "seeds", "channels": "array", "events": "array"}
PARTS = {"capacity": "number", "opener": "side", "feerate": "short", "dust": "numbers", "delay": "delays", "minimum": "numbers", "start": "numbers"}
SIDE = [("side", "side")]
CHANNEL = [*SIDE, ("channel", "number")]
EVENTS = [
    ("offer", [*CHANNEL, ("amount", "number"), ("hash", "hash"), ("expiry", "short")]),
    ("fulfil", [*CHANNEL, ("id", "number"), ("preimage", "hash")]),
    ("fail", [*CHANNEL, ("id", "number")]),
    ("fee", [*CHANNEL, ("rate", "short")]),
    ("sign", CHANNEL), ("deliver", CHANNEL), ("close", CHANNEL),
    ("keep", [*CHANNEL, ("number", "number")]),
    ("broadcast", [*CHANNEL, ("number", "number")]),
    ("broadcast", [*CHANNEL, ("number", "number"), ("htlc", "number")]),
    ("blocks", [("count", "number")]),
    ("look", SIDE),
    ("take", [*SIDE, ("count", "number")]), ("release", [*SIDE, ("count", "number")]),
    ("reorg", [("depth", "number"), ("forgotten", "number")]),
]
UNNAMED = "has the name of no event: there are offer, fulfil, fail, fee, sign, deliver, keep, broadcast, close, blocks, look, take, release and reorg"


def scenario(**members):
    """A scenario with two channels and one event before that of a row."""
    return {"seeds": [SEED, SEED], "channels": [TERMS, TERMS], "events": [["look", "A"]], **members}


def faulty_objects(at, value, parts):
    """Objects that lack a member, that have one of another shape, and one with a member more; and what is noted."""
    for name, kind in parts.items():
        yield {key: it for key, it in value.items() if key != name}, f"{at} has no member {name}"
        for other in MISSED[kind]:
            yield {**value, name: other}, f"{at}: its {name} is not {WORDS[kind][1]}"
    for name in ("more", '"\\~!', "m" * 40):
        yield {**value, name: 0}, f"{at} has a member that does not belong to it: {name}"
    # a name that is too long, or that can't be told in a line
    for name in ("", "m" * 41, "a b", "\n", "\u00e9"):
        yield {**value, name: 0}, f"{at} has a member that does not belong to it"
    yield [], f"{at} is no object"


def scenario_rows():
    """Texts that are no scenario, and the note on each."""
    yield from faulty_objects("the scenario", scenario(), MEMBERS)
    for terms, note in faulty_objects("channel 1", TERMS, PARTS):
        yield scenario(channels=[TERMS, terms]), note
    for name, parts in EVENTS:
        whole = [name, *(WORDS[kind][0] for _, kind in parts)]
        for at, (part, kind) in enumerate(parts, 1):
            for other in MISSED[kind]:
                yield scenario(events=[["look", "A"], whole[:at] + [other] + whole[at + 1 :]]), f"event 1: its {part} is not {WORDS[kind][1]}"
        if name != "broadcast":
            for event in (whole[:-1], [*whole, 0]):
                yield scenario(events=[["look", "A"], event]), f"event 1 has {len(event)} items, and not {len(whole)}"
    for event, wanted in ((["broadcast", "A", 0], 4), (["broadcast", "A", 0, 0, 0, 0], 4)):
        yield scenario(events=[["look", "A"], event]), f"event 1 has {len(event)} items, and not {wanted}"
    for event, note in (
        (["offr"], f", offr, {UNNAMED}"), (["o" * 41, 1], f" {UNNAMED}"), (["an offer"], f" {UNNAMED}"), ([""], f" {UNNAMED}"),
        *((it, " is no array with a name at its front") for it in ([1], {}, [], 0)),
    ):
        yield scenario(events=[["look", "A"], event]), f"event 1{note}"
    # limits: of channels, of events, and of the blocks of an event
    yield scenario(channels=[TERMS] * 9), "the scenario has 9 channels, and at most 8 are allowed"
    yield scenario(events=[["look", "A"]] * 10_001), "the scenario has 10001 events, and at most 10000 are allowed"
    yield scenario(events=[["blocks", 10_000], ["blocks", 10_001]]), "event 1 asks for 10001 blocks, and at most 10000 are allowed in one event"
    # the first of two that are beyond a limit, and the first of two limits
    yield scenario(events=[["blocks", 10_002], ["blocks", 10_001]]), "event 0 asks for 10002 blocks, and at most 10000 are allowed in one event"
    yield scenario(channels=[TERMS] * 9, events=[["look", "A"]] * 10_001), "the scenario has 9 channels, and at most 8 are allowed"
    yield scenario(events=[["blocks", 10_001]] * 10_001), "the scenario has 10001 events, and at most 10000 are allowed"
    yield scenario(channels=[{**TERMS, "start": [1, 0]}], events=[["blocks", 10_001]]), "event 0 asks for 10001 blocks, and at most 10000 are allowed in one event"
    # starts that are not the capacity, in the other unit and by one; and more bitcoins than there are
    for a, b in ((80000, 20000), (80_000_000, 20_000_001), (80_000_000, 19_999_999), (2**64 - 1, 2**64 - 1)):
        yield scenario(channels=[TERMS, {**TERMS, "start": [a, b]}]), f"channel 1: its start is {a} and {b} millisatoshis, together {a + b}, and its capacity is 100000 satoshis, which are 100000000 millisatoshis"
    # the first of two channels on whose terms nobody can agree
    yield scenario(channels=[{**TERMS, "start": [1, 0]}, {**TERMS, "start": [2, 0]}]), "channel 0: its start is 1 and 0 millisatoshis, together 1, and its capacity is 100000 satoshis, which are 100000000 millisatoshis"
    most = 21_000_000 * 100_000_000
    yield scenario(channels=[{**TERMS, "capacity": most + 1, "start": [0, 1000 * (most + 1)]}]), f"channel 0: its capacity is {most + 1} satoshis, and there are at most {most}"


def with_twice(value, name):
    """The text of an object with one of its members once more."""
    return f"{json.dumps(value)[:-1]}, {json.dumps(name)}: {json.dumps(value[name])}}}"


def again(name, at, line=1, column=None):
    """The note on a member that stands again at a byte."""
    return f"the member {name} stands twice in its object, and the last one counts: again at byte {at}: line {line}, column {column or at + 1}"


def repeated_rows():
    """Scenarios that are played, in which a member stands twice, and the note on each."""
    for name in MEMBERS:
        text = with_twice(scenario(), name)
        yield text, again(name, text.rindex(f'"{name}"'))
    for channel in range(2):
        for name in PARTS:
            terms = [json.dumps(TERMS)] * 2
            terms[channel] = with_twice(TERMS, name)
            text = json.dumps(scenario(channels=[])).replace("[]", f"[{', '.join(terms)}]")
            at = text.rindex(f'"{name}"', 0, text.rindex("}]") if channel else text.index("}"))
            yield text, again(name, at)
    # of two the first one is named, escapes are undone, and lines are counted
    yield text[:-1] + ', "events": []}', again(name, at)
    text = json.dumps(scenario())[:-1] + ',\n\n  "e\\u0076ents": []}'
    yield text, again("events", text.rindex('"e'), 3, 3)


# ---- forwards

PREIMAGE, AMOUNT, EXPIRY = "00" * 32, 9_000_000, 60
PAYMENT = bitcoin.sha256(bytes.fromhex(PREIMAGE)).hex()


class Forward:
    """Offers of one hash, each irrevocably committed. What A forwards: B offers it an HTLC in channel 1, and A offers B one in channel 0."""

    def __init__(self, *offers):
        self.events, self.revoked = [], {}
        for side, channel in offers or (("B", 1), ("A", 0)):
            self.offer(side, channel)

    def offer(self, side, channel):
        """The number of the event that offers."""
        event = self.add("offer", side, channel, AMOUNT, PAYMENT, EXPIRY)
        self.deliver("AB".strip(side), channel)
        self.commit(side, channel)
        return event

    def add(self, *event):
        """The number of an event that is added."""
        self.events.append([*event])
        return len(self.events) - 1

    def deliver(self, side, channel, count=1):
        for _ in range(count):
            self.add("deliver", side, channel)

    def sign(self, side, channel):
        """The other side's next commitment; before it the penalties of the one that is revoked."""
        peer = "AB".strip(side)
        number = self.revoked.get((peer, channel), 0)
        if number:
            self.add("keep", side, channel, number - 1)
        self.add("sign", side, channel)
        self.deliver(peer, channel)
        self.revoked[peer, channel] = number + 1

    def commit(self, side, channel):
        """Both sign, and both revoke: what this side sent is irrevocably committed (BOLT 2)."""
        for signer in (side, "AB".strip(side)):
            self.sign(signer, channel)
            self.deliver(signer, channel)

    def row(self, *notes):
        return json.dumps({**scenario(), "events": self.events}), [*notes]


def refused_note(events, event):
    return f"event {event} is the first that was refused, UnknownHtlc: {json.dumps(events[event])}"


def at_stake(pays=AMOUNT, gets=0, is_closed=False):
    """What a side may pay by the hash, and what is left to it."""
    rest = ", unless a transaction deep in the chain took back or left out what it offers there" * is_closed
    return f": it pays up to {pays} millisatoshis by that hash, and {gets} are left to it{rest}"


def fail_rows():
    """A fails what it forwards: up to each step by which the fail of B is irrevocably committed, by a preimage that A has or has not, and after a fail of B that is refused."""
    fails = "A fails HTLC 0 of channel 1"
    for steps in range(6):
        it = Forward()
        it.add("fail", "B", 0, 0)
        for step, side in ((it.deliver, "A"), (it.sign, "B"), (it.deliver, "B"), (it.sign, "A"), (it.deliver, "A"))[:steps]:
            step(side, 0)
        event = it.add("fail", "A", 1, 0)
        yield it.row(*[f"event {event}: {fails} before B's fail of the same hash in channel 0 is irrevocably committed{at_stake()}"] * (steps < 5))
    stands = " while it offers the same hash in channel 0"
    for is_known, why in ((True, ", whose preimage it has by B's fulfil in channel 0"), (False, stands)):
        it = Forward()
        it.add("fulfil", "B", 0, 0, PREIMAGE)
        if is_known:
            it.deliver("A", 0)
            it.commit("B", 0)
        yield it.row(f"event {it.add('fail', 'A', 1, 0)}: {fails}{why}{at_stake()}")
    it = Forward()
    first, event = it.add("fail", "B", 0, 7), it.add("fail", "A", 1, 0)
    yield it.row(refused_note(it.events, first), "there is no such HTLC: A offered 1 in channel 0, numbered from 0", f"event {event}: {fails}{stands}{at_stake()}")
    yield from one_channel_rows(fails)
    # A's own HTLC-timeout transaction is deep in the chain
    it = Forward()
    it.add("close", "A", 0)
    it.add("blocks", EXPIRY)
    it.add("broadcast", "A", 0, 1, 0)
    it.add("blocks", 7)
    yield it.row(f"event {it.add('fail', 'A', 1, 0)}: {fails}{stands}, which is closed{at_stake(is_closed=True)}")
    # the order turned round: A offers what it failed, alone or after B offered it again
    for again in (False, True):
        it = Forward(("B", 1))
        it.add("fail", "A", 1, 0)
        it.deliver("B", 1)
        it.commit("A", 1)
        if again:
            it.offer("B", 1)
        late = f"event {it.offer('A', 0)}: A offers in channel 0 the hash of HTLC 0 of channel 1, which it failed{at_stake()}"
        yield it.row(*[late] * (not again))
    # two are offered to A, which fails one of them, and another one after a fail that is irrevocably committed
    it = Forward(("B", 1), ("B", 1), ("A", 0), ("A", 0))
    first = it.add("fail", "A", 1, 0)
    it.deliver("B", 1)
    it.commit("A", 1)
    second = it.add("fail", "A", 1, 1)
    yield it.row(f"event {first}: {fails}{stands}{at_stake(2 * AMOUNT, AMOUNT)}", f"event {second}: {fails.replace('0', '1', 1)}{stands}{at_stake(2 * AMOUNT)}")
    # an ordinary retry, of which A is the payer
    it = Forward(("A", 0), ("B", 1))
    for side, channel in (("A", 1), ("B", 0)):
        it.add("fail", side, channel, 0)
        it.deliver("AB".strip(side), channel)
        it.commit(side, channel)
    it.offer("A", 0)
    it.offer("B", 1)
    yield it.row()


def one_channel_rows(fails):
    """A fails in channel 1 while its own offer of the hash stands there, or with the preimage: by B's fulfil there, and by its own there and in channel 0, before the fail and after it."""
    it = Forward(("B", 1), ("A", 1))
    yield it.row(f"event {it.add('fail', 'A', 1, 0)}: {fails} while it offers the same hash in channel 1{at_stake()}")
    it = Forward(("B", 1), ("A", 1))
    it.add("fulfil", "B", 1, 0, PREIMAGE)
    it.deliver("A", 1)
    yield it.row(f"event {it.add('fail', 'A', 1, 0)}: {fails}, whose preimage it has by B's fulfil in channel 1{at_stake()}")
    for channel, number in ((1, 1), (0, 0)):
        it = Forward(("B", channel), ("B", 1))
        it.add("fulfil", "A", channel, 0, PREIMAGE)
        yield it.row(f"event {it.add('fail', 'A', 1, number)}: A fails HTLC {number} of channel 1, whose preimage it has by its own fulfil in channel {channel}, and can't fulfil it any more")
        for again in (False, True):
            it = Forward(("B", channel), ("B", 1))
            it.add("fail", "A", 1, number)
            it.deliver("B", 1)
            it.commit("A", 1)
            if again:
                it.offer("B", 1)
            event = it.add("fulfil", "A", channel, 0, PREIMAGE)
            late = f"event {event}: A fulfils HTLC 0 of channel {channel} after it failed HTLC {number} of channel 1, which has the same hash: it can't fulfil that one any more"
            yield it.row(*[late] * (not again))


def fulfilled_in_0(*offers):
    """B fulfils what A offered it in channel 0, which A knows and is irrevocably committed; and the number of the event."""
    it = Forward(*offers)
    event = it.add("fulfil", "B", 0, 0, PREIMAGE)
    it.deliver("A", 0)
    it.commit("B", 0)
    return it, event


def fulfil_rows():
    """A fulfils what it forwards: too early, so that it is refused, and on both sides of the height at which it is too late, in a channel that is closed before or after, or not at all."""
    it = Forward()
    it.events.insert(2, ["fulfil", "A", 1, 0, PREIMAGE])
    event = it.add("fulfil", "B", 0, 0, PREIMAGE)
    it.deliver("A", 0)
    it.add("close", "B", 1)
    left = f"event {event}: B fulfils HTLC 0 of channel 0, and A does not fulfil B's HTLC 0 of channel 1, which has the same hash: "
    early = "HTLC 0 of channel 1 is not yet committed on both sides: B signs, A revokes and signs, and B revokes, in this order"
    yield it.row(refused_note(it.events, 2), early, f"{left}a fulfil in one channel is not known in another")
    # what takes the HTLC back has the lock time of its expiry, and may stand in a block above that height (BIP 65); the next block gives a claim, or has the commitment, and the one after that has the claim
    rest = f"B may take it back in any block above {EXPIRY}, and a claim that the next block gives is in block {EXPIRY + 1} at the earliest"
    for blocks in (EXPIRY - 2, EXPIRY - 1):
        is_late = blocks + 2 > EXPIRY
        it, _ = fulfilled_in_0()
        it.add("close", "B", 1)
        it.add("blocks", blocks)
        late = f"event {it.add('fulfil', 'A', 1, 0, PREIMAGE)}: A fulfils HTLC 0 of channel 1 at height {blocks}, and the channel is closed: {rest}"
        yield it.row(*[late] * is_late)
        # it is never fulfilled, and the channel stays open
        it, event = fulfilled_in_0()
        it.add("blocks", blocks)
        left = f"event {event}: B fulfils HTLC 0 of channel 0, and A does not fulfil B's HTLC 0 of channel 1, which has the same hash: "
        yield it.row(*[f"{left}B may take that one back in any block above {EXPIRY}"] * is_late)
        # in the same channel, which is closed: the preimage is known there
        it = Forward(("B", 1), ("B", 1))
        event = it.add("fulfil", "A", 1, 0, PREIMAGE)
        it.deliver("B", 1)
        it.commit("A", 1)
        it.add("blocks", blocks)
        it.add("close", "B", 1)
        yield it.row(*[f"event {event}: A fulfils HTLC 0 of channel 1, and not HTLC 1 of channel 1, which has the same hash: B may take that one back in any block above {EXPIRY}"] * is_late)
    # the commitment is revoked, and A takes all of it; and the channel is closed with B's newest one
    for number in (0, 1):
        it, event = fulfilled_in_0()
        it.add("broadcast", "B", 1, number)
        yield it.row(*[f"event {event}: B fulfils HTLC 0 of channel 0, and A does not fulfil B's HTLC 0 of channel 1, which has the same hash: a fulfil in one channel is not known in another"] * number)
    # the channel is closed after it, by either side, up to each step by which the fulfil is irrevocably committed: the second one brings it into B's commitment, the fourth one into A's; or it stays open
    for closer, gone in (("B", 2), ("A", 4), (None, 4)):
        for steps in range(6):
            it, _ = fulfilled_in_0()
            it.add("blocks", EXPIRY - 1)
            event = it.add("fulfil", "A", 1, 0, PREIMAGE)
            for step, side in ((it.deliver, "B"), (it.sign, "A"), (it.deliver, "A"), (it.sign, "B"), (it.deliver, "B"))[:steps]:
                step(side, 1)
            closed = f", and event {it.add('close', closer, 1)} closes the channel at height {EXPIRY - 1} before the fulfil is committed" if closer else f", which is not committed at the end, at height {EXPIRY - 1}"
            yield it.row(*[f"event {event}: A fulfils HTLC 0 of channel 1{closed}: {rest}"] * (steps < gone))


# ---- the calls


def printed_notes(ran):
    """The notes that a call printed."""
    return [line.removeprefix("note: ") for line in ran.stderr.decode().splitlines()]


def is_of_refused(note):
    """Whether a note is on an event that was refused."""
    return " is the first that was refused" in note or note.startswith(("there is no such HTLC", "HTLC 0 of"))


def is_contradictory(notes):
    return any(it.endswith("contradict each other") for it in notes)


def is_noted(command, words, given, notes, facts=None):
    """Whether a call notes this, and lists one path with these facts where they are given."""
    ran = subprocess.run([command, *words], input=given.encode(), capture_output=True)
    listed = [line[2:] for line in ran.stdout.decode().splitlines() if line.startswith("  ")]
    well = printed_notes(ran) == notes and (facts is None or (ran.stdout.startswith(b"paths 1\n") and listed == facts))
    if not well:
        print(f"{' '.join(words)[:400]} {given[:200]}\n  notes {printed_notes(ran)}\n  wanted {notes}" + (f"\n  lists {listed}\n  wanted {facts}" if facts is not None and listed != facts else ""))
    return well


def is_dead_end(note):
    return note.startswith("nobody can spend by")


def names_dead_ends(code, ran):
    """Whether the notes of a call name the branches by which nobody can spend, where it lists the script and knows it for no output's program."""
    notes = printed_notes(ran)
    is_told = ran.stdout.startswith(b"paths ") and not any(it.startswith("these bytes have the form") for it in notes)
    named, wanted = [it for it in notes if is_dead_end(it)], [note for _, note in dead_ends(code)] if is_told else []
    if named != wanted:
        print(f"{code}\n  names {named}\n  wanted {wanted}")
    return named == wanted


def main():
    os.chdir(TOP)
    command = program("enforce")
    scripts = [*opcode_rows(), *operand_rows(), *length_rows(), *((code, with_dead_ends(code, notes)) for code, notes in [*ENDS, *lock_rows(), *key_rows(), *constant_rows(), *shared_rows(), *relay_rows(), *origin_rows(), *pushed_rows(), *shown_rows(), *dropped_rows(), *shortcut_rows(), *empty_rows()])]
    pairs = [(code, facts, with_dead_ends(code, notes)) for code, facts, notes in pair_rows()]
    texts = [(json.dumps(value), [note]) for value, note in scenario_rows()]
    # the place of what is no JSON, in a text of as many bytes as there may be; one more byte is not looked at
    texts += [("x".ljust(LIMIT), ["invalid JSON at byte 0: line 1, column 1"]), ("x".ljust(LIMIT + 1), [])]
    wrong = sum(not is_noted(command, ["paths", code], "", notes) for code, notes in scripts)
    wrong += sum(not is_noted(command, ["paths", code], "", notes, facts) for code, facts, notes in pairs)
    wrong += sum(not is_noted(command, ["run"], given, notes) for given, notes in texts)
    repeated = [(given, [note]) for given, note in repeated_rows()]
    wrong += sum(not is_noted(command, ["run"], given, notes) for given, notes in repeated)
    wrong += sum(not is_noted(command, ["node", "1"], given, notes) for given, notes in texts[:1] + repeated[:1])
    forwards = [*fail_rows(), *fulfil_rows()]
    wrong += sum(not is_noted(command, ["run"], given, notes) for given, notes in forwards)
    # trace notes no refused event
    wrong += sum(not is_noted(program("trace"), ["scenario"], given, [it for it in notes if not is_of_refused(it)]) for given, notes in forwards)
    drawn = [(code, printed_notes(subprocess.run([command, "paths", code], capture_output=True))) for code in mixed_scripts(600)]
    wrong += sum(not is_right(code, notes) for code, notes in ENDS)
    wrong += sum(ends_so(notes) and not is_right(code, notes) for code, notes in drawn)
    print(f"notes: {len(scripts)} scripts, {sum(ends_so(it[1]) for it in drawn)} more that end as in consensus, {len(pairs)} pairs of facts, {sum(is_contradictory(it[2]) for it in pairs)} of them contradictory, {len(texts)} texts that are no scenario, {len(repeated)} scenarios with a member that stands twice, {len(forwards)} with a forward: {wrong} noted otherwise")
    return int(wrong > 0)


if __name__ == "__main__":
    if sys.argv[1:] == ["--help"]:
        raise SystemExit(__doc__)
    sys.exit(main())
