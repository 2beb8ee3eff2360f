#!/usr/bin/env python3
"""Recomputes what `trace script` prints for the scripts whose listings the pages show, from the bytes and from those listings.

  oracles/traces.py            compares crates/trace/stdin and crates/trace/stdout with it; status 1 where they differ
  oracles/traces.py --write    writes them

A page, or a text of examples/commands, shows a listing as './enforce paths HEX' with its output, notes too. The opcodes, what pushes and scripts look like, programs, sentences, weights, what a witness has and who can take what it
spends are computed here by rules of this file's own, from BIP 16, 141, 144, 174, 341 and 65, 68, 112 and docs/TRACE_SCRIPT.md.
"""
import glob
import json
import os
import re
import sys

from bitcoin import compact_size, script_program

TOP = os.path.dirname(os.path.dirname(os.path.abspath(__file__)))
NAMES = {
    0x63: "IF", 0x64: "NOTIF", 0x67: "ELSE", 0x68: "ENDIF", 0x75: "DROP", 0x76: "DUP", 0x7C: "SWAP", 0x82: "SIZE", 0x87: "EQUAL", 0x88: "EQUALVERIFY",
    0xA9: "HASH160", 0xAC: "CHECKSIG", 0xAE: "CHECKMULTISIG", 0xB1: "CHECKLOCKTIMEVERIFY", 0xB2: "CHECKSEQUENCEVERIFY",
}


def dropped_pushes(*counts):
    """Pushes of these lengths, each with its DROP; their bytes are unlike each other."""
    return "".join(bytes([count, *range(count), 0x75]).hex() for count in counts)


# scripts of 252, 253, 300 and 520 bytes
SIZES = [dropped_pushes(75, 75, 75, 19), dropped_pushes(75, 75, 75, 20), dropped_pushes(75, 75, 75, 67), dropped_pushes(75, 75, 75, 75, 75, 75, 56)]
# the greatest and the least numbers of four and of five bytes, and six bytes, which are no number
NUMBERS = "".join(f"{len(it) // 2:02x}{it}75" for it in ("ffffff7f", "ffffffff", "ffffffff7f", "ffffffffff", "000080", "00008000", "0000008000", "ffffffffff7f", "000000000001"))
KEY = "02" + "11" * 32
# CHECKMULTISIG of no signature and 20 keys after 160 opcodes that count, with a SWAP, and after 162: with it and its keys 201 count, and 202
FEW_KEYS, MANY_KEYS = (f"0000{'7675' * pairs}{swap}21{KEY}{'76' * 19}0114ae" for pairs, swap in ((80, "7c"), (81, "")))
# an item that is a preimage and true, one that is true and a preimage, and one of two bytes
HASH = "5a" * 20
HASHED, TRUE, BYTES = f"76a914{HASH}88", f"766368a914{HASH}87", "7602aabb88"
# the greatest lock time (BIP 68 and 113 count seconds in 32 bits)
LAST_SECOND = 0xFFFFFFFF
# absolute locks of the greatest lock time and of the next number, which have 5 bytes; relative ones of no, one and two units of time, and of one block
LAST, NEVER = "05ffffffff00b17551", "050000000001b17551"
UNITS, BLOCK = [f"030{count}0040b27551" for count in range(3)], "51b27551"
MORE = [*SIZES, NUMBERS, FEW_KEYS, MANY_KEYS, HASHED, TRUE, BYTES, LAST, NEVER, *UNITS, BLOCK, "", "6351", "5193", "5102ff", "0g", "00", "0181", "01ff75", "02ff0075", "4b" + "00" * 75 + "75", "63" * 3 + "68" * 3, "67", "68", "5167", "63676768", "51758282",
        "01000000", "7675" * 101, "51" * 1001, "636768" * 7, "51" * 10001]
REFUSED = {"6351": "OpenBranch", "5193": "BadOpcode 1", "5102ff": "Truncated 1", "0g": "BadHex", "67": "OpenBranch", "68": "OpenBranch", "5167": "OpenBranch", "63676768": "OpenBranch", "51758282": "Undecided 3",
           "7675" * 101: "TooManyOps", MANY_KEYS: "TooManyOps", "51" * 1001: "TooTall", "636768" * 7: "TooManyPaths", "51" * 10001: "TooLong"}
LISTED = {
    **{it: [f"path 0 arity 1 counted {counted} height 2 lock - age -", "  truth 0 yes"] for it, counted in zip(SIZES, (4, 4, 4, 7))},
    NUMBERS: ["path 0 arity 1 counted 9 height 2 lock - age -", "  truth 0 yes"],
    FEW_KEYS: ["path 0 arity 0 counted 201 height 23 lock - age -"],
    HASHED: ["path 0 arity 1 counted 3 height 3 lock - age -", f"  hash 0 {HASH} yes", "  truth 0 yes"],
    TRUE: ["path 0 arity 1 counted 5 height 2 lock - age -", "  truth 0 yes", f"  hash 0 {HASH} yes", "path 1 arity 1 counted 5 height 2 lock - age -", "  truth 0 no", f"  hash 0 {HASH} yes"],
    BYTES: ["path 0 arity 1 counted 2 height 3 lock - age -", "  is 0 aabb yes", "  truth 0 yes"],
    **{it: [f"path 0 arity 0 counted 2 height 1 lock {lock} age -", f"  lock {lock}"] for it, lock in ((LAST, 4294967295), (NEVER, 4294967296))},
    **{it: ["path 0 arity 0 counted 2 height 1 lock - age -", f"  age {0x400000 + count}"] for count, it in enumerate(UNITS)},
    BLOCK: ["path 0 arity 0 counted 2 height 1 lock - age 1", "  age 1"],
    "": ["path 0 arity 1 counted 0 height 1 lock - age -", "  truth 0 yes"],
    "00": [],
    "0181": ["path 0 arity 0 counted 0 height 1 lock - age -"],
    "01ff75": ["path 0 arity 1 counted 1 height 2 lock - age -", "  truth 0 yes"],
    "02ff0075": ["path 0 arity 1 counted 1 height 2 lock - age -", "  truth 0 yes"],
    "4b" + "00" * 75 + "75": ["path 0 arity 1 counted 1 height 2 lock - age -", "  truth 0 yes"],
    "01000000": [],
    "63" * 3 + "68" * 3: None,
}
ANYONE = "anyone can spend by path 0: no signature of a key that the script fixes is asked for"
FINDER = "whoever sees such a witness can spend too by path {}: what has a given hash is asked for, and no signature of a key that the script fixes"
NONE = "no witness satisfies the script by the rules of this profile: each branch ends as in consensus"
ONLY = "nobody can spend by the only branch: "
WAITS = "path 0 waits {} unit{} of 512 seconds, about {} minutes, which its age does not tell: that is in blocks (BIP 68)"
LONG = "opcode 0, a push of 81 (1 byte): nodes relay no spend that runs it, since the opcode 4f pushes the same (minimal pushes)"
# what enforce notes of the scripts above
NOTES = {
    **{it: [ANYONE] for it in [*SIZES, NUMBERS, FEW_KEYS, LAST, *UNITS, BLOCK, "", "0181", "01ff75", "02ff0075", "4b" + "00" * 75 + "75"]},
    LAST: ["nobody can ever spend by path 0: its lock time is 4294967295, and no median time past is above that (BIP 113)"],
    **{it: [ANYONE, WAITS.format(count, "s" * (count != 1), (0, 9, 17)[count])] for count, it in enumerate(UNITS)},
    NEVER: ["no transaction has the lock time of path 0: a lock time has 4 bytes, so it is at most 4294967295"],
    UNITS[0]: [ANYONE, "opcode 1, CHECKSEQUENCEVERIFY of 4194304, asks for an age of 0 units of 512 seconds: of a number only bits 0 to 15, 22 and 31 count (BIP 68)"],
    "0181": [ANYONE, LONG],
    HASHED: [FINDER.format("0")],
    TRUE: [FINDER.format("0, 1")],
    BYTES: [ANYONE],
    MANY_KEYS: ["the script has 182 counted opcodes: with the keys of the CHECKMULTISIGs on a path there are more than 201"],
    "6351": ["the IF or NOTIF at opcode 0 has no ENDIF"],
    "5193": ["byte 1 is 93, OP_ADD in Bitcoin, which is not in the table", "pushed before it: the number 1 at byte 0"],
    "5102ff": ["the push at byte 1 wants 2 bytes, and 1 follow", "pushed before it: the number 1 at byte 0"],
    "0g": ["byte 1 of the text is g, which is no hexadecimal digit"],
    "00": [NONE, ONLY + "after the last opcode it leaves the empty item, which is false"],
    "01000000": [NONE, ONLY + "after the last opcode it leaves two or more elements, and BIP 141 wants one: is a DROP missing?"],
    "67": ["the ELSE at opcode 0 has no IF"],
    "68": ["the ENDIF at opcode 0 has no IF"],
    "5167": ["the ELSE at opcode 1 has no IF"],
    "63676768": ["the ELSE at opcode 2 is the second one of the IF or NOTIF at opcode 0: consensus takes it, and it can be written as a further IF"],
    "51758282": ["opcode 3 is OP_SIZE: no rule decides it on what stands on the stack there, so the listing gives up: whether anyone can spend, or nobody, is not said"],
    "7675" * 101: ["the script has 202 counted opcodes, and at most 201 are allowed"],
    "51" * 1001: ["a path needs more than 1000 elements on the stack: no run of it is clean"],
    "636768" * 7: ["a 65th path begins, and at most 64 are listed"],
    "51" * 10001: ["the script has 10001 bytes, and at most 10000 are allowed (BIP 141)"],
}


def shown_listings():
    """The scripts of the pages, each with its listing: the lines of its paths, or the refusal; and the notes on each."""
    found, noted = {}, {}
    for name in ["README.md", *sorted(glob.glob("docs/*.md")), *sorted(glob.glob("examples/commands/*.txt"))]:
        with open(name, encoding="utf-8") as file:
            text = file.read()
        for block in [text] if name.endswith(".txt") else re.findall(r"^```console\n(.*?)^```$", text, re.S | re.M):
            for part in re.split(r"^\$ ", block, flags=re.M)[1:]:
                command, _, printed = part.partition("\n")
                call = re.fullmatch(r"\./enforce paths ([0-9A-Za-z]+)(?:; echo .*)?", command)
                lines = printed.splitlines()
                if call:
                    noted[call[1]] = [line[6:] for line in lines if line.startswith("note: ")]
                if call and lines and lines[0].startswith("refused "):
                    found[call[1]] = lines[0][8:]
                elif call and lines and lines[0].startswith("paths "):
                    found[call[1]] = [line for line in lines[1:] if line.startswith(("path ", "  "))]
    return found, noted


def opcodes(script):
    """The opcodes with their bytes, up to a fault, each with the number of counted opcodes so far."""
    ops, at = [], 0
    while at < len(script):
        byte = script[at]
        if byte <= 75:
            item = script[at + 1 : at + 1 + byte]
            if len(item) < byte:
                break
            ops.append((at, "PUSH", item))
            at += byte
        elif 0x51 <= byte <= 0x60:
            ops.append((at, "PUSH", bytes([byte - 0x50])))
        elif byte in NAMES:
            ops.append((at, NAMES[byte], None))
        else:
            break
        at += 1
    return ops


def number(item):
    """The number that an item of at most 5 bytes encodes, if it is minimally encoded."""
    if item == b"":
        return 0
    if len(item) > 5:
        return None
    magnitude = int.from_bytes(item, "little") & ((1 << (8 * len(item) - 1)) - 1)
    value = -magnitude if item[-1] & 0x80 else magnitude
    if (item[-1] & 0x7F) == 0 and (len(item) == 1 or not item[-2] & 0x80):
        return None
    return value


def opcode_objects(ops):
    """The opcodes as trace has them."""
    told, depth = [], 0
    for at, name, item in ops:
        here = max(depth - 1, 0) if name in ("ELSE", "ENDIF") else depth
        depth = {"IF": depth + 1, "NOTIF": depth + 1, "ENDIF": max(depth - 1, 0)}.get(name, depth)
        one = {"byte": at, "depth": here, "op": name}
        if item is not None:
            value = number(item)
            one["hex"] = item.hex()
            if len(item) == 33 and item[0] in (2, 3):
                one["looks"] = "key"
            elif len(item) in (20, 32):
                one["looks"] = "hash"
            elif value is None:
                one["looks"] = "bytes"
            else:
                one.update(looks="number", number=value)
        told.append(one)
    return told


def key_words(key):
    return f"the key in slot {key[5:]}" if key.startswith("slot ") else f"the key {key}"


def fact_object(line):
    """A fact as trace has it, from its line in a listing."""
    words = line.split()
    kind, holds = words[0], words[-1] != "no"
    verb = "" if holds else " not"
    one = {"kind": kind, "holds": holds, "role": "with", "slots": [], "keys": [], "value": None, "says": ""}
    if kind in ("lock", "age"):
        n = int(words[1])
        one.update(role="when", value=n)
        if kind == "lock":
            at_time = f"once the median time past is above {n} seconds since 1970 (BIP 113)"
            past = "never: no median time past is above 4294967295 (BIP 113)"
            never = past if n == LAST_SECOND else "never: no transaction has a lock time above 4294967295"
            one["says"] = (
                f"in block {n + 1} at the earliest" if n < 500_000_000 else at_time if n < LAST_SECOND else never
            )
        else:
            count, unit = n & 0xFFFF, "unit of 512 seconds of median time past (BIP 68)" if n >> 22 & 1 else "block"
            several = f"after {count} " + unit.replace("unit", "units").replace("block", "blocks")
            one["says"] = ("at once", f"after 1 {unit}")[count] if count < 2 else several
        return one
    one["slots"] = [int(it) for it in words[1].split(",")]
    slot = f"slot {words[1]} is{verb}"
    if kind == "hash":
        one.update(value=words[2], says=f"{slot} a preimage of the HASH160 {words[2]}")
    elif kind == "size":
        one.update(value=int(words[2]), says=f"{slot} {words[2]} bytes long")
    elif kind == "truth":
        one["says"] = f"slot {words[1]} is " + ("true" if holds else "false, as the empty item is")
    elif kind == "is":
        one.update(value=words[2].replace("-", ""), says=f"{slot} " + ("the empty item" if words[2] == "-" else f"the bytes {words[2]}"))
    elif kind == "key":
        one["says"] = f"{slot} a public key of 33 bytes"
    elif kind == "form":
        one["says"] = f"{slot} a signature or the empty item"
    else:
        keys = " ".join(words[2:-1]).split(",")
        one["keys"] = [int(key[5:]) if key.startswith("slot ") else key for key in keys]
        one["role"] = "who" if holds else "with"
        if kind == "token":
            one["says"] = f"{slot} a signature by {key_words(keys[0])}"
        else:
            one["says"] = f"slots {words[1]} are{verb} signatures by keys of {','.join(keys)} in their order"
    return one


def weight(arity, facts, script, signature):
    """The bytes of the witness: the number of items, the items, and the script."""
    total = len(compact_size(arity + 1)) + len(compact_size(script)) + script
    for slot in range(arity):
        sizes = {"is": lambda it: len(it["value"]) // 2, "size": lambda it: it["value"], "key": lambda it: 33, "token": lambda it: signature, "assigned": lambda it: signature}
        mine = [it for it in facts if it["holds"] and slot in it["slots"]]
        exact = [sizes[it["kind"]](it) for it in mine if it["kind"] in sizes]
        usual = max([{"hash": 32, "truth": 1}.get(it["kind"], 0) for it in mine], default=0)
        size = exact[0] if exact else usual
        total += len(compact_size(size)) + size
    return total


def looks(script):
    """What bytes look like that are no witness script."""
    if script.startswith(b"psbt\xff"):
        return "PSBT"
    version, rest = script[:4], script[4:]
    if len(script) >= 60 and version in (b"\1\0\0\0", b"\2\0\0\0", b"\3\0\0\0") and (rest[0] or rest[1] == 1):
        return "transaction"
    for name, pattern in (("P2PKH", "76a914(..){20}88ac"), ("P2SH", "a914(..){20}87"), ("P2PK", "4104(..){64}ac"), ("P2WPKH", "0014(..){20}"), ("P2WSH", "0020(..){32}"), ("P2TR", "5120(..){32}")):
        if re.fullmatch(pattern, script.hex()):
            return name
    if 4 <= len(script) <= 42 and script[0] in (0, *range(0x51, 0x61)) and script[1] == len(script) - 2:
        return "program"
    return None


def item_of(slot, facts):
    """What the witness has in a slot, by the first fact that says it."""
    mine = [it for it in facts if slot in it["slots"]]
    held = {it["kind"]: it for it in reversed(mine) if it["holds"]}
    if "is" in held:
        return held["is"]["value"] or "<empty>"
    signed = next((it for it in mine if it["holds"] and it["kind"] in ("token", "assigned")), None)
    if signed:
        keys = signed["keys"]
        key = keys[signed["slots"].index(slot)] if len(keys) == len(signed["slots"]) else f"one of {len(keys)} keys"
        return f"<signature of the key in slot {key}>" if isinstance(key, int) else f"<signature of {key}>"
    if "hash" in held:
        return f"<{'key with' if 'key' in held else 'preimage of'} HASH160 {held['hash']['value']}>"
    if "key" in held:
        return "<key>"
    sizes = [it["value"] for it in mine if it["holds"] and it["kind"] == "size" and it["value"]]
    if sizes:
        return f"<{sizes[0]} byte{'s' * (sizes[0] != 1)}>"
    if "truth" in held:
        return "<true item>" if any(not it["holds"] and (it["kind"], it["value"]) in (("size", 1), ("is", "01")) for it in mine) else "01"
    return "<item>" if any(not it["holds"] and (it["kind"], it["value"]) in (("size", 0), ("is", "")) for it in mine) else "<empty>"


def taker(facts):
    """Who can take what a path spends."""
    fixed = {it["slots"][0] for it in facts if it["holds"] and it["kind"] in ("hash", "is")}
    for it in facts:
        if it["holds"] and it["kind"] in ("token", "assigned"):
            free = sum(isinstance(key, int) and key not in fixed for key in it["keys"])
            if free < len(it["slots"]):
                return "signer"
    return "finder" if any(it["holds"] and it["kind"] == "hash" for it in facts) else "anyone"


def path_objects(lines, script):
    """The paths as trace has them."""
    paths = []
    for line in lines:
        if line.startswith("path "):
            words = line.split()
            lock, age = (None if it == "-" else int(it) for it in (words[9], words[11]))
            time = lock if lock is not None and lock >= 500_000_000 else None
            paths.append({"arity": int(words[3]), "counted": int(words[5]), "height": int(words[7]), "lock": lock, "median_time": time, "age": age, "age_units": None, "weight": 0, "token_weight": 0, "witness": [], "taker": "", "hashed_key": False, "facts": []})
        else:
            paths[-1]["facts"].append(fact_object(line))
    for path in paths:
        path["age_units"] = max((it["value"] & 0xFFFF for it in path["facts"] if it["kind"] == "age" and it["value"] >> 22 & 1), default=None)
        path["weight"] = weight(path["arity"], path["facts"], script, 73)
        path["token_weight"] = weight(path["arity"], path["facts"], script, 66)
        path["witness"] = [*(item_of(slot, path["facts"]) for slot in reversed(range(path["arity"]))), "<script>"]
        path["taker"] = taker(path["facts"])
        hashed, keys = ([it["slots"] for it in path["facts"] if it["holds"] and it["kind"] == kind] for kind in ("hash", "key"))
        path["hashed_key"] = any(it in hashed for it in keys)
    return paths


def place(refusal, ops, size):
    """The byte at which a script is refused, if there is one."""
    word, *numbers = refusal.split()
    begins = [at for at, _, _ in ops] + [size]
    if word in ("BadOpcode", "Truncated"):
        return int(numbers[0])
    if word == "Undecided":
        return begins[int(numbers[0])]
    if word == "TooLong":
        return 10_000
    if word == "OpenBranch":
        ifs = []
        for at, name, _ in ops:
            if name in ("IF", "NOTIF"):
                ifs.append(False)
            elif name == "ELSE" and ifs and not ifs[-1]:
                ifs[-1] = True
            elif name == "ENDIF" and ifs:
                ifs.pop()
            elif name in ("ELSE", "ENDIF"):
                return at
        return size
    if word == "TooManyOps":
        counted = [at for at, name, _ in ops if name != "PUSH"]
        return counted[201] if len(counted) > 201 else None
    return None


def line_of(text, listing, notes):
    """The line that trace prints for a script."""
    if listing == "BadHex":
        told = {"bytes": None, "looks": None, "program": None, "opcodes": [], "refused": "BadHex", "byte": None}
    else:
        script = bytes.fromhex(text)
        ops = [] if listing == "TooLong" else opcodes(script)
        program = script_program(script).hex()
        told = {"bytes": len(script), "looks": looks(script), "program": program, "opcodes": opcode_objects(ops)}
        if isinstance(listing, str):
            told.update(refused=listing, byte=place(listing, ops, len(script)))
        else:
            told["paths"] = path_objects(listing, len(script))
    if notes:
        told["notes"] = notes
    return json.dumps(told, separators=(",", ":")) + "\n"


def main(words):
    os.chdir(TOP)
    listed, noted = shown_listings()
    noted.update(NOTES)
    rows = {**listed, **{it: REFUSED[it] if it in REFUSED else LISTED[it] for it in MORE if REFUSED.get(it) or LISTED.get(it) is not None}}
    given = "".join(f"{text}\n" for text in rows)
    wanted = "".join(line_of(text, listing, noted[text]) for text, listing in rows.items())
    differs = 0
    for name, text in (("crates/trace/stdin", given), ("crates/trace/stdout", wanted)):
        if "--write" in words:
            with open(name, "w", encoding="utf-8") as file:
                file.write(text)
            continue
        with open(name, encoding="utf-8") as file:
            differs += file.read() != text
    kinds = sorted({(it["kind"], it["holds"]) for line in wanted.splitlines() for path in json.loads(line).get("paths", []) for it in path["facts"]})
    print(f"traces: {len(rows)} scripts, {len(kinds)} kinds of facts with their polarity, {differs} files differ")
    return 1 if differs else 0


if __name__ == "__main__":
    if sys.argv[1:] == ["--help"]:
        raise SystemExit(__doc__)
    sys.exit(main(sys.argv[1:]))
