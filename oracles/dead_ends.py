"""The branches of a script by which nobody can spend, worked out with symbols for what a witness has.

A branch ends where consensus refuses each run of it. It is given up where the rules of `enforce` are stricter (docs/ENFORCE.md).
"""
from bitcoin import hash160
from consensus import (
    CHECKLOCKTIMEVERIFY, CHECKMULTISIG, CHECKSEQUENCEVERIFY, CHECKSIG, DROP, DUP, ELSE, ENDIF, EQUAL, EQUALVERIFY,
    HASH160, IF, MARK, NAMES, NOTIF, SIZE, SWAP, is_in_der, is_true, opcodes,
)
from consensus import number as number_of

# what a witness decides: an item of it, the hash or the length of one, and the answer of a check
ITEM, HASHED, LENGTH, ANSWER = "item", "hash", "length", "answer"


class Dies(Exception):
    """Consensus refuses each run of a branch."""


class Strict(Exception):
    """A branch ends by a stricter rule."""


def counted(item):
    return f"{item.hex()} ({len(item)} byte{'s' * (len(item) != 1)})" if item else "the empty item"


def is_minimal(item):
    return not item or item[-1] & 0x7F or len(item) > 1 and item[-2] & 0x80


def shown(top, below):
    """What is shown of two entries: the lower one, or the upper one where the lower one has no bytes of the script."""
    return next((it for it in (below, top) if isinstance(it, bytes) and it), b"")


def equal(one, other):
    """What EQUAL leaves of two entries."""
    if not isinstance(one, bytes):
        one, other = other, one
    if not isinstance(one, bytes) or other in (ITEM, ANSWER):
        return ANSWER
    if isinstance(other, bytes):
        may_hold = one == other
        return b"\1" if may_hold else b""
    fits = len(one) == 20 if other == HASHED else len(one) <= 4 and is_minimal(one) and 0 <= number_of(one, 4) <= 520
    return ANSWER if fits else b""


def check_signature(stack):
    key, signature = stack.pop(), stack.pop()
    if isinstance(signature, bytes) and signature and not is_in_der(signature):
        raise Dies(f"{counted(signature)} is no signature in DER (BIP 66): is a DROP missing?")
    if isinstance(key, bytes) and not is_key(key) or isinstance(signature, bytes) and signature:
        raise Strict
    return b"" if signature == b"" else ANSWER


def is_key(item):
    return len(item) == 33 and item[0] in (2, 3)


def count_in(stack, limit):
    """The number on top, of what CHECKMULTISIG counts."""
    item = stack.pop()
    if not isinstance(item, bytes):
        raise Strict
    if len(item) > 4 or not 0 <= number_of(item, 4) <= limit:
        raise Dies(f"{counted(item)} is no number of keys (0 to 20), nor of signatures (0 to that of the keys)")
    if not is_minimal(item):
        raise Strict
    return number_of(item, 4)


def check_signatures(stack):
    keys = [stack.pop() for _ in range(count_in(stack, 20))]
    signatures = [stack.pop() for _ in range(count_in(stack, len(keys)))]
    extra = stack.pop()
    if signatures and isinstance(signatures[0], bytes) and signatures[0] and not is_in_der(signatures[0]):
        raise Dies(f"{counted(signatures[0])} is no signature in DER (BIP 66): is a DROP missing?")
    if isinstance(extra, bytes) and extra:
        raise Dies(f"{counted(extra)} is the extra item of CHECKMULTISIG, which has to be empty (BIP 147)")
    if any(isinstance(it, bytes) and not is_key(it) for it in keys):
        raise Strict
    return ANSWER if signatures else b"\1"


def check_lock(item):
    if len(item) > 5:
        raise Dies(f"{counted(item)} is no lock, which has at most 5 bytes")
    if number_of(item, 5) < 0:
        says = f"is {number_of(item, 5)}, and no lock is negative" if is_minimal(item) else "is negative, and no lock is"
        raise Dies(f"{counted(item)} {says} (a number is little-endian)")
    if not is_minimal(item):
        raise Strict


class Symbols(list):
    """A stack, below which are the items of the witness."""

    def pop(self):
        return super().pop() if self else ITEM


def run_opcode(op, stack):
    """Runs an opcode that opens, turns and closes no branch."""
    if isinstance(op, bytes):
        stack.append(op)
    elif op in (CHECKSIG, CHECKMULTISIG):
        stack.append(check_signature(stack) if op == CHECKSIG else check_signatures(stack))
    elif op in (EQUAL, EQUALVERIFY):
        top, below = stack.pop(), stack.pop()
        found = equal(below, top)
        if op == EQUAL:
            stack.append(found)
        elif found == b"":
            item = shown(top, below)
            raise Dies(f"{counted(item)} never equals what it is compared with" + ": a HASH160 has 20 bytes" * (len(item) == 32))
    else:
        top = stack.pop()
        if op == HASH160:
            stack.append(hash160(top) if isinstance(top, bytes) else HASHED if top == ITEM else ANSWER)
        elif op == SWAP:
            below = stack.pop()
            stack += [top, below]
        elif op != DROP:
            stack.append(top)
            if op in (CHECKLOCKTIMEVERIFY, CHECKSEQUENCEVERIFY) and isinstance(top, bytes):
                check_lock(top)
            elif op == DUP:
                stack.append(top)
            elif op == SIZE:
                sizes = {ITEM: LENGTH, HASHED: b"\x14"}
                stack.append(bytes([len(top)] * bool(top)) if isinstance(top, bytes) else sizes.get(top, ANSWER))


def last_end(stack):
    """How a branch ends after the last opcode, if consensus refuses that."""
    if len(stack) > 1:
        item = shown(stack[-1], stack[-2])
        return ": after the last opcode it leaves two or more elements" + (f", {counted(item)} among them" if item else "") + ", and BIP 141 wants one: is a DROP missing?"
    if stack and isinstance(stack[0], bytes) and not is_true(stack[0]):
        return f": after the last opcode it leaves {counted(stack[0])}, which is false"
    return None


def branches_of(ops, at=0, stack=(), ifs=(), ways=()):
    """Each branch: where it goes on at each IF and NOTIF whose condition the witness decides, and how it ends where consensus refuses it."""
    stack = Symbols(stack)
    for at in range(at, len(ops)):
        op = ops[at]
        if op in (IF, NOTIF):
            top = stack.pop() if all(ifs) else b""
            if all(ifs) and not isinstance(top, bytes):
                for runs in (True, False):
                    yield from branches_of(ops, at + 1, stack, (*ifs, runs), (*ways, (at, runs)))
                return
            ifs = (*ifs, all(ifs) and is_true(top) == (op == IF))
        elif op == ELSE:
            ifs = (*ifs[:-1], not ifs[-1])
        elif op == ENDIF:
            ifs = ifs[:-1]
        elif all(ifs):
            try:
                run_opcode(op, stack)
            except Dies as dies:
                yield ways, f": it ends at opcode {at}, where {dies}"
                return
            except Strict:
                yield ways, None
                return
    yield ways, last_end(stack)


def other_part(ops, at):
    """The place of the ELSE of an IF or NOTIF, or of its ENDIF where it has none."""
    depth = 0
    for place in range(at + 1, len(ops)):
        if depth == 0 and ops[place] in (ELSE, ENDIF):
            return place
        depth += (ops[place] in (IF, NOTIF)) - (ops[place] == ENDIF)
    raise ValueError


def dead_ends(code):
    """The ways of the branches by which nobody can spend, and the note on each."""
    ops = opcodes(bytes.fromhex(code))
    for ways, dies in branches_of(ops):
        if dies:
            places = [at if runs else other_part(ops, at) for at, runs in ways]
            after = ", then the ".join(f"{NAMES[ops[at] - 0x4C]} at opcode {at}" for at in places)
            yield ways, f"nobody can spend by the {f'branch after the {after}' if ways else 'only branch'}{dies}"


def on_the_way(code, ways):
    """The opcodes of a script, which no run goes past that leaves this way."""
    ops = opcodes(bytes.fromhex(code))
    marks = []
    for at, runs in ways:
        place = other_part(ops, at)
        marks.append((at + 1, [MARK]) if not runs else (place + 1, [MARK]) if ops[place] == ELSE else (place, [ELSE, MARK]))
    for place, mark in sorted(marks, reverse=True):
        ops[place:place] = mark
    return ops
