"""What consensus takes of a version 0 witness script, in the opcodes of this profile, by rules of this file's own: BIPs 65, 66, 112, 141 and 147, and Bitcoin Core's interpreter.cpp.

A signature may be made for any key, and a key for a signature in DER. So a check of one has both answers, and a script has several runs.
"""
import itertools

from bitcoin import hash160, number_item

IF, NOTIF, ELSE, ENDIF, DROP, DUP, SWAP, SIZE, EQUAL, EQUALVERIFY = 0x63, 0x64, 0x67, 0x68, 0x75, 0x76, 0x7C, 0x82, 0x87, 0x88
HASH160, CHECKSIG, CHECKMULTISIG, CHECKLOCKTIMEVERIFY, CHECKSEQUENCEVERIFY = 0xA9, 0xAC, 0xAE, 0xB1, 0xB2
# the names from byte 4c on; those of numbers and of NOPs are made
NAMES = """
PUSHDATA1 PUSHDATA2 PUSHDATA4 1NEGATE RESERVED 1 2 3 4 5 6 7 8 9 10 11 12 13 14 15 16 NOP VER IF NOTIF VERIF VERNOTIF ELSE ENDIF VERIFY RETURN
TOALTSTACK FROMALTSTACK 2DROP 2DUP 3DUP 2OVER 2ROT 2SWAP IFDUP DEPTH DROP DUP NIP OVER PICK ROLL ROT SWAP TUCK CAT SUBSTR LEFT RIGHT SIZE INVERT AND OR XOR
EQUAL EQUALVERIFY RESERVED1 RESERVED2 1ADD 1SUB 2MUL 2DIV NEGATE ABS NOT 0NOTEQUAL ADD SUB MUL DIV MOD LSHIFT RSHIFT BOOLAND BOOLOR NUMEQUAL NUMEQUALVERIFY
NUMNOTEQUAL LESSTHAN GREATERTHAN LESSTHANOREQUAL GREATERTHANOREQUAL MIN MAX WITHIN RIPEMD160 SHA1 SHA256 HASH160 HASH256 CODESEPARATOR CHECKSIG CHECKSIGVERIFY
CHECKMULTISIG CHECKMULTISIGVERIFY NOP1 CHECKLOCKTIMEVERIFY CHECKSEQUENCEVERIFY NOP4 NOP5 NOP6 NOP7 NOP8 NOP9 NOP10 CHECKSIGADD
""".split()
# a mark in a script, which no run goes past
MARK = -1
# an item that is told to have this hash: a signature in DER
HASHES = {bytes.fromhex("300602010202010201"): b"\x77" * 20}


class Fails(Exception):
    """A run fails at an opcode."""


def opcodes(script):
    """The opcodes of a script: the item that one pushes, or its byte."""
    found, at = [], 0
    while at < len(script):
        byte = script[at]
        at += 1
        if byte < 0x4C:
            found.append(script[at : at + byte])
            at += byte
        else:
            found.append(bytes([byte - 0x50]) if 0x51 <= byte <= 0x60 else byte)
    return found


def is_true(item):
    return any(item[:-1]) or item[-1:] not in (b"", b"\0", b"\x80")


def number(item, limit):
    """The number of an item of at most `limit` bytes, minimally encoded or not."""
    if len(item) > limit:
        raise Fails
    magnitude = int.from_bytes(item, "little")
    sign = 0x80 << 8 * (len(item) - 1) if item else 0
    return -(magnitude ^ sign) if magnitude & sign else magnitude


def is_in_der(item):
    """BIP 66's IsValidSignatureEncoding."""
    if not 9 <= len(item) <= 73 or item[0] != 0x30 or item[1] != len(item) - 3:
        return False
    first = item[3]
    if 5 + first >= len(item) or first + item[5 + first] + 7 != len(item):
        return False
    for at, size in ((2, first), (4 + first, item[5 + first])):
        if item[at] != 2 or size == 0 or item[at + 2] & 0x80 or size > 1 and item[at + 2] == 0 and not item[at + 3] & 0x80:
            return False
    return True


def answers(signature, key):
    """The answers of a check."""
    if signature == b"":
        return {False}
    if not is_in_der(signature):
        raise Fails
    is_key = len(key) == 33 and key[0] in (2, 3) or len(key) == 65 and key[0] in (4, 6, 7)
    return {False, True} if is_key else {False}


def many_answers(signatures, keys):
    """The answers of CHECKMULTISIG, of the topmost signature and key on; none where each run fails. A signature is looked at once those above it have their keys."""
    if not signatures:
        return {True}
    if len(signatures) > len(keys):
        return {False}
    try:
        found = answers(signatures[0], keys[0])
    except Fails:
        return set()
    return set().union(*(many_answers(signatures[is_signed:], keys[1:]) for is_signed in found))


def counted_items(stack, limit):
    """The items whose number is on top, which is at most this."""
    count = number(stack.pop(), 4)
    if not 0 <= count <= limit:
        raise Fails
    return [stack.pop() for _ in range(count)]


def check_multi_sig(stack):
    keys = counted_items(stack, 20)
    signatures = counted_items(stack, len(keys))
    if stack.pop():
        raise Fails
    return many_answers(signatures, keys)


def check_lock(op, item):
    """A lock is reached by a transaction that is made for it, unless it is negative, or above the greatest lock time."""
    lock = number(item, 5)
    if lock < 0 or op == CHECKLOCKTIMEVERIFY and lock >= 1 << 32:
        raise Fails


def next_stacks(op, stack):
    """The stacks that an opcode may leave."""
    if isinstance(op, bytes):
        return [[*stack, op]]
    if op == CHECKMULTISIG:
        return [[*stack, b"\1" if it else b""] for it in check_multi_sig(stack)]
    if op == MARK:
        raise Fails
    top = stack.pop()
    if op == DROP:
        return [stack]
    if op == DUP:
        return [[*stack, top, top]]
    if op == SIZE:
        return [[*stack, top, number_item(len(top))]]
    if op == HASH160:
        return [[*stack, HASHES.get(top) or hash160(top)]]
    if op in (CHECKLOCKTIMEVERIFY, CHECKSEQUENCEVERIFY):
        check_lock(op, top)
        return [[*stack, top]]
    second = stack.pop()
    if op == SWAP:
        return [[*stack, top, second]]
    if op == CHECKSIG:
        return [[*stack, b"\1" if it else b""] for it in answers(second, top)]
    if op == EQUALVERIFY:
        if top != second:
            raise Fails
        return [stack]
    return [[*stack, b"\1" if top == second else b""]]


def stops(ops, items):
    """Where the runs of a script over the items of a witness, the deepest first, end: each as the index of the opcode at which one fails, or the stack at its end."""
    waiting = [(0, list(items), ())]
    while waiting:
        at, stack, ifs = waiting.pop()
        if at == len(ops):
            yield at, stack
            continue
        op, is_run = ops[at], all(ifs)
        try:
            if op in (IF, NOTIF):
                waiting.append((at + 1, stack, (*ifs, is_run and is_true(stack.pop()) == (op == IF))))
            elif op == ELSE:
                waiting.append((at + 1, stack, (*ifs[:-1], not ifs[-1] and all(ifs[:-1]))))
            elif op == ENDIF:
                waiting.append((at + 1, stack, ifs[:-1]))
            elif is_run:
                waiting += [(at + 1, it, ifs) for it in next_stacks(op, stack)]
            else:
                waiting.append((at + 1, stack, ifs))
        except (Fails, IndexError):
            yield at, None


def witnesses(tried, most):
    """All lists of at most `most` of these items."""
    for count in range(most + 1):
        yield from itertools.product(tried, repeat=count)


def is_taken(ops, tried, most):
    """Whether a run of opcodes over some of these items ends with one element, a true one (BIP 141)."""
    return any(stack is not None and len(stack) == 1 and is_true(stack[0]) for items in witnesses(tried, most) for _, stack in stops(ops, items))


def goes_past(script, index, tried, most):
    """Whether a run over some of these items runs the opcode of this index, and goes on after it."""
    ops = opcodes(script)
    marked = [*ops[: index + 1], MARK, *ops[index + 1 :]]
    return any(at == index + 1 for items in witnesses(tried, most) for at, _ in stops(marked, items))
