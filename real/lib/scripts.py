"""Scripts: their opcodes, pushes and names, and which program an output has. Tested, not proved."""
from real.lib.errors import Refused
from real.lib.transaction import sha256

# the opcodes that the machine knows, other than pushes
IF, NOTIF, ELSE, ENDIF = 0x63, 0x64, 0x67, 0x68
DROP, DUP, SWAP, SIZE, EQUAL, EQUALVERIFY, HASH160 = 0x75, 0x76, 0x7C, 0x82, 0x87, 0x88, 0xA9
CHECKSIG, CHECKMULTISIG, CHECKLOCKTIMEVERIFY, CHECKSEQUENCEVERIFY = 0xAC, 0xAE, 0xB1, 0xB2
KNOWN = {
    IF,
    NOTIF,
    ELSE,
    ENDIF,
    DROP,
    DUP,
    SWAP,
    SIZE,
    EQUAL,
    EQUALVERIFY,
    HASH160,
    CHECKSIG,
    CHECKMULTISIG,
    CHECKLOCKTIMEVERIFY,
    CHECKSEQUENCEVERIFY,
}
LONGEST_PUSH, FIRST_NUMBER, LAST_NUMBER = 0x4B, 0x51, 0x60

# Bitcoin's names from 4c on
NAMES = dict(
    enumerate(
        "PUSHDATA1 PUSHDATA2 PUSHDATA4 1NEGATE RESERVED 1 2 3 4 5 6 7 8 9 10 11 12 13 14 15 16 NOP VER IF NOTIF VERIF"
        " VERNOTIF ELSE ENDIF VERIFY RETURN TOALTSTACK FROMALTSTACK 2DROP 2DUP 3DUP 2OVER 2ROT 2SWAP IFDUP DEPTH DROP"
        " DUP NIP OVER PICK ROLL ROT SWAP TUCK CAT SUBSTR LEFT RIGHT SIZE INVERT AND OR XOR EQUAL EQUALVERIFY"
        " RESERVED1 RESERVED2 1ADD 1SUB 2MUL 2DIV NEGATE ABS NOT 0NOTEQUAL ADD SUB MUL DIV MOD LSHIFT RSHIFT BOOLAND"
        " BOOLOR NUMEQUAL NUMEQUALVERIFY NUMNOTEQUAL LESSTHAN GREATERTHAN LESSTHANOREQUAL GREATERTHANOREQUAL MIN MAX"
        " WITHIN RIPEMD160 SHA1 SHA256 HASH160 HASH256 CODESEPARATOR CHECKSIG CHECKSIGVERIFY CHECKMULTISIG"
        " CHECKMULTISIGVERIFY NOP1 CHECKLOCKTIMEVERIFY CHECKSEQUENCEVERIFY NOP4 NOP5 NOP6 NOP7 NOP8 NOP9 NOP10".split(),
        0x4C,
    )
)


def name_of(opcode: int) -> str:
    """An opcode's name in Bitcoin."""
    return f"OP_{NAMES[opcode]}" if opcode in NAMES else "an unassigned opcode"


def operations(script: bytes) -> list[tuple[int, int, bytes | None]]:
    """The opcodes of a script: the place of each, its byte, and what it pushes or None. BadOpcode and Truncated name
    the first bad byte.
    """
    found, at = [], 0
    while at < len(script):
        opcode = script[at]
        pushed, size = None, 1
        if opcode <= LONGEST_PUSH:
            size += opcode
            if at + size > len(script):
                raise Refused(f"Truncated {at}")
            pushed = script[at + 1 : at + size]
        elif FIRST_NUMBER <= opcode <= LAST_NUMBER:
            pushed = bytes([opcode - FIRST_NUMBER + 1])
        elif opcode not in KNOWN:
            raise Refused(f"BadOpcode {at}")
        found.append((at, opcode, pushed))
        at += size
    return found


def pushes(script: bytes) -> set[bytes] | None:
    """What a script pushes, each once; None where it has an opcode that the machine does not know, or a push that is
    cut.
    """
    try:
        return {pushed for _, _, pushed in operations(script) if pushed is not None}
    except Refused:
        return None


def is_key_hash(program: bytes) -> bool:
    """Version 0 with the hash of a key (BIP 141)."""
    return len(program) == 22 and program[:2] == b"\x00\x14"


def is_script_hash(program: bytes) -> bool:
    """Version 0 with the hash of a script (BIP 141)."""
    return len(program) == 34 and program[:2] == b"\x00\x20"


def is_nesting(program: bytes) -> bool:
    """The hash of a script that is no witness program (BIP 16)."""
    return len(program) == 23 and program[:2] == b"\xa9\x14" and program[-1] == EQUAL


def is_witness_program(program: bytes) -> bool:
    """A program of any version (BIP 141)."""
    versioned = program[:1] == b"\x00" or FIRST_NUMBER <= (program[:1] or b"\x00")[0] <= LAST_NUMBER
    return versioned and 4 <= len(program) <= 42 and program[1] == len(program) - 2


def is_public_key_hash(program: bytes) -> bool:
    """The hash of a key in a program without a witness (P2PKH)."""
    return len(program) == 25 and program[:3] == b"\x76\xa9\x14" and program[-2:] == b"\x88\xac"


def is_address(program: bytes) -> bool:
    """Whether wallets have an address for a program: the hash of a key or of a script, or a witness program whose
    length its version allows (BIP 141).
    """
    if program[:1] == b"\x00":
        return is_key_hash(program) or is_script_hash(program)
    return is_public_key_hash(program) or is_nesting(program) or is_witness_program(program)


def is_taproot(program: bytes) -> bool:
    return len(program) == 34 and program[:2] == b"\x51\x20"


def key_script(program: bytes) -> bytes:
    """The script that runs for the hash of a key (BIP 143)."""
    return b"\x76\xa9\x14" + program[2:] + b"\x88\xac"


def has_script(program: bytes, script: bytes) -> bool:
    """Whether this is the program of the script, which for the hash of a key is the one of BIP 143."""
    if is_key_hash(program):
        return script == key_script(program)
    return is_script_hash(program) and program[2:] == sha256(script)


def is_anyones(program: bytes) -> bool:
    """Whether no rule stands yet for a witness program, so that anyone can spend from it (BIPs 141, 341)."""
    return is_witness_program(program) and program[0] != 0 and not is_taproot(program)
