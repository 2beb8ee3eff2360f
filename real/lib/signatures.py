"""Signatures of Bitcoin, and the tokens that stand for them in the proved judge. Tested, not proved."""
from real.lib.scripts import operations
from real.lib.transaction import sha256

HASH_TYPES = {
    1: "ALL",
    2: "NONE",
    3: "SINGLE",
    0x81: "ALL|ANYONECANPAY",
    0x82: "NONE|ANYONECANPAY",
    0x83: "SINGLE|ANYONECANPAY",
}
ALL = 1
KEY_SIZE, TOKEN_SIZE = 33, 66
SHORTEST, LONGEST = 9, 73
# no point of the curve has this x, so it is nobody's key
NOBODY = b"\x02" + b"\xff" * 32


def is_strict_der(item: bytes) -> bool:
    """Whether an item is a signature in strict DER with a hash type after it, by the rules of BIP 66."""
    if not SHORTEST <= len(item) <= LONGEST or item[0] != 0x30 or item[1] != len(item) - 3:
        return False
    r_size = item[3]
    if 5 + r_size >= len(item):
        return False
    s_size = item[5 + r_size]
    if r_size + s_size + 7 != len(item):
        return False
    return is_positive(item, 2, r_size) and is_positive(item, 4 + r_size, s_size)


def is_positive(item: bytes, at: int, size: int) -> bool:
    """Whether an integer of this size stands there, is not negative and has no needless byte of zero before it."""
    if item[at] != 0x02 or size == 0 or item[at + 2] & 0x80:
        return False
    return not (size > 1 and item[at + 2] == 0 and not item[at + 3] & 0x80)


def name_of_hash_type(number: int) -> str:
    return f"{number:02x} ({HASH_TYPES.get(number, 'undefined')})"


def token(key: bytes, digest: bytes) -> bytes:
    """The token that stands for a signature of this key over this digest."""
    return key + digest + b"\x01"


def nobodys_token(item: bytes) -> bytes:
    """A token that is valid for no key: of nobody, and over the SHA-256 of the item that it stands for."""
    return token(NOBODY, sha256(item))


def is_token(item: bytes) -> bool:
    """Whether an item has the form of a token."""
    return len(item) == TOKEN_SIZE and item[0] in (2, 3) and item[-1] == 1


def candidate_keys(script: bytes, items: list[bytes]) -> list[bytes]:
    """The keys for which a signature may be valid: all 33-byte pushes of the script, and all 33-byte items of the
    witness, each once.
    """
    pushes = [pushed for _, _, pushed in operations(script) if pushed is not None]
    return list(dict.fromkeys(it for it in [*pushes, *items] if len(it) == KEY_SIZE and it[0] in (2, 3)))
