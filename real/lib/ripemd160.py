"""RIPEMD-160, for a Python whose OpenSSL does not have it. Tested, not proved."""
import struct
from collections.abc import Sequence

MASK = 0xFFFFFFFF
START = 0x67452301, 0xEFCDAB89, 0x98BADCFE, 0x10325476, 0xC3D2E1F0
# of the left and the right line: the constant of each round, the first round's order of words and all rotations
CONSTANTS = (0, 0x5A827999, 0x6ED9EBA1, 0x8F1BBCDC, 0xA953FD4E), (0x50A28BE6, 0x5C4DD124, 0x6D703EF3, 0x7A6D76E9, 0)
STEP = 7, 4, 13, 1, 10, 6, 15, 3, 12, 0, 9, 5, 2, 14, 11, 8
FIRST = tuple(range(16)), tuple((9 * place + 5) % 16 for place in range(16))
# by round and word
ROTATIONS = (
    (11, 14, 15, 12, 5, 8, 7, 9, 11, 13, 14, 15, 6, 7, 9, 8),
    (12, 13, 11, 15, 6, 9, 9, 7, 12, 15, 11, 13, 7, 8, 7, 7),
    (13, 15, 14, 11, 7, 7, 6, 8, 13, 14, 13, 12, 5, 5, 6, 9),
    (14, 11, 12, 14, 8, 6, 5, 5, 15, 12, 15, 14, 9, 9, 8, 6),
    (15, 12, 13, 13, 9, 5, 8, 6, 14, 11, 12, 11, 8, 6, 5, 5),
)
MIXES = (
    lambda x, y, z: x ^ y ^ z,
    lambda x, y, z: x & y | ~x & z,
    lambda x, y, z: (x | ~y) ^ z,
    lambda x, y, z: x & z | y & ~z,
    lambda x, y, z: x ^ (y | ~z),
)


def rotated_word(number: int, count: int) -> int:
    return (number << count | number >> 32 - count) & MASK


def line(state: tuple[int, ...], words: tuple[int, ...], right: bool) -> tuple[int, ...]:
    """The five words of one of the two lines after its five rounds."""
    a, b, c, d, e = state
    order: Sequence[int] = FIRST[right]
    for turn in range(5):
        mix, constant = MIXES[4 - turn if right else turn], CONSTANTS[right][turn]
        for word in order:
            new = rotated_word(a + mix(b, c, d) + words[word] + constant & MASK, ROTATIONS[turn][word]) + e & MASK
            a, b, c, d, e = e, new, b, rotated_word(c, 10), d
        order = [STEP[it] for it in order]
    return a, b, c, d, e


def ripemd160(data: bytes) -> bytes:
    """The hash of these bytes."""
    padded = data + b"\x80" + bytes(-(len(data) + 9) % 64) + struct.pack("<Q", 8 * len(data))
    state: tuple[int, ...] = START
    for at in range(0, len(padded), 64):
        words = struct.unpack("<16L", padded[at : at + 64])
        left, right = line(state, words, False), line(state, words, True)
        state = tuple(
            state[(place + 1) % 5] + left[(place + 2) % 5] + right[(place + 3) % 5] & MASK for place in range(5)
        )
    return struct.pack("<5L", *state)
