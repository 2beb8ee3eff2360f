"""Bitcoin's bytes, for the oracles of this folder alone: hashes, pushes, programs, and what is signed of a transaction.

Nothing that an oracle judges shares it, the crates and `real/` least of all.
"""
import hashlib
import struct

VERSION = 2


def sha256(*parts):
    return hashlib.sha256(b"".join(parts)).digest()


def sha256d(*parts):
    return sha256(sha256(*parts))


# ---- RIPEMD-160, since Python may lack it

MASK = 0xFFFFFFFF
# of each of the ten rounds, five of the left line and five of the right one: the order of the words, and the rotations
ORDERS = (
    (0, 1, 2, 3, 4, 5, 6, 7, 8, 9, 10, 11, 12, 13, 14, 15),
    (7, 4, 13, 1, 10, 6, 15, 3, 12, 0, 9, 5, 2, 14, 11, 8),
    (3, 10, 14, 4, 9, 15, 8, 1, 2, 7, 0, 6, 13, 11, 5, 12),
    (1, 9, 11, 10, 0, 8, 12, 4, 13, 3, 7, 15, 14, 5, 6, 2),
    (4, 0, 5, 9, 7, 12, 2, 10, 14, 1, 3, 8, 11, 6, 15, 13),
    (5, 14, 7, 0, 9, 2, 11, 4, 13, 6, 15, 8, 1, 10, 3, 12),
    (6, 11, 3, 7, 0, 13, 5, 10, 14, 15, 8, 12, 4, 9, 1, 2),
    (15, 5, 1, 3, 7, 14, 6, 9, 11, 8, 12, 2, 10, 0, 4, 13),
    (8, 6, 4, 1, 3, 11, 15, 0, 5, 12, 2, 13, 9, 7, 10, 14),
    (12, 15, 10, 4, 1, 5, 8, 7, 6, 2, 13, 14, 0, 3, 9, 11),
)
TURNS = (
    (11, 14, 15, 12, 5, 8, 7, 9, 11, 13, 14, 15, 6, 7, 9, 8),
    (7, 6, 8, 13, 11, 9, 7, 15, 7, 12, 15, 9, 11, 7, 13, 12),
    (11, 13, 6, 7, 14, 9, 13, 15, 14, 8, 13, 6, 5, 12, 7, 5),
    (11, 12, 14, 15, 14, 15, 9, 8, 9, 14, 5, 6, 8, 6, 5, 12),
    (9, 15, 5, 11, 6, 8, 13, 12, 5, 12, 13, 14, 11, 8, 5, 6),
    (8, 9, 9, 11, 13, 15, 15, 5, 7, 7, 8, 11, 14, 14, 12, 6),
    (9, 13, 15, 7, 12, 8, 9, 11, 7, 7, 12, 7, 6, 15, 13, 11),
    (9, 7, 15, 11, 8, 6, 6, 14, 12, 13, 5, 14, 13, 13, 7, 5),
    (15, 5, 8, 11, 14, 14, 6, 14, 6, 9, 12, 9, 12, 5, 15, 8),
    (8, 5, 12, 9, 12, 5, 14, 6, 8, 13, 6, 5, 15, 13, 11, 11),
)
ADDED = (0, 0x5A827999, 0x6ED9EBA1, 0x8F1BBCDC, 0xA953FD4E, 0x50A28BE6, 0x5C4DD124, 0x6D703EF3, 0x7A6D76E9, 0)
MIXED = (
    lambda x, y, z: x ^ y ^ z,
    lambda x, y, z: (x & y) | (~x & z),
    lambda x, y, z: (x | ~y) ^ z,
    lambda x, y, z: (x & z) | (y & ~z),
    lambda x, y, z: x ^ (y | ~z),
)


def rotated_word(x, n):
    x &= MASK
    return (x << n | x >> (32 - n)) & MASK


def line(words, state, rows):
    a, b, c, d, e = state
    for row in rows:
        mix = MIXED[row if row < 5 else 9 - row]
        for place, turn in zip(ORDERS[row], TURNS[row]):
            mixed = rotated_word(a + mix(b, c, d) + words[place] + ADDED[row], turn) + e
            a, e, d, c, b = e, d, rotated_word(c, 10), b, mixed & MASK
    return a, b, c, d, e


def ripemd160(message):
    state = (0x67452301, 0xEFCDAB89, 0x98BADCFE, 0x10325476, 0xC3D2E1F0)
    padded = message + b"\x80" + b"\x00" * ((55 - len(message)) % 64) + struct.pack("<Q", 8 * len(message))
    for at in range(0, len(padded), 64):
        words = struct.unpack("<16I", padded[at : at + 64])
        left, right = line(words, state, range(5)), line(words, state, range(5, 10))
        state = tuple((state[(n + 1) % 5] + left[(n + 2) % 5] + right[(n + 3) % 5]) & MASK for n in range(5))
    return struct.pack("<5I", *state)


def hash160(message):
    return ripemd160(sha256(message))


# ---- scripts


def push(item):
    """The push of at most 75 bytes."""
    return bytes([len(item)]) + item


def number_item(n):
    """The item that encodes a number, none of them negative, in as few bytes as it can."""
    return n.to_bytes(n.bit_length() // 8 + 1, "little") if n else b""


def pushed_number(n):
    return bytes([0x50 + n]) if 1 <= n <= 16 else push(number_item(n))


def script_program(script):
    """The program of an output to a script (P2WSH, BIP 141)."""
    return b"\x00\x20" + sha256(script)


def key_program(key_hash):
    """The program of an output to a key with this HASH160 (P2WPKH, BIP 141)."""
    return b"\x00\x14" + key_hash


def key_script(key_hash):
    """The script code of such an output (BIP 143)."""
    return b"\x76\xa9" + push(key_hash) + b"\x88\xac"


# ---- transactions


def little_endian(number, size):
    return number.to_bytes(size, "little")


def compact_size(n):
    if n < 0xFD:
        return bytes([n])
    return b"\xfd" + little_endian(n, 2) if n < 0x10000 else b"\xfe" + little_endian(n, 4)


def sized_data(data):
    return compact_size(len(data)) + data


class Transaction:
    """A transaction of version 2 without witnesses. An input is its outpoint and its sequence, an output its value and its program."""

    def __init__(self, inputs, outputs, lock_time):
        self.inputs, self.outputs, self.lock_time = inputs, outputs, lock_time

    def outpoints(self):
        return b"".join(outpoint for outpoint, _ in self.inputs)

    def sequences(self):
        return b"".join(little_endian(sequence, 4) for _, sequence in self.inputs)

    def payments(self):
        return b"".join(little_endian(value, 8) + sized_data(program) for value, program in self.outputs)

    def body(self):
        """The inputs and the outputs."""
        spends = b"".join(outpoint + b"\x00" + little_endian(sequence, 4) for outpoint, sequence in self.inputs)
        return compact_size(len(self.inputs)) + spends + compact_size(len(self.outputs)) + self.payments()

    def stripped_bytes(self):
        return little_endian(VERSION, 4) + self.body() + little_endian(self.lock_time, 4)

    def txid(self):
        return sha256d(self.stripped_bytes())

    def signed_message(self, code, value, index=0):
        """What a signature of an input is over, by hash type ALL (BIP 143)."""
        outpoint, sequence = self.inputs[index]
        spent = outpoint + sized_data(code) + little_endian(value, 8) + little_endian(sequence, 4)
        begin = little_endian(VERSION, 4) + sha256d(self.outpoints()) + sha256d(self.sequences())
        return begin + spent + sha256d(self.payments()) + little_endian(self.lock_time, 4) + little_endian(1, 4)

    def digest(self, code, value, index=0):
        return sha256d(self.signed_message(code, value, index))
