"""Addresses of witness programs: bech32 and bech32m (BIPs 173, 350). Tested, not proved."""
from real.lib.errors import Refused

# the first part of addresses by the network that they are of (BIP 173, and Bitcoin Core's regtest)
NETWORKS = {"bitcoin": "bc", "testnet": "tb", "signet": "tb", "regtest": "bcrt"}
DIGITS, LONGEST, CHECKSUM_SIZE = "qpzry9x8gf2tvdw0s3jn54khce6mua7l", 90, 6
GENERATOR = 0x3B6A57B2, 0x26508E6D, 0x1EA119FA, 0x3D4233DD, 0x2A1462B3
# what a checksum leaves: bech32 for version 0, bech32m for all others
BECH32, BECH32M = 1, 0x2BC830A3


def polymod(values: list[int]) -> int:
    """The remainder of a checksum (BIP 173)."""
    found = 1
    for it in values:
        top = found >> 25
        found = (found & 0x1FFFFFF) << 5 ^ it
        for at, part in enumerate(GENERATOR):
            found ^= part if top >> at & 1 else 0
    return found


def expanded(prefix: str) -> list[int]:
    return [ord(it) >> 5 for it in prefix] + [0] + [ord(it) & 31 for it in prefix]


def bytes_of_fives(values: list[int]) -> bytes | None:
    """Groups of five bits as bytes; None where other bits than zeros, or more than four, are left."""
    number, size = 0, 5 * len(values)
    for it in values:
        number = number << 5 | it
    left = size % 8
    if left > 4 or number & ((1 << left) - 1):
        return None
    return (number >> left).to_bytes(size // 8, "big")


def program_of(address: str, network: str) -> bytes:
    """The program of an address that is of this network. BadAddress: it has another form. BadChecksum: a character of
    it is wrong. OtherNetwork: it is of another network.
    """
    lower = address.lower()
    prefix, mark, data = lower.rpartition("1")
    if address not in (lower, address.upper()) or not mark or not prefix or len(address) > LONGEST:
        raise Refused("BadAddress")
    if len(data) <= CHECKSUM_SIZE or any(it not in DIGITS for it in data) or not prefix.isascii():
        raise Refused("BadAddress")
    values = [DIGITS.index(it) for it in data]
    version = values[0]
    if polymod(expanded(prefix) + values) != (BECH32M if version else BECH32):
        raise Refused("BadChecksum")
    if prefix != NETWORKS[network]:
        raise Refused("OtherNetwork")
    program = bytes_of_fives(values[1:-CHECKSUM_SIZE])
    if program is None or version > 16 or not 2 <= len(program) <= 40:
        raise Refused("BadAddress")
    return bytes([0x50 + version if version else 0, len(program)]) + program
