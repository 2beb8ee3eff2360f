"""Keys of one commitment from base points, on the curve (BOLT 3, "Key Derivation"). Tested, not proved."""
from real.lib.curve import AnyCurve
from real.lib.errors import Refused
from real.lib.transaction import sha256

# the order of the curve (SEC 2)
ORDER = 0xFFFFFFFFFFFFFFFFFFFFFFFFFFFFFFFEBAAEDCE6AF48A03BBFD25E8CD0364141


def number_of(data: bytes) -> int:
    return int.from_bytes(data, "big")


def private_key_of(number: int) -> bytes:
    """A private key. Zero is none, which no hash that anybody knows gives."""
    found = (number % ORDER).to_bytes(32, "big")
    if not any(found):
        raise Refused("NoSuchKey")
    return found


def point_of(found: bytes) -> bytes:
    """A key that the curve gave."""
    if not found:
        raise Refused("NoSuchKey")
    return found


def derived_key(curve: AnyCurve, base: bytes, point: bytes) -> bytes:
    """A key of the commitment: the base point, and SHA-256 of the per-commitment point and the base point times the
    generator.
    """
    return point_of(curve.sum_with_generator(base, sha256(point + base)))


def derived_private_key(private: bytes, base: bytes, point: bytes) -> bytes:
    return private_key_of(number_of(private) + number_of(sha256(point + base)))


def revocation(curve: AnyCurve, base: bytes, point: bytes) -> bytes:
    """The revocation key: the base point and the per-commitment point, each times the SHA-256 of both with itself
    first.
    """
    return point_of(curve.weighted_sum(base, sha256(base + point), point, sha256(point + base)))


def revocation_private_key(private: bytes, base: bytes, secret: bytes, point: bytes) -> bytes:
    """Its private key, from that of the base point and the per-commitment secret."""
    return private_key_of(
        number_of(private) * number_of(sha256(base + point)) + number_of(secret) * number_of(sha256(point + base))
    )
