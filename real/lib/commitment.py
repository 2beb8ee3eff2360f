"""The keys of a revoked commitment (BOLT 3, "Key Derivation"). Tested, not proved."""
from dataclasses import dataclass

from real.lib import derivation
from real.lib.curve import AnyCurve
from real.lib.errors import Refused
from real.lib.transaction import sha256

LOCKTIME_THRESHOLD = 500_000_000
# types of channels (BOLT 9, without `option_`)
STATIC_REMOTEKEY, ANCHORS = CHANNEL_TYPES = ("static_remotekey", "anchors")


@dataclass
class Htlc:
    """An HTLC as the commitment's owner sees it."""

    is_offered: bool
    payment_hash: bytes
    expiry_height: int


@dataclass
class Keys:
    """The keys of a commitment (BOLT 3, "Key Derivation")."""

    revocation: bytes
    delayed: bytes
    local_htlc: bytes
    remote_htlc: bytes
    remote: bytes


def program_of(script: bytes) -> bytes:
    return b"\x00\x20" + sha256(script)


def keys_of(curve: AnyCurve, bases: dict[str, bytes], point: bytes, is_legacy: bool) -> Keys:
    """The keys of the commitment with this per-commitment point. The remote key is the payment base point itself,
    unless the channel is older than static_remotekey.
    """
    return Keys(
        revocation=derivation.revocation(curve, bases["revocation"], point),
        delayed=derivation.derived_key(curve, bases["owner_delayed"], point),
        local_htlc=derivation.derived_key(curve, bases["owner_htlc"], point),
        remote_htlc=derivation.derived_key(curve, bases["htlc"], point),
        remote=derivation.derived_key(curve, bases["payment"], point) if is_legacy else bases["payment"],
    )


def private_keys_of(
    curve: AnyCurve, bases: dict[str, bytes], privates: list[bytes], secret: bytes, point: bytes, is_legacy: bool
) -> tuple[dict[bytes, bytes], list[int]]:
    """The private keys that sign penalties, by their public keys: from the private keys of the revocation and payment
    base points, in any order. One of the two may be missing. Beside them the places of keys that are that of neither
    base point; where all are, the first is refused.
    """
    if not privates:
        raise Refused("NoKey")
    found, unused = {}, []
    for place, private in enumerate(privates):
        if not curve.is_private(private):
            raise Refused(f"BadKey {place}")
        base = curve.public_key(private)
        if base == bases["revocation"]:
            found[derivation.revocation(curve, base, point)] = derivation.revocation_private_key(
                private, base, secret, point
            )
        elif base == bases["payment"]:
            key = derivation.derived_key(curve, base, point) if is_legacy else base
            found[key] = derivation.derived_private_key(private, base, point) if is_legacy else private
        else:
            unused.append(place)
    if not found:
        raise Refused(f"UnusedKey {unused[0]}")
    return found, unused
