"""Channels with a commitment each, built and signed by Electrum's lnutil. What it does not know, scripts with anchors, is
written from BOLT 3 about its keys and scripts. Tested, not proved. Wants Debian's python3-electrum.

The owner is who published the commitment; the peer is whose tower takes its outputs. All numbers are drawn from
SHA-256 of the channel's number, so they are the same everywhere. Nothing here was made from the answers of a program
of this repository.
"""
from __future__ import annotations

import functools
import hashlib
from collections.abc import Iterator
from dataclasses import dataclass
from typing import Any

from electrum import bitcoin, ecc, lnutil
from electrum.lnutil import UpdateAddHtlc
from electrum.transaction import PartialTransaction, PartialTxOutput

from real.tests.claims import Key, transaction_hex

BASES = ("revocation", "payment", "htlc", "owner_delayed", "owner_htlc")
# both sides of each length in which a number is pushed, and delays that nodes choose
DELAYS = (0, 1, 6, 16, 17, 127, 128, 144, 255, 256, 720, 1_008, 2_016, 32_767, 32_768, 65_535)
EXPIRIES = (1, 16, 17, 127, 128, 32_767, 32_768, 8_388_607, 8_388_608, 499_999_999)
FEERATES_PER_KW, DUST_LIMITS_SAT = (253, 500, 1_000, 2_500, 7_500, 15_000), (354, 546, 573, 1_000)
MOST_HTLCS, COMMITMENTS = 20, 2**48
# the height of the chain, and that of the block which has what a tower sees: in turn none has it yet, the newest has
# it, and older ones
HEIGHT = 700_000
CONFIRMED_HEIGHTS = (None, HEIGHT, HEIGHT - 1, HEIGHT - 143, HEIGHT - 1_008)
# the value of an anchor (BOLT 3); what stands with anchors behind the key of to_remote (CHECKSIGVERIFY 1
# CHECKSEQUENCEVERIFY) and behind that of an anchor (CHECKSIG IFDUP NOTIF 16 CHECKSEQUENCEVERIFY ENDIF), and before the
# last ENDIF of an HTLC's script (1 CHECKSEQUENCEVERIFY DROP)
ANCHOR_SAT, REMOTE_END, ANCHOR_END, WAIT = 330, "ad51b2", "ac736460b268", b"\x51\xb2\x75"


class Draws:
    """Numbers that a name determines."""

    def __init__(self, name: str) -> None:
        self.name, self.count = name, 0

    def bytes(self) -> bytes:
        self.count += 1
        return hashlib.sha256(f"{self.name} {self.count}".encode()).digest()

    def number_below(self, bound: int) -> int:
        return int.from_bytes(self.bytes(), "big") % bound

    def number_between(self, least: int, most: int) -> int:
        return least + self.number_below(most - least + 1)

    def choice(self, values: Any) -> Any:
        return values[self.number_below(len(values))]


@dataclass
class Htlc:
    """An HTLC as the commitment's owner sees it."""

    is_received: bool
    amount_msat: int
    payment_hash: bytes
    expiry_height: int
    preimage: bytes

    def of_electrum(self) -> UpdateAddHtlc:
        return lnutil.UpdateAddHtlc(
            amount_msat=self.amount_msat, payment_hash=self.payment_hash, cltv_expiry=self.expiry_height, timestamp=0
        )


@dataclass
class Channel:
    """A channel at a commitment."""

    number: int
    is_anchored: bool
    is_legacy: bool
    is_owner_opener: bool
    delay_blocks: int
    dust_limit_sat: int
    feerate_per_kw: int
    commitment_number: int
    privates: dict[str, bytes]
    secret: bytes
    htlcs: list[Htlc]
    owner_msat: int
    peer_msat: int

    def confirmed_height(self) -> int | None:
        """The height of the block that has what is seen; None where none has it yet."""
        return CONFIRMED_HEIGHTS[self.number % len(CONFIRMED_HEIGHTS)]

    def capacity_sat(self) -> int:
        return -(-(self.owner_msat + self.peer_msat + sum(it.amount_msat for it in self.htlcs)) // 1000)

    def least_sat(self, is_received: bool) -> int:
        """The least value of an HTLC that is not trimmed."""
        threshold = lnutil.received_htlc_trim_threshold_sat if is_received else lnutil.offered_htlc_trim_threshold_sat
        return threshold(dust_limit_sat=self.dust_limit_sat, feerate=self.htlc_feerate_per_kw())

    def htlc_feerate_per_kw(self) -> int:
        """The feerate of HTLC transactions, which pay none with anchors."""
        return 0 if self.is_anchored else self.feerate_per_kw

    def untrimmed_htlcs(self) -> list[Htlc]:
        return [it for it in self.htlcs if it.amount_msat // 1000 >= self.least_sat(it.is_received)]


@dataclass
class Keys:
    """The keys of a commitment, as Electrum derives them."""

    revocation: bytes
    delayed: bytes
    owner_htlc: bytes
    peer_htlc: bytes
    payment: bytes


@dataclass
class Known:
    """What Electrum makes of an output: its kind, its program, the script or key that its witness ends with, and the
    key that takes it. With it the first block in which somebody else's transaction can take it, None where none can.
    """

    kind: str
    program: bytes
    last: bytes
    key: bytes
    first_height: int | None


def drawn_htlc(draws: Draws, channel: Channel) -> Htlc:
    """An HTLC. One in eight has the hash of an earlier one, as the parts of a payment have; half stand near the bound
    below which an HTLC is trimmed.
    """
    earlier = draws.choice(channel.htlcs) if channel.htlcs and draws.number_below(8) == 0 else None
    is_received = earlier.is_received if earlier else draws.number_below(2) == 0
    preimage = earlier.preimage if earlier else draws.bytes()
    expiry_height = draws.choice(EXPIRIES) if draws.number_below(5) == 0 else draws.number_between(500_000, 900_000)
    least = channel.least_sat(is_received)
    near = draws.choice(
        (draws.number_between(1, least - 1), least - 1, least, least + 1, least + draws.number_below(5_000))
    )
    amount_sat = near if draws.number_below(2) else least + draws.number_below(200_000)
    payment_hash = hashlib.sha256(preimage).digest()
    return Htlc(is_received, 1000 * amount_sat + draws.number_below(1000), payment_hash, expiry_height, preimage)


def drawn_channel(number: int, is_anchored: bool = False) -> Channel:
    """The channel of a number: with anchors, or else of two one is older than static_remotekey. Of two more one was
    opened by the owner, and there are 0 to 20 HTLCs in turn.
    """
    draws = Draws(f"a channel{' with anchors' * is_anchored} that everybody knows: {number}")
    # of two in three one side has so little that its output is trimmed, or that it does not pay the fee
    balances_msat = [draws.number_between(100_000_000, 2_000_000_000) for _ in range(2)]
    if draws.number_below(3) < 2:
        balances_msat[draws.number_below(2)] = draws.number_below(1_000_000)
    found = Channel(
        number=number,
        is_anchored=is_anchored,
        is_legacy=number % 2 == 1 and not is_anchored,
        is_owner_opener=number // 2 % 2 == 1,
        delay_blocks=draws.choice(DELAYS),
        dust_limit_sat=draws.choice(DUST_LIMITS_SAT),
        feerate_per_kw=draws.choice(FEERATES_PER_KW),
        commitment_number=draws.number_below(COMMITMENTS),
        privates={name: Key(f"{name} base of channel {number}").secret for name in BASES},
        secret=draws.bytes(),
        htlcs=[],
        owner_msat=balances_msat[0],
        peer_msat=balances_msat[1],
    )
    for _ in range(number % (MOST_HTLCS + 1)):
        found.htlcs.append(drawn_htlc(draws, found))
    return found


def public_key(private: bytes) -> bytes:
    return ecc.ECPrivkey(private).get_public_key_bytes(compressed=True)


def keys_of(channel: Channel) -> Keys:
    point, base = public_key(channel.secret), {name: public_key(it) for name, it in channel.privates.items()}
    return Keys(
        revocation=lnutil.derive_blinded_pubkey(base["revocation"], point),
        delayed=lnutil.derive_pubkey(base["owner_delayed"], point),
        owner_htlc=lnutil.derive_pubkey(base["owner_htlc"], point),
        peer_htlc=lnutil.derive_pubkey(base["htlc"], point),
        payment=lnutil.derive_pubkey(base["payment"], point) if channel.is_legacy else base["payment"],
    )


def program_at(address: str) -> bytes:
    return bytes.fromhex(bitcoin.address_to_script(address))


@functools.cache
def script_program(script: bytes) -> bytes:
    return program_at(bitcoin.redeem_script_to_address("p2wsh", script.hex()))


def htlc_script(channel: Channel, keys: Keys, htlc: Htlc) -> bytes:
    """The witness script of an HTLC's output."""
    found = lnutil.make_htlc_output_witness_script(
        htlc.is_received, keys.revocation, keys.peer_htlc, keys.owner_htlc, htlc.payment_hash, htlc.expiry_height
    )
    return found[:-1] + WAIT + found[-1:] if channel.is_anchored else found


def to_local_script(channel: Channel, keys: Keys) -> bytes:
    return lnutil.make_commitment_output_to_local_witness_script(keys.revocation, channel.delay_blocks, keys.delayed)


def key_program(key: bytes, end: str) -> bytes:
    """The program of a script with a key."""
    return script_program(b"\x21" + key + bytes.fromhex(end))


def funding_keys(channel: Channel) -> list[Key]:
    """The keys of the funding output, first the owner's."""
    return [Key(f"funding {side} of channel {channel.number}") for side in range(2)]


def named_programs(channel: Channel) -> dict[bytes, str]:
    """What is named and not taken of a channel with anchors, by its program."""
    if not channel.is_anchored:
        return {}
    anchors = {key_program(it.public, ANCHOR_END): "anchor" for it in funding_keys(channel)}
    return {key_program(keys_of(channel).payment, REMOTE_END): "to_remote", **anchors}


def known_outputs(channel: Channel) -> Iterator[Known]:
    """What Electrum makes of each output that the commitment may have."""
    keys = keys_of(channel)
    script = to_local_script(channel, keys)
    # a sequence of n blocks is met n blocks above the output's (BIP 68)
    in_block = HEIGHT + 1 if channel.confirmed_height() is None else channel.confirmed_height()
    yield Known("to_local", script_program(script), script, keys.revocation, in_block + channel.delay_blocks)
    if not channel.is_anchored:
        program = program_at(lnutil.make_commitment_output_to_remote_address(keys.payment))
        yield Known("to_remote", program, keys.payment, keys.payment, None)
    for it in channel.htlcs:
        script = htlc_script(channel, keys, it)
        # whoever knows the preimage may come in the next block, with anchors in none before one upon the output's; a
        # lock time is below the height of its block (BIP 65)
        least = max(HEIGHT + 1, in_block + channel.is_anchored)
        first_height = least if it.is_received else max(least, it.expiry_height + 1)
        yield Known(
            "received" if it.is_received else "offered", script_program(script), script, keys.revocation, first_height
        )


def outputs_by_program(channel: Channel) -> dict[bytes, Known]:
    """The same by programs. Several HTLCs may have one: then the first height of all of them counts."""
    found = {}
    for it in known_outputs(channel):
        other = found.get(it.program)
        if other is None or it.first_height < other.first_height:
            found[it.program] = it
    return found


def payment_bases(channel: Channel) -> list[bytes]:
    """The payment base points, first that of the side that opened the channel."""
    found = [
        Key(f"payment base of the owner of channel {channel.number}").public,
        public_key(channel.privates["payment"]),
    ]
    return found if channel.is_owner_opener else found[::-1]


def commitment_of(channel: Channel) -> PartialTransaction:
    """The commitment's transaction, by lnutil, signed by both funding keys."""
    keys, funding = keys_of(channel), funding_keys(channel)
    opener, other = payment_bases(channel)
    htlcs = channel.untrimmed_htlcs()
    fees = lnutil.calc_fees_for_commitment_tx(
        num_htlcs=len(htlcs), feerate=channel.feerate_per_kw, is_local_initiator=channel.is_owner_opener
    )
    if channel.is_anchored:
        fees[lnutil.LOCAL if channel.is_owner_opener else lnutil.REMOTE] += 2 * 1000 * ANCHOR_SAT
    found = lnutil.make_commitment(
        ctn=channel.commitment_number,
        local_funding_pubkey=funding[0].public,
        remote_funding_pubkey=funding[1].public,
        remote_payment_pubkey=keys.payment,
        funder_payment_basepoint=opener,
        fundee_payment_basepoint=other,
        revocation_pubkey=keys.revocation,
        delayed_pubkey=keys.delayed,
        to_self_delay=channel.delay_blocks,
        funding_txid=hashlib.sha256(f"funding of channel {channel.number}".encode()).hexdigest(),
        funding_pos=channel.number % 3,
        funding_sat=channel.capacity_sat(),
        local_amount=channel.owner_msat,
        remote_amount=channel.peer_msat,
        dust_limit_sat=channel.dust_limit_sat,
        fees_per_participant=fees,
        htlcs=[lnutil.ScriptHtlc(htlc_script(channel, keys, it), it.of_electrum()) for it in htlcs],
    )
    if channel.is_anchored:
        found = with_anchors(found, keys, funding)
    found.sign({it.public.hex(): (it.secret, True) for it in funding})
    return found


def with_anchors(found: PartialTransaction, keys: Keys, funding: list[Key]) -> PartialTransaction:
    """The commitment with the anchors, and with to_remote as it is then."""
    plain = program_at(lnutil.make_commitment_output_to_remote_address(keys.payment))
    remote = key_program(keys.payment, REMOTE_END)
    outputs = [(remote if it.scriptpubkey == plain else it.scriptpubkey, it.value) for it in found.outputs()]
    outputs += [(key_program(it.public, ANCHOR_END), ANCHOR_SAT) for it in funding]
    made = [PartialTxOutput(scriptpubkey=program, value=value) for program, value in outputs]
    return PartialTransaction.from_io(found.inputs(), made, locktime=found.locktime, version=2)


def htlc_private_key(channel: Channel, name: str) -> bytes:
    """The private HTLC key of a side at this commitment."""
    return lnutil.derive_privkey(int.from_bytes(channel.privates[name], "big"), public_key(channel.secret)).to_bytes(
        32, "big"
    )


def unsigned_second_stage(
    channel: Channel, commitment: PartialTransaction, at: int, htlc: Htlc
) -> PartialTransaction:
    """The HTLC transaction of an HTLC whose output stands there, by lnutil."""
    keys = keys_of(channel)
    script = htlc_script(channel, keys, htlc)
    _, output = lnutil.make_htlc_tx_output(
        htlc.amount_msat,
        channel.htlc_feerate_per_kw(),
        keys.revocation,
        keys.delayed,
        htlc.is_received,
        channel.delay_blocks,
    )
    inputs = lnutil.make_htlc_tx_inputs(commitment.txid(), at, htlc.amount_msat, script.hex())
    inputs[0].nsequence = int(channel.is_anchored)
    return lnutil.make_htlc_tx(
        cltv_expiry=0 if htlc.is_received else htlc.expiry_height, inputs=inputs, output=output
    )


def second_stage_of(channel: Channel, commitment: PartialTransaction, htlc: Htlc) -> PartialTransaction:
    """The same, signed by both sides. The preimage of a received one is any, and with anchors the peer's hash type is
    ALL, since nobody runs that script here.
    """
    script, value = htlc_script(channel, keys_of(channel), htlc), htlc.amount_msat // 1000
    outputs = [(it.scriptpubkey, it.value) for it in commitment.outputs()]
    found = unsigned_second_stage(channel, commitment, outputs.index((script_program(script), value)), htlc)
    peers, owners = (bytes.fromhex(found.sign_txin(0, htlc_private_key(channel, it))) for it in ("htlc", "owner_htlc"))
    transaction_hex(found, [[b"", peers, owners, bytes(32) if htlc.is_received else b"", script]])
    return found
