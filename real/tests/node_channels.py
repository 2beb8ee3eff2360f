"""Channels for a node of Bitcoin: funding, commitments and HTLC transactions of both types, written from BOLT 3 and
signed with keys that everybody knows. Tested, not proved. Nothing here was made from the answers of a program of this
repository.
"""
import hashlib
from dataclasses import dataclass, field

from real.lib import commitment
from real.lib.commitment import ANCHORS, Htlc, Keys
from real.lib.curve import Curve
from real.lib.derivation import derived_private_key
from real.lib.transaction import Digests, Input, Output, Transaction, hash160, sha256d, text

BASES = ("revocation", "payment", "htlc", "owner_delayed", "owner_htlc")
ALL, SINGLE_ANYONE = 0x01, 0x83
FEE_SAT, TO_OWNER_SAT, TO_PEER_SAT, HTLC_SAT, ANCHOR_SAT, ADDED_SAT = 3_000, 400_000, 300_000, 20_000, 330, 10_000
SECOND_FEE_SAT = 600
# lock time and sequence of a commitment (BOLT 3, "Commitment Transaction")
LOCK_TIME, SEQUENCE = 0x20 << 24, 0x80 << 24


def secret_of(name: str) -> bytes:
    return hashlib.sha256(f"a key of a node's channel that everybody knows: {name}".encode()).digest()


def number_push(number: int) -> bytes:
    """A number as a script has it."""
    if number <= 16:
        return bytes([0x50 + number]) if number else b"\x00"
    size = number.bit_length() // 8 + 1
    return bytes([size]) + number.to_bytes(size, "little")


def push(item: bytes) -> bytes:
    return bytes([len(item)]) + item


def ripemd_of(payment_hash: bytes) -> bytes:
    return hashlib.new("ripemd160", payment_hash).digest()


def to_local_script(revocation: bytes, delay: int, delayed: bytes) -> bytes:
    return b"\x63" + push(revocation) + b"\x67" + number_push(delay) + b"\xb2\x75" + push(delayed) + b"\x68\xac"


def htlc_script(keys: Keys, htlc: Htlc, is_anchored: bool) -> bytes:
    begin = b"\x76\xa9" + push(hash160(keys.revocation)) + b"\x87\x63\xac\x67" + push(keys.remote_htlc)
    paid = b"\xa9" + push(ripemd_of(htlc.payment_hash)) + b"\x88"
    end = b"\x68" + b"\x51\xb2\x75" * is_anchored + b"\x68"
    both = b"\x52\x7c" + push(keys.local_htlc) + b"\x52\xae"
    if htlc.is_offered:
        return begin + b"\x7c\x82\x01\x20\x87\x64\x75" + both + b"\x67" + paid + b"\xac" + end
    timeout = b"\x75" + number_push(htlc.expiry_height) + b"\xb1\x75\xac"
    return begin + b"\x7c\x82\x01\x20\x87\x63" + paid + both + b"\x67" + timeout + end


def to_remote_program(key: bytes, is_anchored: bool) -> bytes:
    return commitment.program_of(push(key) + b"\xad\x51\xb2") if is_anchored else b"\x00\x14" + hash160(key)


@dataclass
class Coin:
    """An output with the hash of a key, which the tests spend."""

    outpoint: bytes
    value: int
    private: bytes


@dataclass
class Party:
    """A channel: whose commitment it is, its point's secret, and all keys. Both directions of HTLCs are those of the
    commitment's owner.
    """

    name: str
    channel_type: str
    delay_blocks: int
    htlcs: list[tuple[Htlc, bytes]]
    secret: bytes = b""
    privates: dict[str, bytes] = field(default_factory=dict)

    def __post_init__(self) -> None:
        self.secret = secret_of(f"{self.name} per-commitment secret")
        self.privates = {it: secret_of(f"{self.name} {it}") for it in (*BASES, "funding 0", "funding 1", "added")}

    @property
    def is_anchored(self) -> bool:
        return self.channel_type == ANCHORS

    def bases(self, curve: Curve) -> dict[str, bytes]:
        return {it: curve.public_key(self.privates[it]) for it in BASES}

    def keys(self, curve: Curve) -> Keys:
        return commitment.keys_of(curve, self.bases(curve), curve.public_key(self.secret), False)

    def private_at_point(self, curve: Curve, base: str) -> bytes:
        private = self.privates[base]
        return derived_private_key(private, curve.public_key(private), curve.public_key(self.secret))

    def funding_keys(self, curve: Curve) -> list[bytes]:
        return [curve.public_key(self.privates[f"funding {it}"]) for it in range(2)]

    def funding_script(self, curve: Curve) -> bytes:
        first, second = sorted(self.funding_keys(curve))
        return b"\x52" + push(first) + push(second) + b"\x52\xae"

    def capacity_sat(self) -> int:
        return FEE_SAT + sum(it.value for it in self.outputs(Curve()))

    def outputs(self, curve: Curve) -> list[Output]:
        """The commitment's outputs (BOLT 3, "Commitment Transaction Outputs"), in their order (BIP 69)."""
        keys = self.keys(curve)
        script = to_local_script(keys.revocation, self.delay_blocks, keys.delayed)
        found = [
            Output(TO_OWNER_SAT, commitment.program_of(script)),
            Output(TO_PEER_SAT, to_remote_program(keys.remote, self.is_anchored)),
        ]
        for at, (htlc, _) in enumerate(self.htlcs):
            found.append(
                Output(HTLC_SAT + 100 * at, commitment.program_of(htlc_script(keys, htlc, self.is_anchored)))
            )
        for key in self.funding_keys(curve) if self.is_anchored else []:
            script = push(key) + b"\xac\x73\x64\x60\xb2\x68"
            found.append(Output(ANCHOR_SAT, commitment.program_of(script)))
        return sorted(found, key=lambda it: (it.value, it.program))


def digest_of(transaction: Transaction, index: int, script: bytes, value: int, hash_type: int) -> bytes:
    """What a signature is over (BIP 143), of hash type ALL, or SINGLE with ANYONECANPAY."""
    if hash_type == ALL:
        return Digests(transaction).digest_of(index, script, value)
    it = transaction.inputs[index]
    own = it.outpoint + text(script) + value.to_bytes(8, "little") + it.sequence.to_bytes(4, "little")
    ends = transaction.lock_time.to_bytes(4, "little") + hash_type.to_bytes(4, "little")
    output = sha256d(transaction.outputs[index].bytes())
    return sha256d(transaction.version.to_bytes(4, "little") + bytes(64) + own + output + ends)


def signature(
    curve: Curve, private: bytes, made: Transaction, index: int, script: bytes, value: int, hash_type: int = ALL
) -> bytes:
    return curve.sign(private, digest_of(made, index, script, value, hash_type)) + bytes([hash_type])


def outpoint_of(made: Transaction, index: int) -> bytes:
    return bytes.fromhex(made.txid())[::-1] + index.to_bytes(4, "little")


def sign_coin(curve: Curve, made: Transaction, index: int, coin: Coin) -> None:
    public = curve.public_key(coin.private)
    script = b"\x76\xa9\x14" + hash160(public) + b"\x88\xac"
    made.inputs[index].witness = [signature(curve, coin.private, made, index, script, coin.value), public]


def commitment_of(curve: Curve, party: Party, funding: bytes) -> Transaction:
    """The commitment that spends a funding output, signed by both sides."""
    made = Transaction(2, [Input(funding, b"", SEQUENCE)], party.outputs(curve), LOCK_TIME)
    script, value = party.funding_script(curve), party.capacity_sat()
    by_key = {curve.public_key(it): it for it in (party.privates["funding 0"], party.privates["funding 1"])}
    signatures = [signature(curve, by_key[it], made, 0, script, value) for it in sorted(by_key)]
    made.inputs[0].witness = [b"", *signatures, script]
    return made


def second_stage(curve: Curve, party: Party, made: Transaction, at: int, coin: Coin | None) -> Transaction:
    """The HTLC transaction of an HTLC (BOLT 3, "HTLC-Timeout and HTLC-Success Transactions"), signed by both sides.
    With anchors the peer signs by SINGLE with ANYONECANPAY, and the owner adds an input and an output for the fee.
    """
    keys, (htlc, preimage) = party.keys(curve), party.htlcs[at]
    script = htlc_script(keys, htlc, party.is_anchored)
    index = next(i for i, it in enumerate(made.outputs) if it.program == commitment.program_of(script))
    value, fee = made.outputs[index].value, 0 if coin else SECOND_FEE_SAT
    program = commitment.program_of(to_local_script(keys.revocation, party.delay_blocks, keys.delayed))
    lock_time = htlc.expiry_height if htlc.is_offered else 0
    inputs = [Input(outpoint_of(made, index), b"", 1 if party.is_anchored else 0)]
    found = Transaction(2, inputs, [Output(value - fee, program)], lock_time)
    if coin:
        found.inputs.append(Input(coin.outpoint, b"", 0xFFFFFFFD))
        change = b"\x00\x14" + hash160(curve.public_key(coin.private))
        found.outputs.append(Output(coin.value - SECOND_FEE_SAT, change))
    kinds = SINGLE_ANYONE if party.is_anchored else ALL, ALL
    privates = [party.private_at_point(curve, it) for it in ("htlc", "owner_htlc")]
    peers, owners = (signature(curve, it, found, 0, script, value, kind) for it, kind in zip(privates, kinds))
    found.inputs[0].witness = [b"", peers, owners, b"" if htlc.is_offered else preimage, script]
    if coin:
        sign_coin(curve, found, 1, coin)
    return found
