"""The 208 transactions without a fault: thirteen of each way to spend, over delays, expiries, sequences, lock times
and neighbours that differ. Tested, not proved.
"""
from collections.abc import Iterator

from real.tests import written_ways as ways
from real.tests.written_electrum import (
    Channel,
    Claim,
    Spend,
    assembled_script,
    crypto,
    digest_of,
    multisig,
    opcodes,
    public_key,
    secret_of,
)

DELAYS = (1, 16, 17, 127, 128, 144, 255, 256, 1008, 2016, 32767, 32768, 65535)
EXPIRIES = (1, 16, 17, 127, 128, 32767, 32768, 700123, 8388607, 8388608, 16777216, 499999998, 499999999)
SEQUENCES = (0xFFFFFFFD, 0xFFFFFFFE, 0xFFFFFFFF, 0)
NEIGHBOURS = (
    "to_remote",
    "to_local by revocation",
    "offered by revocation",
    "received by revocation",
    "offered by preimage",
)
OUTPUT_OF = {"offered": 0, "received": 1, "to_remote": 2, "to_local": 3, "second": 4}
THREE = ("first and second of three", "first and third of three", "second and third of three")


def programs(name: str) -> list[bytes]:
    """Programs that are paid: a key's hash, a script's, the older forms of both, taproot, and a note."""
    h20, h32 = digest_of(name)[:20], digest_of(name + " paid")
    return [
        b"\x00\x14" + h20,
        b"\x00\x20" + h32,
        b"\x76\xa9\x14" + h20 + b"\x88\xac",
        b"\xa9\x14" + h20 + b"\x87",
        b"\x51\x20" + h32,
        b"\x6a\x04note",
    ]


def outputs_for(name: str, number: int, total: int) -> list[tuple[bytes, int]]:
    """One to three outputs, with a fee of some hundred satoshis."""
    choice, count = programs(name), 1 + number % 3
    left = total - 300 - 11 * number
    values = [left // (count + 1 + k) for k in range(count - 1)]
    values.append(left - sum(values))
    return [(choice[(number + 2 * k) % 5 if k < 2 else 5], value if k < 2 else 0) for k, value in enumerate(values)]


def neighbours(channel: Channel, way: str) -> list[Claim]:
    """Up to two more claims of the same commitment, of other outputs."""
    taken, found = {OUTPUT_OF[way.split(" ")[0]]}, []
    start = channel.number + len(way)
    for k in range(len(NEIGHBOURS)):
        other = NEIGHBOURS[(start + k) % len(NEIGHBOURS)]
        at = OUTPUT_OF[other.split(" ")[0]]
        if at not in taken and len(found) < channel.number % 3:
            taken.add(at)
            found.append(channel.claim(other, SEQUENCES[(start + k) % 4]))
    return found


def channel_spend(channel: Channel, way: str) -> Spend:
    """The spend of an output of a commitment or of an HTLC transaction."""
    n = channel.number
    sequence, lock_time = SEQUENCES[n % 4], (0, 650000 + n)[n % 2] if way.startswith(("to_", "second")) else 0
    if way.endswith("delay"):
        sequence = min(channel.delay + (0, 0, 5)[n % 3], 65535)
    if way == "received by timeout":
        sequence, lock_time = (0xFFFFFFFD, 0xFFFFFFFE, 0)[n % 3], min(channel.expiry + (0, 0, 3)[n % 3], 499999999)
    if way == "received by revocation" and n % 2:
        lock_time = channel.expiry
    main = channel.second_stage(way, sequence) if way.startswith("second") else channel.claim(way, sequence)
    others = neighbours(channel, way)
    at = n % (len(others) + 1)
    claims = others[:at] + [main] + others[at:]
    total = sum(claim.value for claim in claims)
    return Spend(
        claims, outputs_for(f"{way} {n}", n, total), 2 if way.endswith("delay") else 1 + n % 2, lock_time, at
    ).sign()


def wallet_claim(way: str, name: str, sequence: int, value: int) -> Claim:
    """A claim of a wallet: a key's hash in either form, or two of three keys."""
    outpoint = (digest_of(name + " outpoint").hex(), len(name) % 4)
    secrets = [secret_of(f"{name} {k}") for k in range(3)]
    keys = [public_key(secret) for secret in secrets]
    if way == "wallet key":
        return Claim(way, outpoint, value, None, [None, keys[0]], secrets[:1], sequence)
    if way == "key hash":
        script = assembled_script(
            opcodes.OP_DUP, opcodes.OP_HASH160, crypto.hash_160(keys[0]), opcodes.OP_EQUALVERIFY, opcodes.OP_CHECKSIG
        )
        return Claim(way, outpoint, value, script, [None, keys[0]], secrets[:1], sequence)
    signing = {
        "first and second of three": (0, 1),
        "first and third of three": (0, 2),
        "second and third of three": (1, 2),
    }[way]
    return Claim(way, outpoint, value, multisig(2, keys), [b"", None, None], [secrets[k] for k in signing], sequence)


def wallet_spend(way: str, n: int) -> Spend:
    """The spend of some outputs of wallets: the main one, and up to three more of the other ways."""
    main = wallet_claim(way, f"{way} {n}", SEQUENCES[n % 4], 40_000 + 137 * n)
    others = [
        wallet_claim(
            ("wallet key", "key hash", THREE[n % 3])[(n + k) % 3],
            f"{way} {n} and {k}",
            SEQUENCES[(n + k) % 4],
            7_000 + 999 * k,
        )
        for k in range((n * 5) % 4)
    ]
    at = (n * 7) % (len(others) + 1)
    claims = others[:at] + [main] + others[at:]
    total = sum(claim.value for claim in claims)
    return Spend(
        claims, outputs_for(f"{way} {n}", n + 1, total), 1 + n % 2, (0, 800_000 + n, 1_700_000_000 + n)[n % 3], at
    ).sign()


def spends() -> Iterator[tuple[str, Spend]]:
    """Each way with its name and its transaction."""
    for n in range(13):
        channel = Channel(n, DELAYS[n], EXPIRIES[(n * 5) % 13])
        yield f"funding {n}", channel.commitment()
        yield f"close {n}", channel.close()
        for way in ways.WAYS:
            if way in ("offered by timeout", "received by success"):
                yield f"{way} {n}", channel.htlc_transaction(way)
            elif way.startswith(("to_", "second stage", "offered", "received")):
                yield f"{way} {n}", channel_spend(channel, way)
        yield f"wallet key {n}", wallet_spend("wallet key", n)
        yield f"key hash {n}", wallet_spend("key hash", n)
        yield f"{THREE[n % 3]} {n}", wallet_spend(THREE[n % 3], n)
