"""What callers of the library for C ask of revoked commitments, and what the answers have to be. It is told from the scripts of BOLT 3's appendix C, as oracles/revoked.py tells it, and no program of this repository is asked.

The heights from which the owner can take an output are worked out here from BOLT 3: to_local after its delay, an HTLC that it offered in a block above the expiry, and one that it received at once; with anchors an HTLC
transaction waits for one block more.
"""
import os
import sys

sys.dont_write_bytecode = True
TOP = os.path.dirname(os.path.dirname(os.path.dirname(os.path.abspath(__file__))))
sys.path.insert(0, f"{TOP}/oracles")
import revoked

CHANNELS, DIRECTIONS = {"static_remotekey": 1, "anchors": 2}, {"offered": 1, "received": 2}
KINDS = {"to_local": 1, "to_remote": 2, "to_remote_after_a_block": 2, "offered": 3, "received": 4}
HEIGHT, LAST = 501, 2**32 - 1
# The funding keys of one who is the owner of the appendix's commitment, and of its peer.
OWNERS = [revoked.KEYS[f"{it}_funding_pubkey"] for it in ("local", "remote")]
PEERS = OWNERS[::-1]


def commitment_words(row, funding, **words):
    """A row's commitment and its HTLCs as a line has them, with some of the commitment's words changed. Funding keys are told where there are anchors."""
    own, peers = funding if row.values["type"] == "anchors" else ("-", "-")
    commitment = {"type": CHANNELS[row.values["type"]], **{it: row.values[it] for it in ["delay", *revoked.NAMES]}, "own_funding": own, "peers_funding": peers, **words}
    htlcs = [f"{DIRECTIONS.get(direction, direction)}/{expiry}/{payment_hash}" for direction, payment_hash, expiry in row.htlcs]
    return f"{'/'.join(str(it) for it in commitment.values())} {';'.join(htlcs) or '-'}"


def line_of(row, height=HEIGHT, tx=None, **words):
    """The line that asks of a row, with some of the commitment's words changed."""
    return f"revoked {commitment_words(row, PEERS, **words)} {row.tx if tx is None else tx or '-'} {height}"


def other_text(row, index, output, funding):
    """An output without a claim: its index, and what it is."""
    kind = 0
    if row.is_claimed(output):
        kind = KINDS[output["kind"]]
    elif row.values["type"] == "anchors" and output["kind"] == "to_remote_after_a_block" and row.values["remote"] == revoked.OWN["remote"]:
        kind = 2
    elif row.values["type"] == "anchors" and output["kind"] == "anchor":
        kind = 5 + [revoked.program_of(f"21{key}ac736460b268") for key in funding].index(output["script_pubkey"])
    return f"{index}:{kind}"


def owner_height(row, output, height):
    """The first block in which the owner can take an output (BOLT 3)."""
    kind, waits = output["kind"], row.values["type"] == "anchors"
    if kind == "to_remote":
        return "-"
    if kind == "to_local":
        return height + row.values["delay"]
    if kind == "received":
        return height + waits
    own = revoked.htlc_of(output["htlc"])
    return max(height + waits, 1 + min(it[2] for it in row.htlcs if revoked.same_script(own, it)))


def claim_text(row, index, output):
    """A claim as callers read and print it."""
    words = row.claim(index, output).split()
    place, value, program, script, path, item, key = words[0], words[2], words[4], words[6], words[8], words[9], words[10]
    return f"{script}/{program}/{place.replace(':', '/')}/{value}/{path}/e={item.removeprefix('exact:')},s={key.removeprefix('sig:')}"


def answer(row, height=HEIGHT):
    claimed = [(index, it) for index, it in enumerate(row.outputs) if row.is_claimed(it)]
    others = [other_text(row, index, it, PEERS) for index, it in enumerate(row.outputs) if not row.is_claimed(it)]
    lines = [f"found {KINDS[it['kind']]} {height} {owner_height(row, it, height)} {claim_text(row, index, it)}\n" for index, it in claimed]
    return "".join(lines) + " ".join(["others", *others]) + "\n"


def row_with(row, htlcs):
    return revoked.Row(row.values, row.tx, row.txid, row.outputs, htlcs, row.channel_type)


def refused(row):
    """What is refused for the first of its faults."""
    tx, (direction, payment_hash, expiry) = row.tx, row.htlcs[0]
    bad_key = "04" + row.values["delayed"][2:]
    outputs_at = 2 * (4 + 1 + 41)
    marked = tx[:8] + "0001" + tx[8:-8]
    faults = {
        line_of(row, type=0, delayed=bad_key): "NoSuchChannelType",
        line_of(row, type=3): "NoSuchChannelType",
        line_of(row_with(row, [(3, payment_hash, expiry), *row.htlcs]), delayed=bad_key, remote=bad_key, tx=""): "NotACommitmentKey 1",
        **{line_of(row, **{name: bad_key}): f"NotACommitmentKey {at}" for at, name in enumerate(revoked.NAMES)},
        line_of(row, own_funding=bad_key, peers_funding=bad_key, tx=""): "NotACommitmentKey 5",
        line_of(row_with(row, [(3, payment_hash, expiry)]), own_funding=PEERS[0], peers_funding=bad_key): "NotACommitmentKey 6",
        line_of(row_with(row, [(direction, payment_hash, expiry), (0, payment_hash, 500_000_000)]), tx=""): "NoSuchDirection 1",
        line_of(row_with(row, [(3, payment_hash, expiry)])): "NoSuchDirection 0",
        line_of(row_with(row, [*row.htlcs, (direction, payment_hash, 500_000_000), (3, payment_hash, expiry)]), tx=""): f"ExpiryTooLarge {len(row.htlcs)}",
        line_of(row, tx=""): "TruncatedTransaction",
        line_of(row, tx=tx[:-2]): "TruncatedTransaction",
        line_of(row, tx=tx + "00"): "Trailing",
        line_of(row, tx=tx[:8] + "fd0100" + tx[10:]): "LongCount",
        line_of(row, tx=tx[:8] + "00" + tx[outputs_at:]): "NoInputs",
        line_of(row, tx=tx[:8] + "0002" + tx[8:]): "NoInputs",
        line_of(row, tx=marked + "00" + tx[-8:]): "NoWitness",
        line_of(row, tx=tx[: outputs_at + 2] + 16 * "ff" + tx[outputs_at + 18 :]): "ValueTooLarge",
    }
    return {line: f"refused {word}\n" for line, word in faults.items()}


def wanted_answers():
    """Each line that callers read, with what they must print."""
    rows = list(revoked.rows())
    found = {line_of(row): answer(row) for row in rows}
    largest = max((row for row in rows if row.values == revoked.OWN and row.channel_type == row.values["type"]), key=lambda row: len(row.outputs))
    edge = row_with(largest, [*largest.htlcs[:-1], (*largest.htlcs[-1][:2], 499_999_999)])
    for row in (largest, edge, rows[0]):
        found.update({line_of(row, height): answer(row, height) for height in (0, LAST)})
    witnessed = largest.tx[:8] + "0001" + largest.tx[8:-8] + "010107" + largest.tx[-8:]
    return {**found, line_of(largest, tx=witnessed): answer(largest), **refused(largest)}
