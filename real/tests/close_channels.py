"""Compares what `spend close` answers with what Electrum makes of the same outputs. Tested, not proved. Wants Debian's
python3-electrum.
"""
import dataclasses
import hashlib
import json
import subprocess
from collections.abc import Iterator
from typing import Any

from electrum import lnutil
from electrum.crypto import sha256d
from electrum.transaction import PartialTransaction

from real.tests import channels
from real.tests.channels import Channel, Htlc
from real.tests.checks import spender
from real.tests.close_requests import HTLC
from real.tests.revoked_requests import REMOTE
from real.tests.tower_channels import SECONDS, Tally, changed_htlc, changed_parts, htlcs_of

OWN, PEER = "own", "peer"


@dataclasses.dataclass
class Case:
    """A commitment that is not revoked, whose it is, and the preimages that are known."""

    channel: Channel
    whose: str
    preimages: list[bytes]

    def has_preimage(self, htlc: Htlc) -> bool:
        return htlc.preimage in self.preimages

    def in_block(self) -> int:
        """The height of the block that has the commitment, or of the next one."""
        height = self.channel.confirmed_height()
        return channels.HEIGHT + 1 if height is None else height

    def funding_keys(self) -> dict[str, str] | None:
        """The keys of the funding output, of one's own side and the peer's; of one channel in four they are not told."""
        keys = [it.public.hex() for it in channels.funding_keys(self.channel)]
        names = (OWN, PEER) if self.whose == OWN else (PEER, OWN)
        return None if self.channel.number % 4 == 3 else dict(zip(names, keys))


def request(case: Case, transaction: PartialTransaction) -> str:
    """What is asked of a transaction: in each second channel without witnesses."""
    channel, keys = case.channel, channels.keys_of(case.channel)
    told = {
        "channel_type": "anchors" if channel.is_anchored else "static_remotekey",
        "whose": case.whose,
        "keys": {
            "revocation": keys.revocation.hex(),
            "delayed": keys.delayed.hex(),
            "local_htlc": keys.owner_htlc.hex(),
            "remote_htlc": keys.peer_htlc.hex(),
            "remote": keys.payment.hex(),
        },
        "delay_blocks": channel.delay_blocks,
        "feerate_per_kw": channel.feerate_per_kw,
        "funding_keys": case.funding_keys(),
        "htlcs": htlcs_of(channel),
        "preimages": [it.hex() for it in case.preimages],
        "transaction": transaction.serialize_to_network(include_sigs=channel.number % 2 == 0),
        "confirmed_height": case.in_block(),
    }
    return json.dumps(told) + "\n"


def claim(
    transaction: PartialTransaction, at: int, kind: str, heights: tuple[int, int | None], parts: tuple[bytes, int, Any, Any]
) -> dict[str, Any]:
    """A claim as it is printed: on the output that stands there, by a script, a path, slots and a shell."""
    script, path, slots, shell = parts
    output = transaction.outputs()[at]
    placed = {
        "outpoint": f"{bytes.fromhex(transaction.txid())[::-1].hex()}:{at}",
        "path": path,
        "program": output.scriptpubkey.hex(),
        "script": script.hex(),
        "shell": shell,
        "slots": slots,
        "value": output.value,
    }
    return {"kind": kind, "from_height": heights[0], "deadline_height": heights[1], "output": placed}


def expiries_of(channel: Channel, htlc: Htlc) -> list[int]:
    """The expiries that the output of an offered HTLC may have: of all that are offered with its hash, each once."""
    return list(
        dict.fromkeys(
            it.expiry_height
            for it in channel.htlcs
            if not it.is_received and it.payment_hash == htlc.payment_hash
        )
    )


def second_stages(case: Case, transaction: PartialTransaction, at: int, htlc: Htlc, script: bytes) -> Iterator[Any]:
    """What one claims of an HTLC of one's own commitment without anchors: by the HTLC transaction and the digest that
    Electrum makes, one for each expiry that it may have.
    """
    keys, value, block = channels.keys_of(case.channel), transaction.outputs()[at].value, case.in_block()
    for expiry in [htlc.expiry_height] if htlc.is_received else expiries_of(case.channel, htlc):
        it = dataclasses.replace(htlc, expiry_height=expiry, amount_msat=1000 * value)
        made = channels.unsigned_second_stage(case.channel, transaction, at, it)
        digest = sha256d(bytes.fromhex(made.serialize_preimage(0)))
        top = ["preimage", htlc.payment_hash.hex()] if htlc.is_received else ["exact", ""]
        token = ["exact", (keys.peer_htlc + digest + b"\x01").hex()]
        slots = [top, ["sig", keys.owner_htlc.hex()], token, ["exact", ""]]
        after = max(block, htlc.expiry_height + 1) if htlc.is_received else max(block, expiry + 1)
        heights = (block, after) if htlc.is_received else (after, block)
        kind = "received" if htlc.is_received else "offered"
        yield claim(transaction, at, kind, heights, (script, 1, slots, made.serialize_to_network(include_sigs=False)))


def direct(case: Case, transaction: PartialTransaction, at: int, htlc: Htlc, script: bytes) -> Any:
    """What one claims of an HTLC of the peer's commitment: with the preimage, or after the expiry."""
    least = case.in_block() + case.channel.is_anchored
    expiry = htlc.expiry_height if htlc.is_received else min(expiries_of(case.channel, htlc))
    after = max(least, expiry + 1)
    top = ["exact", ""] if htlc.is_received else ["preimage", htlc.payment_hash.hex()]
    heights = (after, least) if htlc.is_received else (least, after)
    slots = [top, ["sig", channels.keys_of(case.channel).peer_htlc.hex()]]
    return claim(transaction, at, "received" if htlc.is_received else "offered", heights, (script, 2, slots, None))


def claims_of_htlc(case: Case, transaction: PartialTransaction, at: int, htlc: Htlc, script: bytes) -> list[Any]:
    """What one claims of an HTLC's output: with the preimage of what one is paid, and what one offered without."""
    is_paid = htlc.is_received == (case.whose == OWN)
    if is_paid and not case.has_preimage(htlc):
        return []
    if case.whose == PEER:
        return [direct(case, transaction, at, htlc, script)]
    return [] if case.channel.is_anchored else list(second_stages(case, transaction, at, htlc, script))


def other(case: Case, at: int, name: str) -> dict[str, Any]:
    """What is said of an output without a claim."""
    reasons = (HTLC if case.whose == OWN else REMOTE) if case.channel.is_anchored else {}
    return {"index": at, "name": name, **({"reason": reasons[name]} if name in reasons else {})}


def other_names(case: Case) -> dict[bytes, str]:
    """The names of outputs of a channel with anchors that are no HTLCs, by their programs."""
    found = dict(channels.named_programs(case.channel))
    for name, key in (case.funding_keys() or {}).items():
        found[channels.key_program(bytes.fromhex(key), channels.ANCHOR_END)] = f"{name}_anchor"
    return {program: "unknown" if name == "anchor" else name for program, name in found.items()}


def wanted(case: Case, transaction: PartialTransaction) -> dict[str, Any]:
    """The whole answer, by Electrum's scripts and transactions and the heights of BIPs 65 and 68."""
    channel, keys = case.channel, channels.keys_of(case.channel)
    scripts = [(it, channels.htlc_script(channel, keys, it)) for it in reversed(channel.htlcs)]
    htlcs = {channels.script_program(script): (it, script) for it, script in scripts}
    local = channels.to_local_script(channel, keys)
    plain = channels.program_at(lnutil.make_commitment_output_to_remote_address(keys.payment))
    names = {plain: "to_remote", **(other_names(case) if channel.is_anchored else {})}
    claims, others = [], []
    for at, output in enumerate(transaction.outputs()):
        found, name = [], names.get(output.scriptpubkey, "unknown")
        if output.scriptpubkey == channels.script_program(local):
            name, slots = "to_local", [["exact", ""], ["sig", keys.delayed.hex()]]
            heights = case.in_block() + channel.delay_blocks, None
            found = [claim(transaction, at, name, heights, (local, 1, slots, None))] * (case.whose == OWN)
        elif output.scriptpubkey == plain and case.whose == PEER:
            slots = [["exact", keys.payment.hex()], ["sig", keys.payment.hex()]]
            script = b"\x76\xa9" + plain[1:] + b"\x88\xac"
            found = [claim(transaction, at, name, (case.in_block(), None), (script, 0, slots, None))]
        elif output.scriptpubkey in htlcs:
            htlc, script = htlcs[output.scriptpubkey]
            name = "received" if htlc.is_received else "offered"
            found = claims_of_htlc(case, transaction, at, htlc, script)
        claims += found
        others += [] if found else [other(case, at, name)]
    return {"claims": claims, "others": others}


def compare(tally: Tally, name: str, case: Case, transaction: PartialTransaction) -> None:
    """What the program answers of a transaction is what is wanted."""
    words = [spender().program, "close"]
    ran = subprocess.run(words, input=request(case, transaction).encode(), capture_output=True, timeout=SECONDS)
    found, answer = json.loads(ran.stdout), wanted(case, transaction)
    tally.closes, tally.claims = tally.closes + 1, tally.claims + len(answer["claims"])
    tally.others += len(answer["others"])
    for part in ("claims", "others"):
        for one, two in zip(found.get(part, []), answer[part]):
            tally.check(one == two, f"{name}: {one}, and not {two}")
        tally.check(len(found.get(part, [])) == len(answer[part]), f"{name}: {len(found.get(part, []))} {part}")
    tally.check(ran.returncode == 0, f"{name}: status {ran.returncode}")


def next_channel(channel: Channel) -> Channel:
    """The channel at its next commitment: with another point, one HTLC less and one more."""
    draws = channels.Draws(f"the next commitment of channel {channel.number}")
    number = (channel.commitment_number + 1) % channels.COMMITMENTS
    found = dataclasses.replace(
        channel, secret=draws.bytes(), commitment_number=number, htlcs=list(channel.htlcs[1:])
    )
    if channel.htlcs:
        found.htlcs.append(channels.drawn_htlc(draws, found))
    return found


def known_preimages(channel: Channel) -> list[bytes]:
    """The preimages of each second HTLC, and one of none."""
    own = list(dict.fromkeys(it.preimage for it in channel.htlcs[::2]))
    return [*own, hashlib.sha256(f"another preimage {channel.number}".encode()).digest()]


def compare_changes(tally: Tally, name: str, case: Case, transaction: PartialTransaction) -> None:
    """With a base point, the delay, the point or an HTLC changed, and without preimages: what still has a program that
    Electrum makes of the rest is claimed.
    """
    for part, changed in (*changed_parts(case.channel), *changed_htlc(case.channel)):
        compare(tally, f"{name}, another {part}", dataclasses.replace(case, channel=changed), transaction)
    compare(tally, f"{name}, no preimages", dataclasses.replace(case, preimages=[]), transaction)


def close(tally: Tally, channel: Channel) -> None:
    """All that is asked of one channel: its commitment as one's own and as the peer's, with each part changed in turn;
    the peer's next one; and the HTLC transactions of one's own.
    """
    name, transaction = f"close {channel.number}{' with anchors' * channel.is_anchored}", channels.commitment_of(channel)
    cases = {whose: Case(channel, whose, known_preimages(channel)) for whose in (OWN, PEER)}
    for whose, case in cases.items():
        compare(tally, f"{name}, {whose}", case, transaction)
    whose = (OWN, PEER)[channel.number // 2 % 2]
    compare_changes(tally, f"{name}, {whose}", cases[whose], transaction)
    after = next_channel(channel)
    later = Case(after, PEER, known_preimages(after))
    compare(tally, f"{name}, the peer's next", later, channels.commitment_of(after))
    for place, it in enumerate(channel.untrimmed_htlcs()):
        second = channels.second_stage_of(channel, transaction, it)
        compare(tally, f"{name}, HTLC transaction {place}", cases[(OWN, PEER)[place % 2]], second)
