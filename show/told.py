"""What `trace` tells of a scenario or of a book, in sentences: the ones that the pictures have, and of a book what to claim first."""
from story import PANEL, PEER, millisatoshis, quantity, satoshis

# how soon others can take an output, the soonest first, barring a penalty on an HTLC whose preimage they may have
ORDER = ("until", "blocks", "no_preimage", "always")
WAYS = {
    "payment": "by its own key",
    "preimage": "by the preimage",
    "timeout": "by the timeout",
    "penalty": "by the penalty",
}


def scenario(told):
    """The events of a scenario, a line each with what belongs to it, and how all stands at the end, or where the trace stops."""
    lines = []
    for row in told.rows:
        place = f" (channel {row.channel})" if row.channel is not None and len(told.channels) > 1 else ""
        lines.append(f"{row.number:>4}  {row.said}{place}")
        lines += [f"      {it}" for it in row.more]
    lines.append("")
    lines.append("At the end:" if told.end is not None else f"{told.stops()}:")
    lines += [f"  {PANEL[name]}: {told.panel_line(name, True)}" for name in told.panel]
    for channel in told.channels:
        lines += end_lines(channel)
    return "".join(f"{it}\n" for it in lines)


def end_lines(channel):
    """How a channel stands after the last event."""
    a, undecided, fees, b = channel.money[-1][1]
    said = f"A {satoshis(a)}, B {satoshis(b)}" + (f", undecided {satoshis(undecided)}" if undecided else "") + (f", fees {satoshis(fees)}" if fees else "")
    lines = [f"Channel {channel.number}: {said}"]
    return lines + [f"  {PANEL[name]}: {channel.panel_line(name, True)}" for name in channel.cells]


def book(lines):
    """What a book has, and what it can claim, in the order in which its claims are to be released."""
    told = []
    for line in lines:
        told += channel(line) if "channel" in line else [f"The book has {quantity(line['entries'], 'call')} and {quantity(line['channels'], 'channel')}."]
    return "".join(f"{it}\n" for it in told)


def channel(it):
    """A channel of a book."""
    side, peer = it["side"], PEER[it["side"]]
    lines = [f"Channel {it['channel']}: {side}'s book, {satoshis(it['capacity'])}, opened by {it['opener']}. {peer} waits {quantity(it['peer_delay'], 'block')} for its own outputs."]
    if it.get("closed") is not None:
        lines.append(f"  {side} closed it with its commitment {it['closed']}.")
    for name, owner in (("ours", side), ("theirs", peer), ("next", peer)):
        if it[name]:
            held = it[name]
            lines.append(f"  {owner}'s commitment {held['number']}: {side} has {millisatoshis(held['balance'])}, {peer} {millisatoshis(held['peer_balance'])}, at a feerate of {held['feerate']:,}.")
    for htlc in it["htlcs"]:
        lines.append(f"  HTLC {htlc['id']}, {htlc['direction']}: {millisatoshis(htlc['amount'])} until height {htlc['expiry']:,}, hash {htlc['hash']}, in {commitments(htlc)}.")
    for close in it["closes"]:
        lines += claim_lines(close, side, peer)
    return lines


def commitments(htlc):
    """The commitments that have an HTLC."""
    return ", ".join(name for name in ("ours", "theirs", "next") if htlc[name]) or "none"


def claim_lines(close, side, peer):
    """What a side can claim if its peer closes the channel with a commitment."""
    state = {"theirs": "its newest", "next": "the one after its newest", "revoked": "which is revoked"}[close["commitment"]]
    kept = {None: "", True: ", with the penalties kept", False: ", with the penalties not kept yet"}[close["kept"]]
    lines = [f"  If {peer} broadcasts its commitment {close['number']}, {state}{kept}:"]
    for claim in sorted(close["claims"], key=urgency):
        lines.append(f"    {side} claims {satoshis(claim['value'])} ({output(claim)}) {WAYS[claim['by']]}{lock(claim)}: {exclusivity(claim, peer)}.")
    if not close["claims"]:
        lines.append(f"    {side} can claim nothing.")
    return lines


def urgency(claim):
    """What is released first: a penalty that others can get ahead of at once, then that which they can take soonest. Of two of a kind the lower number, then the greater value."""
    at_once = claim["by"] == "penalty" and claim["alone"] == "no_preimage"
    return not at_once, ORDER.index(claim["alone"]), claim["limit"] or 0, -claim["value"]


def output(claim):
    return claim["output"] if claim["id"] is None else f"HTLC {claim['id']}, {claim['output']}"


def lock(claim):
    """The first block that can take a claim with a lock time."""
    return f" from block {claim['lock'] + 1:,} on" if claim["lock"] is not None else ""


def exclusivity(claim, peer):
    """How long an output is a side's alone."""
    return {
        "always": "its own as long as it is unspent",
        "blocks": f"its own until the output is {claim['limit']} blocks old",
        "until": f"its own up to the block of height {claim['limit']}",
        "no_preimage": f"{peer} can take it at once if it has the preimage",
    }[claim["alone"]]
