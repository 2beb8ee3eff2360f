"""Why an event is refused, in the words of docs/SCENARIOS.md: show/test compares them with its table."""

REASONS = {
    "NoSuchChannel": "the scenario has no channel of this number",
    "NoMessage": "nothing is on its way to the side",
    "ChannelClosed": "the side closed the channel",
    "AmountZero": "the amount is 0",
    "BelowMinimum": "below the receiver's minimum",
    "ExpiryTooLarge": "the expiry is 500,000,000 or more, which would be a time",
    "TooManyHtlcs": "483 HTLCs of this direction are live",
    "OverBalance": "the side does not surely own that much",
    "NotOpener": "the side did not open the channel",
    "UnknownHtlc": "there is no such HTLC; or the commitments of both sides do not yet all have it; or it is already fulfilled or failed",
    "WrongPreimage": "the SHA-256 is another one",
    "AwaitingRevocation": "the other side has not yet revoked its older commitment",
    "PenaltiesMissing": "the other side's commitment n is revoked, and its penalties are not kept yet",
    "NoUpdates": "the commitment would be as it was",
    "NotRevoked": "that commitment is not revoked",
    "AlreadyKept": "its penalties are kept",
    "NoSuchTx": "the side has no such transaction with both signatures, or does not know the preimage that it needs",
    "NoSuchTx reorg": "the blocks have fewer transactions than are to be forgotten",
    "NoJob": "there are fewer than requested",
    "NoJob release": "there are fewer than requested; or a release is of none, or of more than 4,000",
    "MixedShells": "the claim of an HTLC transaction is not alone",
    "MixedChannels": "the claims are of several channels",
    "SameOutpoint": "two of them are on one output",
    "OverValue": "they are worth more than 21,000,000 bitcoins",
    "TooDeep": "no block is to be taken off, or more than there are; or the height would fall more than 6 below the greatest ever; or a granted output stands there",
    "NoMemory": "memory ran out for this event",
}


def refusal_words(answer, event):
    """An answer `refused REASON` in words, for an event of this name. A number behind the reason is that of a commitment."""
    _, reason, *number = answer.split()
    said = REASONS.get(f"{reason} {event}") or REASONS.get(reason)
    if said is None:
        return f"refused, {' '.join([reason, *number])}"
    return f"refused, {reason}: {said.replace(' n ', f' {number[0]} ') if number else said}"
