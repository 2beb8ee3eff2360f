"""The kinds and the statuses of the library. Drawn from crates/enforce_c/src by `bindings/library --write`: do not edit."""
from enum import IntEnum


class About(IntEnum):
    """What a refusal is about."""

    # The refusal is of the call as a whole.
    ALL = 0
    # It is of the output whose row has the index `row`.
    OUTPUT = 1
    # It is of the claim whose row has the index `row`. The number is what `enforce_claim` tells of it.
    CLAIM = 2
    # It is of a signature of the input `row`. The number is the index of its item.
    SIGNATURE = 3


class SlotKind(IntEnum):
    """How a claim fills a slot of its path."""

    # The slot is the signature of `key` over the spend.
    SIGNATURE = 1
    # The slot is 32 bytes whose SHA-256 is `hash`.
    PREIMAGE = 2
    # The slot is the `bytes_length` bytes from `bytes_at` on, at most 520.
    EXACT = 3
    # The slot is the signature of `key` over the digest `hash`, which was given over one transaction, with no witnesses the `bytes_length` bytes from `bytes_at` on. The claim is of this transaction alone, over whose digest the other signatures are too. No call reads such a slot.
    GIVEN = 4


class ChannelType(IntEnum):
    """The type of a channel."""

    # A channel without anchors: `option_static_remotekey` (BOLT 9).
    STATIC_REMOTE_KEY = 1
    # A channel with `option_anchors` (BOLT 9).
    ANCHORS = 2


class Whose(IntEnum):
    """Whose commitment closed a channel."""

    # One's own commitment, the newest.
    OWN = 1
    # The peer's newest commitment, or the one after it, while the newest is not revoked.
    PEERS = 2


class Direction(IntEnum):
    """Whether the owner of a commitment offered an HTLC or received it."""

    # The owner of the commitment offered the HTLC.
    OFFERED = 1
    # The owner of the commitment received the HTLC.
    RECEIVED = 2


class OutputKind(IntEnum):
    """Which output of a commitment it is."""

    # None that is known.
    UNKNOWN = 0
    # To the owner of the commitment, after the delay. The output of an HTLC transaction has the same script.
    TO_LOCAL = 1
    # To the owner's peer.
    TO_REMOTE = 2
    # An HTLC that the owner offered.
    OFFERED = 3
    # An HTLC that the owner received.
    RECEIVED = 4
    # One's own anchor.
    OWN_ANCHOR = 5
    # The peer's anchor.
    PEERS_ANCHOR = 6


class FormKind(IntEnum):
    """Which form of BOLT 3 it is."""

    # A funding output: both keys, `remote` and `local`, in whichever order.
    FUNDING = 1
    # A to_local output: `revocation` revokes, or `local`, which is local_delayedpubkey, after `delay_blocks`.
    TO_LOCAL = 2
    # A to_remote output, P2WPKH of `remote`: the script that it stands for.
    KEY_HASH = 3
    # An HTLC that the commitment's owner offered: `revocation` revokes, `remote` is remote_htlcpubkey and `local` local_htlcpubkey.
    OFFERED = 4
    # An HTLC that the commitment's owner received, with the same keys, and `expiry_height`.
    RECEIVED = 5
    # As `FORM_OFFERED`, in a channel with `option_anchors`.
    OFFERED_WITH_ANCHORS = 6
    # As `FORM_RECEIVED`, in a channel with `option_anchors`.
    RECEIVED_WITH_ANCHORS = 7


class NoteKind(IntEnum):
    """What a note on a script says."""

    # Anyone can spend by the path `at` once its locks have passed: it asks neither a signature of a key that the script fixes nor an item with a given hash.
    ANYONE = 1
    # Whoever knows an item with a given hash can spend by the path `at`: it asks no signature of a key that the script fixes, so who sees such a witness can spend too.
    FINDER = 2
    # No witness spends an output with the script, by consensus neither: what is paid to it is lost. `at` is 0.
    NOBODY = 3
    # A branch ends at the opcode of the index `at`, because a key there has not 33 bytes that begin with 02 or 03. By consensus others may spend by it.
    STRICTER_KEY = 4
    # A branch ends there, because a signature there is neither empty nor one that a key can give. By consensus others may spend by it.
    STRICTER_SIGNATURE = 5
    # A branch ends there, because a number there is not minimally encoded. By consensus others may spend by it.
    STRICTER_NUMBER = 6


class FactKind(IntEnum):
    """What a path asks of the witness or the spend."""

    # HASH160 of the slot is these 20 bytes.
    HASH = 1
    # The slot has this number of bytes.
    SIZE = 2
    # The slot counts as true.
    TRUTH = 3
    # The slot is these bytes.
    IS = 4
    # The slot has the form of a key.
    KEY = 5
    # The slot is empty or has the form of a signature.
    FORM = 6
    # The slot is the key's signature over the spend.
    SIGNED = 7
    # The slots and keys in the rows that follow it: the slots are signatures of an increasing choice of the keys, both deepest first.
    CHOICE = 8
    # A slot of the choice before it.
    CHOICE_SLOT = 9
    # A key of the choice before it.
    CHOICE_KEY = 10
    # CHECKLOCKTIMEVERIFY of this number passes (BIP 65).
    LOCK = 11
    # CHECKSEQUENCEVERIFY of this number passes (BIP 112). Of it only the bits of 0x40ffff are kept.
    AGE = 12


class Status(IntEnum):
    """Whether a call did what it is for, or why not."""

    # The call did what it is for.
    DONE = 0x0
    # Memory ran out. Nothing but the answer was written.
    NO_MEMORY = 0x1
    # A buffer is shorter than the answer says. Nothing but the answer was written.
    TOO_SMALL = 0x2
    # A byte of the script is none of the opcodes that are listed here, though it may be one of Bitcoin's, as SHA256; the answer has its position.
    BAD_OPCODE = 0x101
    # A push has too few bytes after it; the answer has its position.
    TRUNCATED = 0x102
    # The script has more than 10,000 bytes.
    TOO_LONG = 0x103
    # Branches of the script do not close.
    OPEN_BRANCH = 0x201
    # More than 201 opcodes count.
    TOO_MANY_OPS = 0x202
    # No rule decides an opcode or the end; the answer has the opcode's index.
    UNDECIDED = 0x203
    # A 65th path begins.
    TOO_MANY_PATHS = 0x204
    # A path needs more than 1,000 stack elements.
    TOO_TALL = 0x205
    # The script has no path of this index.
    NO_SUCH_PATH = 0x301
    # The number of slots is not that of the path.
    WRONG_ARITY = 0x302
    # The slots do not show a fact of the path, or it asks a lock by time, which no claim here has; the answer has the slot, 0 for such a lock.
    UNMET = 0x303
    # The path asks for one fact with both polarities.
    CONTRADICTION = 0x304
    # The program is not that of the script.
    WRONG_PROGRAM = 0x305
    # The fixed transaction of a claim does not fit. No claim of these calls has one.
    WRONG_SHELL = 0x306
    # There is no form of this kind.
    NO_SUCH_FORM = 0x401
    # Bytes that are to be a key do not have the form of one; the answer has which key of the form it is, from 0 for `revocation`, or the index of the slot.
    NOT_A_KEY = 0x402
    # The expiry is 500,000,000 or more, which is a time and not a height.
    NOT_A_HEIGHT = 0x403
    # A claim has a fixed transaction. No claim of these calls has one.
    FIXED_TRANSACTION = 0x501
    # Two claims spend the same outpoint.
    SAME_OUTPOINT = 0x502
    # The outputs are worth more than the claimed outputs together.
    OUTPUTS_EXCEED = 0x503
    # The path of a claim asks for the length, the hash or the bytes of a signature.
    MEASURED_SIGNATURE = 0x504
    # No preimage is given for the hash of a slot.
    NO_PREIMAGE = 0x505
    # The bytes of the transaction end within a field.
    TRUNCATED_TRANSACTION = 0x601
    # A compactSize of the transaction is not minimal.
    LONG_COUNT = 0x602
    # The marker of the transaction is not 0, or its flag is not 1 (BIP 144). No call here tells it: such bytes are read without witnesses.
    BAD_MARKER = 0x603
    # There is no claim, or the transaction that is given has no input.
    NO_INPUTS = 0x604
    # No witness of the transaction has an item.
    NO_WITNESS = 0x605
    # The value of an output is above 21,000,000 bitcoins.
    VALUE_TOO_LARGE = 0x606
    # There are bytes after the lock time of the transaction.
    TRAILING = 0x607
    # There are more than 4,000 claims or outputs, or the script of an output has more than 10,000 bytes; of a transaction that is given, a count is above its limit, or an input has a script.
    OVER_LIMIT = 0x608
    # The row of a claim refers to bytes or to rows that are not there, or the row of an output to bytes.
    OUT_OF_RANGE = 0x701
    # There is no slot of this kind; the answer has the index of the slot.
    NO_SUCH_SLOT = 0x702
    # The bytes of a slot are more than 520; the answer has the index of the slot.
    ITEM_TOO_LONG = 0x703
    # The row of a slot refers to bytes that are not there; the answer has the index of the slot.
    SLOT_OUT_OF_RANGE = 0x704
    # There is no type of channels of this kind.
    NO_SUCH_CHANNEL_TYPE = 0x801
    # Bytes that are to be a key of the commitment do not have the form of one; the answer has which of its fields it is, from 0.
    NOT_A_COMMITMENT_KEY = 0x802
    # There is no direction of this kind; the answer has the index of the HTLC.
    NO_SUCH_DIRECTION = 0x803
    # The expiry of an HTLC is 500,000,000 or more, which is a time and not a height; the answer has the index of the HTLC.
    EXPIRY_TOO_LARGE = 0x804
    # It is neither one's own commitment nor the peer's.
    NO_SUCH_CLOSE = 0x805
    # A slot asks a signature, and the next one that is given is not of it, or stands out of order; the answer has the item that lacks it.
    NO_SIGNATURE = 0x901
    # The row of a signature refers to bytes that are not there; the answer has its item, as of the two below.
    SIGNATURE_OUT_OF_RANGE = 0x902
    # Bytes that are to be a signature are not strict DER (BIP 66) with the byte of its hash type after it.
    NOT_DER = 0x903
    # The hash type of a signature is not ALL, the byte 01.
    NOT_SIGHASH_ALL = 0x904
    # A signature is given after that of the last slot that asks one; the answer has the item of its row.
    NOT_ASKED = 0x905


# What each status says.
SENTENCES = {
    Status.DONE: "The call did what it is for.",
    Status.NO_MEMORY: "Memory ran out. Nothing but the answer was written.",
    Status.TOO_SMALL: "A buffer is shorter than the answer says. Nothing but the answer was written.",
    Status.BAD_OPCODE: "A byte of the script is none of the opcodes that are listed here, though it may be one of Bitcoin's, as SHA256; the answer has its position.",
    Status.TRUNCATED: "A push has too few bytes after it; the answer has its position.",
    Status.TOO_LONG: "The script has more than 10,000 bytes.",
    Status.OPEN_BRANCH: "Branches of the script do not close.",
    Status.TOO_MANY_OPS: "More than 201 opcodes count.",
    Status.UNDECIDED: "No rule decides an opcode or the end; the answer has the opcode's index.",
    Status.TOO_MANY_PATHS: "A 65th path begins.",
    Status.TOO_TALL: "A path needs more than 1,000 stack elements.",
    Status.NO_SUCH_PATH: "The script has no path of this index.",
    Status.WRONG_ARITY: "The number of slots is not that of the path.",
    Status.UNMET: "The slots do not show a fact of the path, or it asks a lock by time, which no claim here has; the answer has the slot, 0 for such a lock.",
    Status.CONTRADICTION: "The path asks for one fact with both polarities.",
    Status.WRONG_PROGRAM: "The program is not that of the script.",
    Status.WRONG_SHELL: "The fixed transaction of a claim does not fit. No claim of these calls has one.",
    Status.NO_SUCH_FORM: "There is no form of this kind.",
    Status.NOT_A_KEY: "Bytes that are to be a key do not have the form of one; the answer has which key of the form it is, from 0 for `revocation`, or the index of the slot.",
    Status.NOT_A_HEIGHT: "The expiry is 500,000,000 or more, which is a time and not a height.",
    Status.FIXED_TRANSACTION: "A claim has a fixed transaction. No claim of these calls has one.",
    Status.SAME_OUTPOINT: "Two claims spend the same outpoint.",
    Status.OUTPUTS_EXCEED: "The outputs are worth more than the claimed outputs together.",
    Status.MEASURED_SIGNATURE: "The path of a claim asks for the length, the hash or the bytes of a signature.",
    Status.NO_PREIMAGE: "No preimage is given for the hash of a slot.",
    Status.TRUNCATED_TRANSACTION: "The bytes of the transaction end within a field.",
    Status.LONG_COUNT: "A compactSize of the transaction is not minimal.",
    Status.BAD_MARKER: "The marker of the transaction is not 0, or its flag is not 1 (BIP 144). No call here tells it: such bytes are read without witnesses.",
    Status.NO_INPUTS: "There is no claim, or the transaction that is given has no input.",
    Status.NO_WITNESS: "No witness of the transaction has an item.",
    Status.VALUE_TOO_LARGE: "The value of an output is above 21,000,000 bitcoins.",
    Status.TRAILING: "There are bytes after the lock time of the transaction.",
    Status.OVER_LIMIT: "There are more than 4,000 claims or outputs, or the script of an output has more than 10,000 bytes; of a transaction that is given, a count is above its limit, or an input has a script.",
    Status.OUT_OF_RANGE: "The row of a claim refers to bytes or to rows that are not there, or the row of an output to bytes.",
    Status.NO_SUCH_SLOT: "There is no slot of this kind; the answer has the index of the slot.",
    Status.ITEM_TOO_LONG: "The bytes of a slot are more than 520; the answer has the index of the slot.",
    Status.SLOT_OUT_OF_RANGE: "The row of a slot refers to bytes that are not there; the answer has the index of the slot.",
    Status.NO_SUCH_CHANNEL_TYPE: "There is no type of channels of this kind.",
    Status.NOT_A_COMMITMENT_KEY: "Bytes that are to be a key of the commitment do not have the form of one; the answer has which of its fields it is, from 0.",
    Status.NO_SUCH_DIRECTION: "There is no direction of this kind; the answer has the index of the HTLC.",
    Status.EXPIRY_TOO_LARGE: "The expiry of an HTLC is 500,000,000 or more, which is a time and not a height; the answer has the index of the HTLC.",
    Status.NO_SUCH_CLOSE: "It is neither one's own commitment nor the peer's.",
    Status.NO_SIGNATURE: "A slot asks a signature, and the next one that is given is not of it, or stands out of order; the answer has the item that lacks it.",
    Status.SIGNATURE_OUT_OF_RANGE: "The row of a signature refers to bytes that are not there; the answer has its item, as of the two below.",
    Status.NOT_DER: "Bytes that are to be a signature are not strict DER (BIP 66) with the byte of its hash type after it.",
    Status.NOT_SIGHASH_ALL: "The hash type of a signature is not ALL, the byte 01.",
    Status.NOT_ASKED: "A signature is given after that of the last slot that asks one; the answer has the item of its row.",
}
