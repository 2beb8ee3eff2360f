"""The exports of the library, its structs and its numbers. Drawn from crates/enforce_c/src by `bindings/library --write`: do not edit."""
from ctypes import CDLL, POINTER, Structure, c_bool, c_size_t, c_uint8, c_uint16, c_uint32, c_uint64, sizeof

# The refusal is of the call as a whole.
ABOUT_ALL = 0x0
# It is of the output whose row has the index `row`.
ABOUT_OUTPUT = 0x1
# It is of the claim whose row has the index `row`. The number is what `enforce_claim` tells of it.
ABOUT_CLAIM = 0x2
# It is of a signature of the input `row`. The number is the index of its item.
ABOUT_SIGNATURE = 0x3

# The slot is the signature of `key` over the spend.
SLOT_SIGNATURE = 0x1
# The slot is 32 bytes whose SHA-256 is `hash`.
SLOT_PREIMAGE = 0x2
# The slot is the `bytes_length` bytes from `bytes_at` on, at most 520.
SLOT_EXACT = 0x3
# The slot is the signature of `key` over the digest `hash`, which was given over one transaction, with no witnesses the `bytes_length` bytes from `bytes_at` on. The claim is of this transaction alone, over whose digest the other signatures are too. No call reads such a slot.
SLOT_GIVEN = 0x4

# A channel without anchors: `option_static_remotekey` (BOLT 9).
CHANNEL_STATIC_REMOTE_KEY = 0x1
# A channel with `option_anchors` (BOLT 9).
CHANNEL_ANCHORS = 0x2
# One's own commitment, the newest.
CLOSE_OWN = 0x1
# The peer's newest commitment, or the one after it, while the newest is not revoked.
CLOSE_PEERS = 0x2
# The owner of the commitment offered the HTLC.
DIRECTION_OFFERED = 0x1
# The owner of the commitment received the HTLC.
DIRECTION_RECEIVED = 0x2
# None that is known.
OUTPUT_UNKNOWN = 0x0
# To the owner of the commitment, after the delay. The output of an HTLC transaction has the same script.
OUTPUT_TO_LOCAL = 0x1
# To the owner's peer.
OUTPUT_TO_REMOTE = 0x2
# An HTLC that the owner offered.
OUTPUT_OFFERED = 0x3
# An HTLC that the owner received.
OUTPUT_RECEIVED = 0x4
# One's own anchor.
OUTPUT_OWN_ANCHOR = 0x5
# The peer's anchor.
OUTPUT_PEERS_ANCHOR = 0x6

# A funding output: both keys, `remote` and `local`, in whichever order.
FORM_FUNDING = 0x1
# A to_local output: `revocation` revokes, or `local`, which is local_delayedpubkey, after `delay_blocks`.
FORM_TO_LOCAL = 0x2
# A to_remote output, P2WPKH of `remote`: the script that it stands for.
FORM_KEY_HASH = 0x3
# An HTLC that the commitment's owner offered: `revocation` revokes, `remote` is remote_htlcpubkey and `local` local_htlcpubkey.
FORM_OFFERED = 0x4
# An HTLC that the commitment's owner received, with the same keys, and `expiry_height`.
FORM_RECEIVED = 0x5
# As `FORM_OFFERED`, in a channel with `option_anchors`.
FORM_OFFERED_WITH_ANCHORS = 0x6
# As `FORM_RECEIVED`, in a channel with `option_anchors`.
FORM_RECEIVED_WITH_ANCHORS = 0x7

# Anyone can spend by the path `at` once its locks have passed: it asks neither a signature of a key that the script fixes nor an item with a given hash.
NOTE_ANYONE = 0x1
# Whoever knows an item with a given hash can spend by the path `at`: it asks no signature of a key that the script fixes, so who sees such a witness can spend too.
NOTE_FINDER = 0x2
# No witness spends an output with the script, by consensus neither: what is paid to it is lost. `at` is 0.
NOTE_NOBODY = 0x3
# A branch ends at the opcode of the index `at`, because a key there has not 33 bytes that begin with 02 or 03. By consensus others may spend by it.
NOTE_STRICTER_KEY = 0x4
# A branch ends there, because a signature there is neither empty nor one that a key can give. By consensus others may spend by it.
NOTE_STRICTER_SIGNATURE = 0x5
# A branch ends there, because a number there is not minimally encoded. By consensus others may spend by it.
NOTE_STRICTER_NUMBER = 0x6

# HASH160 of the slot is these 20 bytes.
FACT_HASH = 0x1
# The slot has this number of bytes.
FACT_SIZE = 0x2
# The slot counts as true.
FACT_TRUTH = 0x3
# The slot is these bytes.
FACT_IS = 0x4
# The slot has the form of a key.
FACT_KEY = 0x5
# The slot is empty or has the form of a signature.
FACT_FORM = 0x6
# The slot is the key's signature over the spend.
FACT_SIGNED = 0x7
# The slots and keys in the rows that follow it: the slots are signatures of an increasing choice of the keys, both deepest first.
FACT_CHOICE = 0x8
# A slot of the choice before it.
FACT_CHOICE_SLOT = 0x9
# A key of the choice before it.
FACT_CHOICE_KEY = 0xa
# CHECKLOCKTIMEVERIFY of this number passes (BIP 65).
FACT_LOCK = 0xb
# CHECKSEQUENCEVERIFY of this number passes (BIP 112). Of it only the bits of 0x40ffff are kept.
FACT_AGE = 0xc

# The call did what it is for.
DONE = 0x0
# Memory ran out. Nothing but the answer was written.
NO_MEMORY = 0x1
# A buffer is shorter than the answer says. Nothing but the answer was written.
TOO_SMALL = 0x2
# A byte of the script is none of the opcodes that are listed here, though it may be one of Bitcoin's, as SHA256; the answer has its position.
BAD_OPCODE = 0x101
# A push has too few bytes after it; the answer has its position.
TRUNCATED = 0x102
# The script has more than 10,000 bytes.
TOO_LONG = 0x103
# Branches of the script do not close.
OPEN_BRANCH = 0x201
# More than 201 opcodes count.
TOO_MANY_OPS = 0x202
# No rule decides an opcode or the end; the answer has the opcode's index.
UNDECIDED = 0x203
# A 65th path begins.
TOO_MANY_PATHS = 0x204
# A path needs more than 1,000 stack elements.
TOO_TALL = 0x205
# The script has no path of this index.
NO_SUCH_PATH = 0x301
# The number of slots is not that of the path.
WRONG_ARITY = 0x302
# The slots do not show a fact of the path, or it asks a lock by time, which no claim here has; the answer has the slot, 0 for such a lock.
UNMET = 0x303
# The path asks for one fact with both polarities.
CONTRADICTION = 0x304
# The program is not that of the script.
WRONG_PROGRAM = 0x305
# The fixed transaction of a claim does not fit. No claim of these calls has one.
WRONG_SHELL = 0x306
# There is no form of this kind.
NO_SUCH_FORM = 0x401
# Bytes that are to be a key do not have the form of one; the answer has which key of the form it is, from 0 for `revocation`, or the index of the slot.
NOT_A_KEY = 0x402
# The expiry is 500,000,000 or more, which is a time and not a height.
NOT_A_HEIGHT = 0x403
# A claim has a fixed transaction. No claim of these calls has one.
FIXED_TRANSACTION = 0x501
# Two claims spend the same outpoint.
SAME_OUTPOINT = 0x502
# The outputs are worth more than the claimed outputs together.
OUTPUTS_EXCEED = 0x503
# The path of a claim asks for the length, the hash or the bytes of a signature.
MEASURED_SIGNATURE = 0x504
# No preimage is given for the hash of a slot.
NO_PREIMAGE = 0x505
# The bytes of the transaction end within a field.
TRUNCATED_TRANSACTION = 0x601
# A compactSize of the transaction is not minimal.
LONG_COUNT = 0x602
# The marker of the transaction is not 0, or its flag is not 1 (BIP 144). No call here tells it: such bytes are read without witnesses.
BAD_MARKER = 0x603
# There is no claim, or the transaction that is given has no input.
NO_INPUTS = 0x604
# No witness of the transaction has an item.
NO_WITNESS = 0x605
# The value of an output is above 21,000,000 bitcoins.
VALUE_TOO_LARGE = 0x606
# There are bytes after the lock time of the transaction.
TRAILING = 0x607
# There are more than 4,000 claims or outputs, or the script of an output has more than 10,000 bytes; of a transaction that is given, a count is above its limit, or an input has a script.
OVER_LIMIT = 0x608
# The row of a claim refers to bytes or to rows that are not there, or the row of an output to bytes.
OUT_OF_RANGE = 0x701
# There is no slot of this kind; the answer has the index of the slot.
NO_SUCH_SLOT = 0x702
# The bytes of a slot are more than 520; the answer has the index of the slot.
ITEM_TOO_LONG = 0x703
# The row of a slot refers to bytes that are not there; the answer has the index of the slot.
SLOT_OUT_OF_RANGE = 0x704
# There is no type of channels of this kind.
NO_SUCH_CHANNEL_TYPE = 0x801
# Bytes that are to be a key of the commitment do not have the form of one; the answer has which of its fields it is, from 0.
NOT_A_COMMITMENT_KEY = 0x802
# There is no direction of this kind; the answer has the index of the HTLC.
NO_SUCH_DIRECTION = 0x803
# The expiry of an HTLC is 500,000,000 or more, which is a time and not a height; the answer has the index of the HTLC.
EXPIRY_TOO_LARGE = 0x804
# It is neither one's own commitment nor the peer's.
NO_SUCH_CLOSE = 0x805
# A slot asks a signature, and the next one that is given is not of it, or stands out of order; the answer has the item that lacks it.
NO_SIGNATURE = 0x901
# The row of a signature refers to bytes that are not there; the answer has its item, as of the two below.
SIGNATURE_OUT_OF_RANGE = 0x902
# Bytes that are to be a signature are not strict DER (BIP 66) with the byte of its hash type after it.
NOT_DER = 0x903
# The hash type of a signature is not ALL, the byte 01.
NOT_SIGHASH_ALL = 0x904
# A signature is given after that of the last slot that asks one; the answer has the item of its row.
NOT_ASKED = 0x905

# What declarations mean together: it is raised whenever one changes its meaning.
ABI = 0x5

NAMES = {
    DONE: "Done",
    NO_MEMORY: "NoMemory",
    TOO_SMALL: "TooSmall",
    BAD_OPCODE: "BadOpcode",
    TRUNCATED: "Truncated",
    TOO_LONG: "TooLong",
    OPEN_BRANCH: "OpenBranch",
    TOO_MANY_OPS: "TooManyOps",
    UNDECIDED: "Undecided",
    TOO_MANY_PATHS: "TooManyPaths",
    TOO_TALL: "TooTall",
    NO_SUCH_PATH: "NoSuchPath",
    WRONG_ARITY: "WrongArity",
    UNMET: "Unmet",
    CONTRADICTION: "Contradiction",
    WRONG_PROGRAM: "WrongProgram",
    WRONG_SHELL: "WrongShell",
    NO_SUCH_FORM: "NoSuchForm",
    NOT_A_KEY: "NotAKey",
    NOT_A_HEIGHT: "NotAHeight",
    FIXED_TRANSACTION: "FixedTransaction",
    SAME_OUTPOINT: "SameOutpoint",
    OUTPUTS_EXCEED: "OutputsExceed",
    MEASURED_SIGNATURE: "MeasuredSignature",
    NO_PREIMAGE: "NoPreimage",
    TRUNCATED_TRANSACTION: "TruncatedTransaction",
    LONG_COUNT: "LongCount",
    BAD_MARKER: "BadMarker",
    NO_INPUTS: "NoInputs",
    NO_WITNESS: "NoWitness",
    VALUE_TOO_LARGE: "ValueTooLarge",
    TRAILING: "Trailing",
    OVER_LIMIT: "OverLimit",
    OUT_OF_RANGE: "OutOfRange",
    NO_SUCH_SLOT: "NoSuchSlot",
    ITEM_TOO_LONG: "ItemTooLong",
    SLOT_OUT_OF_RANGE: "SlotOutOfRange",
    NO_SUCH_CHANNEL_TYPE: "NoSuchChannelType",
    NOT_A_COMMITMENT_KEY: "NotACommitmentKey",
    NO_SUCH_DIRECTION: "NoSuchDirection",
    EXPIRY_TOO_LARGE: "ExpiryTooLarge",
    NO_SUCH_CLOSE: "NoSuchClose",
    NO_SIGNATURE: "NoSignature",
    SIGNATURE_OUT_OF_RANGE: "SignatureOutOfRange",
    NOT_DER: "NotDer",
    NOT_SIGHASH_ALL: "NotSighashAll",
    NOT_ASKED: "NotAsked",
}


class SlotRow(Structure):
    """How a claim fills a slot of its path. A field that the kind does not name is not read."""

    _fields_ = [
        ("kind", c_uint32),
        ("key", c_uint8 * 33),
        ("hash", c_uint8 * 32),
        ("bytes_at", c_size_t),
        ("bytes_length", c_size_t),
    ]


class ClaimRow(Structure):
    """A claim on an output, by one path of its script. Its slots are the rows from `first_slot` on, `slots` of them, the top of the stack first."""

    _fields_ = [
        ("txid", c_uint8 * 32),
        ("index", c_uint32),
        ("value", c_uint64),
        ("script_at", c_size_t),
        ("script_length", c_size_t),
        ("program_at", c_size_t),
        ("program_length", c_size_t),
        ("path", c_size_t),
        ("first_slot", c_size_t),
        ("slots", c_size_t),
    ]


class Due(Structure):
    """When an accepted claim is due: what the transaction that spends its output has to have."""

    _fields_ = [
        ("height", c_uint64),
        ("sequence", c_uint32),
    ]


class Commitment(Structure):
    """A commitment, by what its scripts are made of: the keys at its point (BOLT 3, "Key Derivation"), as its owner names them."""

    _fields_ = [
        ("channel_type", c_uint32),
        ("delay_blocks", c_uint16),
        ("revocation", c_uint8 * 33),
        ("delayed", c_uint8 * 33),
        ("local_htlc", c_uint8 * 33),
        ("remote_htlc", c_uint8 * 33),
        ("remote", c_uint8 * 33),
        ("has_funding_keys", c_bool),
        ("own_funding", c_uint8 * 33),
        ("peers_funding", c_uint8 * 33),
    ]


class HtlcRow(Structure):
    """An HTLC of a commitment, by what its script is made of."""

    _fields_ = [
        ("direction", c_uint32),
        ("expiry_height", c_uint32),
        ("hash", c_uint8 * 32),
    ]


class FoundRow(Structure):
    """Of a claim, which output of the commitment it is on, from when it can be made, and until when it is alone."""

    _fields_ = [
        ("kind", c_uint32),
        ("has_deadline", c_bool),
        ("from_height", c_uint64),
        ("deadline_height", c_uint64),
    ]


class OtherRow(Structure):
    """An output without a claim."""

    _fields_ = [
        ("index", c_uint32),
        ("kind", c_uint32),
    ]


class FoundAnswer(Structure):
    """What a call that finds claims tells beside its status. Each call writes all of it: the rows and bytes that there are, whether or not they were written, and the number that a refusal carries. There are as many rows of outputs as of claims."""

    _fields_ = [
        ("claims", c_size_t),
        ("slots", c_size_t),
        ("others", c_size_t),
        ("bytes", c_size_t),
        ("number", c_size_t),
    ]


class SignedRow(Structure):
    """A signature for an item of a witness that lacks one."""

    _fields_ = [
        ("input", c_size_t),
        ("item", c_size_t),
        ("bytes_at", c_size_t),
        ("bytes_length", c_size_t),
    ]


class FinishAnswer(Structure):
    """What the call that finishes a transaction tells beside its status. Each call writes all of it: of a transaction the number of bytes, whether or not they were written, and its id; of a refusal the number that it carries, and what it is about. The others are 0."""

    _fields_ = [
        ("bytes", c_size_t),
        ("number", c_size_t),
        ("row", c_size_t),
        ("about", c_uint32),
        ("txid", c_uint8 * 32),
        ("shown_txid", c_uint8 * 32),
    ]


class Form(Structure):
    """A form of BOLT 3 with what its script has, where local is the commitment's owner and remote its peer. A field that the kind does not name is not read."""

    _fields_ = [
        ("kind", c_uint32),
        ("expiry_height", c_uint32),
        ("delay_blocks", c_uint16),
        ("revocation", c_uint8 * 33),
        ("remote", c_uint8 * 33),
        ("local", c_uint8 * 33),
        ("payment_hash", c_uint8 * 32),
    ]


class NoteRow(Structure):
    """A note on a script."""

    _fields_ = [
        ("kind", c_uint32),
        ("at", c_size_t),
    ]


class NotesAnswer(Structure):
    """What the call that notes tells beside its status. Each call writes all of it: the rows that there are, whether or not they were written, and the number that a refusal carries."""

    _fields_ = [
        ("notes", c_size_t),
        ("number", c_size_t),
    ]


class PathRow(Structure):
    """A way through a script. Its facts are the rows from `first_fact` on, `facts` of them."""

    _fields_ = [
        ("arity", c_size_t),
        ("counted", c_size_t),
        ("height", c_size_t),
        ("first_fact", c_size_t),
        ("facts", c_size_t),
        ("lock", c_uint64),
        ("age", c_uint32),
        ("has_lock", c_bool),
        ("has_age", c_bool),
    ]


class FactRow(Structure):
    """What a path asks of the witness or the spend. Slots count from 0 at the top of the stack."""

    _fields_ = [
        ("kind", c_uint32),
        ("holds", c_bool),
        ("key_is_slot", c_bool),
        ("slot", c_size_t),
        ("key_slot", c_size_t),
        ("number", c_uint64),
        ("bytes_at", c_size_t),
        ("bytes_length", c_size_t),
    ]


class Answer(Structure):
    """What a call tells beside its status. Each call writes all of it: the rows and bytes that there are, whether or not they were written, and the number that a refusal carries, a byte's position or an opcode's index."""

    _fields_ = [
        ("paths", c_size_t),
        ("facts", c_size_t),
        ("bytes", c_size_t),
        ("number", c_size_t),
    ]


class KeyRow(Structure):
    """A key that the caller can sign with."""

    _fields_ = [
        ("bytes", c_uint8 * 33),
    ]


class SlotsAnswer(Structure):
    """What the call that prepares slots tells beside its status. Each call writes all of it: the rows and bytes that there are, whether or not they were written, and the number that a refusal carries."""

    _fields_ = [
        ("slots", c_size_t),
        ("bytes", c_size_t),
        ("number", c_size_t),
    ]


class OutputRow(Structure):
    """An output of a transaction."""

    _fields_ = [
        ("value", c_uint64),
        ("script_at", c_size_t),
        ("script_length", c_size_t),
    ]


class PreimageRow(Structure):
    """A preimage."""

    _fields_ = [
        ("bytes", c_uint8 * 32),
    ]


class SignatureRow(Structure):
    """A signature that a transaction lacks."""

    _fields_ = [
        ("input", c_size_t),
        ("item", c_size_t),
        ("key", c_uint8 * 33),
        ("digest", c_uint8 * 32),
    ]


class SpendAnswer(Structure):
    """What a call that makes a transaction tells beside its status. Each call writes all of it: of a transaction the bytes and rows that there are, whether or not they were written, its greatest weight, its fee and its id; of a refusal the number that it carries, and what it is about. The others are 0."""

    _fields_ = [
        ("bytes", c_size_t),
        ("signatures", c_size_t),
        ("number", c_size_t),
        ("row", c_size_t),
        ("weight", c_uint64),
        ("fee_sat", c_uint64),
        ("about", c_uint32),
        ("txid", c_uint8 * 32),
        ("shown_txid", c_uint8 * 32),
    ]


LAYOUTS = {
    SlotRow: (88, [0, 4, 37, 72, 80]),
    ClaimRow: (104, [0, 32, 40, 48, 56, 64, 72, 80, 88, 96]),
    Due: (16, [0, 8]),
    Commitment: (240, [0, 4, 6, 39, 72, 105, 138, 171, 172, 205]),
    HtlcRow: (40, [0, 4, 8]),
    FoundRow: (24, [0, 4, 8, 16]),
    OtherRow: (8, [0, 4]),
    FoundAnswer: (40, [0, 8, 16, 24, 32]),
    SignedRow: (32, [0, 8, 16, 24]),
    FinishAnswer: (96, [0, 8, 16, 24, 28, 60]),
    Form: (144, [0, 4, 8, 10, 43, 76, 109]),
    NoteRow: (16, [0, 8]),
    NotesAnswer: (16, [0, 8]),
    PathRow: (56, [0, 8, 16, 24, 32, 40, 48, 52, 53]),
    FactRow: (48, [0, 4, 5, 8, 16, 24, 32, 40]),
    Answer: (32, [0, 8, 16, 24]),
    KeyRow: (33, [0]),
    SlotsAnswer: (24, [0, 8, 16]),
    OutputRow: (24, [0, 8, 16]),
    PreimageRow: (32, [0]),
    SignatureRow: (88, [0, 8, 16, 49]),
    SpendAnswer: (120, [0, 8, 16, 24, 32, 40, 48, 52, 84]),
}


def declare(library: CDLL) -> None:
    """Gives the exports of a loaded library their types."""
    # proved: result ≡ ABI
    library.enforce_abi.argtypes = []
    library.enforce_abi.restype = c_uint32
    # proved: AnswersListing script.now (record { paths = paths.old; facts = facts.old; bytes = bytes.old }) (record { status = result; answer = answer.new; rows = record { paths = paths.new; facts = facts.new; bytes = bytes.new } }) (crates/enforce_c/specs/Listed.antt)
    library.enforce_script_list.argtypes = [POINTER(c_uint8), c_size_t, POINTER(PathRow), c_size_t, POINTER(FactRow), c_size_t, POINTER(c_uint8), c_size_t, POINTER(Answer)]
    library.enforce_script_list.restype = c_uint32
    # proved: AnswersNotes script.now notes.old (record { status = result; answer = answer.new; notes = notes.new }) (crates/enforce_c/specs/Noted.antt)
    library.enforce_script_notes.argtypes = [POINTER(c_uint8), c_size_t, POINTER(NoteRow), c_size_t, POINTER(NotesAnswer)]
    library.enforce_script_notes.restype = c_uint32
    # proved: AnswersSlots script.now path keys.now preimages.now (record { slots = slots.old; bytes = bytes.old }) (record { status = result; answer = answer.new; lists = record { slots = slots.new; bytes = bytes.new } }) (crates/enforce_c/specs/Prepared.antt)
    library.enforce_path_slots.argtypes = [POINTER(c_uint8), c_size_t, c_size_t, POINTER(KeyRow), c_size_t, POINTER(PreimageRow), c_size_t, POINTER(SlotRow), c_size_t, POINTER(c_uint8), c_size_t, POINTER(SlotsAnswer)]
    library.enforce_path_slots.restype = c_uint32
    # proved: AnswersText script.now text.old (record { status = result; answer = answer.new; bytes = text.new }) (crates/enforce_c/specs/Listed.antt)
    library.enforce_script_text.argtypes = [POINTER(c_uint8), c_size_t, POINTER(c_uint8), c_size_t, POINTER(Answer)]
    library.enforce_script_text.restype = c_uint32
    # proved: program.new ≡ script_hash_program script.now
    library.enforce_script_program.argtypes = [POINTER(c_uint8), c_size_t, POINTER(c_uint8 * 34)]
    library.enforce_script_program.restype = None
    # proved: AnswersForm form.now script.old (record { status = result; answer = answer.new; bytes = script.new }) (crates/enforce_c/specs/FormScripts.antt)
    library.enforce_form_script.argtypes = [POINTER(Form), POINTER(c_uint8), c_size_t, POINTER(Answer)]
    library.enforce_form_script.restype = c_uint32
    # proved: AnswersClaim claim.now slots.now bytes.now due.old (record { status = result; answer = answer.new; due = due.new }) (crates/enforce_c/specs/Claimed.antt)
    library.enforce_claim.argtypes = [POINTER(ClaimRow), POINTER(SlotRow), c_size_t, POINTER(c_uint8), c_size_t, POINTER(Due), POINTER(Answer)]
    library.enforce_claim.restype = c_uint32
    # proved: AnswersSpend (record { claims = claims.now; slots = slots.now; outputs = outputs.now; bytes = bytes.now }) (preimages_in preimages.now) (record { bytes = tx.old; signatures = signatures.old }) (record { status = result; answer = answer.new; lists = record { bytes = tx.new; signatures = signatures.new } }) (crates/enforce_c/specs/Spent.antt)
    library.enforce_unsigned_spend.argtypes = [POINTER(ClaimRow), c_size_t, POINTER(SlotRow), c_size_t, POINTER(OutputRow), c_size_t, POINTER(PreimageRow), c_size_t, POINTER(c_uint8), c_size_t, POINTER(c_uint8), c_size_t, POINTER(SignatureRow), c_size_t, POINTER(SpendAnswer)]
    library.enforce_unsigned_spend.restype = c_uint32
    # proved: AnswersFinish (record { claims = claims.now; slots = slots.now; outputs = outputs.now; bytes = bytes.now }) (preimages_in preimages.now) signed_rows.now tx.old (record { status = result; answer = answer.new; bytes = tx.new }) (crates/enforce_c/specs/Finished.antt)
    library.enforce_finish.argtypes = [POINTER(ClaimRow), c_size_t, POINTER(SlotRow), c_size_t, POINTER(OutputRow), c_size_t, POINTER(PreimageRow), c_size_t, POINTER(SignedRow), c_size_t, POINTER(c_uint8), c_size_t, POINTER(c_uint8), c_size_t, POINTER(FinishAnswer)]
    library.enforce_finish.restype = c_uint32
    # proved: AnswersFound (asked_of_revoked commitment.now htlcs.now tx.now confirmed_height) (record { claims = claims.old; found = found_outputs.old; slots = slots.old; others = others.old; bytes = bytes.old }) (record { status = result; answer = answer.new; lists = record { claims = claims.new; found = found_outputs.new; slots = slots.new; others = others.new; bytes = bytes.new } }) (crates/enforce_c/specs/Found.antt)
    library.enforce_revoked.argtypes = [POINTER(Commitment), POINTER(HtlcRow), c_size_t, POINTER(c_uint8), c_size_t, c_uint32, POINTER(ClaimRow), c_size_t, POINTER(FoundRow), c_size_t, POINTER(SlotRow), c_size_t, POINTER(OtherRow), c_size_t, POINTER(c_uint8), c_size_t, POINTER(FoundAnswer)]
    library.enforce_revoked.restype = c_uint32
    # proved: AnswersFound (record { question = OfClose; whose = whose; commitment = commitment.now; htlcs = htlcs.now; feerate_per_kw = feerate_per_kw; preimages = preimages_in preimages.now; tx = tx.now; confirmed_height = confirmed_height }) (record { claims = claims.old; found = found_outputs.old; slots = slots.old; others = others.old; bytes = bytes.old }) (record { status = result; answer = answer.new; lists = record { claims = claims.new; found = found_outputs.new; slots = slots.new; others = others.new; bytes = bytes.new } }) (crates/enforce_c/specs/Found.antt)
    library.enforce_close.argtypes = [c_uint32, POINTER(Commitment), POINTER(HtlcRow), c_size_t, c_uint32, POINTER(PreimageRow), c_size_t, POINTER(c_uint8), c_size_t, c_uint32, POINTER(ClaimRow), c_size_t, POINTER(FoundRow), c_size_t, POINTER(SlotRow), c_size_t, POINTER(OtherRow), c_size_t, POINTER(c_uint8), c_size_t, POINTER(FoundAnswer)]
    library.enforce_close.restype = c_uint32
    for struct, (size, offsets) in LAYOUTS.items():
        if sizeof(struct) != size or [getattr(struct, field[0]).offset for field in struct._fields_] != offsets:
            raise ImportError(f"the layout of {struct.__name__} is not the library's")
