package enforce

// Drawn from crates/enforce_c/src by `bindings/library --write`: do not edit.

/*
#include <enforce.h>
*/
import "C"

// About says what a refusal is about.
type About uint32

// AboutAll: The refusal is of the call as a whole.
const AboutAll About = C.ENFORCE_ABOUT_ALL

// AboutOutput: It is of the output whose row has the index `row`.
const AboutOutput About = C.ENFORCE_ABOUT_OUTPUT

// AboutClaim: It is of the claim whose row has the index `row`. The number is what `enforce_claim` tells of it.
const AboutClaim About = C.ENFORCE_ABOUT_CLAIM

// AboutSignature: It is of a signature of the input `row`. The number is the index of its item.
const AboutSignature About = C.ENFORCE_ABOUT_SIGNATURE

// SlotKind says how a claim fills a slot of its path.
type SlotKind uint32

// SlotSignature: The slot is the signature of `key` over the spend.
const SlotSignature SlotKind = C.ENFORCE_SLOT_SIGNATURE

// SlotPreimage: The slot is 32 bytes whose SHA-256 is `hash`.
const SlotPreimage SlotKind = C.ENFORCE_SLOT_PREIMAGE

// SlotExact: The slot is the `bytes_length` bytes from `bytes_at` on, at most 520.
const SlotExact SlotKind = C.ENFORCE_SLOT_EXACT

// SlotGiven: The slot is the signature of `key` over the digest `hash`, which was given over one transaction, with no witnesses the `bytes_length` bytes from `bytes_at` on. The claim is of this transaction alone, over whose digest the other signatures are too. No call reads such a slot.
const SlotGiven SlotKind = C.ENFORCE_SLOT_GIVEN

// ChannelType says the type of a channel.
type ChannelType uint32

// ChannelStaticRemoteKey: A channel without anchors: `option_static_remotekey` (BOLT 9).
const ChannelStaticRemoteKey ChannelType = C.ENFORCE_CHANNEL_STATIC_REMOTE_KEY

// ChannelAnchors: A channel with `option_anchors` (BOLT 9).
const ChannelAnchors ChannelType = C.ENFORCE_CHANNEL_ANCHORS

// Whose says whose commitment closed a channel.
type Whose uint32

// CloseOwn: One's own commitment, the newest.
const CloseOwn Whose = C.ENFORCE_CLOSE_OWN

// ClosePeers: The peer's newest commitment, or the one after it, while the newest is not revoked.
const ClosePeers Whose = C.ENFORCE_CLOSE_PEERS

// Direction says whether the owner of a commitment offered an HTLC or received it.
type Direction uint32

// DirectionOffered: The owner of the commitment offered the HTLC.
const DirectionOffered Direction = C.ENFORCE_DIRECTION_OFFERED

// DirectionReceived: The owner of the commitment received the HTLC.
const DirectionReceived Direction = C.ENFORCE_DIRECTION_RECEIVED

// OutputKind says which output of a commitment it is.
type OutputKind uint32

// OutputUnknown: None that is known.
const OutputUnknown OutputKind = C.ENFORCE_OUTPUT_UNKNOWN

// OutputToLocal: To the owner of the commitment, after the delay. The output of an HTLC transaction has the same script.
const OutputToLocal OutputKind = C.ENFORCE_OUTPUT_TO_LOCAL

// OutputToRemote: To the owner's peer.
const OutputToRemote OutputKind = C.ENFORCE_OUTPUT_TO_REMOTE

// OutputOffered: An HTLC that the owner offered.
const OutputOffered OutputKind = C.ENFORCE_OUTPUT_OFFERED

// OutputReceived: An HTLC that the owner received.
const OutputReceived OutputKind = C.ENFORCE_OUTPUT_RECEIVED

// OutputOwnAnchor: One's own anchor.
const OutputOwnAnchor OutputKind = C.ENFORCE_OUTPUT_OWN_ANCHOR

// OutputPeersAnchor: The peer's anchor.
const OutputPeersAnchor OutputKind = C.ENFORCE_OUTPUT_PEERS_ANCHOR

// FormKind says which form of BOLT 3 it is.
type FormKind uint32

// FormFunding: A funding output: both keys, `remote` and `local`, in whichever order.
const FormFunding FormKind = C.ENFORCE_FORM_FUNDING

// FormToLocal: A to_local output: `revocation` revokes, or `local`, which is local_delayedpubkey, after `delay_blocks`.
const FormToLocal FormKind = C.ENFORCE_FORM_TO_LOCAL

// FormKeyHash: A to_remote output, P2WPKH of `remote`: the script that it stands for.
const FormKeyHash FormKind = C.ENFORCE_FORM_KEY_HASH

// FormOffered: An HTLC that the commitment's owner offered: `revocation` revokes, `remote` is remote_htlcpubkey and `local` local_htlcpubkey.
const FormOffered FormKind = C.ENFORCE_FORM_OFFERED

// FormReceived: An HTLC that the commitment's owner received, with the same keys, and `expiry_height`.
const FormReceived FormKind = C.ENFORCE_FORM_RECEIVED

// FormOfferedWithAnchors: As `FORM_OFFERED`, in a channel with `option_anchors`.
const FormOfferedWithAnchors FormKind = C.ENFORCE_FORM_OFFERED_WITH_ANCHORS

// FormReceivedWithAnchors: As `FORM_RECEIVED`, in a channel with `option_anchors`.
const FormReceivedWithAnchors FormKind = C.ENFORCE_FORM_RECEIVED_WITH_ANCHORS

// NoteKind says what a note on a script says.
type NoteKind uint32

// NoteAnyone: Anyone can spend by the path `at` once its locks have passed: it asks neither a signature of a key that the script fixes nor an item with a given hash.
const NoteAnyone NoteKind = C.ENFORCE_NOTE_ANYONE

// NoteFinder: Whoever knows an item with a given hash can spend by the path `at`: it asks no signature of a key that the script fixes, so who sees such a witness can spend too.
const NoteFinder NoteKind = C.ENFORCE_NOTE_FINDER

// NoteNobody: No witness spends an output with the script, by consensus neither: what is paid to it is lost. `at` is 0.
const NoteNobody NoteKind = C.ENFORCE_NOTE_NOBODY

// NoteStricterKey: A branch ends at the opcode of the index `at`, because a key there has not 33 bytes that begin with 02 or 03. By consensus others may spend by it.
const NoteStricterKey NoteKind = C.ENFORCE_NOTE_STRICTER_KEY

// NoteStricterSignature: A branch ends there, because a signature there is neither empty nor one that a key can give. By consensus others may spend by it.
const NoteStricterSignature NoteKind = C.ENFORCE_NOTE_STRICTER_SIGNATURE

// NoteStricterNumber: A branch ends there, because a number there is not minimally encoded. By consensus others may spend by it.
const NoteStricterNumber NoteKind = C.ENFORCE_NOTE_STRICTER_NUMBER

// FactKind says what a path asks of the witness or the spend.
type FactKind uint32

// FactHash: HASH160 of the slot is these 20 bytes.
const FactHash FactKind = C.ENFORCE_FACT_HASH

// FactSize: The slot has this number of bytes.
const FactSize FactKind = C.ENFORCE_FACT_SIZE

// FactTruth: The slot counts as true.
const FactTruth FactKind = C.ENFORCE_FACT_TRUTH

// FactIs: The slot is these bytes.
const FactIs FactKind = C.ENFORCE_FACT_IS

// FactKey: The slot has the form of a key.
const FactKey FactKind = C.ENFORCE_FACT_KEY

// FactForm: The slot is empty or has the form of a signature.
const FactForm FactKind = C.ENFORCE_FACT_FORM

// FactSigned: The slot is the key's signature over the spend.
const FactSigned FactKind = C.ENFORCE_FACT_SIGNED

// FactChoice: The slots and keys in the rows that follow it: the slots are signatures of an increasing choice of the keys, both deepest first.
const FactChoice FactKind = C.ENFORCE_FACT_CHOICE

// FactChoiceSlot: A slot of the choice before it.
const FactChoiceSlot FactKind = C.ENFORCE_FACT_CHOICE_SLOT

// FactChoiceKey: A key of the choice before it.
const FactChoiceKey FactKind = C.ENFORCE_FACT_CHOICE_KEY

// FactLock: CHECKLOCKTIMEVERIFY of this number passes (BIP 65).
const FactLock FactKind = C.ENFORCE_FACT_LOCK

// FactAge: CHECKSEQUENCEVERIFY of this number passes (BIP 112). Of it only the bits of 0x40ffff are kept.
const FactAge FactKind = C.ENFORCE_FACT_AGE

// Status says whether a call did what it is for, or why not.
type Status uint32

// Done: The call did what it is for.
const Done Status = C.ENFORCE_DONE

// ErrNoMemory: Memory ran out. Nothing but the answer was written.
const ErrNoMemory Status = C.ENFORCE_NO_MEMORY

// ErrTooSmall: A buffer is shorter than the answer says. Nothing but the answer was written.
const ErrTooSmall Status = C.ENFORCE_TOO_SMALL

// ErrBadOpcode: A byte of the script is none of the opcodes that are listed here, though it may be one of Bitcoin's, as SHA256; the answer has its position.
const ErrBadOpcode Status = C.ENFORCE_BAD_OPCODE

// ErrTruncated: A push has too few bytes after it; the answer has its position.
const ErrTruncated Status = C.ENFORCE_TRUNCATED

// ErrTooLong: The script has more than 10,000 bytes.
const ErrTooLong Status = C.ENFORCE_TOO_LONG

// ErrOpenBranch: Branches of the script do not close.
const ErrOpenBranch Status = C.ENFORCE_OPEN_BRANCH

// ErrTooManyOps: More than 201 opcodes count.
const ErrTooManyOps Status = C.ENFORCE_TOO_MANY_OPS

// ErrUndecided: No rule decides an opcode or the end; the answer has the opcode's index.
const ErrUndecided Status = C.ENFORCE_UNDECIDED

// ErrTooManyPaths: A 65th path begins.
const ErrTooManyPaths Status = C.ENFORCE_TOO_MANY_PATHS

// ErrTooTall: A path needs more than 1,000 stack elements.
const ErrTooTall Status = C.ENFORCE_TOO_TALL

// ErrNoSuchPath: The script has no path of this index.
const ErrNoSuchPath Status = C.ENFORCE_NO_SUCH_PATH

// ErrWrongArity: The number of slots is not that of the path.
const ErrWrongArity Status = C.ENFORCE_WRONG_ARITY

// ErrUnmet: The slots do not show a fact of the path, or it asks a lock by time, which no claim here has; the answer has the slot, 0 for such a lock.
const ErrUnmet Status = C.ENFORCE_UNMET

// ErrContradiction: The path asks for one fact with both polarities.
const ErrContradiction Status = C.ENFORCE_CONTRADICTION

// ErrWrongProgram: The program is not that of the script.
const ErrWrongProgram Status = C.ENFORCE_WRONG_PROGRAM

// ErrWrongShell: The fixed transaction of a claim does not fit. No claim of these calls has one.
const ErrWrongShell Status = C.ENFORCE_WRONG_SHELL

// ErrNoSuchForm: There is no form of this kind.
const ErrNoSuchForm Status = C.ENFORCE_NO_SUCH_FORM

// ErrNotAKey: Bytes that are to be a key do not have the form of one; the answer has which key of the form it is, from 0 for `revocation`, or the index of the slot.
const ErrNotAKey Status = C.ENFORCE_NOT_A_KEY

// ErrNotAHeight: The expiry is 500,000,000 or more, which is a time and not a height.
const ErrNotAHeight Status = C.ENFORCE_NOT_A_HEIGHT

// ErrFixedTransaction: A claim has a fixed transaction. No claim of these calls has one.
const ErrFixedTransaction Status = C.ENFORCE_FIXED_TRANSACTION

// ErrSameOutpoint: Two claims spend the same outpoint.
const ErrSameOutpoint Status = C.ENFORCE_SAME_OUTPOINT

// ErrOutputsExceed: The outputs are worth more than the claimed outputs together.
const ErrOutputsExceed Status = C.ENFORCE_OUTPUTS_EXCEED

// ErrMeasuredSignature: The path of a claim asks for the length, the hash or the bytes of a signature.
const ErrMeasuredSignature Status = C.ENFORCE_MEASURED_SIGNATURE

// ErrNoPreimage: No preimage is given for the hash of a slot.
const ErrNoPreimage Status = C.ENFORCE_NO_PREIMAGE

// ErrTruncatedTransaction: The bytes of the transaction end within a field.
const ErrTruncatedTransaction Status = C.ENFORCE_TRUNCATED_TRANSACTION

// ErrLongCount: A compactSize of the transaction is not minimal.
const ErrLongCount Status = C.ENFORCE_LONG_COUNT

// ErrBadMarker: The marker of the transaction is not 0, or its flag is not 1 (BIP 144). No call here tells it: such bytes are read without witnesses.
const ErrBadMarker Status = C.ENFORCE_BAD_MARKER

// ErrNoInputs: There is no claim, or the transaction that is given has no input.
const ErrNoInputs Status = C.ENFORCE_NO_INPUTS

// ErrNoWitness: No witness of the transaction has an item.
const ErrNoWitness Status = C.ENFORCE_NO_WITNESS

// ErrValueTooLarge: The value of an output is above 21,000,000 bitcoins.
const ErrValueTooLarge Status = C.ENFORCE_VALUE_TOO_LARGE

// ErrTrailing: There are bytes after the lock time of the transaction.
const ErrTrailing Status = C.ENFORCE_TRAILING

// ErrOverLimit: There are more than 4,000 claims or outputs, or the script of an output has more than 10,000 bytes; of a transaction that is given, a count is above its limit, or an input has a script.
const ErrOverLimit Status = C.ENFORCE_OVER_LIMIT

// ErrOutOfRange: The row of a claim refers to bytes or to rows that are not there, or the row of an output to bytes.
const ErrOutOfRange Status = C.ENFORCE_OUT_OF_RANGE

// ErrNoSuchSlot: There is no slot of this kind; the answer has the index of the slot.
const ErrNoSuchSlot Status = C.ENFORCE_NO_SUCH_SLOT

// ErrItemTooLong: The bytes of a slot are more than 520; the answer has the index of the slot.
const ErrItemTooLong Status = C.ENFORCE_ITEM_TOO_LONG

// ErrSlotOutOfRange: The row of a slot refers to bytes that are not there; the answer has the index of the slot.
const ErrSlotOutOfRange Status = C.ENFORCE_SLOT_OUT_OF_RANGE

// ErrNoSuchChannelType: There is no type of channels of this kind.
const ErrNoSuchChannelType Status = C.ENFORCE_NO_SUCH_CHANNEL_TYPE

// ErrNotACommitmentKey: Bytes that are to be a key of the commitment do not have the form of one; the answer has which of its fields it is, from 0.
const ErrNotACommitmentKey Status = C.ENFORCE_NOT_A_COMMITMENT_KEY

// ErrNoSuchDirection: There is no direction of this kind; the answer has the index of the HTLC.
const ErrNoSuchDirection Status = C.ENFORCE_NO_SUCH_DIRECTION

// ErrExpiryTooLarge: The expiry of an HTLC is 500,000,000 or more, which is a time and not a height; the answer has the index of the HTLC.
const ErrExpiryTooLarge Status = C.ENFORCE_EXPIRY_TOO_LARGE

// ErrNoSuchClose: It is neither one's own commitment nor the peer's.
const ErrNoSuchClose Status = C.ENFORCE_NO_SUCH_CLOSE

// ErrNoSignature: A slot asks a signature, and the next one that is given is not of it, or stands out of order; the answer has the item that lacks it.
const ErrNoSignature Status = C.ENFORCE_NO_SIGNATURE

// ErrSignatureOutOfRange: The row of a signature refers to bytes that are not there; the answer has its item, as of the two below.
const ErrSignatureOutOfRange Status = C.ENFORCE_SIGNATURE_OUT_OF_RANGE

// ErrNotDer: Bytes that are to be a signature are not strict DER (BIP 66) with the byte of its hash type after it.
const ErrNotDer Status = C.ENFORCE_NOT_DER

// ErrNotSighashAll: The hash type of a signature is not ALL, the byte 01.
const ErrNotSighashAll Status = C.ENFORCE_NOT_SIGHASH_ALL

// ErrNotAsked: A signature is given after that of the last slot that asks one; the answer has the item of its row.
const ErrNotAsked Status = C.ENFORCE_NOT_ASKED
