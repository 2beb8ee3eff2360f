//! Drawn from crates/enforce_c/src by `bindings/library --write`: do not edit.
//! The exports of the library, its structs and its numbers.

/// The refusal is of the call as a whole.
pub const ABOUT_ALL: u32 = 0x0;
/// It is of the output whose row has the index `row`.
pub const ABOUT_OUTPUT: u32 = 0x1;
/// It is of the claim whose row has the index `row`. The number is what `enforce_claim` tells of it.
pub const ABOUT_CLAIM: u32 = 0x2;
/// It is of a signature of the input `row`. The number is the index of its item.
pub const ABOUT_SIGNATURE: u32 = 0x3;

/// The slot is the signature of `key` over the spend.
pub const SLOT_SIGNATURE: u32 = 0x1;
/// The slot is 32 bytes whose SHA-256 is `hash`.
pub const SLOT_PREIMAGE: u32 = 0x2;
/// The slot is the `bytes_length` bytes from `bytes_at` on, at most 520.
pub const SLOT_EXACT: u32 = 0x3;
/// The slot is the signature of `key` over the digest `hash`, which was given over one transaction, with no witnesses the `bytes_length` bytes from `bytes_at` on. The claim is of this transaction alone, over whose digest the other signatures are too. No call reads such a slot.
pub const SLOT_GIVEN: u32 = 0x4;

/// A channel without anchors: `option_static_remotekey` (BOLT 9).
pub const CHANNEL_STATIC_REMOTE_KEY: u32 = 0x1;
/// A channel with `option_anchors` (BOLT 9).
pub const CHANNEL_ANCHORS: u32 = 0x2;
/// One's own commitment, the newest.
pub const CLOSE_OWN: u32 = 0x1;
/// The peer's newest commitment, or the one after it, while the newest is not revoked.
pub const CLOSE_PEERS: u32 = 0x2;
/// The owner of the commitment offered the HTLC.
pub const DIRECTION_OFFERED: u32 = 0x1;
/// The owner of the commitment received the HTLC.
pub const DIRECTION_RECEIVED: u32 = 0x2;
/// None that is known.
pub const OUTPUT_UNKNOWN: u32 = 0x0;
/// To the owner of the commitment, after the delay. The output of an HTLC transaction has the same script.
pub const OUTPUT_TO_LOCAL: u32 = 0x1;
/// To the owner's peer.
pub const OUTPUT_TO_REMOTE: u32 = 0x2;
/// An HTLC that the owner offered.
pub const OUTPUT_OFFERED: u32 = 0x3;
/// An HTLC that the owner received.
pub const OUTPUT_RECEIVED: u32 = 0x4;
/// One's own anchor.
pub const OUTPUT_OWN_ANCHOR: u32 = 0x5;
/// The peer's anchor.
pub const OUTPUT_PEERS_ANCHOR: u32 = 0x6;

/// A funding output: both keys, `remote` and `local`, in whichever order.
pub const FORM_FUNDING: u32 = 0x1;
/// A to_local output: `revocation` revokes, or `local`, which is local_delayedpubkey, after `delay_blocks`.
pub const FORM_TO_LOCAL: u32 = 0x2;
/// A to_remote output, P2WPKH of `remote`: the script that it stands for.
pub const FORM_KEY_HASH: u32 = 0x3;
/// An HTLC that the commitment's owner offered: `revocation` revokes, `remote` is remote_htlcpubkey and `local` local_htlcpubkey.
pub const FORM_OFFERED: u32 = 0x4;
/// An HTLC that the commitment's owner received, with the same keys, and `expiry_height`.
pub const FORM_RECEIVED: u32 = 0x5;
/// As `FORM_OFFERED`, in a channel with `option_anchors`.
pub const FORM_OFFERED_WITH_ANCHORS: u32 = 0x6;
/// As `FORM_RECEIVED`, in a channel with `option_anchors`.
pub const FORM_RECEIVED_WITH_ANCHORS: u32 = 0x7;

/// Anyone can spend by the path `at` once its locks have passed: it asks neither a signature of a key that the script fixes nor an item with a given hash.
pub const NOTE_ANYONE: u32 = 0x1;
/// Whoever knows an item with a given hash can spend by the path `at`: it asks no signature of a key that the script fixes, so who sees such a witness can spend too.
pub const NOTE_FINDER: u32 = 0x2;
/// No witness spends an output with the script, by consensus neither: what is paid to it is lost. `at` is 0.
pub const NOTE_NOBODY: u32 = 0x3;
/// A branch ends at the opcode of the index `at`, because a key there has not 33 bytes that begin with 02 or 03. By consensus others may spend by it.
pub const NOTE_STRICTER_KEY: u32 = 0x4;
/// A branch ends there, because a signature there is neither empty nor one that a key can give. By consensus others may spend by it.
pub const NOTE_STRICTER_SIGNATURE: u32 = 0x5;
/// A branch ends there, because a number there is not minimally encoded. By consensus others may spend by it.
pub const NOTE_STRICTER_NUMBER: u32 = 0x6;

/// HASH160 of the slot is these 20 bytes.
pub const FACT_HASH: u32 = 0x1;
/// The slot has this number of bytes.
pub const FACT_SIZE: u32 = 0x2;
/// The slot counts as true.
pub const FACT_TRUTH: u32 = 0x3;
/// The slot is these bytes.
pub const FACT_IS: u32 = 0x4;
/// The slot has the form of a key.
pub const FACT_KEY: u32 = 0x5;
/// The slot is empty or has the form of a signature.
pub const FACT_FORM: u32 = 0x6;
/// The slot is the key's signature over the spend.
pub const FACT_SIGNED: u32 = 0x7;
/// The slots and keys in the rows that follow it: the slots are signatures of an increasing choice of the keys, both deepest first.
pub const FACT_CHOICE: u32 = 0x8;
/// A slot of the choice before it.
pub const FACT_CHOICE_SLOT: u32 = 0x9;
/// A key of the choice before it.
pub const FACT_CHOICE_KEY: u32 = 0xa;
/// CHECKLOCKTIMEVERIFY of this number passes (BIP 65).
pub const FACT_LOCK: u32 = 0xb;
/// CHECKSEQUENCEVERIFY of this number passes (BIP 112). Of it only the bits of 0x40ffff are kept.
pub const FACT_AGE: u32 = 0xc;

/// The call did what it is for.
pub const DONE: u32 = 0x0;
/// Memory ran out. Nothing but the answer was written.
pub const NO_MEMORY: u32 = 0x1;
/// A buffer is shorter than the answer says. Nothing but the answer was written.
pub const TOO_SMALL: u32 = 0x2;
/// A byte of the script is none of the opcodes that are listed here, though it may be one of Bitcoin's, as SHA256; the answer has its position.
pub const BAD_OPCODE: u32 = 0x101;
/// A push has too few bytes after it; the answer has its position.
pub const TRUNCATED: u32 = 0x102;
/// The script has more than 10,000 bytes.
pub const TOO_LONG: u32 = 0x103;
/// Branches of the script do not close.
pub const OPEN_BRANCH: u32 = 0x201;
/// More than 201 opcodes count.
pub const TOO_MANY_OPS: u32 = 0x202;
/// No rule decides an opcode or the end; the answer has the opcode's index.
pub const UNDECIDED: u32 = 0x203;
/// A 65th path begins.
pub const TOO_MANY_PATHS: u32 = 0x204;
/// A path needs more than 1,000 stack elements.
pub const TOO_TALL: u32 = 0x205;
/// The script has no path of this index.
pub const NO_SUCH_PATH: u32 = 0x301;
/// The number of slots is not that of the path.
pub const WRONG_ARITY: u32 = 0x302;
/// The slots do not show a fact of the path, or it asks a lock by time, which no claim here has; the answer has the slot, 0 for such a lock.
pub const UNMET: u32 = 0x303;
/// The path asks for one fact with both polarities.
pub const CONTRADICTION: u32 = 0x304;
/// The program is not that of the script.
pub const WRONG_PROGRAM: u32 = 0x305;
/// The fixed transaction of a claim does not fit. No claim of these calls has one.
pub const WRONG_SHELL: u32 = 0x306;
/// There is no form of this kind.
pub const NO_SUCH_FORM: u32 = 0x401;
/// Bytes that are to be a key do not have the form of one; the answer has which key of the form it is, from 0 for `revocation`, or the index of the slot.
pub const NOT_A_KEY: u32 = 0x402;
/// The expiry is 500,000,000 or more, which is a time and not a height.
pub const NOT_A_HEIGHT: u32 = 0x403;
/// A claim has a fixed transaction. No claim of these calls has one.
pub const FIXED_TRANSACTION: u32 = 0x501;
/// Two claims spend the same outpoint.
pub const SAME_OUTPOINT: u32 = 0x502;
/// The outputs are worth more than the claimed outputs together.
pub const OUTPUTS_EXCEED: u32 = 0x503;
/// The path of a claim asks for the length, the hash or the bytes of a signature.
pub const MEASURED_SIGNATURE: u32 = 0x504;
/// No preimage is given for the hash of a slot.
pub const NO_PREIMAGE: u32 = 0x505;
/// The bytes of the transaction end within a field.
pub const TRUNCATED_TRANSACTION: u32 = 0x601;
/// A compactSize of the transaction is not minimal.
pub const LONG_COUNT: u32 = 0x602;
/// The marker of the transaction is not 0, or its flag is not 1 (BIP 144). No call here tells it: such bytes are read without witnesses.
pub const BAD_MARKER: u32 = 0x603;
/// There is no claim, or the transaction that is given has no input.
pub const NO_INPUTS: u32 = 0x604;
/// No witness of the transaction has an item.
pub const NO_WITNESS: u32 = 0x605;
/// The value of an output is above 21,000,000 bitcoins.
pub const VALUE_TOO_LARGE: u32 = 0x606;
/// There are bytes after the lock time of the transaction.
pub const TRAILING: u32 = 0x607;
/// There are more than 4,000 claims or outputs, or the script of an output has more than 10,000 bytes; of a transaction that is given, a count is above its limit, or an input has a script.
pub const OVER_LIMIT: u32 = 0x608;
/// The row of a claim refers to bytes or to rows that are not there, or the row of an output to bytes.
pub const OUT_OF_RANGE: u32 = 0x701;
/// There is no slot of this kind; the answer has the index of the slot.
pub const NO_SUCH_SLOT: u32 = 0x702;
/// The bytes of a slot are more than 520; the answer has the index of the slot.
pub const ITEM_TOO_LONG: u32 = 0x703;
/// The row of a slot refers to bytes that are not there; the answer has the index of the slot.
pub const SLOT_OUT_OF_RANGE: u32 = 0x704;
/// There is no type of channels of this kind.
pub const NO_SUCH_CHANNEL_TYPE: u32 = 0x801;
/// Bytes that are to be a key of the commitment do not have the form of one; the answer has which of its fields it is, from 0.
pub const NOT_A_COMMITMENT_KEY: u32 = 0x802;
/// There is no direction of this kind; the answer has the index of the HTLC.
pub const NO_SUCH_DIRECTION: u32 = 0x803;
/// The expiry of an HTLC is 500,000,000 or more, which is a time and not a height; the answer has the index of the HTLC.
pub const EXPIRY_TOO_LARGE: u32 = 0x804;
/// It is neither one's own commitment nor the peer's.
pub const NO_SUCH_CLOSE: u32 = 0x805;
/// A slot asks a signature, and the next one that is given is not of it, or stands out of order; the answer has the item that lacks it.
pub const NO_SIGNATURE: u32 = 0x901;
/// The row of a signature refers to bytes that are not there; the answer has its item, as of the two below.
pub const SIGNATURE_OUT_OF_RANGE: u32 = 0x902;
/// Bytes that are to be a signature are not strict DER (BIP 66) with the byte of its hash type after it.
pub const NOT_DER: u32 = 0x903;
/// The hash type of a signature is not ALL, the byte 01.
pub const NOT_SIGHASH_ALL: u32 = 0x904;
/// A signature is given after that of the last slot that asks one; the answer has the item of its row.
pub const NOT_ASKED: u32 = 0x905;

/// What declarations mean together: it is raised whenever one changes its meaning.
pub const ABI: u32 = 0x5;

/// How a claim fills a slot of its path. A field that the kind does not name is not read.
#[repr(C)]
#[derive(Clone, Copy, Debug, PartialEq, Eq)]
pub struct SlotRow {
    /// One of the kinds of slots.
    pub kind: u32,
    /// A compressed public key.
    pub key: [u8; 33],
    /// The SHA-256 of a preimage, in the hash's own byte order; or a digest.
    pub hash: [u8; 32],
    /// Where the bytes begin among those that the call is given.
    pub bytes_at: usize,
    /// How many there are.
    pub bytes_length: usize,
}

const _: () = {
    assert!(size_of::<SlotRow>() == 88);
    assert!(core::mem::offset_of!(SlotRow, kind) == 0);
    assert!(core::mem::offset_of!(SlotRow, key) == 4);
    assert!(core::mem::offset_of!(SlotRow, hash) == 37);
    assert!(core::mem::offset_of!(SlotRow, bytes_at) == 72);
    assert!(core::mem::offset_of!(SlotRow, bytes_length) == 80);
};

/// A claim on an output, by one path of its script. Its slots are the rows from `first_slot` on, `slots` of them, the top of the stack first.
#[repr(C)]
#[derive(Clone, Copy, Debug, PartialEq, Eq)]
pub struct ClaimRow {
    /// The id of the transaction that has the output, in the hash's own byte order.
    pub txid: [u8; 32],
    /// Which of that transaction's outputs it is, from 0.
    pub index: u32,
    /// What the output is worth, in satoshis.
    pub value: u64,
    /// Where its script begins among the bytes that the call is given.
    pub script_at: usize,
    /// How many bytes the script has.
    pub script_length: usize,
    /// Where its program begins among those bytes.
    pub program_at: usize,
    /// How many bytes the program has.
    pub program_length: usize,
    /// The index of the path, as the script's listing has it.
    pub path: usize,
    /// The index of the row of its first slot.
    pub first_slot: usize,
    /// How many rows its slots have.
    pub slots: usize,
}

const _: () = {
    assert!(size_of::<ClaimRow>() == 104);
    assert!(core::mem::offset_of!(ClaimRow, txid) == 0);
    assert!(core::mem::offset_of!(ClaimRow, index) == 32);
    assert!(core::mem::offset_of!(ClaimRow, value) == 40);
    assert!(core::mem::offset_of!(ClaimRow, script_at) == 48);
    assert!(core::mem::offset_of!(ClaimRow, script_length) == 56);
    assert!(core::mem::offset_of!(ClaimRow, program_at) == 64);
    assert!(core::mem::offset_of!(ClaimRow, program_length) == 72);
    assert!(core::mem::offset_of!(ClaimRow, path) == 80);
    assert!(core::mem::offset_of!(ClaimRow, first_slot) == 88);
    assert!(core::mem::offset_of!(ClaimRow, slots) == 96);
};

/// When an accepted claim is due: what the transaction that spends its output has to have.
#[repr(C)]
#[derive(Clone, Copy, Debug, PartialEq, Eq)]
pub struct Due {
    /// The least lock time, as a height below 500,000,000 (BIP 65); 0 if the path checks none.
    pub height: u64,
    /// The sequence of the claim's input, which is an age in blocks (BIP 68); 0 if the path checks none.
    pub sequence: u32,
}

const _: () = {
    assert!(size_of::<Due>() == 16);
    assert!(core::mem::offset_of!(Due, height) == 0);
    assert!(core::mem::offset_of!(Due, sequence) == 8);
};

/// A commitment, by what its scripts are made of: the keys at its point (BOLT 3, "Key Derivation"), as its owner names them.
#[repr(C)]
#[derive(Clone, Copy, Debug, PartialEq, Eq)]
pub struct Commitment {
    /// One of the types of channels.
    pub channel_type: u32,
    /// to_self_delay, of to_local and of the outputs of HTLC transactions.
    pub delay_blocks: u16,
    /// revocationpubkey, of the owner's peer.
    pub revocation: [u8; 33],
    /// local_delayedpubkey, of the owner.
    pub delayed: [u8; 33],
    /// local_htlcpubkey, of the owner.
    pub local_htlc: [u8; 33],
    /// remote_htlcpubkey, of the owner's peer.
    pub remote_htlc: [u8; 33],
    /// remotepubkey, of the owner's peer: its payment basepoint.
    pub remote: [u8; 33],
    /// Whether the keys of the channel's funding output are told, by which anchors are named.
    pub has_funding_keys: bool,
    /// One's own.
    pub own_funding: [u8; 33],
    /// The peer's.
    pub peers_funding: [u8; 33],
}

const _: () = {
    assert!(size_of::<Commitment>() == 240);
    assert!(core::mem::offset_of!(Commitment, channel_type) == 0);
    assert!(core::mem::offset_of!(Commitment, delay_blocks) == 4);
    assert!(core::mem::offset_of!(Commitment, revocation) == 6);
    assert!(core::mem::offset_of!(Commitment, delayed) == 39);
    assert!(core::mem::offset_of!(Commitment, local_htlc) == 72);
    assert!(core::mem::offset_of!(Commitment, remote_htlc) == 105);
    assert!(core::mem::offset_of!(Commitment, remote) == 138);
    assert!(core::mem::offset_of!(Commitment, has_funding_keys) == 171);
    assert!(core::mem::offset_of!(Commitment, own_funding) == 172);
    assert!(core::mem::offset_of!(Commitment, peers_funding) == 205);
};

/// An HTLC of a commitment, by what its script is made of.
#[repr(C)]
#[derive(Clone, Copy, Debug, PartialEq, Eq)]
pub struct HtlcRow {
    /// One of the directions.
    pub direction: u32,
    /// cltv_expiry, below 500,000,000.
    pub expiry_height: u32,
    /// SHA-256 of the payment preimage.
    pub hash: [u8; 32],
}

const _: () = {
    assert!(size_of::<HtlcRow>() == 40);
    assert!(core::mem::offset_of!(HtlcRow, direction) == 0);
    assert!(core::mem::offset_of!(HtlcRow, expiry_height) == 4);
    assert!(core::mem::offset_of!(HtlcRow, hash) == 8);
};

/// Of a claim, which output of the commitment it is on, from when it can be made, and until when it is alone.
#[repr(C)]
#[derive(Clone, Copy, Debug, PartialEq, Eq)]
pub struct FoundRow {
    /// One of the kinds of outputs.
    pub kind: u32,
    /// Whether the other side can take the output at all.
    pub has_deadline: bool,
    /// The least height of a block that can have a transaction with the claim.
    pub from_height: u64,
    /// The least height of a block in which the other side can take the output. A transaction that takes it is safe in all blocks below (BOLT 5).
    pub deadline_height: u64,
}

const _: () = {
    assert!(size_of::<FoundRow>() == 24);
    assert!(core::mem::offset_of!(FoundRow, kind) == 0);
    assert!(core::mem::offset_of!(FoundRow, has_deadline) == 4);
    assert!(core::mem::offset_of!(FoundRow, from_height) == 8);
    assert!(core::mem::offset_of!(FoundRow, deadline_height) == 16);
};

/// An output without a claim.
#[repr(C)]
#[derive(Clone, Copy, Debug, PartialEq, Eq)]
pub struct OtherRow {
    /// Its index in the transaction.
    pub index: u32,
    /// One of the kinds of outputs.
    pub kind: u32,
}

const _: () = {
    assert!(size_of::<OtherRow>() == 8);
    assert!(core::mem::offset_of!(OtherRow, index) == 0);
    assert!(core::mem::offset_of!(OtherRow, kind) == 4);
};

/// What a call that finds claims tells beside its status. Each call writes all of it: the rows and bytes that there are, whether or not they were written, and the number that a refusal carries. There are as many rows of outputs as of claims.
#[repr(C)]
#[derive(Clone, Copy, Debug, PartialEq, Eq)]
pub struct FoundAnswer {
    pub claims: usize,
    pub slots: usize,
    pub others: usize,
    pub bytes: usize,
    pub number: usize,
}

const _: () = {
    assert!(size_of::<FoundAnswer>() == 40);
    assert!(core::mem::offset_of!(FoundAnswer, claims) == 0);
    assert!(core::mem::offset_of!(FoundAnswer, slots) == 8);
    assert!(core::mem::offset_of!(FoundAnswer, others) == 16);
    assert!(core::mem::offset_of!(FoundAnswer, bytes) == 24);
    assert!(core::mem::offset_of!(FoundAnswer, number) == 32);
};

/// A signature for an item of a witness that lacks one.
#[repr(C)]
#[derive(Clone, Copy, Debug, PartialEq, Eq)]
pub struct SignedRow {
    /// The index of the input, which is that of its claim.
    pub input: usize,
    /// The index of its item, as the row of the signature that is lacking has it.
    pub item: usize,
    /// Where its bytes begin among those that the call is given: strict DER (BIP 66), and the byte 01 (SIGHASH_ALL).
    pub bytes_at: usize,
    /// How many there are, from 9 to 73.
    pub bytes_length: usize,
}

const _: () = {
    assert!(size_of::<SignedRow>() == 32);
    assert!(core::mem::offset_of!(SignedRow, input) == 0);
    assert!(core::mem::offset_of!(SignedRow, item) == 8);
    assert!(core::mem::offset_of!(SignedRow, bytes_at) == 16);
    assert!(core::mem::offset_of!(SignedRow, bytes_length) == 24);
};

/// What the call that finishes a transaction tells beside its status. Each call writes all of it: of a transaction the number of bytes, whether or not they were written, and its id; of a refusal the number that it carries, and what it is about. The others are 0.
#[repr(C)]
#[derive(Clone, Copy, Debug, PartialEq, Eq)]
pub struct FinishAnswer {
    pub bytes: usize,
    pub number: usize,
    /// The index of the row that the refusal is about, of a signature the index of its input.
    pub row: usize,
    /// One of the kinds of what a refusal is about.
    pub about: u32,
    /// The id of the transaction, in the hash's own byte order, as rows of claims have it.
    pub txid: [u8; 32],
    /// The same in the other order, as nodes and explorers show it.
    pub shown_txid: [u8; 32],
}

const _: () = {
    assert!(size_of::<FinishAnswer>() == 96);
    assert!(core::mem::offset_of!(FinishAnswer, bytes) == 0);
    assert!(core::mem::offset_of!(FinishAnswer, number) == 8);
    assert!(core::mem::offset_of!(FinishAnswer, row) == 16);
    assert!(core::mem::offset_of!(FinishAnswer, about) == 24);
    assert!(core::mem::offset_of!(FinishAnswer, txid) == 28);
    assert!(core::mem::offset_of!(FinishAnswer, shown_txid) == 60);
};

/// A form of BOLT 3 with what its script has, where local is the commitment's owner and remote its peer. A field that the kind does not name is not read.
#[repr(C)]
#[derive(Clone, Copy, Debug, PartialEq, Eq)]
pub struct Form {
    /// One of the kinds of forms.
    pub kind: u32,
    /// cltv_expiry, below 500,000,000.
    pub expiry_height: u32,
    /// to_self_delay.
    pub delay_blocks: u16,
    /// revocationpubkey.
    pub revocation: [u8; 33],
    /// A key of the owner's peer.
    pub remote: [u8; 33],
    /// A key of the owner.
    pub local: [u8; 33],
    pub payment_hash: [u8; 32],
}

const _: () = {
    assert!(size_of::<Form>() == 144);
    assert!(core::mem::offset_of!(Form, kind) == 0);
    assert!(core::mem::offset_of!(Form, expiry_height) == 4);
    assert!(core::mem::offset_of!(Form, delay_blocks) == 8);
    assert!(core::mem::offset_of!(Form, revocation) == 10);
    assert!(core::mem::offset_of!(Form, remote) == 43);
    assert!(core::mem::offset_of!(Form, local) == 76);
    assert!(core::mem::offset_of!(Form, payment_hash) == 109);
};

/// A note on a script.
#[repr(C)]
#[derive(Clone, Copy, Debug, PartialEq, Eq)]
pub struct NoteRow {
    /// One of the kinds of notes.
    pub kind: u32,
    /// The index of the path or of the opcode that it is about.
    pub at: usize,
}

const _: () = {
    assert!(size_of::<NoteRow>() == 16);
    assert!(core::mem::offset_of!(NoteRow, kind) == 0);
    assert!(core::mem::offset_of!(NoteRow, at) == 8);
};

/// What the call that notes tells beside its status. Each call writes all of it: the rows that there are, whether or not they were written, and the number that a refusal carries.
#[repr(C)]
#[derive(Clone, Copy, Debug, PartialEq, Eq)]
pub struct NotesAnswer {
    pub notes: usize,
    pub number: usize,
}

const _: () = {
    assert!(size_of::<NotesAnswer>() == 16);
    assert!(core::mem::offset_of!(NotesAnswer, notes) == 0);
    assert!(core::mem::offset_of!(NotesAnswer, number) == 8);
};

/// A way through a script. Its facts are the rows from `first_fact` on, `facts` of them.
#[repr(C)]
#[derive(Clone, Copy, Debug, PartialEq, Eq)]
pub struct PathRow {
    /// The number of witness items, the script not counted.
    pub arity: usize,
    /// The counted opcodes of a run, keys of CHECKMULTISIGs included; at most 201.
    pub counted: usize,
    /// The greatest number of elements of a run, at most 1,000.
    pub height: usize,
    /// The index of its first fact's row.
    pub first_fact: usize,
    /// How many rows its facts have.
    pub facts: usize,
    /// The greatest absolute lock that a run checks (BIP 65), if there is one: a height below 500,000,000, else a time in seconds, which no claim here has.
    pub lock: u64,
    /// The greatest relative lock in blocks that a run checks (BIP 68, 112), if there is one. One in units of 512 seconds is a fact of the path, and no claim here has it.
    pub age: u32,
    pub has_lock: bool,
    pub has_age: bool,
}

const _: () = {
    assert!(size_of::<PathRow>() == 56);
    assert!(core::mem::offset_of!(PathRow, arity) == 0);
    assert!(core::mem::offset_of!(PathRow, counted) == 8);
    assert!(core::mem::offset_of!(PathRow, height) == 16);
    assert!(core::mem::offset_of!(PathRow, first_fact) == 24);
    assert!(core::mem::offset_of!(PathRow, facts) == 32);
    assert!(core::mem::offset_of!(PathRow, lock) == 40);
    assert!(core::mem::offset_of!(PathRow, age) == 48);
    assert!(core::mem::offset_of!(PathRow, has_lock) == 52);
    assert!(core::mem::offset_of!(PathRow, has_age) == 53);
};

/// What a path asks of the witness or the spend. Slots count from 0 at the top of the stack.
#[repr(C)]
#[derive(Clone, Copy, Debug, PartialEq, Eq)]
pub struct FactRow {
    /// One of the kinds of facts.
    pub kind: u32,
    /// Whether the fact is to hold, or not to hold.
    pub holds: bool,
    /// Whether the key is a slot of the witness; else the script has it.
    pub key_is_slot: bool,
    /// The slot that the fact is about.
    pub slot: usize,
    /// The slot that has the key.
    pub key_slot: usize,
    /// A number of bytes, or the number of a lock.
    pub number: u64,
    /// Where its constant bytes begin: a hash, a key of the script, or what the slot is.
    pub bytes_at: usize,
    /// How many constant bytes it has.
    pub bytes_length: usize,
}

const _: () = {
    assert!(size_of::<FactRow>() == 48);
    assert!(core::mem::offset_of!(FactRow, kind) == 0);
    assert!(core::mem::offset_of!(FactRow, holds) == 4);
    assert!(core::mem::offset_of!(FactRow, key_is_slot) == 5);
    assert!(core::mem::offset_of!(FactRow, slot) == 8);
    assert!(core::mem::offset_of!(FactRow, key_slot) == 16);
    assert!(core::mem::offset_of!(FactRow, number) == 24);
    assert!(core::mem::offset_of!(FactRow, bytes_at) == 32);
    assert!(core::mem::offset_of!(FactRow, bytes_length) == 40);
};

/// What a call tells beside its status. Each call writes all of it: the rows and bytes that there are, whether or not they were written, and the number that a refusal carries, a byte's position or an opcode's index.
#[repr(C)]
#[derive(Clone, Copy, Debug, PartialEq, Eq)]
pub struct Answer {
    pub paths: usize,
    pub facts: usize,
    pub bytes: usize,
    pub number: usize,
}

const _: () = {
    assert!(size_of::<Answer>() == 32);
    assert!(core::mem::offset_of!(Answer, paths) == 0);
    assert!(core::mem::offset_of!(Answer, facts) == 8);
    assert!(core::mem::offset_of!(Answer, bytes) == 16);
    assert!(core::mem::offset_of!(Answer, number) == 24);
};

/// A key that the caller can sign with.
#[repr(C)]
#[derive(Clone, Copy, Debug, PartialEq, Eq)]
pub struct KeyRow {
    /// A compressed public key.
    pub bytes: [u8; 33],
}

const _: () = {
    assert!(size_of::<KeyRow>() == 33);
    assert!(core::mem::offset_of!(KeyRow, bytes) == 0);
};

/// What the call that prepares slots tells beside its status. Each call writes all of it: the rows and bytes that there are, whether or not they were written, and the number that a refusal carries.
#[repr(C)]
#[derive(Clone, Copy, Debug, PartialEq, Eq)]
pub struct SlotsAnswer {
    pub slots: usize,
    pub bytes: usize,
    pub number: usize,
}

const _: () = {
    assert!(size_of::<SlotsAnswer>() == 24);
    assert!(core::mem::offset_of!(SlotsAnswer, slots) == 0);
    assert!(core::mem::offset_of!(SlotsAnswer, bytes) == 8);
    assert!(core::mem::offset_of!(SlotsAnswer, number) == 16);
};

/// An output of a transaction.
#[repr(C)]
#[derive(Clone, Copy, Debug, PartialEq, Eq)]
pub struct OutputRow {
    /// What it is worth, in satoshis; at most 21,000,000 bitcoins.
    pub value: u64,
    /// Where its script begins among the bytes that the call is given.
    pub script_at: usize,
    /// How many bytes the script has, at most 10,000.
    pub script_length: usize,
}

const _: () = {
    assert!(size_of::<OutputRow>() == 24);
    assert!(core::mem::offset_of!(OutputRow, value) == 0);
    assert!(core::mem::offset_of!(OutputRow, script_at) == 8);
    assert!(core::mem::offset_of!(OutputRow, script_length) == 16);
};

/// A preimage.
#[repr(C)]
#[derive(Clone, Copy, Debug, PartialEq, Eq)]
pub struct PreimageRow {
    pub bytes: [u8; 32],
}

const _: () = {
    assert!(size_of::<PreimageRow>() == 32);
    assert!(core::mem::offset_of!(PreimageRow, bytes) == 0);
};

/// A signature that a transaction lacks.
#[repr(C)]
#[derive(Clone, Copy, Debug, PartialEq, Eq)]
pub struct SignatureRow {
    /// The index of the input.
    pub input: usize,
    /// The index of its item in the input's witness, the deepest item of the stack first (BIP 141).
    pub item: usize,
    /// The key that signs.
    pub key: [u8; 33],
    /// What it signs: the digest of the input with hash type ALL (BIP 143). After the signature in the item comes the byte 01.
    pub digest: [u8; 32],
}

const _: () = {
    assert!(size_of::<SignatureRow>() == 88);
    assert!(core::mem::offset_of!(SignatureRow, input) == 0);
    assert!(core::mem::offset_of!(SignatureRow, item) == 8);
    assert!(core::mem::offset_of!(SignatureRow, key) == 16);
    assert!(core::mem::offset_of!(SignatureRow, digest) == 49);
};

/// What a call that makes a transaction tells beside its status. Each call writes all of it: of a transaction the bytes and rows that there are, whether or not they were written, its greatest weight, its fee and its id; of a refusal the number that it carries, and what it is about. The others are 0.
#[repr(C)]
#[derive(Clone, Copy, Debug, PartialEq, Eq)]
pub struct SpendAnswer {
    pub bytes: usize,
    pub signatures: usize,
    pub number: usize,
    /// The index of the row that the refusal is about.
    pub row: usize,
    /// In weight units (BIP 141): what the transaction has at most once it is signed, with 73 bytes for each signature, 72 of DER and the hash type. Where it lacks none, it has just this. 2^64 - 1 stands for more.
    pub weight: u64,
    /// In satoshis: what the claimed outputs are worth, less the outputs. 2^64 - 1 stands for more.
    pub fee_sat: u64,
    /// One of the kinds of what a refusal is about.
    pub about: u32,
    /// The id of the transaction, signed or not, in the hash's own byte order, as rows of claims have it.
    pub txid: [u8; 32],
    /// The same in the other order, as nodes and explorers show it.
    pub shown_txid: [u8; 32],
}

const _: () = {
    assert!(size_of::<SpendAnswer>() == 120);
    assert!(core::mem::offset_of!(SpendAnswer, bytes) == 0);
    assert!(core::mem::offset_of!(SpendAnswer, signatures) == 8);
    assert!(core::mem::offset_of!(SpendAnswer, number) == 16);
    assert!(core::mem::offset_of!(SpendAnswer, row) == 24);
    assert!(core::mem::offset_of!(SpendAnswer, weight) == 32);
    assert!(core::mem::offset_of!(SpendAnswer, fee_sat) == 40);
    assert!(core::mem::offset_of!(SpendAnswer, about) == 48);
    assert!(core::mem::offset_of!(SpendAnswer, txid) == 52);
    assert!(core::mem::offset_of!(SpendAnswer, shown_txid) == 84);
};

unsafe extern "C" {
    /// The library's `ABI`, to be compared with that of the declarations once, at the start.
    ///
    /// Proved: `result ≡ ABI`
    pub fn enforce_abi() -> u32;
    /// Lists every way to spend an output with this script by the rules of the machine here, which are stricter than consensus, and nothing else: rows of paths, rows of their facts, and the facts' bytes. The statuses of refusals are those of families 1 and 2, and `TOO_SMALL` if one of the three buffers is too short.
    ///
    /// Proved: `AnswersListing script.now (record { paths = paths.old; facts = facts.old; bytes = bytes.old }) (record { status = result; answer = answer.new; rows = record { paths = paths.new; facts = facts.new; bytes = bytes.new } }) (crates/enforce_c/specs/Listed.antt)`
    pub fn enforce_script_list(script: *const u8, script_length: usize, paths: *mut PathRow, paths_length: usize, facts: *mut FactRow, facts_length: usize, bytes: *mut u8, bytes_length: usize, answer: *mut Answer) -> u32;
    /// Notes what of a script endangers money: the paths that others can take, in their order, that nobody can spend, by consensus neither, and the branches that end by a rule that consensus has not, by which others may spend. The statuses of refusals are those of families 1 and 2, and `TOO_SMALL`.
    ///
    /// Proved: `AnswersNotes script.now notes.old (record { status = result; answer = answer.new; notes = notes.new }) (crates/enforce_c/specs/Noted.antt)`
    pub fn enforce_script_notes(script: *const u8, script_length: usize, notes: *mut NoteRow, notes_length: usize, answer: *mut NotesAnswer) -> u32;
    /// Prepares the slots of a claim by a path of a script: a row for each, the top of the stack first, and the bytes that they refer to, from 0. A signature is asked by its key, bytes that the path fixes are told, and the item of a hash is the key or the preimage that is given with it. Of a choice of keys those are taken that are given, else the last ones. A claim with these slots is accepted: whatever fills them so meets the path. Where it is not, a slot is asked for what is not given, or for what no row can say. The statuses of refusals are those of families 1, 2 and 3, in this order: the script, its listing, the path, and the claim, with the slot of the first fact that is not met; and `TOO_SMALL` if one of the two buffers is too short.
    ///
    /// Proved: `AnswersSlots script.now path keys.now preimages.now (record { slots = slots.old; bytes = bytes.old }) (record { status = result; answer = answer.new; lists = record { slots = slots.new; bytes = bytes.new } }) (crates/enforce_c/specs/Prepared.antt)`
    pub fn enforce_path_slots(script: *const u8, script_length: usize, path: usize, keys: *const KeyRow, keys_length: usize, preimages: *const PreimageRow, preimages_length: usize, slots: *mut SlotRow, slots_length: usize, bytes: *mut u8, bytes_length: usize, answer: *mut SlotsAnswer) -> u32;
    /// Writes the text of `enforce paths` on this script, in ASCII, without notes. Its length is the answer's `bytes`. The statuses of refusals are those of families 1 and 2, and `TOO_SMALL`.
    ///
    /// Proved: `AnswersText script.now text.old (record { status = result; answer = answer.new; bytes = text.new }) (crates/enforce_c/specs/Listed.antt)`
    pub fn enforce_script_text(script: *const u8, script_length: usize, text: *mut u8, text_length: usize, answer: *mut Answer) -> u32;
    /// Writes the program that an output with this script has (BIP 141, P2WSH), 34 bytes: 00, 20 and the script's SHA-256 in the hash's own byte order.
    ///
    /// Proved: `program.new ≡ script_hash_program script.now`
    pub fn enforce_script_program(script: *const u8, script_length: usize, program: *mut [u8; 34]);
    /// Writes the script of a form. Its length is the answer's `bytes`. The statuses of refusals are those of family 4, in the order of their numbers, and `TOO_SMALL`.
    ///
    /// Proved: `AnswersForm form.now script.old (record { status = result; answer = answer.new; bytes = script.new }) (crates/enforce_c/specs/FormScripts.antt)`
    pub fn enforce_form_script(form: *const Form, script: *mut u8, script_length: usize, answer: *mut Answer) -> u32;
    /// Accepts a claim by one path of its script, in an open transaction: any of version 2 whose lock time is a height, below 500,000,000, and not below the one that is written. Writes when the claim is due. Whatever fills the slots as their rows say spends the output. The statuses of refusals are those of families 1, 2, 3 and 7, and `NOT_A_KEY`, in this order: what the rows refer to is there, slot by slot, the script, its listing, the claim.
    ///
    /// Proved: `AnswersClaim claim.now slots.now bytes.now due.old (record { status = result; answer = answer.new; due = due.new }) (crates/enforce_c/specs/Claimed.antt)`
    pub fn enforce_claim(claim: *const ClaimRow, slots: *const SlotRow, slots_length: usize, bytes: *const u8, bytes_length: usize, due: *mut Due, answer: *mut Answer) -> u32;
    /// Writes the transaction that spends the outputs of claims, in which nothing is signed, and the signatures that it lacks. The answer has its weight, fee and id. It has version 2, the claims' inputs in their order with their sequences, and these outputs. Its lock time is the greatest height that a claim needs. The empty item stands in the place of each signature, and after a signature in its item comes the byte 01 (SIGHASH_ALL). The statuses of refusals are `NO_INPUTS` and `OVER_LIMIT` by the numbers of rows, then those of each output and of each claim in their order, then family 5, then `NO_WITNESS`; and `TOO_SMALL` if one of the two buffers is too short. The answer names the output or the claim that a refusal is of.
    ///
    /// Proved: `AnswersSpend (record { claims = claims.now; slots = slots.now; outputs = outputs.now; bytes = bytes.now }) (preimages_in preimages.now) (record { bytes = tx.old; signatures = signatures.old }) (record { status = result; answer = answer.new; lists = record { bytes = tx.new; signatures = signatures.new } }) (crates/enforce_c/specs/Spent.antt)`
    pub fn enforce_unsigned_spend(claims: *const ClaimRow, claims_length: usize, slots: *const SlotRow, slots_length: usize, outputs: *const OutputRow, outputs_length: usize, preimages: *const PreimageRow, preimages_length: usize, bytes: *const u8, bytes_length: usize, tx: *mut u8, tx_length: usize, signatures: *mut SignatureRow, signatures_length: usize, answer: *mut SpendAnswer) -> u32;
    /// Writes the transaction of claims with the signatures that are given, which are tested for their form and their place, and not for the curve: whether one is valid for its key, nothing here asks. It is the transaction of `enforce_unsigned_spend` for the same claims, outputs and preimages, with a signature at each item that lacks one. There has to be a row for each signature that it lacks, in the order in which that call tells them, with the same input and item. The bytes of a row are strict DER (BIP 66) and the byte 01 (SIGHASH_ALL). Where each is the key's over the digest, each input runs clean. The statuses of refusals are those of `enforce_unsigned_spend`, then family 9, signature by signature; and `TOO_SMALL` if the buffer is too short.
    ///
    /// Proved: `AnswersFinish (record { claims = claims.now; slots = slots.now; outputs = outputs.now; bytes = bytes.now }) (preimages_in preimages.now) signed_rows.now tx.old (record { status = result; answer = answer.new; bytes = tx.new }) (crates/enforce_c/specs/Finished.antt)`
    pub fn enforce_finish(claims: *const ClaimRow, claims_length: usize, slots: *const SlotRow, slots_length: usize, outputs: *const OutputRow, outputs_length: usize, preimages: *const PreimageRow, preimages_length: usize, signed_rows: *const SignedRow, signed_rows_length: usize, bytes: *const u8, bytes_length: usize, tx: *mut u8, tx_length: usize, answer: *mut FinishAnswer) -> u32;
    /// Finds all that a revoked commitment lets its owner's peer claim of a transaction: the commitment, one of its HTLC transactions, or any other, with witnesses or without. Writes a claim on each output whose script is one of the commitment's, in the order of the outputs, with what `enforce_unsigned_spend` takes: rows of slots, and the bytes that both refer to. Of each claim it writes which output it is on, and the first block in which the owner can take that, where a block of `confirmed_height` has the transaction. Of each other output it writes the index, and what it is. The statuses of refusals are those of family 8 in this order: the type of the channel, each key, each HTLC; then those of family 6, of the first fault of the transaction; and `TOO_SMALL` if one of the five buffers is too short.
    ///
    /// Proved: `AnswersFound (asked_of_revoked commitment.now htlcs.now tx.now confirmed_height) (record { claims = claims.old; found = found_outputs.old; slots = slots.old; others = others.old; bytes = bytes.old }) (record { status = result; answer = answer.new; lists = record { claims = claims.new; found = found_outputs.new; slots = slots.new; others = others.new; bytes = bytes.new } }) (crates/enforce_c/specs/Found.antt)`
    pub fn enforce_revoked(commitment: *const Commitment, htlcs: *const HtlcRow, htlcs_length: usize, tx: *const u8, tx_length: usize, confirmed_height: u32, claims: *mut ClaimRow, claims_length: usize, found_outputs: *mut FoundRow, found_outputs_length: usize, slots: *mut SlotRow, slots_length: usize, others: *mut OtherRow, others_length: usize, bytes: *mut u8, bytes_length: usize, answer: *mut FoundAnswer) -> u32;
    /// Finds all that a commitment which is not revoked lets one claim of a transaction, where it closed the channel: of that commitment, one's own HTLC transaction, or any other, with witnesses or without. `whose` says whose commitment it is. `feerate_per_kw` is its feerate, by which one's own HTLC transactions pay. Writes what `enforce_revoked` does: a claim for each way to take an output, in the order of the outputs, from which block on, and the first block in which the other side can take it; and each other output. An HTLC of one's own commitment is claimed by its HTLC transaction, in a channel without anchors: a slot of the kind `SLOT_GIVEN` has it, and the digest that its two signatures are over; `enforce_unsigned_spend` does not read such a claim. The statuses of refusals are `NO_SUCH_CLOSE`, and then those of `enforce_revoked`.
    ///
    /// Proved: `AnswersFound (record { question = OfClose; whose = whose; commitment = commitment.now; htlcs = htlcs.now; feerate_per_kw = feerate_per_kw; preimages = preimages_in preimages.now; tx = tx.now; confirmed_height = confirmed_height }) (record { claims = claims.old; found = found_outputs.old; slots = slots.old; others = others.old; bytes = bytes.old }) (record { status = result; answer = answer.new; lists = record { claims = claims.new; found = found_outputs.new; slots = slots.new; others = others.new; bytes = bytes.new } }) (crates/enforce_c/specs/Found.antt)`
    pub fn enforce_close(whose: u32, commitment: *const Commitment, htlcs: *const HtlcRow, htlcs_length: usize, feerate_per_kw: u32, preimages: *const PreimageRow, preimages_length: usize, tx: *const u8, tx_length: usize, confirmed_height: u32, claims: *mut ClaimRow, claims_length: usize, found_outputs: *mut FoundRow, found_outputs_length: usize, slots: *mut SlotRow, slots_length: usize, others: *mut OtherRow, others_length: usize, bytes: *mut u8, bytes_length: usize, answer: *mut FoundAnswer) -> u32;
}

/// The word for a status.
pub fn name(status: u32) -> &'static str {
    match status {
        DONE => "Done",
        NO_MEMORY => "NoMemory",
        TOO_SMALL => "TooSmall",
        BAD_OPCODE => "BadOpcode",
        TRUNCATED => "Truncated",
        TOO_LONG => "TooLong",
        OPEN_BRANCH => "OpenBranch",
        TOO_MANY_OPS => "TooManyOps",
        UNDECIDED => "Undecided",
        TOO_MANY_PATHS => "TooManyPaths",
        TOO_TALL => "TooTall",
        NO_SUCH_PATH => "NoSuchPath",
        WRONG_ARITY => "WrongArity",
        UNMET => "Unmet",
        CONTRADICTION => "Contradiction",
        WRONG_PROGRAM => "WrongProgram",
        WRONG_SHELL => "WrongShell",
        NO_SUCH_FORM => "NoSuchForm",
        NOT_A_KEY => "NotAKey",
        NOT_A_HEIGHT => "NotAHeight",
        FIXED_TRANSACTION => "FixedTransaction",
        SAME_OUTPOINT => "SameOutpoint",
        OUTPUTS_EXCEED => "OutputsExceed",
        MEASURED_SIGNATURE => "MeasuredSignature",
        NO_PREIMAGE => "NoPreimage",
        TRUNCATED_TRANSACTION => "TruncatedTransaction",
        LONG_COUNT => "LongCount",
        BAD_MARKER => "BadMarker",
        NO_INPUTS => "NoInputs",
        NO_WITNESS => "NoWitness",
        VALUE_TOO_LARGE => "ValueTooLarge",
        TRAILING => "Trailing",
        OVER_LIMIT => "OverLimit",
        OUT_OF_RANGE => "OutOfRange",
        NO_SUCH_SLOT => "NoSuchSlot",
        ITEM_TOO_LONG => "ItemTooLong",
        SLOT_OUT_OF_RANGE => "SlotOutOfRange",
        NO_SUCH_CHANNEL_TYPE => "NoSuchChannelType",
        NOT_A_COMMITMENT_KEY => "NotACommitmentKey",
        NO_SUCH_DIRECTION => "NoSuchDirection",
        EXPIRY_TOO_LARGE => "ExpiryTooLarge",
        NO_SUCH_CLOSE => "NoSuchClose",
        NO_SIGNATURE => "NoSignature",
        SIGNATURE_OUT_OF_RANGE => "SignatureOutOfRange",
        NOT_DER => "NotDer",
        NOT_SIGHASH_ALL => "NotSighashAll",
        NOT_ASKED => "NotAsked",
        _ => "Unknown",
    }
}

/// What a status says.
pub fn sentence(status: u32) -> &'static str {
    match status {
        DONE => "The call did what it is for.",
        NO_MEMORY => "Memory ran out. Nothing but the answer was written.",
        TOO_SMALL => "A buffer is shorter than the answer says. Nothing but the answer was written.",
        BAD_OPCODE => "A byte of the script is none of the opcodes that are listed here, though it may be one of Bitcoin's, as SHA256; the answer has its position.",
        TRUNCATED => "A push has too few bytes after it; the answer has its position.",
        TOO_LONG => "The script has more than 10,000 bytes.",
        OPEN_BRANCH => "Branches of the script do not close.",
        TOO_MANY_OPS => "More than 201 opcodes count.",
        UNDECIDED => "No rule decides an opcode or the end; the answer has the opcode's index.",
        TOO_MANY_PATHS => "A 65th path begins.",
        TOO_TALL => "A path needs more than 1,000 stack elements.",
        NO_SUCH_PATH => "The script has no path of this index.",
        WRONG_ARITY => "The number of slots is not that of the path.",
        UNMET => "The slots do not show a fact of the path, or it asks a lock by time, which no claim here has; the answer has the slot, 0 for such a lock.",
        CONTRADICTION => "The path asks for one fact with both polarities.",
        WRONG_PROGRAM => "The program is not that of the script.",
        WRONG_SHELL => "The fixed transaction of a claim does not fit. No claim of these calls has one.",
        NO_SUCH_FORM => "There is no form of this kind.",
        NOT_A_KEY => "Bytes that are to be a key do not have the form of one; the answer has which key of the form it is, from 0 for `revocation`, or the index of the slot.",
        NOT_A_HEIGHT => "The expiry is 500,000,000 or more, which is a time and not a height.",
        FIXED_TRANSACTION => "A claim has a fixed transaction. No claim of these calls has one.",
        SAME_OUTPOINT => "Two claims spend the same outpoint.",
        OUTPUTS_EXCEED => "The outputs are worth more than the claimed outputs together.",
        MEASURED_SIGNATURE => "The path of a claim asks for the length, the hash or the bytes of a signature.",
        NO_PREIMAGE => "No preimage is given for the hash of a slot.",
        TRUNCATED_TRANSACTION => "The bytes of the transaction end within a field.",
        LONG_COUNT => "A compactSize of the transaction is not minimal.",
        BAD_MARKER => "The marker of the transaction is not 0, or its flag is not 1 (BIP 144). No call here tells it: such bytes are read without witnesses.",
        NO_INPUTS => "There is no claim, or the transaction that is given has no input.",
        NO_WITNESS => "No witness of the transaction has an item.",
        VALUE_TOO_LARGE => "The value of an output is above 21,000,000 bitcoins.",
        TRAILING => "There are bytes after the lock time of the transaction.",
        OVER_LIMIT => "There are more than 4,000 claims or outputs, or the script of an output has more than 10,000 bytes; of a transaction that is given, a count is above its limit, or an input has a script.",
        OUT_OF_RANGE => "The row of a claim refers to bytes or to rows that are not there, or the row of an output to bytes.",
        NO_SUCH_SLOT => "There is no slot of this kind; the answer has the index of the slot.",
        ITEM_TOO_LONG => "The bytes of a slot are more than 520; the answer has the index of the slot.",
        SLOT_OUT_OF_RANGE => "The row of a slot refers to bytes that are not there; the answer has the index of the slot.",
        NO_SUCH_CHANNEL_TYPE => "There is no type of channels of this kind.",
        NOT_A_COMMITMENT_KEY => "Bytes that are to be a key of the commitment do not have the form of one; the answer has which of its fields it is, from 0.",
        NO_SUCH_DIRECTION => "There is no direction of this kind; the answer has the index of the HTLC.",
        EXPIRY_TOO_LARGE => "The expiry of an HTLC is 500,000,000 or more, which is a time and not a height; the answer has the index of the HTLC.",
        NO_SUCH_CLOSE => "It is neither one's own commitment nor the peer's.",
        NO_SIGNATURE => "A slot asks a signature, and the next one that is given is not of it, or stands out of order; the answer has the item that lacks it.",
        SIGNATURE_OUT_OF_RANGE => "The row of a signature refers to bytes that are not there; the answer has its item, as of the two below.",
        NOT_DER => "Bytes that are to be a signature are not strict DER (BIP 66) with the byte of its hash type after it.",
        NOT_SIGHASH_ALL => "The hash type of a signature is not ALL, the byte 01.",
        NOT_ASKED => "A signature is given after that of the last slot that asks one; the answer has the item of its row.",
        _ => "These declarations do not have this status.",
    }
}
