/* enforce.h: the ways through a script, the scripts of BOLT 3, the claims on a revoked commitment, and the unsigned spend of claims, proved, for programs in C. Drawn from crates/enforce_c/src by `bindings/library --write`: do not edit.

     uint8_t script[] = {0x63, 0x51, 0x67, 0x52, 0x68}, bytes[64]; // IF 1 ELSE 2 ENDIF
     enforce_path_row paths[64] = {0}; enforce_fact_row facts[64] = {0}; enforce_answer answer = {0};
     enforce_script_list(script, 5, paths, 64, facts, 64, bytes, 64, &answer); // ENFORCE_DONE, and answer.paths is 2

   Nothing here signs, and nothing checks a signature. An accepted claim can't fail with tokens, or with valid signatures where none is
   measured: enforce_unsigned_spend refuses the others. What is proved of a call stands at it as a clause of the source: a name has .old before the call and
   .new after it, and result is the status. docs/BINDINGS.md says the same in words, and what a caller owes:
   pointers that are valid for their lengths, outputs that are initialised, and outputs that overlap nothing else. */
#ifndef ENFORCE_H
#define ENFORCE_H

#include <stdbool.h>
#include <stddef.h>
#include <stdint.h>

#ifdef __cplusplus
extern "C" {
#endif

/* What a refusal is about. */
enum enforce_about {
    ENFORCE_ABOUT_ALL = 0, /* The refusal is of the call as a whole. */
    ENFORCE_ABOUT_OUTPUT = 1, /* It is of the output whose row has the index `row`. */
    ENFORCE_ABOUT_CLAIM = 2, /* It is of the claim whose row has the index `row`. The number is what `enforce_claim` tells of it. */
    ENFORCE_ABOUT_SIGNATURE = 3, /* It is of a signature of the input `row`. The number is the index of its item. */
};

/* How a claim fills a slot of its path. */
enum enforce_slot_kind {
    ENFORCE_SLOT_SIGNATURE = 1, /* The slot is the signature of `key` over the spend. */
    ENFORCE_SLOT_PREIMAGE = 2, /* The slot is 32 bytes whose SHA-256 is `hash`. */
    ENFORCE_SLOT_EXACT = 3, /* The slot is the `bytes_length` bytes from `bytes_at` on, at most 520. */
    ENFORCE_SLOT_GIVEN = 4, /* The slot is the signature of `key` over the digest `hash`, which was given over one transaction, with no witnesses the `bytes_length` bytes from `bytes_at` on. The claim is of this transaction alone, over whose digest the other signatures are too. No call reads such a slot. */
};

/* The type of a channel. */
enum enforce_channel_type {
    ENFORCE_CHANNEL_STATIC_REMOTE_KEY = 1, /* A channel without anchors: `option_static_remotekey` (BOLT 9). */
    ENFORCE_CHANNEL_ANCHORS = 2, /* A channel with `option_anchors` (BOLT 9). */
};

/* Whose commitment closed a channel. */
enum enforce_whose {
    ENFORCE_CLOSE_OWN = 1, /* One's own commitment, the newest. */
    ENFORCE_CLOSE_PEERS = 2, /* The peer's newest commitment, or the one after it, while the newest is not revoked. */
};

/* Whether the owner of a commitment offered an HTLC or received it. */
enum enforce_direction {
    ENFORCE_DIRECTION_OFFERED = 1, /* The owner of the commitment offered the HTLC. */
    ENFORCE_DIRECTION_RECEIVED = 2, /* The owner of the commitment received the HTLC. */
};

/* Which output of a commitment it is. */
enum enforce_output_kind {
    ENFORCE_OUTPUT_UNKNOWN = 0, /* None that is known. */
    ENFORCE_OUTPUT_TO_LOCAL = 1, /* To the owner of the commitment, after the delay. The output of an HTLC transaction has the same script. */
    ENFORCE_OUTPUT_TO_REMOTE = 2, /* To the owner's peer. */
    ENFORCE_OUTPUT_OFFERED = 3, /* An HTLC that the owner offered. */
    ENFORCE_OUTPUT_RECEIVED = 4, /* An HTLC that the owner received. */
    ENFORCE_OUTPUT_OWN_ANCHOR = 5, /* One's own anchor. */
    ENFORCE_OUTPUT_PEERS_ANCHOR = 6, /* The peer's anchor. */
};

/* Which form of BOLT 3 it is. */
enum enforce_form_kind {
    ENFORCE_FORM_FUNDING = 1, /* A funding output: both keys, `remote` and `local`, in whichever order. */
    ENFORCE_FORM_TO_LOCAL = 2, /* A to_local output: `revocation` revokes, or `local`, which is local_delayedpubkey, after `delay_blocks`. */
    ENFORCE_FORM_KEY_HASH = 3, /* A to_remote output, P2WPKH of `remote`: the script that it stands for. */
    ENFORCE_FORM_OFFERED = 4, /* An HTLC that the commitment's owner offered: `revocation` revokes, `remote` is remote_htlcpubkey and `local` local_htlcpubkey. */
    ENFORCE_FORM_RECEIVED = 5, /* An HTLC that the commitment's owner received, with the same keys, and `expiry_height`. */
    ENFORCE_FORM_OFFERED_WITH_ANCHORS = 6, /* As `FORM_OFFERED`, in a channel with `option_anchors`. */
    ENFORCE_FORM_RECEIVED_WITH_ANCHORS = 7, /* As `FORM_RECEIVED`, in a channel with `option_anchors`. */
};

/* What a note on a script says. */
enum enforce_note_kind {
    ENFORCE_NOTE_ANYONE = 1, /* Anyone can spend by the path `at` once its locks have passed: it asks neither a signature of a key that the script fixes nor an item with a given hash. */
    ENFORCE_NOTE_FINDER = 2, /* Whoever knows an item with a given hash can spend by the path `at`: it asks no signature of a key that the script fixes, so who sees such a witness can spend too. */
    ENFORCE_NOTE_NOBODY = 3, /* No witness spends an output with the script, by consensus neither: what is paid to it is lost. `at` is 0. */
    ENFORCE_NOTE_STRICTER_KEY = 4, /* A branch ends at the opcode of the index `at`, because a key there has not 33 bytes that begin with 02 or 03. By consensus others may spend by it. */
    ENFORCE_NOTE_STRICTER_SIGNATURE = 5, /* A branch ends there, because a signature there is neither empty nor one that a key can give. By consensus others may spend by it. */
    ENFORCE_NOTE_STRICTER_NUMBER = 6, /* A branch ends there, because a number there is not minimally encoded. By consensus others may spend by it. */
};

/* What a path asks of the witness or the spend. */
enum enforce_fact_kind {
    ENFORCE_FACT_HASH = 1, /* HASH160 of the slot is these 20 bytes. */
    ENFORCE_FACT_SIZE = 2, /* The slot has this number of bytes. */
    ENFORCE_FACT_TRUTH = 3, /* The slot counts as true. */
    ENFORCE_FACT_IS = 4, /* The slot is these bytes. */
    ENFORCE_FACT_KEY = 5, /* The slot has the form of a key. */
    ENFORCE_FACT_FORM = 6, /* The slot is empty or has the form of a signature. */
    ENFORCE_FACT_SIGNED = 7, /* The slot is the key's signature over the spend. */
    ENFORCE_FACT_CHOICE = 8, /* The slots and keys in the rows that follow it: the slots are signatures of an increasing choice of the keys, both deepest first. */
    ENFORCE_FACT_CHOICE_SLOT = 9, /* A slot of the choice before it. */
    ENFORCE_FACT_CHOICE_KEY = 10, /* A key of the choice before it. */
    ENFORCE_FACT_LOCK = 11, /* CHECKLOCKTIMEVERIFY of this number passes (BIP 65). */
    ENFORCE_FACT_AGE = 12, /* CHECKSEQUENCEVERIFY of this number passes (BIP 112). Of it only the bits of 0x40ffff are kept. */
};

/* Whether a call did what it is for, or why not. */
enum enforce_status {
    ENFORCE_DONE = 0x0, /* The call did what it is for. */
    ENFORCE_NO_MEMORY = 0x1, /* Memory ran out. Nothing but the answer was written. */
    ENFORCE_TOO_SMALL = 0x2, /* A buffer is shorter than the answer says. Nothing but the answer was written. */
    ENFORCE_BAD_OPCODE = 0x101, /* A byte of the script is none of the opcodes that are listed here, though it may be one of Bitcoin's, as SHA256; the answer has its position. */
    ENFORCE_TRUNCATED = 0x102, /* A push has too few bytes after it; the answer has its position. */
    ENFORCE_TOO_LONG = 0x103, /* The script has more than 10,000 bytes. */
    ENFORCE_OPEN_BRANCH = 0x201, /* Branches of the script do not close. */
    ENFORCE_TOO_MANY_OPS = 0x202, /* More than 201 opcodes count. */
    ENFORCE_UNDECIDED = 0x203, /* No rule decides an opcode or the end; the answer has the opcode's index. */
    ENFORCE_TOO_MANY_PATHS = 0x204, /* A 65th path begins. */
    ENFORCE_TOO_TALL = 0x205, /* A path needs more than 1,000 stack elements. */
    ENFORCE_NO_SUCH_PATH = 0x301, /* The script has no path of this index. */
    ENFORCE_WRONG_ARITY = 0x302, /* The number of slots is not that of the path. */
    ENFORCE_UNMET = 0x303, /* The slots do not show a fact of the path, or it asks a lock by time, which no claim here has; the answer has the slot, 0 for such a lock. */
    ENFORCE_CONTRADICTION = 0x304, /* The path asks for one fact with both polarities. */
    ENFORCE_WRONG_PROGRAM = 0x305, /* The program is not that of the script. */
    ENFORCE_WRONG_SHELL = 0x306, /* The fixed transaction of a claim does not fit. No claim of these calls has one. */
    ENFORCE_NO_SUCH_FORM = 0x401, /* There is no form of this kind. */
    ENFORCE_NOT_A_KEY = 0x402, /* Bytes that are to be a key do not have the form of one; the answer has which key of the form it is, from 0 for `revocation`, or the index of the slot. */
    ENFORCE_NOT_A_HEIGHT = 0x403, /* The expiry is 500,000,000 or more, which is a time and not a height. */
    ENFORCE_FIXED_TRANSACTION = 0x501, /* A claim has a fixed transaction. No claim of these calls has one. */
    ENFORCE_SAME_OUTPOINT = 0x502, /* Two claims spend the same outpoint. */
    ENFORCE_OUTPUTS_EXCEED = 0x503, /* The outputs are worth more than the claimed outputs together. */
    ENFORCE_MEASURED_SIGNATURE = 0x504, /* The path of a claim asks for the length, the hash or the bytes of a signature. */
    ENFORCE_NO_PREIMAGE = 0x505, /* No preimage is given for the hash of a slot. */
    ENFORCE_TRUNCATED_TRANSACTION = 0x601, /* The bytes of the transaction end within a field. */
    ENFORCE_LONG_COUNT = 0x602, /* A compactSize of the transaction is not minimal. */
    ENFORCE_BAD_MARKER = 0x603, /* The marker of the transaction is not 0, or its flag is not 1 (BIP 144). No call here tells it: such bytes are read without witnesses. */
    ENFORCE_NO_INPUTS = 0x604, /* There is no claim, or the transaction that is given has no input. */
    ENFORCE_NO_WITNESS = 0x605, /* No witness of the transaction has an item. */
    ENFORCE_VALUE_TOO_LARGE = 0x606, /* The value of an output is above 21,000,000 bitcoins. */
    ENFORCE_TRAILING = 0x607, /* There are bytes after the lock time of the transaction. */
    ENFORCE_OVER_LIMIT = 0x608, /* There are more than 4,000 claims or outputs, or the script of an output has more than 10,000 bytes; of a transaction that is given, a count is above its limit, or an input has a script. */
    ENFORCE_OUT_OF_RANGE = 0x701, /* The row of a claim refers to bytes or to rows that are not there, or the row of an output to bytes. */
    ENFORCE_NO_SUCH_SLOT = 0x702, /* There is no slot of this kind; the answer has the index of the slot. */
    ENFORCE_ITEM_TOO_LONG = 0x703, /* The bytes of a slot are more than 520; the answer has the index of the slot. */
    ENFORCE_SLOT_OUT_OF_RANGE = 0x704, /* The row of a slot refers to bytes that are not there; the answer has the index of the slot. */
    ENFORCE_NO_SUCH_CHANNEL_TYPE = 0x801, /* There is no type of channels of this kind. */
    ENFORCE_NOT_A_COMMITMENT_KEY = 0x802, /* Bytes that are to be a key of the commitment do not have the form of one; the answer has which of its fields it is, from 0. */
    ENFORCE_NO_SUCH_DIRECTION = 0x803, /* There is no direction of this kind; the answer has the index of the HTLC. */
    ENFORCE_EXPIRY_TOO_LARGE = 0x804, /* The expiry of an HTLC is 500,000,000 or more, which is a time and not a height; the answer has the index of the HTLC. */
    ENFORCE_NO_SUCH_CLOSE = 0x805, /* It is neither one's own commitment nor the peer's. */
    ENFORCE_NO_SIGNATURE = 0x901, /* A slot asks a signature, and the next one that is given is not of it, or stands out of order; the answer has the item that lacks it. */
    ENFORCE_SIGNATURE_OUT_OF_RANGE = 0x902, /* The row of a signature refers to bytes that are not there; the answer has its item, as of the two below. */
    ENFORCE_NOT_DER = 0x903, /* Bytes that are to be a signature are not strict DER (BIP 66) with the byte of its hash type after it. */
    ENFORCE_NOT_SIGHASH_ALL = 0x904, /* The hash type of a signature is not ALL, the byte 01. */
    ENFORCE_NOT_ASKED = 0x905, /* A signature is given after that of the last slot that asks one; the answer has the item of its row. */
};

enum {
    ENFORCE_ABI = 5, /* What declarations mean together: it is raised whenever one changes its meaning. */
};

/* How a claim fills a slot of its path. A field that the kind does not name is not read. */
typedef struct {
    uint32_t kind; /* One of the kinds of slots. */
    uint8_t key[33]; /* A compressed public key. */
    uint8_t hash[32]; /* The SHA-256 of a preimage, in the hash's own byte order; or a digest. */
    size_t bytes_at; /* Where the bytes begin among those that the call is given. */
    size_t bytes_length; /* How many there are. */
} enforce_slot_row;

/* A claim on an output, by one path of its script. Its slots are the rows from `first_slot` on, `slots` of them, the top of the stack first. */
typedef struct {
    uint8_t txid[32]; /* The id of the transaction that has the output, in the hash's own byte order. */
    uint32_t index; /* Which of that transaction's outputs it is, from 0. */
    uint64_t value; /* What the output is worth, in satoshis. */
    size_t script_at; /* Where its script begins among the bytes that the call is given. */
    size_t script_length; /* How many bytes the script has. */
    size_t program_at; /* Where its program begins among those bytes. */
    size_t program_length; /* How many bytes the program has. */
    size_t path; /* The index of the path, as the script's listing has it. */
    size_t first_slot; /* The index of the row of its first slot. */
    size_t slots; /* How many rows its slots have. */
} enforce_claim_row;

/* When an accepted claim is due: what the transaction that spends its output has to have. */
typedef struct {
    uint64_t height; /* The least lock time, as a height below 500,000,000 (BIP 65); 0 if the path checks none. */
    uint32_t sequence; /* The sequence of the claim's input, which is an age in blocks (BIP 68); 0 if the path checks none. */
} enforce_due;

/* A commitment, by what its scripts are made of: the keys at its point (BOLT 3, "Key Derivation"), as its owner names them. */
typedef struct {
    uint32_t channel_type; /* One of the types of channels. */
    uint16_t delay_blocks; /* to_self_delay, of to_local and of the outputs of HTLC transactions. */
    uint8_t revocation[33]; /* revocationpubkey, of the owner's peer. */
    uint8_t delayed[33]; /* local_delayedpubkey, of the owner. */
    uint8_t local_htlc[33]; /* local_htlcpubkey, of the owner. */
    uint8_t remote_htlc[33]; /* remote_htlcpubkey, of the owner's peer. */
    uint8_t remote[33]; /* remotepubkey, of the owner's peer: its payment basepoint. */
    bool has_funding_keys; /* Whether the keys of the channel's funding output are told, by which anchors are named. */
    uint8_t own_funding[33]; /* One's own. */
    uint8_t peers_funding[33]; /* The peer's. */
} enforce_commitment;

/* An HTLC of a commitment, by what its script is made of. */
typedef struct {
    uint32_t direction; /* One of the directions. */
    uint32_t expiry_height; /* cltv_expiry, below 500,000,000. */
    uint8_t hash[32]; /* SHA-256 of the payment preimage. */
} enforce_htlc_row;

/* Of a claim, which output of the commitment it is on, from when it can be made, and until when it is alone. */
typedef struct {
    uint32_t kind; /* One of the kinds of outputs. */
    bool has_deadline; /* Whether the other side can take the output at all. */
    uint64_t from_height; /* The least height of a block that can have a transaction with the claim. */
    uint64_t deadline_height; /* The least height of a block in which the other side can take the output. A transaction that takes it is safe in all blocks below (BOLT 5). */
} enforce_found_row;

/* An output without a claim. */
typedef struct {
    uint32_t index; /* Its index in the transaction. */
    uint32_t kind; /* One of the kinds of outputs. */
} enforce_other_row;

/* What a call that finds claims tells beside its status. Each call writes all of it: the rows and bytes that there are, whether or not they were written, and the number that a refusal carries. There are as many rows of outputs as of claims. */
typedef struct {
    size_t claims;
    size_t slots;
    size_t others;
    size_t bytes;
    size_t number;
} enforce_found_answer;

/* A signature for an item of a witness that lacks one. */
typedef struct {
    size_t input; /* The index of the input, which is that of its claim. */
    size_t item; /* The index of its item, as the row of the signature that is lacking has it. */
    size_t bytes_at; /* Where its bytes begin among those that the call is given: strict DER (BIP 66), and the byte 01 (SIGHASH_ALL). */
    size_t bytes_length; /* How many there are, from 9 to 73. */
} enforce_signed_row;

/* What the call that finishes a transaction tells beside its status. Each call writes all of it: of a transaction the number of bytes, whether or not they were written, and its id; of a refusal the number that it carries, and what it is about. The others are 0. */
typedef struct {
    size_t bytes;
    size_t number;
    size_t row; /* The index of the row that the refusal is about, of a signature the index of its input. */
    uint32_t about; /* One of the kinds of what a refusal is about. */
    uint8_t txid[32]; /* The id of the transaction, in the hash's own byte order, as rows of claims have it. */
    uint8_t shown_txid[32]; /* The same in the other order, as nodes and explorers show it. */
} enforce_finish_answer;

/* A form of BOLT 3 with what its script has, where local is the commitment's owner and remote its peer. A field that the kind does not name is not read. */
typedef struct {
    uint32_t kind; /* One of the kinds of forms. */
    uint32_t expiry_height; /* cltv_expiry, below 500,000,000. */
    uint16_t delay_blocks; /* to_self_delay. */
    uint8_t revocation[33]; /* revocationpubkey. */
    uint8_t remote[33]; /* A key of the owner's peer. */
    uint8_t local[33]; /* A key of the owner. */
    uint8_t payment_hash[32];
} enforce_form;

/* A note on a script. */
typedef struct {
    uint32_t kind; /* One of the kinds of notes. */
    size_t at; /* The index of the path or of the opcode that it is about. */
} enforce_note_row;

/* What the call that notes tells beside its status. Each call writes all of it: the rows that there are, whether or not they were written, and the number that a refusal carries. */
typedef struct {
    size_t notes;
    size_t number;
} enforce_notes_answer;

/* A way through a script. Its facts are the rows from `first_fact` on, `facts` of them. */
typedef struct {
    size_t arity; /* The number of witness items, the script not counted. */
    size_t counted; /* The counted opcodes of a run, keys of CHECKMULTISIGs included; at most 201. */
    size_t height; /* The greatest number of elements of a run, at most 1,000. */
    size_t first_fact; /* The index of its first fact's row. */
    size_t facts; /* How many rows its facts have. */
    uint64_t lock; /* The greatest absolute lock that a run checks (BIP 65), if there is one: a height below 500,000,000, else a time in seconds, which no claim here has. */
    uint32_t age; /* The greatest relative lock in blocks that a run checks (BIP 68, 112), if there is one. One in units of 512 seconds is a fact of the path, and no claim here has it. */
    bool has_lock;
    bool has_age;
} enforce_path_row;

/* What a path asks of the witness or the spend. Slots count from 0 at the top of the stack. */
typedef struct {
    uint32_t kind; /* One of the kinds of facts. */
    bool holds; /* Whether the fact is to hold, or not to hold. */
    bool key_is_slot; /* Whether the key is a slot of the witness; else the script has it. */
    size_t slot; /* The slot that the fact is about. */
    size_t key_slot; /* The slot that has the key. */
    uint64_t number; /* A number of bytes, or the number of a lock. */
    size_t bytes_at; /* Where its constant bytes begin: a hash, a key of the script, or what the slot is. */
    size_t bytes_length; /* How many constant bytes it has. */
} enforce_fact_row;

/* What a call tells beside its status. Each call writes all of it: the rows and bytes that there are, whether or not they were written, and the number that a refusal carries, a byte's position or an opcode's index. */
typedef struct {
    size_t paths;
    size_t facts;
    size_t bytes;
    size_t number;
} enforce_answer;

/* A key that the caller can sign with. */
typedef struct {
    uint8_t bytes[33]; /* A compressed public key. */
} enforce_key_row;

/* What the call that prepares slots tells beside its status. Each call writes all of it: the rows and bytes that there are, whether or not they were written, and the number that a refusal carries. */
typedef struct {
    size_t slots;
    size_t bytes;
    size_t number;
} enforce_slots_answer;

/* An output of a transaction. */
typedef struct {
    uint64_t value; /* What it is worth, in satoshis; at most 21,000,000 bitcoins. */
    size_t script_at; /* Where its script begins among the bytes that the call is given. */
    size_t script_length; /* How many bytes the script has, at most 10,000. */
} enforce_output_row;

/* A preimage. */
typedef struct {
    uint8_t bytes[32];
} enforce_preimage_row;

/* A signature that a transaction lacks. */
typedef struct {
    size_t input; /* The index of the input. */
    size_t item; /* The index of its item in the input's witness, the deepest item of the stack first (BIP 141). */
    uint8_t key[33]; /* The key that signs. */
    uint8_t digest[32]; /* What it signs: the digest of the input with hash type ALL (BIP 143). After the signature in the item comes the byte 01. */
} enforce_signature_row;

/* What a call that makes a transaction tells beside its status. Each call writes all of it: of a transaction the bytes and rows that there are, whether or not they were written, its greatest weight, its fee and its id; of a refusal the number that it carries, and what it is about. The others are 0. */
typedef struct {
    size_t bytes;
    size_t signatures;
    size_t number;
    size_t row; /* The index of the row that the refusal is about. */
    uint64_t weight; /* In weight units (BIP 141): what the transaction has at most once it is signed, with 73 bytes for each signature, 72 of DER and the hash type. Where it lacks none, it has just this. 2^64 - 1 stands for more. */
    uint64_t fee_sat; /* In satoshis: what the claimed outputs are worth, less the outputs. 2^64 - 1 stands for more. */
    uint32_t about; /* One of the kinds of what a refusal is about. */
    uint8_t txid[32]; /* The id of the transaction, signed or not, in the hash's own byte order, as rows of claims have it. */
    uint8_t shown_txid[32]; /* The same in the other order, as nodes and explorers show it. */
} enforce_spend_answer;

/* The library's `ABI`, to be compared with that of the declarations once, at the start.

   Proved: result ≡ ABI */
uint32_t enforce_abi(void);

/* Lists every way to spend an output with this script by the rules of the machine here, which are stricter than consensus, and nothing else: rows of paths, rows of their facts, and the facts' bytes. The statuses of refusals are those of families 1 and 2, and `TOO_SMALL` if one of the three buffers is too short.

   Proved: AnswersListing script.now (record { paths = paths.old; facts = facts.old; bytes = bytes.old }) (record { status = result; answer = answer.new; rows = record { paths = paths.new; facts = facts.new; bytes = bytes.new } }) (crates/enforce_c/specs/Listed.antt) */
uint32_t enforce_script_list(const uint8_t *script, size_t script_length, enforce_path_row *paths, size_t paths_length, enforce_fact_row *facts, size_t facts_length, uint8_t *bytes, size_t bytes_length, enforce_answer *answer);

/* Notes what of a script endangers money: the paths that others can take, in their order, that nobody can spend, by consensus neither, and the branches that end by a rule that consensus has not, by which others may spend. The statuses of refusals are those of families 1 and 2, and `TOO_SMALL`.

   Proved: AnswersNotes script.now notes.old (record { status = result; answer = answer.new; notes = notes.new }) (crates/enforce_c/specs/Noted.antt) */
uint32_t enforce_script_notes(const uint8_t *script, size_t script_length, enforce_note_row *notes, size_t notes_length, enforce_notes_answer *answer);

/* Prepares the slots of a claim by a path of a script: a row for each, the top of the stack first, and the bytes that they refer to, from 0. A signature is asked by its key, bytes that the path fixes are told, and the item of a hash is the key or the preimage that is given with it. Of a choice of keys those are taken that are given, else the last ones. A claim with these slots is accepted: whatever fills them so meets the path. Where it is not, a slot is asked for what is not given, or for what no row can say. The statuses of refusals are those of families 1, 2 and 3, in this order: the script, its listing, the path, and the claim, with the slot of the first fact that is not met; and `TOO_SMALL` if one of the two buffers is too short.

   Proved: AnswersSlots script.now path keys.now preimages.now (record { slots = slots.old; bytes = bytes.old }) (record { status = result; answer = answer.new; lists = record { slots = slots.new; bytes = bytes.new } }) (crates/enforce_c/specs/Prepared.antt) */
uint32_t enforce_path_slots(const uint8_t *script, size_t script_length, size_t path, const enforce_key_row *keys, size_t keys_length, const enforce_preimage_row *preimages, size_t preimages_length, enforce_slot_row *slots, size_t slots_length, uint8_t *bytes, size_t bytes_length, enforce_slots_answer *answer);

/* Writes the text of `enforce paths` on this script, in ASCII, without notes. Its length is the answer's `bytes`. The statuses of refusals are those of families 1 and 2, and `TOO_SMALL`.

   Proved: AnswersText script.now text.old (record { status = result; answer = answer.new; bytes = text.new }) (crates/enforce_c/specs/Listed.antt) */
uint32_t enforce_script_text(const uint8_t *script, size_t script_length, uint8_t *text, size_t text_length, enforce_answer *answer);

/* Writes the program that an output with this script has (BIP 141, P2WSH), 34 bytes: 00, 20 and the script's SHA-256 in the hash's own byte order.

   Proved: program.new ≡ script_hash_program script.now */
void enforce_script_program(const uint8_t *script, size_t script_length, uint8_t (*program)[34]);

/* Writes the script of a form. Its length is the answer's `bytes`. The statuses of refusals are those of family 4, in the order of their numbers, and `TOO_SMALL`.

   Proved: AnswersForm form.now script.old (record { status = result; answer = answer.new; bytes = script.new }) (crates/enforce_c/specs/FormScripts.antt) */
uint32_t enforce_form_script(const enforce_form *form, uint8_t *script, size_t script_length, enforce_answer *answer);

/* Accepts a claim by one path of its script, in an open transaction: any of version 2 whose lock time is a height, below 500,000,000, and not below the one that is written. Writes when the claim is due. Whatever fills the slots as their rows say spends the output. The statuses of refusals are those of families 1, 2, 3 and 7, and `NOT_A_KEY`, in this order: what the rows refer to is there, slot by slot, the script, its listing, the claim.

   Proved: AnswersClaim claim.now slots.now bytes.now due.old (record { status = result; answer = answer.new; due = due.new }) (crates/enforce_c/specs/Claimed.antt) */
uint32_t enforce_claim(const enforce_claim_row *claim, const enforce_slot_row *slots, size_t slots_length, const uint8_t *bytes, size_t bytes_length, enforce_due *due, enforce_answer *answer);

/* Writes the transaction that spends the outputs of claims, in which nothing is signed, and the signatures that it lacks. The answer has its weight, fee and id. It has version 2, the claims' inputs in their order with their sequences, and these outputs. Its lock time is the greatest height that a claim needs. The empty item stands in the place of each signature, and after a signature in its item comes the byte 01 (SIGHASH_ALL). The statuses of refusals are `NO_INPUTS` and `OVER_LIMIT` by the numbers of rows, then those of each output and of each claim in their order, then family 5, then `NO_WITNESS`; and `TOO_SMALL` if one of the two buffers is too short. The answer names the output or the claim that a refusal is of.

   Proved: AnswersSpend (record { claims = claims.now; slots = slots.now; outputs = outputs.now; bytes = bytes.now }) (preimages_in preimages.now) (record { bytes = tx.old; signatures = signatures.old }) (record { status = result; answer = answer.new; lists = record { bytes = tx.new; signatures = signatures.new } }) (crates/enforce_c/specs/Spent.antt) */
uint32_t enforce_unsigned_spend(const enforce_claim_row *claims, size_t claims_length, const enforce_slot_row *slots, size_t slots_length, const enforce_output_row *outputs, size_t outputs_length, const enforce_preimage_row *preimages, size_t preimages_length, const uint8_t *bytes, size_t bytes_length, uint8_t *tx, size_t tx_length, enforce_signature_row *signatures, size_t signatures_length, enforce_spend_answer *answer);

/* Writes the transaction of claims with the signatures that are given, which are tested for their form and their place, and not for the curve: whether one is valid for its key, nothing here asks. It is the transaction of `enforce_unsigned_spend` for the same claims, outputs and preimages, with a signature at each item that lacks one. There has to be a row for each signature that it lacks, in the order in which that call tells them, with the same input and item. The bytes of a row are strict DER (BIP 66) and the byte 01 (SIGHASH_ALL). Where each is the key's over the digest, each input runs clean. The statuses of refusals are those of `enforce_unsigned_spend`, then family 9, signature by signature; and `TOO_SMALL` if the buffer is too short.

   Proved: AnswersFinish (record { claims = claims.now; slots = slots.now; outputs = outputs.now; bytes = bytes.now }) (preimages_in preimages.now) signed_rows.now tx.old (record { status = result; answer = answer.new; bytes = tx.new }) (crates/enforce_c/specs/Finished.antt) */
uint32_t enforce_finish(const enforce_claim_row *claims, size_t claims_length, const enforce_slot_row *slots, size_t slots_length, const enforce_output_row *outputs, size_t outputs_length, const enforce_preimage_row *preimages, size_t preimages_length, const enforce_signed_row *signed_rows, size_t signed_rows_length, const uint8_t *bytes, size_t bytes_length, uint8_t *tx, size_t tx_length, enforce_finish_answer *answer);

/* Finds all that a revoked commitment lets its owner's peer claim of a transaction: the commitment, one of its HTLC transactions, or any other, with witnesses or without. Writes a claim on each output whose script is one of the commitment's, in the order of the outputs, with what `enforce_unsigned_spend` takes: rows of slots, and the bytes that both refer to. Of each claim it writes which output it is on, and the first block in which the owner can take that, where a block of `confirmed_height` has the transaction. Of each other output it writes the index, and what it is. The statuses of refusals are those of family 8 in this order: the type of the channel, each key, each HTLC; then those of family 6, of the first fault of the transaction; and `TOO_SMALL` if one of the five buffers is too short.

   Proved: AnswersFound (asked_of_revoked commitment.now htlcs.now tx.now confirmed_height) (record { claims = claims.old; found = found_outputs.old; slots = slots.old; others = others.old; bytes = bytes.old }) (record { status = result; answer = answer.new; lists = record { claims = claims.new; found = found_outputs.new; slots = slots.new; others = others.new; bytes = bytes.new } }) (crates/enforce_c/specs/Found.antt) */
uint32_t enforce_revoked(const enforce_commitment *commitment, const enforce_htlc_row *htlcs, size_t htlcs_length, const uint8_t *tx, size_t tx_length, uint32_t confirmed_height, enforce_claim_row *claims, size_t claims_length, enforce_found_row *found_outputs, size_t found_outputs_length, enforce_slot_row *slots, size_t slots_length, enforce_other_row *others, size_t others_length, uint8_t *bytes, size_t bytes_length, enforce_found_answer *answer);

/* Finds all that a commitment which is not revoked lets one claim of a transaction, where it closed the channel: of that commitment, one's own HTLC transaction, or any other, with witnesses or without. `whose` says whose commitment it is. `feerate_per_kw` is its feerate, by which one's own HTLC transactions pay. Writes what `enforce_revoked` does: a claim for each way to take an output, in the order of the outputs, from which block on, and the first block in which the other side can take it; and each other output. An HTLC of one's own commitment is claimed by its HTLC transaction, in a channel without anchors: a slot of the kind `SLOT_GIVEN` has it, and the digest that its two signatures are over; `enforce_unsigned_spend` does not read such a claim. The statuses of refusals are `NO_SUCH_CLOSE`, and then those of `enforce_revoked`.

   Proved: AnswersFound (record { question = OfClose; whose = whose; commitment = commitment.now; htlcs = htlcs.now; feerate_per_kw = feerate_per_kw; preimages = preimages_in preimages.now; tx = tx.now; confirmed_height = confirmed_height }) (record { claims = claims.old; found = found_outputs.old; slots = slots.old; others = others.old; bytes = bytes.old }) (record { status = result; answer = answer.new; lists = record { claims = claims.new; found = found_outputs.new; slots = slots.new; others = others.new; bytes = bytes.new } }) (crates/enforce_c/specs/Found.antt) */
uint32_t enforce_close(uint32_t whose, const enforce_commitment *commitment, const enforce_htlc_row *htlcs, size_t htlcs_length, uint32_t feerate_per_kw, const enforce_preimage_row *preimages, size_t preimages_length, const uint8_t *tx, size_t tx_length, uint32_t confirmed_height, enforce_claim_row *claims, size_t claims_length, enforce_found_row *found_outputs, size_t found_outputs_length, enforce_slot_row *slots, size_t slots_length, enforce_other_row *others, size_t others_length, uint8_t *bytes, size_t bytes_length, enforce_found_answer *answer);

/* The word for a status. */
static inline const char *enforce_name(uint32_t status) {
    switch (status) {
    case ENFORCE_DONE: return "Done";
    case ENFORCE_NO_MEMORY: return "NoMemory";
    case ENFORCE_TOO_SMALL: return "TooSmall";
    case ENFORCE_BAD_OPCODE: return "BadOpcode";
    case ENFORCE_TRUNCATED: return "Truncated";
    case ENFORCE_TOO_LONG: return "TooLong";
    case ENFORCE_OPEN_BRANCH: return "OpenBranch";
    case ENFORCE_TOO_MANY_OPS: return "TooManyOps";
    case ENFORCE_UNDECIDED: return "Undecided";
    case ENFORCE_TOO_MANY_PATHS: return "TooManyPaths";
    case ENFORCE_TOO_TALL: return "TooTall";
    case ENFORCE_NO_SUCH_PATH: return "NoSuchPath";
    case ENFORCE_WRONG_ARITY: return "WrongArity";
    case ENFORCE_UNMET: return "Unmet";
    case ENFORCE_CONTRADICTION: return "Contradiction";
    case ENFORCE_WRONG_PROGRAM: return "WrongProgram";
    case ENFORCE_WRONG_SHELL: return "WrongShell";
    case ENFORCE_NO_SUCH_FORM: return "NoSuchForm";
    case ENFORCE_NOT_A_KEY: return "NotAKey";
    case ENFORCE_NOT_A_HEIGHT: return "NotAHeight";
    case ENFORCE_FIXED_TRANSACTION: return "FixedTransaction";
    case ENFORCE_SAME_OUTPOINT: return "SameOutpoint";
    case ENFORCE_OUTPUTS_EXCEED: return "OutputsExceed";
    case ENFORCE_MEASURED_SIGNATURE: return "MeasuredSignature";
    case ENFORCE_NO_PREIMAGE: return "NoPreimage";
    case ENFORCE_TRUNCATED_TRANSACTION: return "TruncatedTransaction";
    case ENFORCE_LONG_COUNT: return "LongCount";
    case ENFORCE_BAD_MARKER: return "BadMarker";
    case ENFORCE_NO_INPUTS: return "NoInputs";
    case ENFORCE_NO_WITNESS: return "NoWitness";
    case ENFORCE_VALUE_TOO_LARGE: return "ValueTooLarge";
    case ENFORCE_TRAILING: return "Trailing";
    case ENFORCE_OVER_LIMIT: return "OverLimit";
    case ENFORCE_OUT_OF_RANGE: return "OutOfRange";
    case ENFORCE_NO_SUCH_SLOT: return "NoSuchSlot";
    case ENFORCE_ITEM_TOO_LONG: return "ItemTooLong";
    case ENFORCE_SLOT_OUT_OF_RANGE: return "SlotOutOfRange";
    case ENFORCE_NO_SUCH_CHANNEL_TYPE: return "NoSuchChannelType";
    case ENFORCE_NOT_A_COMMITMENT_KEY: return "NotACommitmentKey";
    case ENFORCE_NO_SUCH_DIRECTION: return "NoSuchDirection";
    case ENFORCE_EXPIRY_TOO_LARGE: return "ExpiryTooLarge";
    case ENFORCE_NO_SUCH_CLOSE: return "NoSuchClose";
    case ENFORCE_NO_SIGNATURE: return "NoSignature";
    case ENFORCE_SIGNATURE_OUT_OF_RANGE: return "SignatureOutOfRange";
    case ENFORCE_NOT_DER: return "NotDer";
    case ENFORCE_NOT_SIGHASH_ALL: return "NotSighashAll";
    case ENFORCE_NOT_ASKED: return "NotAsked";
    default: return "Unknown";
    }
}

/* What a status says. */
static inline const char *enforce_sentence(uint32_t status) {
    switch (status) {
    case ENFORCE_DONE: return "The call did what it is for.";
    case ENFORCE_NO_MEMORY: return "Memory ran out. Nothing but the answer was written.";
    case ENFORCE_TOO_SMALL: return "A buffer is shorter than the answer says. Nothing but the answer was written.";
    case ENFORCE_BAD_OPCODE: return "A byte of the script is none of the opcodes that are listed here, though it may be one of Bitcoin's, as SHA256; the answer has its position.";
    case ENFORCE_TRUNCATED: return "A push has too few bytes after it; the answer has its position.";
    case ENFORCE_TOO_LONG: return "The script has more than 10,000 bytes.";
    case ENFORCE_OPEN_BRANCH: return "Branches of the script do not close.";
    case ENFORCE_TOO_MANY_OPS: return "More than 201 opcodes count.";
    case ENFORCE_UNDECIDED: return "No rule decides an opcode or the end; the answer has the opcode's index.";
    case ENFORCE_TOO_MANY_PATHS: return "A 65th path begins.";
    case ENFORCE_TOO_TALL: return "A path needs more than 1,000 stack elements.";
    case ENFORCE_NO_SUCH_PATH: return "The script has no path of this index.";
    case ENFORCE_WRONG_ARITY: return "The number of slots is not that of the path.";
    case ENFORCE_UNMET: return "The slots do not show a fact of the path, or it asks a lock by time, which no claim here has; the answer has the slot, 0 for such a lock.";
    case ENFORCE_CONTRADICTION: return "The path asks for one fact with both polarities.";
    case ENFORCE_WRONG_PROGRAM: return "The program is not that of the script.";
    case ENFORCE_WRONG_SHELL: return "The fixed transaction of a claim does not fit. No claim of these calls has one.";
    case ENFORCE_NO_SUCH_FORM: return "There is no form of this kind.";
    case ENFORCE_NOT_A_KEY: return "Bytes that are to be a key do not have the form of one; the answer has which key of the form it is, from 0 for `revocation`, or the index of the slot.";
    case ENFORCE_NOT_A_HEIGHT: return "The expiry is 500,000,000 or more, which is a time and not a height.";
    case ENFORCE_FIXED_TRANSACTION: return "A claim has a fixed transaction. No claim of these calls has one.";
    case ENFORCE_SAME_OUTPOINT: return "Two claims spend the same outpoint.";
    case ENFORCE_OUTPUTS_EXCEED: return "The outputs are worth more than the claimed outputs together.";
    case ENFORCE_MEASURED_SIGNATURE: return "The path of a claim asks for the length, the hash or the bytes of a signature.";
    case ENFORCE_NO_PREIMAGE: return "No preimage is given for the hash of a slot.";
    case ENFORCE_TRUNCATED_TRANSACTION: return "The bytes of the transaction end within a field.";
    case ENFORCE_LONG_COUNT: return "A compactSize of the transaction is not minimal.";
    case ENFORCE_BAD_MARKER: return "The marker of the transaction is not 0, or its flag is not 1 (BIP 144). No call here tells it: such bytes are read without witnesses.";
    case ENFORCE_NO_INPUTS: return "There is no claim, or the transaction that is given has no input.";
    case ENFORCE_NO_WITNESS: return "No witness of the transaction has an item.";
    case ENFORCE_VALUE_TOO_LARGE: return "The value of an output is above 21,000,000 bitcoins.";
    case ENFORCE_TRAILING: return "There are bytes after the lock time of the transaction.";
    case ENFORCE_OVER_LIMIT: return "There are more than 4,000 claims or outputs, or the script of an output has more than 10,000 bytes; of a transaction that is given, a count is above its limit, or an input has a script.";
    case ENFORCE_OUT_OF_RANGE: return "The row of a claim refers to bytes or to rows that are not there, or the row of an output to bytes.";
    case ENFORCE_NO_SUCH_SLOT: return "There is no slot of this kind; the answer has the index of the slot.";
    case ENFORCE_ITEM_TOO_LONG: return "The bytes of a slot are more than 520; the answer has the index of the slot.";
    case ENFORCE_SLOT_OUT_OF_RANGE: return "The row of a slot refers to bytes that are not there; the answer has the index of the slot.";
    case ENFORCE_NO_SUCH_CHANNEL_TYPE: return "There is no type of channels of this kind.";
    case ENFORCE_NOT_A_COMMITMENT_KEY: return "Bytes that are to be a key of the commitment do not have the form of one; the answer has which of its fields it is, from 0.";
    case ENFORCE_NO_SUCH_DIRECTION: return "There is no direction of this kind; the answer has the index of the HTLC.";
    case ENFORCE_EXPIRY_TOO_LARGE: return "The expiry of an HTLC is 500,000,000 or more, which is a time and not a height; the answer has the index of the HTLC.";
    case ENFORCE_NO_SUCH_CLOSE: return "It is neither one's own commitment nor the peer's.";
    case ENFORCE_NO_SIGNATURE: return "A slot asks a signature, and the next one that is given is not of it, or stands out of order; the answer has the item that lacks it.";
    case ENFORCE_SIGNATURE_OUT_OF_RANGE: return "The row of a signature refers to bytes that are not there; the answer has its item, as of the two below.";
    case ENFORCE_NOT_DER: return "Bytes that are to be a signature are not strict DER (BIP 66) with the byte of its hash type after it.";
    case ENFORCE_NOT_SIGHASH_ALL: return "The hash type of a signature is not ALL, the byte 01.";
    case ENFORCE_NOT_ASKED: return "A signature is given after that of the last slot that asks one; the answer has the item of its row.";
    default: return "These declarations do not have this status.";
    }
}

#ifdef __cplusplus
}
#endif

#if defined(__STDC_VERSION__) && __STDC_VERSION__ >= 201112L
_Static_assert(sizeof(enforce_slot_row) == 88, "the layout of enforce_slot_row");
_Static_assert(offsetof(enforce_slot_row, kind) == 0, "the layout of enforce_slot_row");
_Static_assert(offsetof(enforce_slot_row, key) == 4, "the layout of enforce_slot_row");
_Static_assert(offsetof(enforce_slot_row, hash) == 37, "the layout of enforce_slot_row");
_Static_assert(offsetof(enforce_slot_row, bytes_at) == 72, "the layout of enforce_slot_row");
_Static_assert(offsetof(enforce_slot_row, bytes_length) == 80, "the layout of enforce_slot_row");
_Static_assert(sizeof(enforce_claim_row) == 104, "the layout of enforce_claim_row");
_Static_assert(offsetof(enforce_claim_row, txid) == 0, "the layout of enforce_claim_row");
_Static_assert(offsetof(enforce_claim_row, index) == 32, "the layout of enforce_claim_row");
_Static_assert(offsetof(enforce_claim_row, value) == 40, "the layout of enforce_claim_row");
_Static_assert(offsetof(enforce_claim_row, script_at) == 48, "the layout of enforce_claim_row");
_Static_assert(offsetof(enforce_claim_row, script_length) == 56, "the layout of enforce_claim_row");
_Static_assert(offsetof(enforce_claim_row, program_at) == 64, "the layout of enforce_claim_row");
_Static_assert(offsetof(enforce_claim_row, program_length) == 72, "the layout of enforce_claim_row");
_Static_assert(offsetof(enforce_claim_row, path) == 80, "the layout of enforce_claim_row");
_Static_assert(offsetof(enforce_claim_row, first_slot) == 88, "the layout of enforce_claim_row");
_Static_assert(offsetof(enforce_claim_row, slots) == 96, "the layout of enforce_claim_row");
_Static_assert(sizeof(enforce_due) == 16, "the layout of enforce_due");
_Static_assert(offsetof(enforce_due, height) == 0, "the layout of enforce_due");
_Static_assert(offsetof(enforce_due, sequence) == 8, "the layout of enforce_due");
_Static_assert(sizeof(enforce_commitment) == 240, "the layout of enforce_commitment");
_Static_assert(offsetof(enforce_commitment, channel_type) == 0, "the layout of enforce_commitment");
_Static_assert(offsetof(enforce_commitment, delay_blocks) == 4, "the layout of enforce_commitment");
_Static_assert(offsetof(enforce_commitment, revocation) == 6, "the layout of enforce_commitment");
_Static_assert(offsetof(enforce_commitment, delayed) == 39, "the layout of enforce_commitment");
_Static_assert(offsetof(enforce_commitment, local_htlc) == 72, "the layout of enforce_commitment");
_Static_assert(offsetof(enforce_commitment, remote_htlc) == 105, "the layout of enforce_commitment");
_Static_assert(offsetof(enforce_commitment, remote) == 138, "the layout of enforce_commitment");
_Static_assert(offsetof(enforce_commitment, has_funding_keys) == 171, "the layout of enforce_commitment");
_Static_assert(offsetof(enforce_commitment, own_funding) == 172, "the layout of enforce_commitment");
_Static_assert(offsetof(enforce_commitment, peers_funding) == 205, "the layout of enforce_commitment");
_Static_assert(sizeof(enforce_htlc_row) == 40, "the layout of enforce_htlc_row");
_Static_assert(offsetof(enforce_htlc_row, direction) == 0, "the layout of enforce_htlc_row");
_Static_assert(offsetof(enforce_htlc_row, expiry_height) == 4, "the layout of enforce_htlc_row");
_Static_assert(offsetof(enforce_htlc_row, hash) == 8, "the layout of enforce_htlc_row");
_Static_assert(sizeof(enforce_found_row) == 24, "the layout of enforce_found_row");
_Static_assert(offsetof(enforce_found_row, kind) == 0, "the layout of enforce_found_row");
_Static_assert(offsetof(enforce_found_row, has_deadline) == 4, "the layout of enforce_found_row");
_Static_assert(offsetof(enforce_found_row, from_height) == 8, "the layout of enforce_found_row");
_Static_assert(offsetof(enforce_found_row, deadline_height) == 16, "the layout of enforce_found_row");
_Static_assert(sizeof(enforce_other_row) == 8, "the layout of enforce_other_row");
_Static_assert(offsetof(enforce_other_row, index) == 0, "the layout of enforce_other_row");
_Static_assert(offsetof(enforce_other_row, kind) == 4, "the layout of enforce_other_row");
_Static_assert(sizeof(enforce_found_answer) == 40, "the layout of enforce_found_answer");
_Static_assert(offsetof(enforce_found_answer, claims) == 0, "the layout of enforce_found_answer");
_Static_assert(offsetof(enforce_found_answer, slots) == 8, "the layout of enforce_found_answer");
_Static_assert(offsetof(enforce_found_answer, others) == 16, "the layout of enforce_found_answer");
_Static_assert(offsetof(enforce_found_answer, bytes) == 24, "the layout of enforce_found_answer");
_Static_assert(offsetof(enforce_found_answer, number) == 32, "the layout of enforce_found_answer");
_Static_assert(sizeof(enforce_signed_row) == 32, "the layout of enforce_signed_row");
_Static_assert(offsetof(enforce_signed_row, input) == 0, "the layout of enforce_signed_row");
_Static_assert(offsetof(enforce_signed_row, item) == 8, "the layout of enforce_signed_row");
_Static_assert(offsetof(enforce_signed_row, bytes_at) == 16, "the layout of enforce_signed_row");
_Static_assert(offsetof(enforce_signed_row, bytes_length) == 24, "the layout of enforce_signed_row");
_Static_assert(sizeof(enforce_finish_answer) == 96, "the layout of enforce_finish_answer");
_Static_assert(offsetof(enforce_finish_answer, bytes) == 0, "the layout of enforce_finish_answer");
_Static_assert(offsetof(enforce_finish_answer, number) == 8, "the layout of enforce_finish_answer");
_Static_assert(offsetof(enforce_finish_answer, row) == 16, "the layout of enforce_finish_answer");
_Static_assert(offsetof(enforce_finish_answer, about) == 24, "the layout of enforce_finish_answer");
_Static_assert(offsetof(enforce_finish_answer, txid) == 28, "the layout of enforce_finish_answer");
_Static_assert(offsetof(enforce_finish_answer, shown_txid) == 60, "the layout of enforce_finish_answer");
_Static_assert(sizeof(enforce_form) == 144, "the layout of enforce_form");
_Static_assert(offsetof(enforce_form, kind) == 0, "the layout of enforce_form");
_Static_assert(offsetof(enforce_form, expiry_height) == 4, "the layout of enforce_form");
_Static_assert(offsetof(enforce_form, delay_blocks) == 8, "the layout of enforce_form");
_Static_assert(offsetof(enforce_form, revocation) == 10, "the layout of enforce_form");
_Static_assert(offsetof(enforce_form, remote) == 43, "the layout of enforce_form");
_Static_assert(offsetof(enforce_form, local) == 76, "the layout of enforce_form");
_Static_assert(offsetof(enforce_form, payment_hash) == 109, "the layout of enforce_form");
_Static_assert(sizeof(enforce_note_row) == 16, "the layout of enforce_note_row");
_Static_assert(offsetof(enforce_note_row, kind) == 0, "the layout of enforce_note_row");
_Static_assert(offsetof(enforce_note_row, at) == 8, "the layout of enforce_note_row");
_Static_assert(sizeof(enforce_notes_answer) == 16, "the layout of enforce_notes_answer");
_Static_assert(offsetof(enforce_notes_answer, notes) == 0, "the layout of enforce_notes_answer");
_Static_assert(offsetof(enforce_notes_answer, number) == 8, "the layout of enforce_notes_answer");
_Static_assert(sizeof(enforce_path_row) == 56, "the layout of enforce_path_row");
_Static_assert(offsetof(enforce_path_row, arity) == 0, "the layout of enforce_path_row");
_Static_assert(offsetof(enforce_path_row, counted) == 8, "the layout of enforce_path_row");
_Static_assert(offsetof(enforce_path_row, height) == 16, "the layout of enforce_path_row");
_Static_assert(offsetof(enforce_path_row, first_fact) == 24, "the layout of enforce_path_row");
_Static_assert(offsetof(enforce_path_row, facts) == 32, "the layout of enforce_path_row");
_Static_assert(offsetof(enforce_path_row, lock) == 40, "the layout of enforce_path_row");
_Static_assert(offsetof(enforce_path_row, age) == 48, "the layout of enforce_path_row");
_Static_assert(offsetof(enforce_path_row, has_lock) == 52, "the layout of enforce_path_row");
_Static_assert(offsetof(enforce_path_row, has_age) == 53, "the layout of enforce_path_row");
_Static_assert(sizeof(enforce_fact_row) == 48, "the layout of enforce_fact_row");
_Static_assert(offsetof(enforce_fact_row, kind) == 0, "the layout of enforce_fact_row");
_Static_assert(offsetof(enforce_fact_row, holds) == 4, "the layout of enforce_fact_row");
_Static_assert(offsetof(enforce_fact_row, key_is_slot) == 5, "the layout of enforce_fact_row");
_Static_assert(offsetof(enforce_fact_row, slot) == 8, "the layout of enforce_fact_row");
_Static_assert(offsetof(enforce_fact_row, key_slot) == 16, "the layout of enforce_fact_row");
_Static_assert(offsetof(enforce_fact_row, number) == 24, "the layout of enforce_fact_row");
_Static_assert(offsetof(enforce_fact_row, bytes_at) == 32, "the layout of enforce_fact_row");
_Static_assert(offsetof(enforce_fact_row, bytes_length) == 40, "the layout of enforce_fact_row");
_Static_assert(sizeof(enforce_answer) == 32, "the layout of enforce_answer");
_Static_assert(offsetof(enforce_answer, paths) == 0, "the layout of enforce_answer");
_Static_assert(offsetof(enforce_answer, facts) == 8, "the layout of enforce_answer");
_Static_assert(offsetof(enforce_answer, bytes) == 16, "the layout of enforce_answer");
_Static_assert(offsetof(enforce_answer, number) == 24, "the layout of enforce_answer");
_Static_assert(sizeof(enforce_key_row) == 33, "the layout of enforce_key_row");
_Static_assert(offsetof(enforce_key_row, bytes) == 0, "the layout of enforce_key_row");
_Static_assert(sizeof(enforce_slots_answer) == 24, "the layout of enforce_slots_answer");
_Static_assert(offsetof(enforce_slots_answer, slots) == 0, "the layout of enforce_slots_answer");
_Static_assert(offsetof(enforce_slots_answer, bytes) == 8, "the layout of enforce_slots_answer");
_Static_assert(offsetof(enforce_slots_answer, number) == 16, "the layout of enforce_slots_answer");
_Static_assert(sizeof(enforce_output_row) == 24, "the layout of enforce_output_row");
_Static_assert(offsetof(enforce_output_row, value) == 0, "the layout of enforce_output_row");
_Static_assert(offsetof(enforce_output_row, script_at) == 8, "the layout of enforce_output_row");
_Static_assert(offsetof(enforce_output_row, script_length) == 16, "the layout of enforce_output_row");
_Static_assert(sizeof(enforce_preimage_row) == 32, "the layout of enforce_preimage_row");
_Static_assert(offsetof(enforce_preimage_row, bytes) == 0, "the layout of enforce_preimage_row");
_Static_assert(sizeof(enforce_signature_row) == 88, "the layout of enforce_signature_row");
_Static_assert(offsetof(enforce_signature_row, input) == 0, "the layout of enforce_signature_row");
_Static_assert(offsetof(enforce_signature_row, item) == 8, "the layout of enforce_signature_row");
_Static_assert(offsetof(enforce_signature_row, key) == 16, "the layout of enforce_signature_row");
_Static_assert(offsetof(enforce_signature_row, digest) == 49, "the layout of enforce_signature_row");
_Static_assert(sizeof(enforce_spend_answer) == 120, "the layout of enforce_spend_answer");
_Static_assert(offsetof(enforce_spend_answer, bytes) == 0, "the layout of enforce_spend_answer");
_Static_assert(offsetof(enforce_spend_answer, signatures) == 8, "the layout of enforce_spend_answer");
_Static_assert(offsetof(enforce_spend_answer, number) == 16, "the layout of enforce_spend_answer");
_Static_assert(offsetof(enforce_spend_answer, row) == 24, "the layout of enforce_spend_answer");
_Static_assert(offsetof(enforce_spend_answer, weight) == 32, "the layout of enforce_spend_answer");
_Static_assert(offsetof(enforce_spend_answer, fee_sat) == 40, "the layout of enforce_spend_answer");
_Static_assert(offsetof(enforce_spend_answer, about) == 48, "the layout of enforce_spend_answer");
_Static_assert(offsetof(enforce_spend_answer, txid) == 52, "the layout of enforce_spend_answer");
_Static_assert(offsetof(enforce_spend_answer, shown_txid) == 84, "the layout of enforce_spend_answer");
#endif

#endif
