//! The ways through a script, and the scripts of BOLT 3.
use crate::error::Error;
use crate::{ffi, raw};
use std::fmt;

/// Where a key comes from.
#[derive(Clone, Debug, PartialEq, Eq)]
pub enum KeySource {
    /// The script pushes it.
    Const(Vec<u8>),
    /// It is this slot of the witness.
    Slot(usize),
}

/// What a path asks of the witness or the spend. Slots count from 0 at the top of the stack.
#[derive(Clone, Debug, PartialEq, Eq)]
pub enum Fact {
    /// HASH160 of the slot is these bytes.
    Hash(usize, Vec<u8>),
    /// The slot has this number of bytes.
    Size(usize, u64),
    /// The slot counts as true.
    Truth(usize),
    /// The slot is these bytes.
    Is(usize, Vec<u8>),
    /// The slot has the form of a key.
    Key(usize),
    /// The slot is empty or has the form of a signature.
    Form(usize),
    /// The slot is the key's signature over the spend.
    Signed(usize, KeySource),
    /// The slots are signatures of an increasing choice of the keys, both deepest first.
    Choice(Vec<usize>, Vec<KeySource>),
    /// CHECKLOCKTIMEVERIFY of this number passes (BIP 65).
    Lock(u64),
    /// CHECKSEQUENCEVERIFY of this number passes (BIP 112).
    Age(u64),
}

/// A fact, and whether it is to hold.
#[derive(Clone, Debug, PartialEq, Eq)]
pub struct Stated {
    pub fact: Fact,
    pub holds: bool,
}

/// A way through a script: whatever witness meets its facts runs clean.
#[derive(Clone, Debug, PartialEq, Eq)]
pub struct Path {
    /// The number of witness items, the script not counted.
    pub arity: usize,
    pub facts: Vec<Stated>,
    /// The counted opcodes of a run, at most 201.
    pub counted: usize,
    /// The greatest number of elements of a run, at most 1,000.
    pub height: usize,
    /// The greatest absolute lock (BIP 65): a height below 500,000,000, else a time in seconds.
    pub lock: Option<u64>,
    /// The greatest relative lock in blocks (BIP 68, 112).
    pub age: Option<u32>,
}

pub(crate) const ANSWER: raw::Answer = raw::Answer { paths: 0, facts: 0, bytes: 0, number: 0 };
const PATH: raw::PathRow = raw::PathRow { arity: 0, counted: 0, height: 0, first_fact: 0, facts: 0, lock: 0, age: 0, has_lock: false, has_age: false };
const FACT: raw::FactRow = raw::FactRow { kind: 0, holds: false, key_is_slot: false, slot: 0, key_slot: 0, number: 0, bytes_at: 0, bytes_length: 0 };

/// The rows of a listing, with room for them.
struct Rows {
    paths: Vec<raw::PathRow>,
    facts: Vec<raw::FactRow>,
    bytes: Vec<u8>,
}

impl Rows {
    fn constant(&self, row: &raw::FactRow) -> Vec<u8> {
        self.bytes[row.bytes_at..row.bytes_at + row.bytes_length].to_vec()
    }

    fn key(&self, row: &raw::FactRow) -> KeySource {
        if row.key_is_slot { KeySource::Slot(row.key_slot) } else { KeySource::Const(self.constant(row)) }
    }

    fn choice(&self, rows: &[raw::FactRow]) -> Fact {
        let slots = rows.iter().take_while(|it| it.kind == raw::FACT_CHOICE_SLOT).map(|it| it.slot).collect::<Vec<_>>();
        let keys = rows[slots.len()..].iter().take_while(|it| it.kind == raw::FACT_CHOICE_KEY).map(|it| self.key(it)).collect();
        Fact::Choice(slots, keys)
    }

    /// The fact of the first of these rows; none for a row of the choice before it.
    fn stated(&self, rows: &[raw::FactRow]) -> Option<Stated> {
        let row = &rows[0];
        let fact = match row.kind {
            raw::FACT_HASH => Fact::Hash(row.slot, self.constant(row)),
            raw::FACT_SIZE => Fact::Size(row.slot, row.number),
            raw::FACT_TRUTH => Fact::Truth(row.slot),
            raw::FACT_IS => Fact::Is(row.slot, self.constant(row)),
            raw::FACT_KEY => Fact::Key(row.slot),
            raw::FACT_FORM => Fact::Form(row.slot),
            raw::FACT_SIGNED => Fact::Signed(row.slot, self.key(row)),
            raw::FACT_CHOICE => self.choice(&rows[1..]),
            raw::FACT_LOCK => Fact::Lock(row.number),
            raw::FACT_AGE => Fact::Age(row.number),
            _ => return None,
        };
        Some(Stated { fact, holds: row.holds })
    }

    fn path(&self, row: &raw::PathRow) -> Path {
        let rows = &self.facts[row.first_fact..row.first_fact + row.facts];
        Path {
            arity: row.arity,
            facts: (0..rows.len()).filter_map(|at| self.stated(&rows[at..])).collect(),
            counted: row.counted,
            height: row.height,
            lock: row.has_lock.then_some(row.lock),
            age: row.has_age.then_some(row.age),
        }
    }
}

/// Every way to spend an output with this script by the rules of the machine here, in the text order of its branches, and nothing else. Consensus is
/// laxer: it may take a spend by a branch that is not listed.
///
/// Proved (`enforce_script_list`): whatever meets a listed path runs clean, with that path's counted opcodes and height, and whatever runs clean meets a
/// listed path. A refusal is the first fault from the left of the bytes, or else that of the listing.
pub fn paths(script: &[u8]) -> Result<Vec<Path>, Error> {
    ffi::same_abi()?;
    let mut rows = Rows { paths: vec![PATH; 64], facts: vec![FACT; 128], bytes: vec![0; 1024] };
    loop {
        let mut answer = ANSWER;
        match ffi::script_list(script, &mut rows.paths, &mut rows.facts, &mut rows.bytes, &mut answer) {
            raw::DONE => return Ok(rows.paths[..answer.paths].iter().map(|it| rows.path(it)).collect()),
            raw::TOO_SMALL => {
                rows.paths.resize(answer.paths, PATH);
                rows.facts.resize(answer.facts, FACT);
                rows.bytes.resize(answer.bytes, 0);
            }
            other => return Err(Error::of(other, answer.number)),
        }
    }
}

/// The text of `enforce paths` on this script, without notes.
///
/// Proved (`enforce_script_text`): the text of the script's listing, as [`paths`] has it, or the stated refusal.
pub fn text(script: &[u8]) -> Result<String, Error> {
    ffi::same_abi()?;
    let mut text = vec![0; 4096];
    loop {
        let mut answer = ANSWER;
        match ffi::script_text(script, &mut text, &mut answer) {
            raw::DONE => {
                text.truncate(answer.bytes);
                return Ok(String::from_utf8_lossy(&text).into_owned());
            }
            raw::TOO_SMALL => text.resize(answer.bytes, 0),
            other => return Err(Error::of(other, answer.number)),
        }
    }
}

/// What a note on a script says, of the path or the opcode at this index.
#[derive(Clone, Copy, Debug, PartialEq, Eq)]
#[non_exhaustive]
pub enum Note {
    /// Anyone can spend by this path once its locks have passed: it asks neither a signature of a key that the script fixes nor an item with a given hash.
    Anyone(usize),
    /// Whoever knows an item with a given hash can spend by this path, so who sees such a witness can too.
    Finder(usize),
    /// No witness spends an output with the script, by consensus neither.
    Nobody,
    /// A branch ends at this opcode by a rule that consensus has not, so others may spend by it: a key has not 33 bytes that begin with 02 or 03.
    StricterKey(usize),
    /// The same: a signature is neither empty nor one that a key can give.
    StricterSignature(usize),
    /// The same: a number is not minimally encoded.
    StricterNumber(usize),
}

impl Note {
    fn of(row: &raw::NoteRow) -> Option<Note> {
        Some(match row.kind {
            raw::NOTE_ANYONE => Note::Anyone(row.at),
            raw::NOTE_FINDER => Note::Finder(row.at),
            raw::NOTE_NOBODY => Note::Nobody,
            raw::NOTE_STRICTER_KEY => Note::StricterKey(row.at),
            raw::NOTE_STRICTER_SIGNATURE => Note::StricterSignature(row.at),
            raw::NOTE_STRICTER_NUMBER => Note::StricterNumber(row.at),
            _ => return None,
        })
    }
}

impl fmt::Display for Note {
    fn fmt(&self, f: &mut fmt::Formatter) -> fmt::Result {
        match self {
            Note::Anyone(at) => write!(f, "anyone can spend by path {at} once its locks have passed"),
            Note::Finder(at) => write!(f, "whoever sees a witness of path {at} can spend too"),
            Note::Nobody => write!(f, "nobody can spend an output with the script"),
            Note::StricterKey(at) => write!(f, "a branch ends at opcode {at}, and others may spend by it: a key has not 33 bytes that begin with 02 or 03"),
            Note::StricterSignature(at) => write!(f, "a branch ends at opcode {at}, and others may spend by it: a signature is neither empty nor one that a key can give"),
            Note::StricterNumber(at) => write!(f, "a branch ends at opcode {at}, and others may spend by it: a number is not minimally encoded"),
        }
    }
}

/// What of a script endangers money.
///
/// Proved (`enforce_script_notes`): those on paths are all that there are, and where nobody can spend, none can by consensus. A refusal is as of [`paths`].
pub fn notes(script: &[u8]) -> Result<Vec<Note>, Error> {
    ffi::same_abi()?;
    let blank = raw::NoteRow { kind: 0, at: 0 };
    let mut notes = vec![blank; 64];
    loop {
        let mut answer = raw::NotesAnswer { notes: 0, number: 0 };
        match ffi::script_notes(script, &mut notes, &mut answer) {
            raw::DONE => return Ok(notes[..answer.notes].iter().filter_map(Note::of).collect()),
            raw::TOO_SMALL => notes.resize(answer.notes, blank),
            other => return Err(Error::of(other, answer.number)),
        }
    }
}

/// The program that an output with this script has (BIP 141, P2WSH): 00, 20 and the script's SHA-256.
///
/// Proved (`enforce_script_program`): these bytes exactly.
pub fn program(script: &[u8]) -> Result<[u8; 34], Error> {
    ffi::same_abi()?;
    let mut program = [0; 34];
    ffi::script_program(script, &mut program);
    Ok(program)
}

/// A form of BOLT 3, with the keys of its script by the names that BOLT 3 has for them: "local" is the commitment's owner.
#[derive(Clone, Copy, Debug, PartialEq, Eq)]
#[non_exhaustive]
pub enum Form {
    /// A funding output of both keys, in whichever order.
    Funding { own: [u8; 33], peers: [u8; 33] },
    /// revocationpubkey, and local_delayedpubkey after to_self_delay.
    ToLocal { revocation: [u8; 33], delay_blocks: u16, delayed: [u8; 33] },
    /// The script that P2WPKH of the key stands for: to_remote of a channel without anchors.
    KeyHash { key: [u8; 33] },
    /// An HTLC that the commitment's owner offered.
    Offered(HtlcForm),
    /// An HTLC that the commitment's owner received; the expiry is below 500,000,000.
    Received { form: HtlcForm, expiry_height: u32 },
    /// The same in a channel with anchors.
    OfferedWithAnchors(HtlcForm),
    ReceivedWithAnchors { form: HtlcForm, expiry_height: u32 },
}

/// What the script of each HTLC has.
#[derive(Clone, Copy, Debug, PartialEq, Eq)]
pub struct HtlcForm {
    /// revocationpubkey.
    pub revocation: [u8; 33],
    /// remote_htlcpubkey.
    pub remote_htlc: [u8; 33],
    /// local_htlcpubkey.
    pub local_htlc: [u8; 33],
    /// SHA-256 of the payment preimage.
    pub payment_hash: [u8; 32],
}

impl HtlcForm {
    fn raw(&self, kind: u32, expiry_height: u32) -> raw::Form {
        let HtlcForm { revocation, remote_htlc: remote, local_htlc: local, payment_hash } = *self;
        raw::Form { kind, expiry_height, delay_blocks: 0, revocation, remote, local, payment_hash }
    }
}

impl Form {
    fn raw(&self) -> raw::Form {
        let blank = raw::Form { kind: 0, expiry_height: 0, delay_blocks: 0, revocation: [0; 33], remote: [0; 33], local: [0; 33], payment_hash: [0; 32] };
        match *self {
            Form::Funding { own, peers } => raw::Form { kind: raw::FORM_FUNDING, local: own, remote: peers, ..blank },
            Form::ToLocal { revocation, delay_blocks, delayed } => raw::Form { kind: raw::FORM_TO_LOCAL, revocation, local: delayed, delay_blocks, ..blank },
            Form::KeyHash { key } => raw::Form { kind: raw::FORM_KEY_HASH, remote: key, ..blank },
            Form::Offered(form) => form.raw(raw::FORM_OFFERED, 0),
            Form::Received { form, expiry_height } => form.raw(raw::FORM_RECEIVED, expiry_height),
            Form::OfferedWithAnchors(form) => form.raw(raw::FORM_OFFERED_WITH_ANCHORS, 0),
            Form::ReceivedWithAnchors { form, expiry_height } => form.raw(raw::FORM_RECEIVED_WITH_ANCHORS, expiry_height),
        }
    }

    /// The bytes of the form's script.
    ///
    /// Proved (`enforce_form_script`): the script of BOLT 3 with these keys and numbers, or the first refusal: a key without the form of one, in the
    /// order of the fields, then the expiry.
    pub fn script(&self) -> Result<Vec<u8>, Error> {
        ffi::same_abi()?;
        let form = self.raw();
        let mut script = vec![0; 256];
        loop {
            let mut answer = ANSWER;
            match ffi::form_script(&form, &mut script, &mut answer) {
                raw::DONE => {
                    script.truncate(answer.bytes);
                    return Ok(script);
                }
                raw::TOO_SMALL => script.resize(answer.bytes, 0),
                other => return Err(Error::of(other, answer.number)),
            }
        }
    }
}

