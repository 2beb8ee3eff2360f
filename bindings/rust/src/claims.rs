//! Claims on outputs, and the transaction that spends them, unsigned and signed.
use crate::error::Error;
use crate::scripts::ANSWER;
use crate::{ffi, raw};

/// How a claim fills a slot of its path.
#[derive(Clone, Debug, PartialEq, Eq)]
pub enum Slot {
    /// The signature of this key over the spend.
    Signature([u8; 33]),
    /// 32 bytes with this SHA-256, in the hash's own byte order. The script has the RIPEMD-160 of it, which the crate `ripemd` makes.
    Preimage([u8; 32]),
    /// These bytes, at most 520: a preimage too, where it has not 32.
    Exact(Vec<u8>),
    /// The peer's signature by this key over this digest, which it gave over one transaction (BIP 144, without witnesses). The claim is of this transaction alone, and one's own signature is
    /// over the same digest.
    Given { key: [u8; 33], digest: [u8; 32], tx: Vec<u8> },
}

pub(crate) const SLOT: raw::SlotRow = raw::SlotRow { kind: 0, key: [0; 33], hash: [0; 32], bytes_at: 0, bytes_length: 0 };

impl Slot {
    /// The slot of a row that a call wrote, with the bytes that it refers to.
    pub(crate) fn of(row: &raw::SlotRow, bytes: &[u8]) -> Slot {
        let part = || bytes[row.bytes_at..row.bytes_at + row.bytes_length].to_vec();
        match row.kind {
            raw::SLOT_SIGNATURE => Slot::Signature(row.key),
            raw::SLOT_PREIMAGE => Slot::Preimage(row.hash),
            raw::SLOT_GIVEN => Slot::Given { key: row.key, digest: row.hash, tx: part() },
            _ => Slot::Exact(part()),
        }
    }
}

/// A claim on an output, by one path of its script.
#[derive(Clone, Debug, PartialEq, Eq)]
pub struct Claim {
    /// The id of the transaction that has the output, in the hash's own byte order: [`reversed_id`](crate::reversed_id) makes it of what nodes show.
    pub txid: [u8; 32],
    /// Which of that transaction's outputs it is, from 0.
    pub index: u32,
    /// In satoshis, as a node's gettxout has it: nothing here knows the output.
    pub value: u64,
    pub script: Vec<u8>,
    /// The output's program (scriptPubKey): P2WSH of the script, or P2WPKH where it is the script that this stands for.
    pub program: Vec<u8>,
    /// The index of the path, as [`paths`](crate::paths) has it.
    pub path: usize,
    /// How the slots are filled, the top of the stack first.
    pub slots: Vec<Slot>,
}

/// What the transaction that spends a claim has to have.
#[derive(Clone, Copy, Debug, PartialEq, Eq)]
pub struct Due {
    /// The least lock time, as a height (BIP 65); 0 if the path checks none. A lock time of 118 lets block 119 have the transaction, at the earliest.
    pub height: u64,
    /// The sequence of the claim's input, an age in blocks (BIP 68); 0 if the path checks none.
    pub sequence: u32,
}

/// An output of a transaction: its value in satoshis and its script.
#[derive(Clone, Debug, PartialEq, Eq)]
pub struct Output {
    pub value: u64,
    pub script: Vec<u8>,
}

/// A signature that a transaction lacks.
#[derive(Clone, Copy, Debug, PartialEq, Eq)]
pub struct MissingSignature {
    /// The index of the input.
    pub input: usize,
    /// The index of its item in the input's witness, the deepest item of the stack first (BIP 141): the number of slots, less 1, less the slot.
    pub item: usize,
    pub key: [u8; 33],
    /// What it signs (BIP 143, SIGHASH_ALL).
    pub digest: [u8; 32],
}

/// A transaction (BIP 144) with the empty item in the place of each signature, and the signatures that it lacks.
#[derive(Clone, Debug, PartialEq, Eq)]
pub struct UnsignedSpend {
    pub tx: Vec<u8>,
    pub signatures: Vec<MissingSignature>,
    /// In weight units (BIP 141), of the transaction once it is signed, at most: each signature counts as 73 bytes.
    pub weight: u64,
    /// What the claimed outputs are worth, less the outputs, in satoshis.
    pub fee_sat: u64,
    pub id: Id,
}

/// The id of a transaction, signed or not.
#[derive(Clone, Copy, Debug, PartialEq, Eq)]
pub struct Id {
    /// In the hash's own byte order, as a [`Claim`] has it.
    pub txid: [u8; 32],
    /// In the other order, as nodes and explorers show it.
    pub shown: [u8; 32],
}

/// A transaction (BIP 144) with its signatures.
#[derive(Clone, Debug, PartialEq, Eq)]
pub struct Finished {
    pub tx: Vec<u8>,
    pub id: Id,
}

/// A signature for an item that lacks one.
#[derive(Clone, Debug, PartialEq, Eq)]
pub struct Signed {
    /// The input and the item of the [`MissingSignature`].
    pub input: usize,
    pub item: usize,
    /// Strict DER (BIP 66), and the byte 01 (SIGHASH_ALL).
    pub signature: Vec<u8>,
}

const SPEND_ANSWER: raw::SpendAnswer =
    raw::SpendAnswer { bytes: 0, signatures: 0, number: 0, row: 0, weight: 0, fee_sat: 0, about: 0, txid: [0; 32], shown_txid: [0; 32] };
const FINISH_ANSWER: raw::FinishAnswer = raw::FinishAnswer { bytes: 0, number: 0, row: 0, about: 0, txid: [0; 32], shown_txid: [0; 32] };

/// What a call is given: rows, and the bytes that they refer to.
#[derive(Default)]
struct Given {
    claims: Vec<raw::ClaimRow>,
    slots: Vec<raw::SlotRow>,
    outputs: Vec<raw::OutputRow>,
    preimages: Vec<raw::PreimageRow>,
    bytes: Vec<u8>,
}

impl Given {
    fn of(claims: &[Claim], outputs: &[Output], preimages: &[[u8; 32]]) -> Given {
        let mut given = Given { preimages: preimages.iter().map(|it| raw::PreimageRow { bytes: *it }).collect(), ..Given::default() };
        for it in claims {
            let row = given.claim(it);
            given.claims.push(row);
        }
        for it in outputs {
            let (script_at, script_length) = given.put(&it.script);
            given.outputs.push(raw::OutputRow { value: it.value, script_at, script_length });
        }
        given
    }

    fn asked(&self) -> ffi::Asked<'_> {
        let Given { claims, slots, outputs, preimages, bytes } = self;
        ffi::Asked { claims, slots, outputs, preimages, bytes }
    }

    /// Where the bytes begin, and how many there are.
    fn put(&mut self, bytes: &[u8]) -> (usize, usize) {
        let at = self.bytes.len();
        self.bytes.extend_from_slice(bytes);
        (at, bytes.len())
    }

    fn slot(&mut self, slot: &Slot) {
        let row = match slot {
            Slot::Signature(key) => raw::SlotRow { kind: raw::SLOT_SIGNATURE, key: *key, ..SLOT },
            Slot::Preimage(hash) => raw::SlotRow { kind: raw::SLOT_PREIMAGE, hash: *hash, ..SLOT },
            Slot::Exact(item) => {
                let (bytes_at, bytes_length) = self.put(item);
                raw::SlotRow { kind: raw::SLOT_EXACT, bytes_at, bytes_length, ..SLOT }
            }
            Slot::Given { .. } => raw::SlotRow { kind: raw::SLOT_GIVEN, ..SLOT },
        };
        self.slots.push(row);
    }

    fn claim(&mut self, claim: &Claim) -> raw::ClaimRow {
        let (script_at, script_length) = self.put(&claim.script);
        let (program_at, program_length) = self.put(&claim.program);
        let first_slot = self.slots.len();
        claim.slots.iter().for_each(|it| self.slot(it));
        let Claim { txid, index, value, path, .. } = *claim;
        raw::ClaimRow { txid, index, value, script_at, script_length, program_at, program_length, path, first_slot, slots: claim.slots.len() }
    }

    fn signed(&mut self, signed: &Signed) -> raw::SignedRow {
        let (bytes_at, bytes_length) = self.put(&signed.signature);
        raw::SignedRow { input: signed.input, item: signed.item, bytes_at, bytes_length }
    }
}

impl Claim {
    /// Accepts the claim, and says when it is due.
    ///
    /// Proved (`enforce_claim`): whatever fills the slots as they say spends the output, in a transaction of version 2 with this sequence, whose lock time is a height (below 500,000,000) and
    /// not below this one. Signatures are tokens there; a path that measures none of them takes a valid signature as well ([`unsigned_spend`] refuses the others). A refusal is the first that
    /// holds: of a slot, of the script's bytes, of its listing, of the claim.
    pub fn accept(&self) -> Result<Due, Error> {
        ffi::same_abi()?;
        let (mut given, mut due, mut answer) = (Given::default(), raw::Due { height: 0, sequence: 0 }, ANSWER);
        let row = given.claim(self);
        match ffi::claim(&row, &given.slots, &given.bytes, &mut due, &mut answer) {
            raw::DONE => Ok(Due { height: due.height, sequence: due.sequence }),
            other => Err(Error::of(other, answer.number)),
        }
    }
}

/// The slots that a path of a script asks for. `keys` are those that the caller can sign with, and `preimages` those that it knows: they are wanted where the path asks for their hashes, or for a choice.
///
/// A key of the script that is not given is no refusal: the slot asks for its signature. Of a choice the given keys are taken, else the last ones. So compare the key of each [`MissingSignature`] with one's
/// own. Without a preimage that the path asks for, the refusal is [`Unmet`](crate::Refused::Unmet). A preimage has 32 bytes: [`Slot::Exact`] is for others.
///
/// Proved (`enforce_path_slots`): a claim with these slots is accepted. A refusal is the first that holds: of the script's bytes, of its listing, of the path, of the first fact that the slots do not show.
pub fn path_slots(script: &[u8], path: usize, keys: &[[u8; 33]], preimages: &[[u8; 32]]) -> Result<Vec<Slot>, Error> {
    ffi::same_abi()?;
    let keys: Vec<_> = keys.iter().map(|it| raw::KeyRow { bytes: *it }).collect();
    let preimages: Vec<_> = preimages.iter().map(|it| raw::PreimageRow { bytes: *it }).collect();
    let (mut slots, mut bytes) = (vec![SLOT; 16], vec![0; 1024]);
    loop {
        let mut answer = raw::SlotsAnswer { slots: 0, bytes: 0, number: 0 };
        match ffi::path_slots(script, path, &keys, &preimages, &mut slots, &mut bytes, &mut answer) {
            raw::DONE => return Ok(slots[..answer.slots].iter().map(|it| Slot::of(it, &bytes)).collect()),
            raw::TOO_SMALL => {
                slots.resize(answer.slots, SLOT);
                bytes.resize(answer.bytes, 0);
            }
            other => return Err(Error::of(other, answer.number)),
        }
    }
}

/// The transaction that spends the outputs of claims, in which nothing is signed, and the signatures that it lacks.
///
/// It has version 2, as lock time the greatest height of the claims' [`Due`], and of each input the sequence of its claim's. The weight does not depend on the values of outputs: a first call tells
/// it, and a second has the fee.
///
/// Proved (`enforce_unsigned_spend`): with the token of each missing signature in its place, each input runs clean. [`finish`] puts in the signature by the key over the digest, with the byte 01
/// after it. A refusal is the first that holds: of the numbers of claims and outputs, of an output, of a claim, of the spend.
pub fn unsigned_spend(claims: &[Claim], outputs: &[Output], preimages: &[[u8; 32]]) -> Result<UnsignedSpend, Error> {
    ffi::same_abi()?;
    let given = Given::of(claims, outputs, preimages);
    let blank = raw::SignatureRow { input: 0, item: 0, key: [0; 33], digest: [0; 32] };
    let (mut tx, mut signatures) = (vec![0; 1024], vec![blank; 16]);
    loop {
        let mut answer = SPEND_ANSWER;
        match ffi::unsigned_spend(&given.asked(), &mut tx, &mut signatures, &mut answer) {
            raw::DONE => {
                tx.truncate(answer.bytes);
                let signatures = signatures[..answer.signatures].iter();
                let signatures = signatures.map(|it| MissingSignature { input: it.input, item: it.item, key: it.key, digest: it.digest }).collect();
                let id = Id { txid: answer.txid, shown: answer.shown_txid };
                return Ok(UnsignedSpend { tx, signatures, weight: answer.weight, fee_sat: answer.fee_sat, id });
            }
            raw::TOO_SMALL => {
                tx.resize(answer.bytes, 0);
                signatures.resize(answer.signatures, blank);
            }
            other => return Err(Error::about(other, answer.number, answer.about, answer.row)),
        }
    }
}

/// The transaction of [`unsigned_spend`] with signatures, one for each that it lacks, in their order: [`NoSignature`](crate::Refused::NoSignature) is of the first item whose signature is not the next.
/// Version, lock time and sequences are those of [`unsigned_spend`], from each claim's [`Due`]. Each is tested for its form and its place, and not for the curve: whether one is valid for
/// its key, nothing here asks.
///
/// Proved (`enforce_finish`): where each is the key's over the digest, each input runs clean. A refusal is the first that holds: of [`unsigned_spend`], then signature by signature.
pub fn finish(claims: &[Claim], outputs: &[Output], preimages: &[[u8; 32]], signed: &[Signed]) -> Result<Finished, Error> {
    ffi::same_abi()?;
    let mut given = Given::of(claims, outputs, preimages);
    let signed: Vec<_> = signed.iter().map(|it| given.signed(it)).collect();
    let mut tx = vec![0; 1024];
    loop {
        let mut answer = FINISH_ANSWER;
        match ffi::finish(&given.asked(), &signed, &mut tx, &mut answer) {
            raw::DONE => {
                tx.truncate(answer.bytes);
                return Ok(Finished { tx, id: Id { txid: answer.txid, shown: answer.shown_txid } });
            }
            raw::TOO_SMALL => tx.resize(answer.bytes, 0),
            other => return Err(Error::about(other, answer.number, answer.about, answer.row)),
        }
    }
}
