//! The calls of the library, with slices and references in place of pointers. All that is `unsafe` in this crate stands here and in the declarations.
//!
//! SAFETY, of each call: a pointer is of a value, or of a slice with that slice's length. Both are borrowed over the call, what is written exclusively, so it overlaps nothing; and none is NULL, also where a slice is empty.
use crate::error::Error;
use std::sync::OnceLock;

#[path = "raw.rs"]
pub mod raw;
use raw::*;

/// The number of the library that is linked, which is asked once; an error where it is not that of the declarations here.
pub fn same_abi() -> Result<(), Error> {
    static LINKED: OnceLock<u32> = OnceLock::new();
    let linked = *LINKED.get_or_init(|| unsafe { enforce_abi() });
    if linked == ABI { Ok(()) } else { Err(Error::OtherAbi { declared: ABI, linked }) }
}

pub fn script_list(script: &[u8], paths: &mut [PathRow], facts: &mut [FactRow], bytes: &mut [u8], answer: &mut Answer) -> u32 {
    unsafe {
        enforce_script_list(
            script.as_ptr(), script.len(), paths.as_mut_ptr(), paths.len(), facts.as_mut_ptr(), facts.len(), bytes.as_mut_ptr(), bytes.len(), answer,
        )
    }
}

pub fn script_text(script: &[u8], text: &mut [u8], answer: &mut Answer) -> u32 {
    unsafe { enforce_script_text(script.as_ptr(), script.len(), text.as_mut_ptr(), text.len(), answer) }
}

pub fn script_notes(script: &[u8], notes: &mut [NoteRow], answer: &mut NotesAnswer) -> u32 {
    unsafe { enforce_script_notes(script.as_ptr(), script.len(), notes.as_mut_ptr(), notes.len(), answer) }
}

pub fn path_slots(script: &[u8], path: usize, keys: &[KeyRow], preimages: &[PreimageRow], slots: &mut [SlotRow], bytes: &mut [u8], answer: &mut SlotsAnswer) -> u32 {
    unsafe {
        enforce_path_slots(
            script.as_ptr(), script.len(), path, keys.as_ptr(), keys.len(), preimages.as_ptr(), preimages.len(), slots.as_mut_ptr(), slots.len(),
            bytes.as_mut_ptr(), bytes.len(), answer,
        )
    }
}

pub fn script_program(script: &[u8], program: &mut [u8; 34]) {
    unsafe { enforce_script_program(script.as_ptr(), script.len(), program) }
}

pub fn form_script(form: &Form, script: &mut [u8], answer: &mut Answer) -> u32 {
    unsafe { enforce_form_script(form, script.as_mut_ptr(), script.len(), answer) }
}

pub fn claim(claim: &ClaimRow, slots: &[SlotRow], bytes: &[u8], due: &mut Due, answer: &mut Answer) -> u32 {
    unsafe { enforce_claim(claim, slots.as_ptr(), slots.len(), bytes.as_ptr(), bytes.len(), due, answer) }
}

/// What a spend is made of: rows, and the bytes that they refer to.
pub struct Asked<'a> {
    pub claims: &'a [ClaimRow],
    pub slots: &'a [SlotRow],
    pub outputs: &'a [OutputRow],
    pub preimages: &'a [PreimageRow],
    pub bytes: &'a [u8],
}

pub fn unsigned_spend(asked: &Asked, tx: &mut [u8], signatures: &mut [SignatureRow], answer: &mut SpendAnswer) -> u32 {
    let Asked { claims, slots, outputs, preimages, bytes } = asked;
    unsafe {
        enforce_unsigned_spend(
            claims.as_ptr(), claims.len(), slots.as_ptr(), slots.len(), outputs.as_ptr(), outputs.len(), preimages.as_ptr(), preimages.len(),
            bytes.as_ptr(), bytes.len(), tx.as_mut_ptr(), tx.len(), signatures.as_mut_ptr(), signatures.len(), answer,
        )
    }
}

pub fn finish(asked: &Asked, signed: &[SignedRow], tx: &mut [u8], answer: &mut FinishAnswer) -> u32 {
    let Asked { claims, slots, outputs, preimages, bytes } = asked;
    unsafe {
        enforce_finish(
            claims.as_ptr(), claims.len(), slots.as_ptr(), slots.len(), outputs.as_ptr(), outputs.len(), preimages.as_ptr(), preimages.len(),
            signed.as_ptr(), signed.len(), bytes.as_ptr(), bytes.len(), tx.as_mut_ptr(), tx.len(), answer,
        )
    }
}

/// The rows of what is found, with room for them.
#[derive(Default)]
pub struct Lists {
    pub claims: Vec<ClaimRow>,
    pub found: Vec<FoundRow>,
    pub slots: Vec<SlotRow>,
    pub others: Vec<OtherRow>,
    pub bytes: Vec<u8>,
}

pub fn revoked(commitment: &Commitment, htlcs: &[HtlcRow], tx: &[u8], confirmed_height: u32, lists: &mut Lists, answer: &mut FoundAnswer) -> u32 {
    let Lists { claims, found, slots, others, bytes } = lists;
    unsafe {
        enforce_revoked(
            commitment, htlcs.as_ptr(), htlcs.len(), tx.as_ptr(), tx.len(), confirmed_height, claims.as_mut_ptr(), claims.len(), found.as_mut_ptr(), found.len(),
            slots.as_mut_ptr(), slots.len(), others.as_mut_ptr(), others.len(), bytes.as_mut_ptr(), bytes.len(), answer,
        )
    }
}

/// What is asked of a close, beside the buffers.
pub struct Closed<'a> {
    pub whose: u32,
    pub commitment: &'a Commitment,
    pub htlcs: &'a [HtlcRow],
    pub feerate_per_kw: u32,
    pub preimages: &'a [PreimageRow],
    pub tx: &'a [u8],
    pub confirmed_height: u32,
}

pub fn close(asked: &Closed, lists: &mut Lists, answer: &mut FoundAnswer) -> u32 {
    let Closed { htlcs, preimages, tx, .. } = asked;
    let Lists { claims, found, slots, others, bytes } = lists;
    unsafe {
        enforce_close(
            asked.whose, asked.commitment, htlcs.as_ptr(), htlcs.len(), asked.feerate_per_kw, preimages.as_ptr(), preimages.len(), tx.as_ptr(), tx.len(),
            asked.confirmed_height, claims.as_mut_ptr(), claims.len(), found.as_mut_ptr(), found.len(), slots.as_mut_ptr(), slots.len(), others.as_mut_ptr(), others.len(),
            bytes.as_mut_ptr(), bytes.len(), answer,
        )
    }
}
