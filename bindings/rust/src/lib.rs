//! The ways through a version 0 witness script (BIP 141), the scripts of BOLT 3, and the spend of claims, unsigned and signed, by a library that is proved.
//!
//! Nothing here signs, and nothing checks a signature but for its form. The keys are the caller's, and none is derived.
//!
//! ```
//! let paths = enforce::paths(&[0x63, 0x51, 0x67, 0x52, 0x68])?; // IF 1 ELSE 2 ENDIF
//! assert_eq!(paths.len(), 2);
//! # Ok::<(), enforce::Error>(())
//! ```
//!
//! What is proved of each call stands in `docs/BINDINGS.md` of the repository, and beside each function here. The calls of `ffi`, the copies
//! between the rows of [`raw`] and the types here, and the linker are trusted. `examples/sign.rs` goes from a script to the signed transaction.
#![deny(unsafe_code)]

mod claims;
mod commitments;
mod error;
#[allow(unsafe_code)]
mod ffi;
mod scripts;

pub use claims::{Claim, Due, Finished, Id, MissingSignature, Output, Signed, Slot, UnsignedSpend, finish, path_slots, unsigned_spend};
pub use commitments::{ChannelType, Commitment, Direction, Found, FoundClaim, FundingKeys, Htlc, Other, OutputKind, Whose, close, revoked};
pub use error::{Error, Refused};
pub use ffi::raw;
pub use scripts::{Fact, Form, HtlcForm, KeySource, Note, Path, Stated, notes, paths, program, text};

/// An id of a transaction or of a block in the other byte order: a hash's own is that of the rows here, and what nodes and explorers show is the other one.
pub fn reversed_id(mut id: [u8; 32]) -> [u8; 32] {
    id.reverse();
    id
}
