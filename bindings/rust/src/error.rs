//! Why a call gives nothing.
use crate::raw;
use std::error;
use std::fmt;

/// Why a call gives nothing. Indices count from 0, among what the call was given.
#[derive(Clone, Copy, Debug, PartialEq, Eq)]
#[non_exhaustive]
pub enum Error {
    /// The library that is linked has another ABI number than these declarations. It is asked at the first call, and nothing else is called.
    OtherAbi { declared: u32, linked: u32 },
    /// The call is refused.
    Refused(Refused),
    /// The claim at this index is refused, as [`Claim::accept`](crate::Claim::accept) would refuse it, or the spend for this claim.
    Claim { claim: usize, source: Refused },
    /// The output at this index is refused.
    Output { output: usize, source: Refused },
    /// The signature for this item of this input's witness is refused.
    Signature { input: usize, item: usize, source: Refused },
}

impl Error {
    /// The refusal, unless the library is another one.
    pub fn refused(&self) -> Option<&Refused> {
        match self {
            Error::OtherAbi { .. } => None,
            Error::Refused(source) | Error::Claim { source, .. } | Error::Output { source, .. } | Error::Signature { source, .. } => Some(source),
        }
    }

    /// The refusal of a status, with the number that the answer has.
    pub(crate) fn of(status: u32, number: usize) -> Error {
        Error::Refused(Refused::of(status, number))
    }

    /// The same, with what it is about.
    pub(crate) fn about(status: u32, number: usize, about: u32, row: usize) -> Error {
        let source = Refused::of(status, number);
        match about {
            raw::ABOUT_CLAIM => Error::Claim { claim: row, source },
            raw::ABOUT_OUTPUT => Error::Output { output: row, source },
            raw::ABOUT_SIGNATURE => Error::Signature { input: row, item: number, source },
            _ => Error::Refused(source),
        }
    }
}

impl fmt::Display for Error {
    fn fmt(&self, f: &mut fmt::Formatter) -> fmt::Result {
        match self {
            Error::OtherAbi { declared, linked } => write!(f, "the library has ABI {linked}, and these declarations have {declared}"),
            Error::Refused(refused) => refused.fmt(f),
            Error::Claim { claim, source } => match source {
                Refused::Unmet(slot) | Refused::NotAKey(slot) | Refused::ItemTooLong(slot) | Refused::NoSuchSlot(slot) => write!(f, "slot {slot} of claim {claim} is refused"),
                _ => write!(f, "claim {claim} is refused"),
            },
            Error::Output { output, .. } => write!(f, "output {output} is refused"),
            Error::Signature { input, item, .. } => write!(f, "the signature of item {item} of input {input} is refused"),
        }
    }
}

impl error::Error for Error {
    fn source(&self) -> Option<&(dyn error::Error + 'static)> {
        match self {
            Error::OtherAbi { .. } | Error::Refused(_) => None,
            Error::Claim { source, .. } | Error::Output { source, .. } | Error::Signature { source, .. } => Some(source),
        }
    }
}

/// Declares the refusals: each with its status, and with the number that it carries, if it carries one.
macro_rules! refusals {
    ($($(#[$doc:meta])* $name:ident $(($number:ident))? = $status:ident,)*) => {
        /// What is refused, by the word of its status.
        #[derive(Clone, Copy, Debug, PartialEq, Eq)]
        #[non_exhaustive]
        pub enum Refused {
            $($(#[$doc])* $name $(($number))?,)*
            /// A status that these declarations do not have, or that no value of these types asks for.
            Unknown(u32),
        }

        impl Refused {
            fn of(status: u32, number: usize) -> Refused {
                match status {
                    $(raw::$status => Refused::$name $((number as $number))?,)*
                    other => Refused::Unknown(other),
                }
            }

            /// The status of `docs/BINDINGS.md`.
            pub fn status(&self) -> u32 {
                match self {
                    $(refusals!(@pattern $name $($number)?) => raw::$status,)*
                    Refused::Unknown(status) => *status,
                }
            }
        }
    };
    (@pattern $name:ident) => { Refused::$name };
    (@pattern $name:ident $number:ident) => { Refused::$name(_) };
}

refusals! {
    NoMemory = NO_MEMORY,
    /// The byte at this position is not an opcode.
    BadOpcode(usize) = BAD_OPCODE,
    /// The push at this position has too few bytes after it.
    Truncated(usize) = TRUNCATED,
    /// The script has more than 10,000 bytes.
    TooLong = TOO_LONG,
    OpenBranch = OPEN_BRANCH,
    /// More than 201 opcodes count.
    TooManyOps = TOO_MANY_OPS,
    /// No rule decides the opcode at this index. It does not say that the script is bad.
    Undecided(usize) = UNDECIDED,
    /// A 65th path begins.
    TooManyPaths = TOO_MANY_PATHS,
    /// A path needs more than 1,000 stack elements.
    TooTall = TOO_TALL,
    /// The script has no path of this index.
    NoSuchPath = NO_SUCH_PATH,
    /// The number of slots is not that of the path.
    WrongArity = WRONG_ARITY,
    /// The slots do not show a fact of the path, which is about this slot; 0 where it is about the spend, which has not the path's lock.
    Unmet(usize) = UNMET,
    /// The path asks for one fact with both polarities.
    Contradiction = CONTRADICTION,
    /// The program is not that of the script.
    WrongProgram = WRONG_PROGRAM,
    /// The key of this slot; or of a form, 0 for revocation, 1 for the remote one, 2 for the local one.
    NotAKey(usize) = NOT_A_KEY,
    /// The expiry is 500,000,000 or more, which is a time and not a height.
    NotAHeight = NOT_A_HEIGHT,
    /// Two claims spend the same outpoint.
    SameOutpoint = SAME_OUTPOINT,
    /// The outputs are worth more than the claimed outputs together.
    OutputsExceed = OUTPUTS_EXCEED,
    /// The path of a claim asks for the length, the hash or the bytes of a signature.
    MeasuredSignature = MEASURED_SIGNATURE,
    /// No preimage is given for the hash of a slot.
    NoPreimage = NO_PREIMAGE,
    /// There is no claim, or a transaction has no input.
    NoInputs = NO_INPUTS,
    /// No witness of the transaction has an item.
    NoWitness = NO_WITNESS,
    /// The value of an output is above 21,000,000 bitcoins.
    ValueTooLarge = VALUE_TOO_LARGE,
    /// There are more than 4,000 claims or outputs, or a script of an output has more than 10,000 bytes; or a transaction is above a limit.
    OverLimit = OVER_LIMIT,
    /// The bytes of this slot are more than 520.
    ItemTooLong(usize) = ITEM_TOO_LONG,
    /// There is no slot of the kind of this one: no call reads [`Slot::Given`](crate::Slot::Given).
    NoSuchSlot(usize) = NO_SUCH_SLOT,
    /// The bytes of a transaction end within a field.
    TruncatedTransaction = TRUNCATED_TRANSACTION,
    /// A compactSize of a transaction is not minimal.
    LongCount = LONG_COUNT,
    /// There are bytes after the lock time of a transaction.
    Trailing = TRAILING,
    /// The key of a commitment, in the order of the fields, does not have the form of one.
    NotACommitmentKey(usize) = NOT_A_COMMITMENT_KEY,
    /// The expiry of the HTLC at this index is 500,000,000 or more, which is a time and not a height.
    ExpiryTooLarge(usize) = EXPIRY_TOO_LARGE,
    /// An item lacks a signature, and the next one that is given is not of it: the order is that of the missing signatures.
    NoSignature = NO_SIGNATURE,
    /// The signature is not in strict DER (BIP 66).
    NotDer = NOT_DER,
    /// The hash type of the signature is not ALL, the byte 01.
    NotSighashAll = NOT_SIGHASH_ALL,
    /// The signature is given after that of the last item that lacks one.
    NotAsked = NOT_ASKED,
}

impl fmt::Display for Refused {
    fn fmt(&self, f: &mut fmt::Formatter) -> fmt::Result {
        let name = raw::name(self.status());
        match self {
            Refused::BadOpcode(number) | Refused::Truncated(number) | Refused::Undecided(number) | Refused::Unmet(number) | Refused::NotAKey(number)
            | Refused::ItemTooLong(number) | Refused::NoSuchSlot(number) | Refused::NotACommitmentKey(number) | Refused::ExpiryTooLarge(number) => write!(f, "{name} {number}")?,
            Refused::Unknown(status) => write!(f, "{name} {status:#x}")?,
            _ => f.write_str(name)?,
        }
        write!(f, ": {}", raw::sentence(self.status()))
    }
}

impl error::Error for Refused {}
