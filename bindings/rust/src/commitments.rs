//! What a transaction lets one claim, by a commitment.
use crate::claims::{Claim, SLOT, Slot};
use crate::error::Error;
use crate::ffi::{self, Lists};
use crate::raw;

/// The type of a channel (BOLT 9).
#[derive(Clone, Copy, Debug, PartialEq, Eq)]
#[repr(u32)]
pub enum ChannelType {
    /// `option_static_remotekey`, without anchors.
    StaticRemoteKey = raw::CHANNEL_STATIC_REMOTE_KEY,
    Anchors = raw::CHANNEL_ANCHORS,
}

/// Whether the owner of a commitment offered an HTLC or received it.
#[derive(Clone, Copy, Debug, PartialEq, Eq)]
#[repr(u32)]
pub enum Direction {
    Offered = raw::DIRECTION_OFFERED,
    Received = raw::DIRECTION_RECEIVED,
}

/// An HTLC of a commitment.
#[derive(Clone, Copy, Debug, PartialEq, Eq)]
pub struct Htlc {
    pub direction: Direction,
    /// cltv_expiry, below 500,000,000.
    pub expiry_height: u32,
    /// SHA-256 of the payment preimage.
    pub hash: [u8; 32],
}

/// A commitment, by what its scripts are made of: the keys at its point (BOLT 3, "Key Derivation"), as its owner names them.
#[derive(Clone, Debug, PartialEq, Eq)]
pub struct Commitment {
    pub channel_type: ChannelType,
    /// to_self_delay.
    pub delay_blocks: u16,
    pub revocation: [u8; 33],
    pub delayed: [u8; 33],
    pub local_htlc: [u8; 33],
    pub remote_htlc: [u8; 33],
    pub remote: [u8; 33],
    /// In any order.
    pub htlcs: Vec<Htlc>,
    /// Those of the channel's funding output, by which anchors are named.
    pub funding_keys: Option<FundingKeys>,
}

/// The keys of a channel's funding output.
#[derive(Clone, Copy, Debug, PartialEq, Eq)]
pub struct FundingKeys {
    /// One's own.
    pub own: [u8; 33],
    pub peers: [u8; 33],
}

/// Whose commitment closed a channel.
#[derive(Clone, Copy, Debug, PartialEq, Eq)]
#[repr(u32)]
pub enum Whose {
    /// One's own, the newest.
    Own = raw::CLOSE_OWN,
    /// The peer's newest, or the one after it, while the newest is not revoked.
    Peers = raw::CLOSE_PEERS,
}

/// An output of a commitment.
#[derive(Clone, Copy, Debug, PartialEq, Eq)]
#[repr(u32)]
pub enum OutputKind {
    Unknown = raw::OUTPUT_UNKNOWN,
    /// To the owner, after the delay. The output of an HTLC transaction has the same script.
    ToLocal = raw::OUTPUT_TO_LOCAL,
    ToRemote = raw::OUTPUT_TO_REMOTE,
    Offered = raw::OUTPUT_OFFERED,
    Received = raw::OUTPUT_RECEIVED,
    OwnAnchor = raw::OUTPUT_OWN_ANCHOR,
    PeersAnchor = raw::OUTPUT_PEERS_ANCHOR,
}

impl OutputKind {
    fn of(kind: u32) -> OutputKind {
        match kind {
            raw::OUTPUT_TO_LOCAL => OutputKind::ToLocal,
            raw::OUTPUT_TO_REMOTE => OutputKind::ToRemote,
            raw::OUTPUT_OFFERED => OutputKind::Offered,
            raw::OUTPUT_RECEIVED => OutputKind::Received,
            raw::OUTPUT_OWN_ANCHOR => OutputKind::OwnAnchor,
            raw::OUTPUT_PEERS_ANCHOR => OutputKind::PeersAnchor,
            _ => OutputKind::Unknown,
        }
    }
}

/// A claim on an output of a transaction.
#[derive(Clone, Debug, PartialEq, Eq)]
pub struct FoundClaim {
    pub claim: Claim,
    pub kind: OutputKind,
    /// The first block that can have a transaction with the claim.
    pub from_height: u64,
    /// The first block in which the other side can take the output, if it can.
    pub deadline_height: Option<u64>,
}

/// An output without a claim.
#[derive(Clone, Copy, Debug, PartialEq, Eq)]
pub struct Other {
    pub index: u32,
    pub kind: OutputKind,
}

/// What was found in a transaction.
#[derive(Clone, Debug, PartialEq, Eq)]
pub struct Found {
    /// In the order of the outputs.
    pub claims: Vec<FoundClaim>,
    /// The other outputs.
    pub others: Vec<Other>,
}

impl Lists {
    fn make_room(&mut self, claims: usize, slots: usize, others: usize, bytes: usize) {
        let claim =
            raw::ClaimRow { txid: [0; 32], index: 0, value: 0, script_at: 0, script_length: 0, program_at: 0, program_length: 0, path: 0, first_slot: 0, slots: 0 };
        self.claims.resize(claims, claim);
        self.found.resize(claims, raw::FoundRow { kind: 0, has_deadline: false, from_height: 0, deadline_height: 0 });
        self.slots.resize(slots, SLOT);
        self.others.resize(others, raw::OtherRow { index: 0, kind: 0 });
        self.bytes.resize(bytes, 0);
    }

    fn part(&self, at: usize, length: usize) -> Vec<u8> {
        self.bytes[at..at + length].to_vec()
    }

    fn claim(&self, row: &raw::ClaimRow) -> Claim {
        Claim {
            txid: row.txid,
            index: row.index,
            value: row.value,
            script: self.part(row.script_at, row.script_length),
            program: self.part(row.program_at, row.program_length),
            path: row.path,
            slots: self.slots[row.first_slot..row.first_slot + row.slots].iter().map(|it| Slot::of(it, &self.bytes)).collect(),
        }
    }

    fn found(&self, answer: &raw::FoundAnswer) -> Found {
        let claims = self.claims[..answer.claims].iter().zip(&self.found).map(|(claim, row)| FoundClaim {
            claim: self.claim(claim),
            kind: OutputKind::of(row.kind),
            from_height: row.from_height,
            deadline_height: row.has_deadline.then_some(row.deadline_height),
        });
        let others = self.others[..answer.others].iter().map(|it| Other { index: it.index, kind: OutputKind::of(it.kind) });
        Found { claims: claims.collect(), others: others.collect() }
    }

    /// What is found by a call, which gets the buffers: it is made again with room where there was not enough.
    fn filled(mut self, call: impl Fn(&mut Lists, &mut raw::FoundAnswer) -> u32) -> Result<Found, Error> {
        self.make_room(16, 32, 16, 4096);
        loop {
            let mut answer = raw::FoundAnswer { claims: 0, slots: 0, others: 0, bytes: 0, number: 0 };
            match call(&mut self, &mut answer) {
                raw::DONE => return Ok(self.found(&answer)),
                raw::TOO_SMALL => self.make_room(answer.claims, answer.slots, answer.others, answer.bytes),
                other => return Err(Error::of(other, answer.number)),
            }
        }
    }
}

impl Commitment {
    fn raw(&self) -> (raw::Commitment, Vec<raw::HtlcRow>) {
        let channel_type = self.channel_type as u32;
        let htlcs = self.htlcs.iter().map(|it| raw::HtlcRow { direction: it.direction as u32, expiry_height: it.expiry_height, hash: it.hash });
        let Commitment { delay_blocks, revocation, delayed, local_htlc, remote_htlc, remote, funding_keys, .. } = *self;
        let FundingKeys { own: own_funding, peers: peers_funding } = funding_keys.unwrap_or(FundingKeys { own: [0; 33], peers: [0; 33] });
        let has_funding_keys = funding_keys.is_some();
        let row = raw::Commitment {
            channel_type, delay_blocks, revocation, delayed, local_htlc, remote_htlc, remote, has_funding_keys, own_funding, peers_funding,
        };
        (row, htlcs.collect())
    }
}

/// All that a revoked commitment lets its owner's peer claim of a transaction, with witnesses or without: the commitment, one of its HTLC transactions, or any other. A block of
/// `confirmed_height` has the transaction.
///
/// Proved (`enforce_revoked`): each output is claimed, or is among the others; each claim is accepted, and is on the output that it says. A refusal is the first that holds: of a
/// key, of an HTLC, of the transaction's bytes.
pub fn revoked(commitment: &Commitment, tx: &[u8], confirmed_height: u32) -> Result<Found, Error> {
    ffi::same_abi()?;
    let (given, htlcs) = commitment.raw();
    Lists::default().filled(|lists, answer| ffi::revoked(&given, &htlcs, tx, confirmed_height, lists, answer))
}

/// All that a commitment which closed the channel and is not revoked lets one claim of a transaction: of that commitment, of one's own HTLC transaction, or of any other. The feerate is
/// the commitment's, by which one's own HTLC transactions pay. A block of `confirmed_height` has the transaction.
///
/// Proved (`enforce_close`): each output is claimed in each way that there is, or is among the others. An HTLC of one's own commitment is claimed by its HTLC transaction, where there are
/// no anchors: [`Slot::Given`] has it, and [`unsigned_spend`](crate::unsigned_spend) refuses such a claim. A refusal is the first that holds: of a key, of an HTLC, of the transaction's bytes.
pub fn close(
    whose: Whose,
    commitment: &Commitment,
    feerate_per_kw: u32,
    preimages: &[[u8; 32]],
    tx: &[u8],
    confirmed_height: u32,
) -> Result<Found, Error> {
    ffi::same_abi()?;
    let (given, htlcs) = commitment.raw();
    let preimages: Vec<_> = preimages.iter().map(|it| raw::PreimageRow { bytes: *it }).collect();
    let asked = ffi::Closed { whose: whose as u32, commitment: &given, htlcs: &htlcs, feerate_per_kw, preimages: &preimages, tx, confirmed_height };
    Lists::default().filled(|lists, answer| ffi::close(&asked, lists, answer))
}
