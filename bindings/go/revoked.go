package enforce

/*
#include <enforce.h>
*/
import "C"

import "unsafe"

// Htlc is an HTLC of a commitment. The expiry is below 500,000,000, and the hash is SHA-256 of the payment preimage.
type Htlc struct {
	Direction    Direction
	ExpiryHeight uint32
	Hash         [32]byte
}

// Commitment is a commitment, by what its scripts are made of: the keys at its point (BOLT 3, "Key Derivation"), as its owner names them.
type Commitment struct {
	ChannelType                                        ChannelType
	DelayBlocks                                        uint16
	Revocation, Delayed, LocalHtlc, RemoteHtlc, Remote [33]byte
	Htlcs                                              []Htlc
	// Those of the channel's funding output, by which anchors are named; or nil.
	FundingKeys *FundingKeys
}

// FundingKeys has one's own key of a channel's funding output, and the peer's.
type FundingKeys struct {
	Own, Peers [33]byte
}

// FoundClaim is a claim, which output it is on, the first block that can have a transaction with it, and the first in which the other side can take the output; nil if it can't.
type FoundClaim struct {
	Claim          Claim
	Kind           OutputKind
	FromHeight     uint64
	DeadlineHeight *uint64
}

// Other is an output without a claim.
type Other struct {
	Index uint32
	Kind  OutputKind
}

// Found has the claims on outputs of a transaction, in their order, and the other outputs.
type Found struct {
	Claims []FoundClaim
	Others []Other
}

type lists struct {
	claims []C.enforce_claim_row
	found  []C.enforce_found_row
	slots  []C.enforce_slot_row
	others []C.enforce_other_row
	bytes  []byte
}

func makeLists(claims, slots, others, bytes C.size_t) lists {
	return lists{make([]C.enforce_claim_row, claims), make([]C.enforce_found_row, claims), make([]C.enforce_slot_row, slots), make([]C.enforce_other_row, others), make([]byte, bytes)}
}

func (l *lists) part(at, length C.size_t) []byte {
	return append([]byte(nil), l.bytes[at:at+length]...)
}

func (l *lists) slot(row *C.enforce_slot_row) Slot {
	switch row.kind {
	case C.ENFORCE_SLOT_SIGNATURE:
		key := *(*[33]byte)(unsafe.Pointer(&row.key))
		return Slot{Signature: &key}
	case C.ENFORCE_SLOT_PREIMAGE:
		hash := *(*[32]byte)(unsafe.Pointer(&row.hash))
		return Slot{Preimage: &hash}
	case C.ENFORCE_SLOT_GIVEN:
		return Slot{Given: &GivenSignature{*(*[33]byte)(unsafe.Pointer(&row.key)), *(*[32]byte)(unsafe.Pointer(&row.hash)), l.part(row.bytes_at, row.bytes_length)}}
	}
	return Slot{Exact: l.part(row.bytes_at, row.bytes_length)}
}

func (l *lists) claim(row *C.enforce_claim_row) Claim {
	claim := Claim{Txid: *(*[32]byte)(unsafe.Pointer(&row.txid)), Index: uint32(row.index), Value: uint64(row.value), Path: uint64(row.path)}
	claim.Script, claim.Program = l.part(row.script_at, row.script_length), l.part(row.program_at, row.program_length)
	slots := l.slots[row.first_slot : row.first_slot+row.slots]
	for i := range slots {
		claim.Slots = append(claim.Slots, l.slot(&slots[i]))
	}
	return claim
}

func (l *lists) told(claims, others C.size_t) Found {
	var found Found
	for _, it := range l.others[:others] {
		found.Others = append(found.Others, Other{uint32(it.index), OutputKind(it.kind)})
	}
	for i := range l.claims[:claims] {
		it := FoundClaim{Claim: l.claim(&l.claims[i]), Kind: OutputKind(l.found[i].kind), FromHeight: uint64(l.found[i].from_height)}
		if l.found[i].has_deadline {
			height := uint64(l.found[i].deadline_height)
			it.DeadlineHeight = &height
		}
		found.Claims = append(found.Claims, it)
	}
	return found
}

func (c *Commitment) rows() (C.enforce_commitment, []C.enforce_htlc_row) {
	row := C.enforce_commitment{channel_type: C.uint32_t(c.ChannelType), delay_blocks: C.uint16_t(c.DelayBlocks)}
	*(*[33]byte)(unsafe.Pointer(&row.revocation)), *(*[33]byte)(unsafe.Pointer(&row.delayed)) = c.Revocation, c.Delayed
	*(*[33]byte)(unsafe.Pointer(&row.local_htlc)), *(*[33]byte)(unsafe.Pointer(&row.remote_htlc)) = c.LocalHtlc, c.RemoteHtlc
	*(*[33]byte)(unsafe.Pointer(&row.remote)) = c.Remote
	if c.FundingKeys != nil {
		row.has_funding_keys = true
		*(*[33]byte)(unsafe.Pointer(&row.own_funding)), *(*[33]byte)(unsafe.Pointer(&row.peers_funding)) = c.FundingKeys.Own, c.FundingKeys.Peers
	}
	htlcs := make([]C.enforce_htlc_row, len(c.Htlcs))
	for i, it := range c.Htlcs {
		htlcs[i].direction, htlcs[i].expiry_height = C.uint32_t(it.Direction), C.uint32_t(it.ExpiryHeight)
		*(*[32]byte)(unsafe.Pointer(&htlcs[i].hash)) = it.Hash
	}
	return row, htlcs
}

// What a call finds: it is made again with room where there was not enough.
func filled(call func(l *lists, answer *C.enforce_found_answer) C.uint32_t) (Found, error) {
	l := makeLists(16, 32, 16, 4096)
	for {
		var answer C.enforce_found_answer
		switch status := call(&l, &answer); status {
		case C.ENFORCE_DONE:
			return l.told(answer.claims, answer.others), nil
		case C.ENFORCE_TOO_SMALL:
			l = makeLists(answer.claims, answer.slots, answer.others, answer.bytes)
		default:
			return Found{}, refused(status, answer.number)
		}
	}
}

// Revoked finds all that a revoked commitment lets its owner's peer claim of a transaction, with witnesses or without: the commitment, one of its HTLC transactions, or any other. A block of confirmedHeight has the
// transaction.
//
// Proved of enforce_revoked: each output is claimed, or is among the others; each claim is accepted, and is on the output that it says.
func Revoked(commitment *Commitment, tx []byte, confirmedHeight uint32) (Found, error) {
	if err := sameABI(); err != nil {
		return Found{}, err
	}
	row, htlcs := commitment.rows()
	given, length := bytesOf(tx)
	return filled(func(l *lists, answer *C.enforce_found_answer) C.uint32_t {
		data, size := bytesOf(l.bytes)
		return C.enforce_revoked(&row, first(htlcs), C.size_t(len(htlcs)), given, length, C.uint32_t(confirmedHeight), first(l.claims), C.size_t(len(l.claims)), first(l.found), C.size_t(len(l.found)),
			first(l.slots), C.size_t(len(l.slots)), first(l.others), C.size_t(len(l.others)), data, size, answer)
	})
}

// Close finds all that a commitment which closed the channel and is not revoked lets one claim of a transaction: of that commitment, of one's own HTLC transaction, or of any other. The feerate is the commitment's, by
// which one's own HTLC transactions pay. A block of confirmedHeight has the transaction.
//
// Proved of enforce_close: each output is claimed in each way that there is, or is among the others. An HTLC of one's own commitment is claimed by its HTLC transaction, where there are no anchors: the slot with Given has
// it, and UnsignedSpend refuses such a claim.
func Close(whose Whose, commitment *Commitment, feeratePerKw uint32, preimages [][32]byte, tx []byte, confirmedHeight uint32) (Found, error) {
	if err := sameABI(); err != nil {
		return Found{}, err
	}
	row, htlcs := commitment.rows()
	given, length := bytesOf(tx)
	known := make([]C.enforce_preimage_row, len(preimages))
	for i := range preimages {
		*(*[32]byte)(unsafe.Pointer(&known[i].bytes)) = preimages[i]
	}
	return filled(func(l *lists, answer *C.enforce_found_answer) C.uint32_t {
		data, size := bytesOf(l.bytes)
		return C.enforce_close(C.uint32_t(whose), &row, first(htlcs), C.size_t(len(htlcs)), C.uint32_t(feeratePerKw), first(known), C.size_t(len(known)), given, length, C.uint32_t(confirmedHeight),
			first(l.claims), C.size_t(len(l.claims)), first(l.found), C.size_t(len(l.found)), first(l.slots), C.size_t(len(l.slots)), first(l.others), C.size_t(len(l.others)), data, size, answer)
	})
}
