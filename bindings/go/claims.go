package enforce

/*
#include <enforce.h>
*/
import "C"

import "unsafe"

// Slot is how a claim fills a slot of its path: the signature of a key, 32 bytes with this SHA-256, the peer's signature that was given over one transaction, or else these bytes, at most 520.
type Slot struct {
	Signature *[33]byte
	// Preimage is the SHA-256 of the preimage, which has 32 bytes. The script has the RIPEMD-160 of this hash: golang.org/x/crypto/ripemd160 makes it. A preimage of another length is Exact.
	Preimage *[32]byte
	Given    *GivenSignature
	Exact    []byte
}

// GivenSignature is the peer's signature by this key over this digest, which it gave over one transaction (BIP 144, without witnesses). The claim is of this transaction alone, and one's own signature is over the same
// digest.
type GivenSignature struct {
	Key    [33]byte
	Digest [32]byte
	Tx     []byte
}

// Claim is a claim on an output, by one path of its script. The id is in the hash's own byte order (ReversedID makes it of what nodes show), and the slots are the top of the stack first. The value and the program are
// those of the output, as a node's gettxout has them: nothing here knows the output.
type Claim struct {
	Txid            [32]byte
	Index           uint32
	Value           uint64
	Script, Program []byte
	Path            uint64
	Slots           []Slot
}

// Due is what the transaction that spends a claim has to have: the least lock time, as a height, and the sequence of the claim's input, an age in blocks.
type Due struct {
	// Height is 0 if the path checks none. A lock time of 118 lets block 119 have the transaction, at the earliest.
	Height uint64
	// Sequence is 0 if the path checks none.
	Sequence uint32
}

// Output is an output of a transaction: its value in satoshis, and its script.
type Output struct {
	Value  uint64
	Script []byte
}

// MissingSignature is a signature that a transaction lacks: the item at this place of this input's witness, by this key over this digest (BIP 143, SIGHASH_ALL). Items count from the deepest, and slots from the top: the
// item is the number of slots, less 1, less the slot.
type MissingSignature struct {
	Input, Item uint64
	Key         [33]byte
	Digest      [32]byte
}

// Spend is a transaction (BIP 144) with the empty item in the place of each signature, and the signatures that it lacks. The weight is in weight units (BIP 141), once it is signed, at most: each signature counts as 73
// bytes. The fee is in satoshis.
type Spend struct {
	Tx             []byte
	Missing        []MissingSignature
	Weight, FeeSat uint64
	ID             ID
}

// ID is the id of a transaction, signed or not: in the hash's own byte order, as a Claim has it, and in the other one, as nodes and explorers show it.
type ID struct {
	Txid, Shown [32]byte
}

func idOf(txid, shown *[32]C.uint8_t) ID {
	return ID{*(*[32]byte)(unsafe.Pointer(txid)), *(*[32]byte)(unsafe.Pointer(shown))}
}

// Signed is a signature for an item that lacks one: the input and the item of the MissingSignature, and strict DER (BIP 66) with the byte 01 after it.
type Signed struct {
	Input, Item uint64
	Signature   []byte
}

// The rows of slots, and the bytes that rows refer to.
type given struct {
	slots []C.enforce_slot_row
	bytes []byte
}

func (g *given) put(data []byte) (C.size_t, C.size_t) {
	at := len(g.bytes)
	g.bytes = append(g.bytes, data...)
	return C.size_t(at), C.size_t(len(data))
}

func (g *given) slot(slot *Slot) {
	var row C.enforce_slot_row
	switch {
	case slot.Signature != nil:
		row.kind = C.ENFORCE_SLOT_SIGNATURE
		*(*[33]byte)(unsafe.Pointer(&row.key)) = *slot.Signature
	case slot.Preimage != nil:
		row.kind = C.ENFORCE_SLOT_PREIMAGE
		*(*[32]byte)(unsafe.Pointer(&row.hash)) = *slot.Preimage
	case slot.Given != nil:
		row.kind = C.ENFORCE_SLOT_GIVEN
	default:
		row.kind = C.ENFORCE_SLOT_EXACT
		row.bytes_at, row.bytes_length = g.put(slot.Exact)
	}
	g.slots = append(g.slots, row)
}

func (g *given) claim(claim *Claim) C.enforce_claim_row {
	row := C.enforce_claim_row{index: C.uint32_t(claim.Index), value: C.uint64_t(claim.Value), path: C.size_t(claim.Path), first_slot: C.size_t(len(g.slots)), slots: C.size_t(len(claim.Slots))}
	*(*[32]byte)(unsafe.Pointer(&row.txid)) = claim.Txid
	row.script_at, row.script_length = g.put(claim.Script)
	row.program_at, row.program_length = g.put(claim.Program)
	for i := range claim.Slots {
		g.slot(&claim.Slots[i])
	}
	return row
}

func (g *given) output(output *Output) C.enforce_output_row {
	at, length := g.put(output.Script)
	return C.enforce_output_row{value: C.uint64_t(output.Value), script_at: at, script_length: length}
}

func (g *given) signed(signed *Signed) C.enforce_signed_row {
	at, length := g.put(signed.Signature)
	return C.enforce_signed_row{input: C.size_t(signed.Input), item: C.size_t(signed.Item), bytes_at: at, bytes_length: length}
}

// Each of some values as a row.
func rowsOf[T, R any](values []T, row func(*T) R) []R {
	found := make([]R, len(values))
	for i := range values {
		found[i] = row(&values[i])
	}
	return found
}

// Accept accepts a claim by one path of its script, and says when it is due.
//
// Proved of enforce_claim: whatever fills the slots as they say spends the output, in a transaction of version 2 with this sequence, whose lock time is a height (below 500,000,000) and not below this one. Signatures
// are tokens there; a path that measures none of them takes a valid signature as well (UnsignedSpend refuses the others).
func (claim *Claim) Accept() (Due, error) {
	if err := sameABI(); err != nil {
		return Due{}, err
	}
	var g given
	var due C.enforce_due
	var answer C.enforce_answer
	row := g.claim(claim)
	data, size := bytesOf(g.bytes)
	if status := C.enforce_claim(&row, first(g.slots), C.size_t(len(g.slots)), data, size, &due, &answer); status != C.ENFORCE_DONE {
		return Due{}, refused(status, answer.number)
	}
	return Due{uint64(due.height), uint32(due.sequence)}, nil
}

// PathSlots has the slots that a path of a script asks for. The keys are those that the caller can sign with, the preimages those that it knows: they are wanted where the path asks for their hashes, or for a choice.
//
// A key of the script that is not given is no refusal: the slot asks for its signature. Of a choice the given keys are taken, else the last ones. So compare the key of each MissingSignature with one's own. Without a
// preimage that the path asks for, the refusal is ErrUnmet. A preimage has 32 bytes: an Exact slot is for others.
//
// Proved of enforce_path_slots: a claim with these slots is accepted.
func PathSlots(script []byte, path uint64, keys [][33]byte, preimages [][32]byte) ([]Slot, error) {
	if err := sameABI(); err != nil {
		return nil, err
	}
	given, length := bytesOf(script)
	signers, secrets := (*C.enforce_key_row)(unsafe.Pointer(first(keys))), (*C.enforce_preimage_row)(unsafe.Pointer(first(preimages)))
	l := makeLists(0, 16, 0, 1024)
	for {
		var answer C.enforce_slots_answer
		data, size := bytesOf(l.bytes)
		status := C.enforce_path_slots(given, length, C.size_t(path), signers, C.size_t(len(keys)), secrets, C.size_t(len(preimages)), first(l.slots), C.size_t(len(l.slots)), data, size, &answer)
		switch status {
		case C.ENFORCE_DONE:
			slots := make([]Slot, answer.slots)
			for i := range slots {
				slots[i] = l.slot(&l.slots[i])
			}
			return slots, nil
		case C.ENFORCE_TOO_SMALL:
			l = makeLists(0, answer.slots, 0, answer.bytes)
		default:
			return nil, refused(status, answer.number)
		}
	}
}

// UnsignedSpend is the transaction that spends the outputs of claims, in which nothing is signed. It has version 2, as lock time the greatest Height of the claims' Due, and of each input the Sequence of its claim's. The
// weight does not depend on the values of outputs: a first call tells it, and a second has the fee.
//
// Proved of enforce_unsigned_spend: with the token of each missing signature in its place, each input runs clean. Finish puts in the signature by the key over the digest, with the byte 01 after it.
func UnsignedSpend(claims []Claim, outputs []Output, preimages [][32]byte) (Spend, error) {
	if err := sameABI(); err != nil {
		return Spend{}, err
	}
	var g given
	claimRows, outputRows := rowsOf(claims, g.claim), rowsOf(outputs, g.output)
	data, size := bytesOf(g.bytes)
	secrets := (*C.enforce_preimage_row)(unsafe.Pointer(first(preimages)))
	tx, signatures := make([]byte, 1024), make([]C.enforce_signature_row, 16)
	for {
		var answer C.enforce_spend_answer
		room, length := bytesOf(tx)
		status := C.enforce_unsigned_spend(first(claimRows), C.size_t(len(claimRows)), first(g.slots), C.size_t(len(g.slots)), first(outputRows), C.size_t(len(outputRows)),
			secrets, C.size_t(len(preimages)), data, size, room, length, first(signatures), C.size_t(len(signatures)), &answer)
		switch status {
		case C.ENFORCE_DONE:
			missing := make([]MissingSignature, answer.signatures)
			for i := range missing {
				row := &signatures[i]
				missing[i] = MissingSignature{uint64(row.input), uint64(row.item), *(*[33]byte)(unsafe.Pointer(&row.key)), *(*[32]byte)(unsafe.Pointer(&row.digest))}
			}
			return Spend{tx[:answer.bytes], missing, uint64(answer.weight), uint64(answer.fee_sat), idOf(&answer.txid, &answer.shown_txid)}, nil
		case C.ENFORCE_TOO_SMALL:
			tx, signatures = make([]byte, answer.bytes), make([]C.enforce_signature_row, answer.signatures)
		default:
			return Spend{}, refusedAbout(status, answer.number, answer.about, answer.row)
		}
	}
}

// Finish is the transaction of UnsignedSpend with signatures, one for each that it lacks, in their order: ErrNoSignature names the first item whose signature is not the next. Each is tested for its form and its place, and not for the curve: whether one is valid for its key, nothing here
// asks.
//
// Proved of enforce_finish: where each is the key's over the digest, each input runs clean.
func Finish(claims []Claim, outputs []Output, preimages [][32]byte, signed []Signed) ([]byte, ID, error) {
	if err := sameABI(); err != nil {
		return nil, ID{}, err
	}
	var g given
	claimRows, outputRows, signedRows := rowsOf(claims, g.claim), rowsOf(outputs, g.output), rowsOf(signed, g.signed)
	data, size := bytesOf(g.bytes)
	secrets := (*C.enforce_preimage_row)(unsafe.Pointer(first(preimages)))
	tx := make([]byte, 1024)
	for {
		var answer C.enforce_finish_answer
		room, length := bytesOf(tx)
		status := C.enforce_finish(first(claimRows), C.size_t(len(claimRows)), first(g.slots), C.size_t(len(g.slots)), first(outputRows), C.size_t(len(outputRows)),
			secrets, C.size_t(len(preimages)), first(signedRows), C.size_t(len(signedRows)), data, size, room, length, &answer)
		switch status {
		case C.ENFORCE_DONE:
			return tx[:answer.bytes], idOf(&answer.txid, &answer.shown_txid), nil
		case C.ENFORCE_TOO_SMALL:
			tx = make([]byte, answer.bytes)
		default:
			return nil, ID{}, refusedAbout(status, answer.number, answer.about, answer.row)
		}
	}
}
