// Package enforce has the ways through a version 0 witness script (BIP 141), the scripts of BOLT 3, and the spend of claims, unsigned and signed, by a library that is proved.
//
//	paths, err := enforce.Paths([]byte{0x63, 0x51, 0x67, 0x52, 0x68}) // IF 1 ELSE 2 ENDIF
//	fmt.Println(len(paths), err)                                      // 2 <nil>
//
// Nothing here signs, and nothing checks a signature but for its form. The keys are the caller's, and none is derived. Wants pkg-config to know enforce; where that tells of another library, `go clean -cache`. cgo, and the copies between the rows of C and the types
// here, are trusted. The command sign goes from a script to the signed transaction.
package enforce

/*
#cgo pkg-config: enforce
#include <enforce.h>
*/
import "C"

import "unsafe"

// Key is where a key comes from: bytes of the script, or else the slot that has it.
type Key struct {
	Bytes  []byte
	Slot   int
	IsSlot bool
}

// Fact is what a path asks of the witness or the spend: its kind, whether it is to hold, and what it says. Slots count from 0 at the top of the stack.
type Fact struct {
	Kind     FactKind
	Holds    bool
	Slots    []int
	Keys     []Key
	Constant []byte
	Number   uint64
}

// Path is a way through a script: whatever witness meets its facts runs clean. A lock below 500,000,000 is a height, else a time in seconds; the age is in blocks. What is nil is not checked.
type Path struct {
	Arity, Counted, Height int
	Lock                   *uint64
	Age                    *uint32
	Facts                  []Fact
}

// Word is the word of `enforce paths` for the kind.
func (kind FactKind) Word() string {
	return words[kind]
}

var words = map[FactKind]string{
	FactHash: "hash", FactSize: "size", FactTruth: "truth", FactIs: "is", FactKey: "key", FactForm: "form", FactSigned: "token", FactChoice: "assigned", FactLock: "lock", FactAge: "age",
}

// ReversedID is an id of a transaction in the other byte order: the hash's own is that of the rows here, and what nodes and explorers show is the other one.
func ReversedID(id [32]byte) (reversed [32]byte) {
	for i := range id {
		reversed[31-i] = id[i]
	}
	return
}

// The first of some values, for C. Where there is none it is another one, since the library is given no nil.
func first[T any](values []T) *T {
	if len(values) == 0 {
		return new(T)
	}
	return &values[0]
}

func bytesOf(data []byte) (*C.uint8_t, C.size_t) {
	return (*C.uint8_t)(unsafe.Pointer(first(data))), C.size_t(len(data))
}

type rows struct {
	paths []C.enforce_path_row
	facts []C.enforce_fact_row
	bytes []byte
}

func (r *rows) constant(row *C.enforce_fact_row) []byte {
	return append([]byte(nil), r.bytes[row.bytes_at:row.bytes_at+row.bytes_length]...)
}

func (r *rows) key(row *C.enforce_fact_row) Key {
	if row.key_is_slot {
		return Key{Slot: int(row.key_slot), IsSlot: true}
	}
	return Key{Bytes: r.constant(row)}
}

// The fact of these rows: the first, and those of a choice that follow it.
func (r *rows) fact(head *C.enforce_fact_row, choice []C.enforce_fact_row) Fact {
	fact := Fact{Kind: FactKind(head.kind), Holds: bool(head.holds), Number: uint64(head.number)}
	switch head.kind {
	case C.ENFORCE_FACT_LOCK, C.ENFORCE_FACT_AGE:
	case C.ENFORCE_FACT_SIGNED:
		fact.Slots, fact.Keys = []int{int(head.slot)}, []Key{r.key(head)}
	case C.ENFORCE_FACT_CHOICE:
		for i := range choice {
			if choice[i].kind == C.ENFORCE_FACT_CHOICE_SLOT {
				fact.Slots = append(fact.Slots, int(choice[i].slot))
			} else {
				fact.Keys = append(fact.Keys, r.key(&choice[i]))
			}
		}
	default:
		fact.Slots, fact.Constant = []int{int(head.slot)}, r.constant(head)
	}
	return fact
}

func (r *rows) path(row *C.enforce_path_row) Path {
	path := Path{Arity: int(row.arity), Counted: int(row.counted), Height: int(row.height)}
	if row.has_lock {
		lock := uint64(row.lock)
		path.Lock = &lock
	}
	if row.has_age {
		age := uint32(row.age)
		path.Age = &age
	}
	facts := r.facts[row.first_fact : row.first_fact+row.facts]
	for i := 0; i < len(facts); {
		end := i + 1
		for end < len(facts) && (facts[end].kind == C.ENFORCE_FACT_CHOICE_SLOT || facts[end].kind == C.ENFORCE_FACT_CHOICE_KEY) {
			end++
		}
		path.Facts = append(path.Facts, r.fact(&facts[i], facts[i+1:end]))
		i = end
	}
	return path
}

// Paths lists every way to spend an output with this script by the rules of the machine here, in the text order of its branches, and nothing else. Consensus is laxer: it may take a spend by a branch that is not
// listed.
//
// Proved of enforce_script_list: whatever meets a listed path runs clean, and whatever runs clean meets a listed path.
func Paths(script []byte) ([]Path, error) {
	if err := sameABI(); err != nil {
		return nil, err
	}
	r := rows{make([]C.enforce_path_row, 64), make([]C.enforce_fact_row, 128), make([]byte, 1024)}
	given, length := bytesOf(script)
	for {
		var answer C.enforce_answer
		data, size := bytesOf(r.bytes)
		status := C.enforce_script_list(given, length, first(r.paths), C.size_t(len(r.paths)), first(r.facts), C.size_t(len(r.facts)), data, size, &answer)
		switch status {
		case C.ENFORCE_DONE:
			paths := make([]Path, answer.paths)
			for i := range paths {
				paths[i] = r.path(&r.paths[i])
			}
			return paths, nil
		case C.ENFORCE_TOO_SMALL:
			r = rows{make([]C.enforce_path_row, answer.paths), make([]C.enforce_fact_row, answer.facts), make([]byte, answer.bytes)}
		default:
			return nil, refused(status, answer.number)
		}
	}
}

// Text is the text of `enforce paths` on this script, without notes. Proved of enforce_script_text: the text of the listing, or the stated refusal.
func Text(script []byte) (string, error) {
	if err := sameABI(); err != nil {
		return "", err
	}
	given, length := bytesOf(script)
	text := make([]byte, 4096)
	for {
		var answer C.enforce_answer
		data, size := bytesOf(text)
		switch status := C.enforce_script_text(given, length, data, size, &answer); status {
		case C.ENFORCE_DONE:
			return string(text[:answer.bytes]), nil
		case C.ENFORCE_TOO_SMALL:
			text = make([]byte, answer.bytes)
		default:
			return "", refused(status, answer.number)
		}
	}
}

// Note is what of a script endangers money, and the index of the path or of the opcode that it is about.
type Note struct {
	Kind NoteKind
	At   uint64
}

// Notes has what of a script endangers money.
//
// Proved of enforce_script_notes: those on paths are all that there are, and where nobody can spend, none can by consensus.
func Notes(script []byte) ([]Note, error) {
	if err := sameABI(); err != nil {
		return nil, err
	}
	given, length := bytesOf(script)
	rows := make([]C.enforce_note_row, 64)
	for {
		var answer C.enforce_notes_answer
		switch status := C.enforce_script_notes(given, length, first(rows), C.size_t(len(rows)), &answer); status {
		case C.ENFORCE_DONE:
			notes := make([]Note, answer.notes)
			for i := range notes {
				notes[i] = Note{NoteKind(rows[i].kind), uint64(rows[i].at)}
			}
			return notes, nil
		case C.ENFORCE_TOO_SMALL:
			rows = make([]C.enforce_note_row, answer.notes)
		default:
			return nil, refused(status, answer.number)
		}
	}
}

// Program is the program that an output with this script has (BIP 141, P2WSH): 00, 20 and the script's SHA-256. Proved of enforce_script_program.
func Program(script []byte) ([34]byte, error) {
	if err := sameABI(); err != nil {
		return [34]byte{}, err
	}
	var program [34]C.uint8_t
	given, length := bytesOf(script)
	C.enforce_script_program(given, length, &program)
	return *(*[34]byte)(unsafe.Pointer(&program)), nil
}

// Form is a form of BOLT 3, with the keys of its script by the names that BOLT 3 has for them: "local" is the commitment's owner. A field that the kind does not name is not read.
type Form struct {
	Kind FormKind
	// The keys of a funding output, in whichever order.
	Own, Peers [33]byte
	// The key that P2WPKH stands for: to_remote of a channel without anchors.
	Key [33]byte
	// Of to_local, and of HTLCs.
	Revocation [33]byte
	// Of to_local, after to_self_delay.
	Delayed     [33]byte
	DelayBlocks uint16
	// Of HTLCs; the expiry, which is below 500,000,000, of those alone that the owner received.
	RemoteHtlc, LocalHtlc [33]byte
	PaymentHash           [32]byte
	ExpiryHeight          uint32
}

func (f *Form) row() C.enforce_form {
	row := C.enforce_form{kind: C.uint32_t(f.Kind), expiry_height: C.uint32_t(f.ExpiryHeight), delay_blocks: C.uint16_t(f.DelayBlocks)}
	remote, local := f.RemoteHtlc, f.LocalHtlc
	switch f.Kind {
	case FormFunding:
		remote, local = f.Peers, f.Own
	case FormToLocal:
		local = f.Delayed
	case FormKeyHash:
		remote = f.Key
	}
	*(*[33]byte)(unsafe.Pointer(&row.revocation)), *(*[33]byte)(unsafe.Pointer(&row.remote)), *(*[33]byte)(unsafe.Pointer(&row.local)) = f.Revocation, remote, local
	*(*[32]byte)(unsafe.Pointer(&row.payment_hash)) = f.PaymentHash
	return row
}

// Script is the script of BOLT 3 with these keys and numbers. Proved of enforce_form_script: it, or the first refusal.
func (f *Form) Script() ([]byte, error) {
	if err := sameABI(); err != nil {
		return nil, err
	}
	form := f.row()
	script := make([]byte, 256)
	for {
		var answer C.enforce_answer
		data, size := bytesOf(script)
		switch status := C.enforce_form_script(&form, data, size, &answer); status {
		case C.ENFORCE_DONE:
			return script[:answer.bytes], nil
		case C.ENFORCE_TOO_SMALL:
			script = make([]byte, answer.bytes)
		default:
			return nil, refused(status, answer.number)
		}
	}
}
