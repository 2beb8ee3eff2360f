package enforce

/*
#include <enforce.h>
*/
import "C"

import (
	"fmt"
	"strings"
	"sync"
)

// Error is the word of the status and what it says. Each status but Done is an error of its own: errors.Is(err, enforce.ErrBadOpcode) asks for one.
func (s Status) Error() string {
	return C.GoString(C.enforce_name(C.uint32_t(s))) + ": " + C.GoString(C.enforce_sentence(C.uint32_t(s)))
}

// Refused is why a call gives nothing. errors.As finds it, and errors.Is its status.
type Refused struct {
	Status Status
	// The position or the index that some refusals carry, as their statuses say: of a claim's slot, and of a signature's item, too. Of ErrUnmet, 0 is slot 0, or stands for the spend, which has not the path's lock.
	Number uint64
	// What it is about, and the index of that claim, output or input, from 0.
	About About
	Row   uint64
}

func (r *Refused) Error() string {
	name, at := C.GoString(C.enforce_name(C.uint32_t(r.Status))), []string{}
	switch r.Status {
	case ErrBadOpcode, ErrTruncated:
		at = append(at, fmt.Sprintf("byte %d", r.Number))
	case ErrUndecided:
		at = append(at, fmt.Sprintf("opcode %d", r.Number))
	case ErrUnmet, ErrNoSuchSlot, ErrItemTooLong, ErrSlotOutOfRange:
		at = append(at, fmt.Sprintf("slot %d", r.Number))
	case ErrNotAKey:
		// of a form it is a key, of a claim the slot that has it
		if r.About == AboutClaim {
			at = append(at, fmt.Sprintf("slot %d", r.Number))
		} else {
			at = append(at, fmt.Sprintf("key %d", r.Number))
		}
	case ErrNotACommitmentKey:
		at = append(at, fmt.Sprintf("key %d", r.Number))
	case ErrNoSuchDirection, ErrExpiryTooLarge:
		at = append(at, fmt.Sprintf("HTLC %d", r.Number))
	case ErrNoSignature, ErrSignatureOutOfRange, ErrNotDer, ErrNotSighashAll, ErrNotAsked:
		at = append(at, fmt.Sprintf("item %d", r.Number))
	}
	switch r.About {
	case AboutOutput:
		at = append(at, fmt.Sprintf("output %d", r.Row))
	case AboutClaim:
		at = append(at, fmt.Sprintf("claim %d", r.Row))
	case AboutSignature:
		at = append(at, fmt.Sprintf("input %d", r.Row))
	}
	if len(at) == 0 {
		return name
	}
	return name + " at " + strings.Join(at, " of ")
}

// Unwrap is the status.
func (r *Refused) Unwrap() error {
	return r.Status
}

func refused(status C.uint32_t, number C.size_t) error {
	return &Refused{Status: Status(status), Number: uint64(number)}
}

func refusedAbout(status C.uint32_t, number C.size_t, about C.uint32_t, row C.size_t) error {
	return &Refused{Status(status), uint64(number), About(about), uint64(row)}
}

// OtherABI is the error of each call where the library that is linked has another number than enforce.h.
type OtherABI struct {
	Declared, Linked uint32
}

func (e *OtherABI) Error() string {
	return fmt.Sprintf("the library has ABI %d, and enforce.h has %d", e.Linked, e.Declared)
}

var (
	asked  sync.Once
	linked uint32
)

// Asks the library's number once.
func sameABI() error {
	asked.Do(func() { linked = uint32(C.enforce_abi()) })
	if linked != C.ENFORCE_ABI {
		return &OtherABI{C.ENFORCE_ABI, linked}
	}
	return nil
}
