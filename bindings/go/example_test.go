package enforce_test

import (
	"errors"
	"fmt"

	"enforce"
)

func ExamplePaths() {
	paths, err := enforce.Paths([]byte{0x63, 0x51, 0x67, 0x52, 0x68}) // IF 1 ELSE 2 ENDIF
	fmt.Println(len(paths), paths[0].Arity, err)
	// Output: 2 1 <nil>
}

func ExampleRefused() {
	_, err := enforce.Paths([]byte{0x51, 0xff})
	var refused *enforce.Refused
	fmt.Println(errors.Is(err, enforce.ErrBadOpcode), errors.Is(err, enforce.ErrTruncated))
	fmt.Println(errors.As(err, &refused), refused.Number)
	fmt.Println(errors.Unwrap(err))
	// Output:
	// true false
	// true 1
	// BadOpcode: A byte of the script is none of the opcodes that are listed here, though it may be one of Bitcoin's, as SHA256; the answer has its position.
}

func ExampleForm_Script() {
	form := enforce.Form{Kind: enforce.FormToLocal, DelayBlocks: 144}
	form.Revocation[0], form.Revocation[32] = 2, 1
	form.Delayed[0], form.Delayed[32] = 3, 2
	script, err := form.Script()
	fmt.Println(len(script), err)
	paths, err := enforce.Paths(script)
	fmt.Println(paths[0].Age == nil, *paths[1].Age, err)
	// Output:
	// 77 <nil>
	// true 144 <nil>
}

func ExampleClaim_Accept() {
	script := []byte{0x51} // 1: anyone can spend
	program, _ := enforce.Program(script)
	claim := enforce.Claim{Value: 1_000, Script: script, Program: program[:], Path: 1}
	_, err := claim.Accept()
	fmt.Println(errors.Is(err, enforce.ErrNoSuchPath))
	claim.Path = 0
	due, err := claim.Accept()
	fmt.Println(due.Height, due.Sequence, err)
	// Output:
	// true
	// 0 0 <nil>
}

func ExampleUnsignedSpend() {
	script := []byte{0x51} // 1: anyone can spend
	program, _ := enforce.Program(script)
	claim := enforce.Claim{Value: 1_000, Script: script, Program: program[:]}
	spend, err := enforce.UnsignedSpend([]enforce.Claim{claim}, []enforce.Output{{Value: 800, Script: script}}, nil)
	fmt.Println(len(spend.Missing), spend.Weight, spend.FeeSat, err)
	other := claim
	other.Index, other.Slots = 1, []enforce.Slot{{Exact: make([]byte, 521)}}
	_, err = enforce.UnsignedSpend([]enforce.Claim{claim, other}, nil, nil)
	var refused *enforce.Refused
	fmt.Println(errors.As(err, &refused), refused.About == enforce.AboutClaim, refused.Row, refused.Number, err)
	// Output:
	// 0 249 200 <nil>
	// true true 1 0 ItemTooLong at slot 0 of claim 1
}
