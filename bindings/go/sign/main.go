// From a to_local script to the signed transaction that takes its output after the delay. Reads words from standard input, which c/sign.c names. Signs by btcec; in its version 2 PrivKeyFromBytes takes no curve, and
// ecdsa.Sign signs.
package main

import (
	"encoding/hex"
	"fmt"
	"log"
	"os"

	"enforce"

	"github.com/btcsuite/btcd/btcec"
)

// A value, or the end of the program.
func must[T any](value T, err error) T {
	if err != nil {
		log.Fatal(err)
	}
	return value
}

func bytes(word string) []byte { return must(hex.DecodeString(word)) }

func main() {
	var secret, revocation, txid, program string
	var fee uint64
	form, claim := enforce.Form{Kind: enforce.FormToLocal}, enforce.Claim{}
	must(fmt.Fscan(os.Stdin, &secret, &revocation, &form.DelayBlocks, &txid, &claim.Index, &claim.Value, &fee, &program))
	signer, key := btcec.PrivKeyFromBytes(btcec.S256(), bytes(secret))
	copy(form.Revocation[:], bytes(revocation))
	copy(form.Delayed[:], key.SerializeCompressed())
	claim.Script = must(form.Script())
	for at, path := range must(enforce.Paths(claim.Script)) {
		if path.Age != nil {
			claim.Path = uint64(at)
		}
	}
	scriptProgram := must(enforce.Program(claim.Script))
	claim.Program = scriptProgram[:]
	copy(claim.Txid[:], bytes(txid))
	claim.Txid = enforce.ReversedID(claim.Txid)
	claim.Slots = must(enforce.PathSlots(claim.Script, claim.Path, [][33]byte{form.Delayed}, nil))
	log.Println("can be mined", must(claim.Accept()).Sequence, "blocks after its output")
	claims, outputs := []enforce.Claim{claim}, []enforce.Output{{Value: claim.Value - fee, Script: bytes(program)}}
	var signed []enforce.Signed
	for _, it := range must(enforce.UnsignedSpend(claims, outputs, nil)).Missing {
		signature := must(signer.Sign(it.Digest[:])).Serialize()
		signed = append(signed, enforce.Signed{Input: it.Input, Item: it.Item, Signature: append(signature, 1)}) // SIGHASH_ALL
	}
	tx, _, err := enforce.Finish(claims, outputs, nil, signed)
	fmt.Printf("%x\n", must(tx, err))
}
