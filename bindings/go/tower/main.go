// A tower: from a transaction and what is known of a revoked commitment to the penalty that nobody has signed yet. Reads words from standard input, which c/tower.c names.
package main

import (
	"bufio"
	"encoding/hex"
	"fmt"
	"os"

	"enforce"
)

func bytes(word string) []byte {
	found, _ := hex.DecodeString(word)
	return found
}

func main() {
	var c enforce.Commitment
	var htlc enforce.Htlc
	var tx, program, hash string
	var keys [5]string
	var height uint32
	var fee, value uint64
	in := bufio.NewReader(os.Stdin)
	fmt.Fscan(in, &tx, &c.ChannelType, &c.DelayBlocks, &keys[0], &keys[1], &keys[2], &keys[3], &keys[4], &height, &program, &fee)
	for i, key := range []*[33]byte{&c.Revocation, &c.Delayed, &c.LocalHtlc, &c.RemoteHtlc, &c.Remote} {
		copy(key[:], bytes(keys[i]))
	}
	for n, _ := fmt.Fscan(in, &htlc.Direction, &htlc.ExpiryHeight, &hash); n == 3; n, _ = fmt.Fscan(in, &htlc.Direction, &htlc.ExpiryHeight, &hash) {
		copy(htlc.Hash[:], bytes(hash))
		c.Htlcs = append(c.Htlcs, htlc)
	}
	found, err := enforce.Revoked(&c, bytes(tx), height)
	var claims []enforce.Claim
	for _, it := range found.Claims {
		until := uint64(0)
		if it.DeadlineHeight != nil {
			until = *it.DeadlineHeight
		}
		fmt.Println("claim", it.Claim.Index, "kind", it.Kind, "until", until)
		claims, value = append(claims, it.Claim), value+it.Claim.Value
	}
	for _, it := range found.Others {
		fmt.Println("other", it.Index)
	}
	if fee > value {
		fee = value
	}
	spend, refused := enforce.UnsignedSpend(claims, []enforce.Output{{Value: value - fee, Script: bytes(program)}}, nil)
	if err != nil || refused != nil {
		fmt.Println("refused", err, refused)
		os.Exit(1)
	}
	fmt.Printf("tx %x\n", spend.Tx)
	for _, it := range spend.Missing {
		fmt.Printf("sign %d %d %x %x\n", it.Input, it.Item, it.Key, it.Digest)
	}
}
