// Makes the calls that standard input names, a line each, and prints what each answers, as bindings/tests/answers.c does.
package main

import (
	"bufio"
	"encoding/hex"
	"fmt"
	"os"
	"regexp"
	"strconv"
	"strings"

	"enforce"
)

func data(text string) []byte {
	if text == "-" {
		return nil
	}
	found, err := hex.DecodeString(text)
	if err != nil {
		panic(err)
	}
	return found
}

func key(text string) (found [33]byte)  { copy(found[:], data(text)); return }
func hash(text string) (found [32]byte) { copy(found[:], data(text)); return }

func number(text string) uint64 {
	found, err := strconv.ParseUint(text, 10, 64)
	if err != nil {
		panic(err)
	}
	return found
}

// The parts of a list, which may be empty.
func parts(list, separator string) []string {
	if list == "-" {
		return nil
	}
	return strings.Split(list, separator)
}

func shownKeys(keys []enforce.Key) string {
	var found []string
	for _, it := range keys {
		if it.IsSlot {
			found = append(found, fmt.Sprintf("slot %d", it.Slot))
		} else {
			found = append(found, hex.EncodeToString(it.Bytes))
		}
	}
	return strings.Join(found, ",")
}

func stated(fact *enforce.Fact) string {
	holds := map[bool]string{true: "yes", false: "no"}[fact.Holds]
	slots := strings.ReplaceAll(strings.Trim(fmt.Sprint(fact.Slots), "[]"), " ", ",")
	constant := hex.EncodeToString(fact.Constant)
	if constant == "" {
		constant = "-"
	}
	word := fact.Kind.Word()
	switch word {
	case "hash", "is":
		return fmt.Sprintf("%s %s %s %s", word, slots, constant, holds)
	case "size":
		return fmt.Sprintf("size %s %d %s", slots, fact.Number, holds)
	case "truth":
		return fmt.Sprintf("truth %s %s", slots, holds)
	case "token", "assigned":
		return fmt.Sprintf("%s %s %s %s", word, slots, shownKeys(fact.Keys), holds)
	case "lock", "age":
		return fmt.Sprintf("%s %d", word, fact.Number)
	}
	return fmt.Sprintf("%s %s", word, slots)
}

func listing(script []byte) (string, error) {
	paths, err := enforce.Paths(script)
	if err != nil {
		return "", err
	}
	text := fmt.Sprintf("paths %d\n", len(paths))
	for k, it := range paths {
		lock, age := "-", "-"
		if it.Lock != nil {
			lock = fmt.Sprint(*it.Lock)
		}
		if it.Age != nil {
			age = fmt.Sprint(*it.Age)
		}
		text += fmt.Sprintf("path %d arity %d counted %d height %d lock %s age %s\n", k, it.Arity, it.Counted, it.Height, lock, age)
		for i := range it.Facts {
			text += "  " + stated(&it.Facts[i]) + "\n"
		}
	}
	return text, nil
}

func claim(text string) enforce.Claim {
	p := strings.Split(text, "/")
	found := enforce.Claim{Script: data(p[0]), Program: data(p[1]), Txid: hash(p[2]), Index: uint32(number(p[3])), Value: number(p[4]), Path: number(p[5])}
	for _, it := range parts(p[6], ",") {
		slot := enforce.Slot{}
		switch it[:2] {
		case "s=":
			signer := key(it[2:])
			slot.Signature = &signer
		case "p=":
			image := hash(it[2:])
			slot.Preimage = &image
		default:
			slot.Exact = data(it[2:])
		}
		found.Slots = append(found.Slots, slot)
	}
	return found
}

// The claims, the outputs and the preimages of a spend.
func asked(words []string) (claims []enforce.Claim, outputs []enforce.Output, preimages [][32]byte) {
	for _, it := range parts(words[0], ";") {
		claims = append(claims, claim(it))
	}
	for _, it := range parts(words[1], ";") {
		value, script, _ := strings.Cut(it, "/")
		outputs = append(outputs, enforce.Output{Value: number(value), Script: data(script)})
	}
	for _, it := range parts(words[2], ",") {
		preimages = append(preimages, hash(it))
	}
	return
}

func finish(words []string) (string, error) {
	claims, outputs, preimages := asked(words)
	var signed []enforce.Signed
	for _, it := range parts(words[3], ",") {
		p := strings.Split(it, "/")
		signed = append(signed, enforce.Signed{Input: number(p[0]), Item: number(p[1]), Signature: data(p[2])})
	}
	tx, id, err := enforce.Finish(claims, outputs, preimages, signed)
	return fmt.Sprintf("tx %x\n%s", tx, ids(id)), err
}

func ids(id enforce.ID) string {
	return fmt.Sprintf("txid %x shown %x\n", id.Txid, id.Shown)
}

func spend(words []string) (string, error) {
	found, err := enforce.UnsignedSpend(asked(words))
	text := fmt.Sprintf("tx %x\nweight %d fee %d\n%s", found.Tx, found.Weight, found.FeeSat, ids(found.ID))
	for _, it := range found.Missing {
		text += fmt.Sprintf("sign %d %d %x %x\n", it.Input, it.Item, it.Key, it.Digest)
	}
	return text, err
}

func commitment(text, htlcs string) *enforce.Commitment {
	p := strings.Split(text, "/")
	found := &enforce.Commitment{ChannelType: enforce.ChannelType(number(p[0])), DelayBlocks: uint16(number(p[1])), Revocation: key(p[2]), Delayed: key(p[3]), LocalHtlc: key(p[4]), RemoteHtlc: key(p[5]), Remote: key(p[6])}
	if p[7] != "-" {
		found.FundingKeys = &enforce.FundingKeys{Own: key(p[7]), Peers: key(p[8])}
	}
	for _, it := range parts(htlcs, ";") {
		h := strings.Split(it, "/")
		found.Htlcs = append(found.Htlcs, enforce.Htlc{Direction: enforce.Direction(number(h[0])), ExpiryHeight: uint32(number(h[1])), Hash: hash(h[2])})
	}
	return found
}

func orDash(data []byte) string {
	if len(data) == 0 {
		return "-"
	}
	return hex.EncodeToString(data)
}

func slotsText(given []enforce.Slot) string {
	var slots []string
	for _, it := range given {
		switch {
		case it.Signature != nil:
			slots = append(slots, fmt.Sprintf("s=%x", *it.Signature))
		case it.Preimage != nil:
			slots = append(slots, fmt.Sprintf("p=%x", *it.Preimage))
		case it.Given != nil:
			slots = append(slots, fmt.Sprintf("g=%x:%x:%x", it.Given.Key, it.Given.Digest, it.Given.Tx))
		default:
			slots = append(slots, "e="+orDash(it.Exact))
		}
	}
	return strings.Join(slots, ",")
}

func claimText(claim *enforce.Claim) string {
	return fmt.Sprintf("%s/%s/%x/%d/%d/%d/%s", orDash(claim.Script), orDash(claim.Program), claim.Txid, claim.Index, claim.Value, claim.Path, slotsText(claim.Slots))
}

func pathSlots(words []string) (string, error) {
	var keys [][33]byte
	var preimages [][32]byte
	for _, it := range parts(words[2], ",") {
		keys = append(keys, key(it))
	}
	for _, it := range parts(words[3], ",") {
		preimages = append(preimages, hash(it))
	}
	found, err := enforce.PathSlots(data(words[0]), number(words[1]), keys, preimages)
	if len(found) == 0 {
		return "-\n", err
	}
	return slotsText(found) + "\n", err
}

func notes(script []byte) (string, error) {
	found, err := enforce.Notes(script)
	text := "notes\n"
	for _, it := range found {
		text += fmt.Sprintf("note %d %d\n", it.Kind, it.At)
	}
	return text, err
}

func foundText(found enforce.Found, err error) (string, error) {
	text := ""
	for i := range found.Claims {
		it, height := &found.Claims[i], "-"
		if it.DeadlineHeight != nil {
			height = fmt.Sprint(*it.DeadlineHeight)
		}
		text += fmt.Sprintf("found %d %d %s %s\n", it.Kind, it.FromHeight, height, claimText(&it.Claim))
	}
	text += "others"
	for _, it := range found.Others {
		text += fmt.Sprintf(" %d:%d", it.Index, it.Kind)
	}
	return text + "\n", err
}

func revoked(words []string) (string, error) {
	return foundText(enforce.Revoked(commitment(words[0], words[1]), data(words[2]), uint32(number(words[3]))))
}

func closed(words []string) (string, error) {
	var preimages [][32]byte
	for _, it := range parts(words[4], ",") {
		preimages = append(preimages, hash(it))
	}
	return foundText(enforce.Close(enforce.Whose(number(words[0])), commitment(words[1], words[2]), uint32(number(words[3])), preimages, data(words[5]), uint32(number(words[6]))))
}

func formOf(words []string) enforce.Form {
	form := enforce.Form{Kind: enforce.FormKind(number(words[0])), PaymentHash: hash(words[4]), ExpiryHeight: uint32(number(words[5])), DelayBlocks: uint16(number(words[6]))}
	first, second, third := key(words[1]), key(words[2]), key(words[3])
	switch form.Kind {
	case enforce.FormFunding:
		form.Peers, form.Own = second, third
	case enforce.FormKeyHash:
		form.Key = second
	case enforce.FormToLocal:
		form.Revocation, form.Delayed = first, third
	default:
		form.Revocation, form.RemoteHtlc, form.LocalHtlc = first, second, third
	}
	return form
}

func answer(words []string) (string, error) {
	switch words[0] {
	case "list":
		return listing(data(words[1]))
	case "text":
		return enforce.Text(data(words[1]))
	case "program":
		program, err := enforce.Program(data(words[1]))
		return fmt.Sprintf("%x\n", program), err
	case "claim":
		given := claim(words[1])
		due, err := given.Accept()
		return fmt.Sprintf("due %d %d\n", due.Height, due.Sequence), err
	case "spend":
		return spend(words[1:])
	case "finish":
		return finish(words[1:])
	case "slots":
		return pathSlots(words[1:])
	case "notes":
		return notes(data(words[1]))
	case "revoked":
		return revoked(words[1:])
	case "close":
		return closed(words[1:])
	}
	form := formOf(words[1:])
	script, err := form.Script()
	return fmt.Sprintf("%x\n", script), err
}

// What a refusal's text has before its number and its place.
var nouns = regexp.MustCompile(`(?: at| of)(?: (?:byte|opcode|slot|key|HTLC|item))? `)

func main() {
	lines := bufio.NewScanner(os.Stdin)
	lines.Buffer(nil, 1<<20)
	for lines.Scan() {
		text, err := answer(strings.Fields(lines.Text()))
		if err != nil {
			text = fmt.Sprintf("refused %s\n", nouns.ReplaceAllString(err.Error(), " "))
		}
		fmt.Printf("%s.\n", text)
	}
}
