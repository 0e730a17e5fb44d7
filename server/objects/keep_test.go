package objects

import (
	"math/big"
	"math/rand"
	"regexp"
	"testing"
)

// identForm says as an expression what IsIdent reads.
var identForm = regexp.MustCompile(`(?s)\A(?:[^<>\n]* )?<[^<>\n]*> ([0-9]{1,20}) [+-][0-9]{4}\z`)

func isIdentByForm(ident []byte) bool {
	found := identForm.FindSubmatch(latin(ident))
	if found == nil || ident[0] == '<' {
		return false
	}
	seconds, ok := new(big.Int).SetString(string(found[1]), 10)
	return ok && seconds.BitLen() <= 64
}

// TestIdents changes idents at random, and asks the expression.
func TestIdents(t *testing.T) {
	random := rand.New(rand.NewSource(1))
	samples := []string{"A U Thor <a@b> 1 +0000", " <> 18446744073709551615 -0100", "a <b> 18446744073709551616 +0000", "\xff\xc3\xa4 <x> 0 +1234", "<a> 1 +0000",
		"a  <b c> 00000000000000000001 +0000"}
	good := 0
	for round := 0; round < 200000; round++ {
		ident := []byte(samples[round%len(samples)])
		for k := random.Intn(3); k > 0; k-- {
			at, piece := random.Intn(len(ident)+1), " <>\n+-019a\xff"[random.Intn(11):]
			end := at + random.Intn(len(ident)-at+1)/4
			ident = append(append(append([]byte{}, ident[:at]...), piece[:random.Intn(2)]...), ident[end:]...)
		}
		if IsIdent(ident) != isIdentByForm(ident) {
			t.Fatalf("%q is an ident: %v", ident, IsIdent(ident))
		}
		if IsIdent(ident) {
			good++
		}
	}
	if good < 10000 || good > 190000 {
		t.Fatal(good)
	}
}
