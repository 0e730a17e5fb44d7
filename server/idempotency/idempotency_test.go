package idempotency

import (
	"bytes"
	"fmt"
	"os"
	"path/filepath"
	"strings"
	"testing"

	"gitpoold/configfile"
)

func opened(t *testing.T, folder string) *Kept {
	t.Helper()
	k, err := Open(folder, nil)
	if err != nil {
		t.Fatal(err)
	}
	return k
}

func TestAnswersComeBack(t *testing.T) {
	folder := t.TempDir()
	k := opened(t, folder)
	all := []Answer{New("one", nil), New("two", []byte("a\nb \xff\x00")), New("three", bytes.Repeat([]byte("x"), MostBytes+1)),
		New("base64", []byte{0x96, 0x89, 0xe0})}
	for _, it := range all {
		k.Add("acme/site", it)
	}
	k.Add("b", New("one", []byte("another")))
	if err := k.Save(); err != nil {
		t.Fatal(err)
	}
	for _, from := range []*Kept{k, opened(t, folder)} {
		for _, want := range all {
			got, found := from.Find("acme/site", want.Token)
			if !found || !bytes.Equal(got.Reply, want.Reply) || got.IsDropped != want.IsDropped {
				t.Errorf("%.80v, wanted %.80v", got, want)
			}
		}
		if got, _ := from.Find("b", "one"); string(got.Reply) != "another" {
			t.Error(got)
		}
		if _, found := from.Find("b", "two"); found {
			t.Error("another tenant's token is found")
		}
	}
	if got, _ := k.Find("acme/site", "three"); !got.IsDropped {
		t.Error("a long reply is kept")
	}
}

func TestTheOldestGoFirst(t *testing.T) {
	k := opened(t, t.TempDir())
	for i := 0; i < MostAnswers+10; i++ {
		k.Add("a", New(fmt.Sprint("t", i), []byte("x")))
	}
	k.Add("a", New("t10", []byte("y")))
	if all := k.Of("a"); len(all) != MostAnswers || all[0].Token != "t10" || string(all[0].Reply) != "x" {
		t.Error(len(all), all[0])
	}
	k.Put("c", k.Of("a"))
	k.Put("a", nil)
	if len(k.Of("a")) != 0 || len(k.Of("c")) != MostAnswers {
		t.Error("put")
	}
}

// TestRepliesGoBeforeTokens keeps more bytes than may be: the oldest replies are dropped, and their tokens are known still.
func TestRepliesGoBeforeTokens(t *testing.T) {
	k := opened(t, t.TempDir())
	for i := 0; i < 8; i++ {
		k.Add("b", New(fmt.Sprint("t", i), make([]byte, MostBytes/4)))
	}
	for i := 0; i < 8; i++ {
		if it, found := k.Find("b", fmt.Sprint("t", i)); !found || it.IsDropped != (i < 4) || len(it.Reply) != MostBytes/4 && i >= 4 {
			t.Error(i, found, it.IsDropped, len(it.Reply))
		}
	}
}

func TestBodies(t *testing.T) {
	long := New("a-b.C_9", make([]byte, MostBytes)).With([]byte("x"))
	for _, want := range []Answer{New("x", nil), New("x", []byte("ab")).With([]byte("c")), long} {
		got, ok := Parse(want.Body())
		if !ok || got.Token != want.Token || !bytes.Equal(got.Reply, want.Reply) || got.IsDropped != want.IsDropped {
			t.Error(got.Token, ok)
		}
	}
	if !long.IsDropped || len(long.Reply) > 0 || !long.With(nil).IsDropped {
		t.Error("a long reply is kept")
	}
	for _, body := range []string{"", "\x00", "\x02\x01a", "\x00\x02a", "\x00\x00", "\x00\x01 ", "\x00\x01a" + strings.Repeat("x", MostBytes+1)} {
		if _, ok := Parse([]byte(body)); ok {
			t.Errorf("%.20q is taken", body)
		}
	}
}

// TestADamagedFileIsPutAside has lines that are none, bytes that are no text, and a file that was cut.
func TestADamagedFileIsPutAside(t *testing.T) {
	cut := configfile.Text("a t1 eA==", "a t2 eA==")
	for _, text := range []string{"a\n", "a b c d\n", "a b/c\n", "a b %%\n", "a t1\n\x1b[2J\x00\xff\xfe \x07", cut[:len(cut)-20]} {
		folder, said := t.TempDir(), ""
		path := filepath.Join(folder, "answers")
		for _, aside := range []string{path + ".damaged", path + ".damaged-2"} {
			if err := os.WriteFile(path, []byte(text), 0o600); err != nil {
				t.Fatal(err)
			}
			k, err := Open(folder, func(format string, values ...any) { said = fmt.Sprintf(format, values...) })
			if err != nil || len(k.Of("a")) > 0 {
				t.Fatalf("%q: %v", text, err)
			}
			if kept, err := os.ReadFile(aside); err != nil || string(kept) != text {
				t.Fatalf("%q is kept as %q: %v", text, kept, err)
			}
			if strings.IndexFunc(said, func(it rune) bool { return it < ' ' || it > '~' }) >= 0 || !strings.Contains(said, aside) {
				t.Fatalf("%q is told", said)
			}
			k.Add("a", New("t3", nil))
			if err := k.Save(); err != nil {
				t.Fatal(err)
			}
		}
		again, err := Open(folder, nil)
		if _, found := again.Find("a", "t3"); err != nil || !found {
			t.Fatal(err)
		}
	}
}
