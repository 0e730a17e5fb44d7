package streams

import (
	"context"
	"fmt"
	"math/rand"
	"os"
	"strings"
	"testing"

	"gitpoold/fastimport"
	"gitpoold/fsck"
	"gitpoold/store"
)

// change is a line of a commit.
func change(chance *rand.Rand) string {
	path := fmt.Sprintf("%d/%d/f%d", chance.Intn(3), chance.Intn(3), chance.Intn(200))
	switch chance.Intn(8) {
	case 0:
		return "D " + path + "\n"
	case 1:
		return fmt.Sprintf("M 100644 :1 \"%d\\057%d\\057q\"\n", chance.Intn(3), chance.Intn(9))
	case 2:
		return fmt.Sprintf("M 100644 inline %s\ndata 4\n%04d\n", path, chance.Intn(9999))
	case 3:
		return fmt.Sprintf("C 0 %d/copy%d\n", chance.Intn(3), chance.Intn(9))
	}
	return "M 100644 :1 " + path + "\n"
}

// drawn is a stream of commits on a few branches, which changes few files of many in directories.
func drawn(chance *rand.Rand) string {
	text, tip := "feature force\nblob\nmark :1\ndata 3\nabc\n", ""
	for at := 0; at < 2+chance.Intn(30); at++ {
		branch := fmt.Sprintf("refs/heads/%s%d", strings.Repeat("b", chance.Intn(2)*60), chance.Intn(3))
		text += fmt.Sprintf("commit %s\nmark :%d\ncommitter <a@b> %d +0000\ndata 2\nm\n", branch, 10+at, at)
		if at > 0 {
			from := fmt.Sprintf("from :%d\n", 10+chance.Intn(at))
			text += from + strings.Repeat("merge"+from[4:], chance.Intn(2))
		}
		text += "M 100644 :1 0/0/first\n"
		for count := chance.Intn(20); count > 0; count-- {
			text += change(chance)
		}
		tip = branch
	}
	return text + "tag v\nfrom " + tip + "\ntagger a <b> 1 +0000\ndata 0\n"
}

// storeOf is a store without tenants.
func storeOf(t *testing.T) *store.Store {
	t.Helper()
	program, folder := os.Getenv("GITPOOL"), t.TempDir()
	if program == "" {
		t.Skip("GITPOOL names no program")
	}
	if err := store.Create(folder, program); err != nil {
		t.Fatal(err)
	}
	s, err := store.Open(store.Config{Folder: folder, Program: program, Tell: func(string, ...any) {}})
	if err != nil {
		t.Fatal(err)
	}
	t.Cleanup(s.Abort)
	return s
}

// mostOf is what bounds a stream, which comes in pieces.
func mostOf(t *testing.T, text string, had int64, chance *rand.Rand) int64 {
	t.Helper()
	reader := fastimport.New(fsck.Rules{}, nil)
	for rest := []byte(text); len(rest) > 0; {
		part, err := reader.Next(context.Background(), rest, fastimport.Part{Bytes: 1 + chance.Intn(999), Heavy: 9})
		if err != nil {
			t.Fatal(err)
		}
		rest = rest[part.Bytes:]
	}
	return reader.Most(had)
}

// TestNoStreamWritesMoreThanItsBound lets the program carry out streams, one after another in each of some tenants.
func TestNoStreamWritesMoreThanItsBound(t *testing.T) {
	s, background, whole := storeOf(t), context.Background(), 0
	for seed := int64(0); seed < 300; seed++ {
		chance := rand.New(rand.NewSource(seed))
		tenant, text := fmt.Sprint("t", seed%40), drawn(chance)
		had := s.Bytes(tenant)
		st, err := s.Begin(background, tenant, store.Checkpoints)
		if err != nil {
			t.Fatal(err)
		}
		if _, err = st.Commit(background, []byte(text)); err == nil {
			whole++
		}
		st.GiveUp()
		if err := s.Recount(background, tenant); err != nil {
			t.Fatal(err)
		}
		came, most := s.Bytes(tenant)-had, mostOf(t, text, had, chance)
		if came > most || err != nil && came > 0 {
			t.Fatalf("seed %d: %d bytes came, and at most %d should: %v", seed, came, most, err)
		}
	}
	if whole < 200 {
		t.Fatalf("only %d streams were taken", whole)
	}
}

// TestEachPartOfTheBoundCounts lets the program carry out streams that are almost all of one kind, each in a tenant of its own.
func TestEachPartOfTheBoundCounts(t *testing.T) {
	const who = "\ncommitter <a@b> 1 +0000\ndata 0\n"
	s, background, chance := storeOf(t), context.Background(), rand.New(rand.NewSource(1))
	for name, text := range map[string]string{
		"directories": "commit refs/heads/a" + who + "M 644 inline " + strings.Repeat("d/", 100) + "f\ndata 0\n",
		"quoted":      "commit refs/heads/a" + who + "M 644 inline \"" + strings.Repeat("d\\057", 100) + "f\"\ndata 0\n",
		"entries":     "commit refs/heads/a" + who + manyTimes(200, "M 644 inline %d\ndata 0\n"),
		"commits":     manyTimes(100, "commit refs/heads/a\ncommitter <a@b> %d +0000\ndata 0\n"),
		"idents":      manyTimes(20, "commit refs/heads/a\ncommitter "+strings.Repeat("n", 9000)+" <a@b> %d +0000\ndata 0\n"),
		"parents":     manyTimes(15, "commit refs/heads/%d\nmark :1%[1]d\n"+who[1:]) + "commit refs/heads/a" + who + manyTimes(15, "merge :1%d\n"),
		"tags":        "commit refs/heads/a" + who + manyTimes(100, "tag t%d\nfrom refs/heads/a\ntagger a <b> 1 +0000\ndata 0\n"),
		"refs":        "commit refs/heads/a" + who + manyTimes(100, "reset refs/heads/t%d\nfrom refs/heads/a\n"),
		"blobs":       manyTimes(100, "blob\ndata 3\n%03d\n"),
	} {
		st, err := s.Begin(background, name, store.Checkpoints)
		if err != nil {
			t.Fatal(err)
		}
		if _, err := st.Commit(background, []byte(text)); err != nil {
			t.Fatal(name, err)
		}
		if err := s.Recount(background, name); err != nil {
			t.Fatal(err)
		}
		if came, most := s.Bytes(name), mostOf(t, text, 0, chance); came > most || came < int64(len(text))/8 {
			t.Errorf("%s: %d bytes came, and at most %d should", name, came, most)
		}
	}
}

// manyTimes repeats lines, with a number in each.
func manyTimes(count int, lines string) (all string) {
	for at := 0; at < count; at++ {
		all += fmt.Sprintf(lines, at)
	}
	return all
}
