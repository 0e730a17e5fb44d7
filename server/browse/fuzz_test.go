package browse

import (
	"bytes"
	"testing"
	"time"
	"unicode/utf8"

	"gitpoold/plumbing"
)

// FuzzReaders reads what may stand in a tenant as pages do, and asks that all of it can be shown.
func FuzzReaders(f *testing.F) {
	people := "author A <a@b> 1700000000 +0100\ncommitter B <> 1 -0330\n"
	f.Add([]byte("tree 4b825dc642cb6eb9a060e54bf8d69288fbee4904\n" + people + "\nSubject\n\nBody\n"))
	f.Add([]byte("tree 4b825dc642cb6eb9a060e54bf8d69288fbee4904\nparent 4b825dc642cb6eb9a060e54bf8d69288fbee4904\n" + people + "encoding latin1\n\n\xe4\n"))
	f.Add([]byte("object 4b825dc642cb6eb9a060e54bf8d69288fbee4904\ntype commit\ntag v1\ntagger A <a@b> -9223372036854775808 +9999\n\nm"))
	f.Add([]byte("100644 a\x00aaaaaaaaaaaaaaaaaaaa40000 b\x00bbbbbbbbbbbbbbbbbbbb"))
	f.Fuzz(func(t *testing.T, contents []byte) {
		if len(contents) > 1<<16 {
			return
		}
		commit, err := ReadCommit(plumbing.Object{Kind: plumbing.Commit, Contents: contents})
		if err != nil {
			t.Fatal(err)
		}
		showPerson(t, commit.Author)
		showPerson(t, commit.Committer)
		if head := plumbing.ReadHead(contents); head.Tree != commit.Tree || len(head.Parents) != len(commit.Parents) {
			t.Fatal("another head")
		}
		if utf8.Valid(contents) && !utf8.ValidString(commit.Subject+commit.Body) {
			t.Fatalf("%q", commit.Subject)
		}
		tag, err := ReadTag(plumbing.Object{Kind: plumbing.Tag, Contents: contents})
		if err != nil {
			t.Fatal(err)
		}
		showPerson(t, tag.Tagger)
		readTree(t, contents)
	})
}

// showPerson asks that the time of a person can be written.
func showPerson(t *testing.T, p Person) {
	t.Helper()
	if year := p.When.Year(); year > 10000 || p.When.Format(time.RFC1123Z) == "" {
		t.Fatalf("year %d", year)
	}
}

// readTree asks that the entries of a tree stand in its bytes in their order.
func readTree(t *testing.T, contents []byte) {
	t.Helper()
	entries, err := Entries(plumbing.Object{Kind: plumbing.Tree, Contents: contents})
	if err != nil {
		t.Fatal(err)
	}
	var back []byte
	for _, it := range entries {
		back = append(append(append(back, it.Mode+" "+it.Path...), 0), it.Name[:]...)
	}
	if !bytes.HasPrefix(contents, back) {
		t.Fatalf("%q was read as %q", contents, back)
	}
}
