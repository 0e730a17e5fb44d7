package objects_test

import (
	"encoding/json"
	"errors"
	"fmt"
	"os"
	"os/exec"
	"path/filepath"
	"strings"
	"testing"

	"gitpoold/fsck"
	"gitpoold/objects"
	"gitpoold/pack"
	"gitpoold/plumbing"
)

// sample is one object of the corpus. Contents have a code point for each byte. Refused is in the refusal where a tenant cannot
// keep it; Suspect says that it can, and that git's fsck finds a fault in it, or, where it is Unseen, should.
type sample struct {
	Kind     string
	Contents string
	Refused  *string
	Suspect  bool
	Unseen   bool
}

func (s sample) bytes() []byte {
	var contents []byte
	for _, r := range s.Contents {
		contents = append(contents, byte(r))
	}
	return contents
}

// corpus reads the samples, which the tests of clients/ read too.
func corpus(t testing.TB) (samples []sample) {
	text, err := os.ReadFile(filepath.Join("..", "..", "clients", "tests", "objects.json"))
	if err == nil {
		err = json.Unmarshal(text, &samples)
	}
	if err != nil || len(samples) < 300 {
		t.Fatalf("the corpus cannot be read: %v", err)
	}
	return samples
}

var kinds = map[string]plumbing.Kind{"commit": plumbing.Commit, "tree": plumbing.Tree, "tag": plumbing.Tag, "modules": plumbing.Blob,
	"attributes": plumbing.Blob}

func (s sample) object() plumbing.Object {
	contents := s.bytes()
	return plumbing.Object{Name: pack.NameOf(kinds[s.Kind], contents), Kind: kinds[s.Kind], Contents: contents}
}

var strict = fsck.Strict()

// judge gives the refusal of what a tenant cannot keep, and of what fsck finds.
func (s sample) judge() (kept, suspect error) {
	o := s.object()
	switch s.Kind {
	case "commit":
		if _, err := objects.ReadCommit(o.Name, o.Contents); err != nil {
			return err, nil
		}
		return nil, objects.Judged(o.Name, strict.Commit(o.Contents))
	case "tag":
		if _, err := objects.ReadTag(o.Name, o.Contents); err != nil {
			return err, nil
		}
		return nil, objects.Judged(o.Name, strict.Tag(o.Contents, objects.IsRefName))
	case "tree":
		if _, err := objects.ExamineTree(o.Name, o.Contents); err != nil {
			return err, nil
		}
		return nil, objects.Judged(o.Name, strict.Tree(o.Contents, func(plumbing.Name, fsck.Special) {}))
	case "modules":
		return nil, objects.Judged(o.Name, strict.Special(o, fsck.Modules))
	case "attributes":
		return nil, objects.Judged(o.Name, strict.Special(o, fsck.Attributes))
	}
	return objects.CheckRef(string(o.Contents)), nil
}

func TestCorpus(t *testing.T) {
	for _, s := range corpus(t) {
		kept, suspect := s.judge()
		if (kept != nil) != (s.Refused != nil) || kept != nil && !strings.Contains(kept.Error(), *s.Refused) {
			t.Errorf("%s %.200q: kept is %v", s.Kind, s.Contents, kept)
		}
		if (suspect != nil) != s.Suspect {
			t.Errorf("%s %.200q: suspect is %v", s.Kind, s.Contents, suspect)
		}
		for _, err := range []error{kept, suspect} {
			var refusal *objects.Refusal
			if err != nil && !errors.As(err, &refusal) {
				t.Errorf("%s %.200q: %v is no refusal", s.Kind, s.Contents, err)
			}
		}
	}
}

// TestGitAgrees asks git's own fsck about each sample that a tenant can keep.
func TestGitAgrees(t *testing.T) {
	room := t.TempDir()
	git(t, room, "", "init", "-q", "--bare")
	var kept []sample
	paths := map[string]string{}
	special := ""
	for at, s := range corpus(t) {
		if s.Refused != nil || s.Kind == "ref" {
			continue
		}
		kept = append(kept, s)
		path := filepath.Join(room, fmt.Sprint("sample-", at))
		if err := os.WriteFile(path, s.bytes(), 0o600); err != nil {
			t.Fatal(err)
		}
		paths[kinds[s.Kind].String()] += path + "\n"
		if kinds[s.Kind] == plumbing.Blob {
			// It is only looked at where a tree has it under its name.
			special += "100644 blob " + s.object().Name.String() + "\t.git" + s.Kind + "\n\n"
		}
	}
	for kind, list := range paths {
		git(t, room, list, "hash-object", "-w", "--literally", "-t", kind, "--no-filters", "--stdin-paths")
	}
	git(t, room, special, "mktree", "--missing", "--batch")
	said := faults(room)
	if len(said) < 50 {
		t.Fatalf("git found %d faults", len(said))
	}
	for _, s := range kept {
		if name := s.object().Name.String(); said[name] != (s.Suspect && !s.Unseen) {
			t.Errorf("%s %.200q: git finds a fault: %v", s.Kind, s.Contents, said[name])
		}
	}
}

// faults gives the objects in which git's fsck finds a fault beside objects that are missing.
func faults(room string) map[string]bool {
	said := map[string]bool{}
	text, _ := exec.Command("git", "-C", room, "fsck", "--strict").CombinedOutput()
	for _, line := range strings.Split(string(text), "\n") {
		words := strings.Fields(line)
		if len(words) > 4 && words[0] == "error" && words[1] == "in" && words[4] != "broken" {
			said[strings.TrimSuffix(words[3], ":")] = true
		}
	}
	return said
}

func git(t testing.TB, room, input string, words ...string) string {
	t.Helper()
	command := exec.Command("git", append([]string{"-C", room}, words...)...)
	command.Stdin = strings.NewReader(input)
	said, err := command.Output()
	if err != nil {
		t.Fatalf("git %v: %v", words, err)
	}
	return string(said)
}

func FuzzObjects(f *testing.F) {
	for _, s := range corpus(f) {
		f.Add(s.Kind, s.bytes())
	}
	f.Fuzz(func(t *testing.T, kind string, contents []byte) {
		if len(contents) > 1<<16 || kind != "ref" && kinds[kind] == 0 {
			return
		}
		runes := make([]rune, len(contents))
		for at, b := range contents {
			runes[at] = rune(b)
		}
		s := sample{Kind: kind, Contents: string(runes)}
		_, _ = s.judge()
		plumbing.ReadHead(contents)
		plumbing.Tagged(contents)
	})
}
