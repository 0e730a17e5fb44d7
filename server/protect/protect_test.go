package protect

import (
	"bytes"
	"errors"
	"os"
	"path/filepath"
	"strings"
	"testing"

	"gitpoold/access"
	"gitpoold/configfile"
)

func must(t *testing.T, err error) {
	t.Helper()
	if err != nil {
		t.Fatal(err)
	}
}

// loaded gives the rules of a folder whose file has these lines.
func loaded(t *testing.T, rows ...string) *Protected {
	t.Helper()
	folder := t.TempDir()
	must(t, configfile.Write(filepath.Join(folder, FileName), rows))
	p, err := Load(folder, func(string, ...any) {})
	must(t, err)
	return p
}

func forced(is bool) func() (bool, error) { return func() (bool, error) { return is, nil } }

// isBob is one of whatever names bob.
func isBob(names []string) bool { return strings.Contains(strings.Join(names, ","), "bob") }

const main, tag, kept, release = "refs/heads/main", "refs/tags/v1", "refs/heads/kept", "refs/heads/release/1"

// refusals are changes, and why they are refused, or nothing.
var refusals = []struct {
	tenant string
	c      Change
	may    func([]string) bool
	says   string
}{
	{"acme/site", Change{Ref: main, IsGone: true}, isBob, "protected branch: deletion is not allowed"},
	{"acme/site", Change{Ref: main, IsForced: forced(true)}, isBob, "protected branch: only fast-forwards are allowed"},
	{"acme/site", Change{Ref: main, IsForced: forced(false)}, isBob, ""},
	{"acme/site", Change{Ref: main, IsMade: true}, isBob, ""},
	{"acme/other", Change{Ref: main, IsGone: true}, isBob, ""},
	{"acme/site", Change{Ref: main + "x", IsGone: true}, isBob, ""},
	{"acme/site", Change{Ref: tag, IsForced: forced(false)}, isBob, "protected tag: it is there already, and may not be moved"},
	{"acme/site", Change{Ref: tag, IsGone: true}, isBob, "protected tag: deletion is not allowed"},
	{"acme/site", Change{Ref: tag, IsMade: true}, isBob, ""},
	{"acme/site", Change{Ref: "refs/tags/w1", IsGone: true}, isBob, ""},
	{"acme/site", Change{Ref: kept, IsForced: forced(true)}, isBob, ""},
	{"acme/site", Change{Ref: kept, IsGone: true}, isBob, "protected branch: deletion is not allowed"},
	{"any", Change{Ref: release, IsMade: true}, isBob, ""},
	{"any", Change{Ref: release, IsGone: true}, isBob, ""},
	{"any", Change{Ref: release, IsMade: true}, func([]string) bool { return false }, "protected branch: you may not change it"},
	// Each line holds.
	{"acme/site", Change{Ref: "refs/heads/release/2", IsMade: true}, isBob, "protected branch: you may not change it"},
}

func TestRulesRefuseWhatTheySay(t *testing.T) {
	p := loaded(t, "acme/site refs/heads/main no-delete no-force", "acme/* refs/tags/v* no-force", "acme/* refs/heads/kept no-delete",
		"* refs/heads/release/* only=bob,@team", "acme/site refs/heads/release/2 only=alice")
	for _, it := range refusals {
		why, err := p.Of(it.tenant).Refusal(it.c, it.may)
		if why != it.says || err != nil {
			t.Errorf("%s %+v: %q %v, and not %q", it.tenant, it.c, why, err, it.says)
		}
	}
	broken := errors.New("broken")
	fails := Change{Ref: main, IsForced: func() (bool, error) { return true, broken }}
	if why, err := p.Of("acme/site").Refusal(fails, isBob); why != "" || err != broken {
		t.Error(why, err)
	}
	var nobody *Protected
	if len(nobody.Of("acme/site")) > 0 {
		t.Error("no list has rules")
	}
}

func TestPatternsOfRefs(t *testing.T) {
	for _, it := range []struct {
		pattern, ref string
		is           bool
	}{
		{"refs/heads/main", "refs/heads/main", true}, {"refs/heads/main", "refs/heads/main2", false}, {"refs/heads/*", "refs/heads/a/b", true},
		{"refs/heads/*", "refs/tags/a", false}, {"*", "refs/x", true}, {"refs/heads/*-lts", "refs/heads/1-lts", true},
		{"refs/heads/ab*ba", "refs/heads/aba", false}, {"refs/heads/ab*ba", "refs/heads/abba", true}, {"refs/heads/*-lts", "refs/heads/lts", false},
	} {
		if MatchesRef(it.pattern, it.ref) != it.is {
			t.Error(it)
		}
	}
}

// TestRowsAreChanged changes the list by its commands; a row that is no rule is refused, and changes nothing.
func TestRowsAreChanged(t *testing.T) {
	folder := t.TempDir()
	must(t, access.SetPassword(folder, "bob", "builder-bob"))
	must(t, Add(folder, "acme/site", "main", nil))
	must(t, Add(folder, "acme/*", "*", []string{"only=bob", "no-delete"}))
	must(t, Add(folder, "acme/site", "refs/heads/main", []string{"no-delete"}))
	before, err := Rows(folder, "")
	if err != nil || strings.Join(before, "\n") != "acme/* * only=bob no-delete\nacme/site refs/heads/main no-delete" {
		t.Fatal(before, err)
	}
	for _, words := range [][]string{{"a b", "main"}, {"a", "ma in"}, {"a", ""}, {"a", "a..b"}, {"a", "refs/heads/a*b*"}, {"a", "main", "no"},
		{"a", "main", "only="}, {"a", "main", "only=bob,"}, {"a", "main", "only=nobody"}, {"a", "main", "only=@none"}, {"a", "main", "only=*"},
		{"a", "main", "only=bob", "only=bob"}, {"a", "main", "no-force\nb refs/heads/x"}, {"../a", "main"}, {"a", "refs/heads/a\nb"}} {
		if Add(folder, words[0], words[1], words[2:]) == nil {
			t.Errorf("%q is taken", words)
		}
	}
	if Remove(folder, "acme/site", "next") == nil {
		t.Error("what is not there is removed")
	}
	if after, _ := Rows(folder, ""); strings.Join(after, "\n") != strings.Join(before, "\n") {
		t.Fatal(after)
	}
	must(t, Remove(folder, "acme/site", "main"))
	if rows, _ := Rows(folder, "other"); len(rows) > 0 {
		t.Error(rows)
	}
	if rows, _ := Rows(folder, "acme/site"); len(rows) != 1 {
		t.Error(rows)
	}
}

// TestAListThatIsCutKeepsWhatHeld cuts the file at each byte behind its first line while a server follows it.
func TestAListThatIsCutKeepsWhatHeld(t *testing.T) {
	folder := t.TempDir()
	path := filepath.Join(folder, FileName)
	must(t, Add(folder, "acme/site", "main", nil))
	must(t, configfile.Begin(folder, FileName))
	p, err := Load(folder, func(string, ...any) {})
	must(t, err)
	whole, err := os.ReadFile(path)
	must(t, err)
	for end := bytes.IndexByte(whole, '\n') + 1; end < len(whole)-1; end++ {
		must(t, os.WriteFile(path, whole[:end], 0o600))
		if len(p.Of("acme/site")) != 1 {
			t.Fatalf("%q protects nothing", whole[:end])
		}
	}
}

// FuzzRows asks that no line of the file protects less than it says: a ref that it names may not be deleted.
func FuzzRows(f *testing.F) {
	f.Add("acme/site refs/heads/main no-delete", "refs/heads/main")
	f.Add("* refs/tags/v* no-force only=a,@b\n# no\n\na b c", "refs/tags/v1")
	f.Add("* * no-delete\tno-force", "refs/\xff")
	f.Fuzz(func(t *testing.T, text, ref string) {
		folder := t.TempDir()
		must(t, os.WriteFile(filepath.Join(folder, FileName), []byte(text), 0o600))
		p, err := Load(folder, func(string, ...any) {})
		if err != nil {
			return
		}
		for _, it := range p.Of("acme/site") {
			why, err := Rules{it}.Refusal(Change{Ref: ref, IsGone: true}, func([]string) bool { return false })
			if err != nil || (why == "") == (MatchesRef(it.refs, ref) && (it.noDelete || it.noForce || len(it.only) > 0)) {
				t.Fatalf("%+v %q: %q %v", it, ref, why, err)
			}
		}
	})
}
