package browse

import (
	"archive/tar"
	"bytes"
	"context"
	"errors"
	"fmt"
	"io"
	"strconv"
	"strings"
	"testing"
	"time"

	"gitpoold/faults"
	"gitpoold/pack"
	"gitpoold/plumbing"
	"gitpoold/walk"
)

// memory has objects, and counts how many were read.
type memory struct {
	walk.Source
	objects map[plumbing.Name]plumbing.Object
	read    int
}

func (m *memory) add(kind plumbing.Kind, contents string) plumbing.Name {
	if m.objects == nil {
		m.objects = map[plumbing.Name]plumbing.Object{}
	}
	name := pack.NameOf(kind, []byte(contents))
	m.objects[name] = plumbing.Object{Name: name, Kind: kind, Contents: []byte(contents)}
	return name
}

func (m *memory) Objects(_ context.Context, names []plumbing.Name, use func(plumbing.Object) error) error {
	for _, name := range names {
		o, is := m.objects[name]
		if m.read++; !is {
			return plumbing.ErrMissing
		}
		if err := use(o); err != nil {
			return err
		}
	}
	return nil
}

func (m *memory) AskAll(_ context.Context, queries []string) (replies [][]byte, errs []error, err error) {
	faults := map[string]error{"none": plumbing.ErrMissing, "many": faults.Fault(17), "full": faults.Fault(90)}
	for _, query := range queries {
		word, back, hasBack := strings.Cut(strings.TrimPrefix(query, "rev-parse "), "~")
		reply, err := strings.Repeat("a", 40), faults[word]
		if hasBack {
			reply, err = m.firstParent(word, back)
		}
		replies, errs = append(replies, []byte(reply+"\n")), append(errs, err)
	}
	return replies, errs, nil
}

// firstParent gives the commit that is so many first parents back.
func (m *memory) firstParent(of, back string) (string, error) {
	name, _ := plumbing.ParseName(of)
	count, err := strconv.Atoi(back)
	for ; count > 0 && err == nil; count-- {
		head := plumbing.ReadHead(m.objects[name].Contents)
		if len(head.Parents) == 0 {
			return "", plumbing.ErrMissing
		}
		name = head.Parents[0]
	}
	return name.String(), err
}

// Missing lists what one tree reaches.
func (m *memory) Missing(_ context.Context, wants, _ []plumbing.Name) (found plumbing.Listing, err error) {
	for names := wants; len(names) > 0; names = names[1:] {
		o := m.objects[names[0]]
		found = found.With(o.Name, o.Kind, uint64(len(o.Contents)))
		if o.Kind == plumbing.Tree {
			entries, err := Entries(o)
			if err != nil {
				return nil, err
			}
			for _, it := range entries {
				names = append(names, it.Name)
			}
		}
	}
	return found, nil
}

// Commits takes all names for those of commits.
func (m *memory) Commits(_ context.Context, names []plumbing.Name) (commits, others []plumbing.Name, err error) {
	return names, nil, nil
}

// Log knows no way to ask for many commits at once.
func (m *memory) Log(context.Context, string) ([]plumbing.Name, error) {
	return nil, faults.Fault(25)
}

func (m *memory) commit(tree plumbing.Name, seconds int, parents ...plumbing.Name) plumbing.Name {
	text := fmt.Sprintf("tree %v\n", tree)
	for _, parent := range parents {
		text += fmt.Sprintf("parent %v\n", parent)
	}
	return m.add(plumbing.Commit, text+fmt.Sprintf("author A <a@b> 5 +0530\ncommitter B <b@c> %d -0330\n\nSubject\nof two\n\nBody\n\nmore\n", seconds))
}

func entry(mode, path string, name plumbing.Name) plumbing.Entry {
	return plumbing.Entry{Mode: mode, Path: path, Name: name}
}

func (m *memory) tree(entries ...plumbing.Entry) plumbing.Name {
	var text strings.Builder
	for _, it := range entries {
		fmt.Fprintf(&text, "%s %s\x00%s", it.Mode, it.Path, it.Name[:])
	}
	return m.add(plumbing.Tree, text.String())
}

var background = context.Background()

// much is more than any test reads.
var much = Bounds{1 << 30, 1 << 40, time.Hour}

func TestNamesGivesZerosForWhatIsNotThere(t *testing.T) {
	m := &memory{}
	names, err := Names(background, m, "one", "none", "many")
	if err != nil || names[0].IsZero() || !names[1].IsZero() || !names[2].IsZero() {
		t.Fatal(names, err)
	}
	if _, err := Names(background, m, "one", "full"); err == nil {
		t.Fatal("a child without memory is taken for nothing")
	}
}

func TestLogGoesFromNewToOld(t *testing.T) {
	m := &memory{}
	var empty plumbing.Name
	root := m.commit(empty, 10)
	left, right := m.commit(empty, 30, root), m.commit(empty, 20, root)
	top := m.commit(empty, 40, left, right)
	var seen []string
	for from := []plumbing.Name{top}; len(from) > 0; {
		commits, next, err := Log(background, m, Query{From: from, Most: 2, Bounds: much})
		if err != nil || len(commits) > 2 {
			t.Fatal(err)
		}
		for _, it := range commits {
			seen = append(seen, fmt.Sprint(it.Committer.When.Unix()))
		}
		from = next
	}
	if got := strings.Join(seen, " "); got != "40 30 20 10" {
		t.Fatal(got)
	}
}

func TestLogReadsABoundedNumber(t *testing.T) {
	m := &memory{}
	var empty plumbing.Name
	var heads []plumbing.Name
	for branch := 0; branch < 300; branch++ {
		head := m.commit(empty, branch)
		for depth := 1; depth < 20; depth++ {
			head = m.commit(empty, 1000*depth+branch, head)
		}
		heads = append(heads, head)
	}
	_, next, err := Log(background, m, Query{From: heads, Most: 1 << 30, Bounds: Bounds{2000, 1 << 30, time.Hour}})
	if err != nil || m.read > 2000+mostAhead || len(next) == 0 {
		t.Fatal(m.read, len(next), err)
	}
}

func TestCommitsAreRead(t *testing.T) {
	m := &memory{}
	c, err := ReadCommit(m.objects[m.commit(plumbing.Name{}, 7)])
	if err != nil || c.Subject != "Subject of two" || c.Body != "Body\n\nmore" || c.Author.Name != "A" || c.Author.Email != "a@b" {
		t.Fatal(c, err)
	}
	if got := c.Committer.When.Format(time.RFC3339); got != "1969-12-31T20:30:07-03:30" {
		t.Fatal(got)
	}
	for _, text := range []string{"", "\n", "tree", "author", "author x\n", "author <> 99999999999999999999 +0000\ncommitter < -5 +9999\n\n", "encoding latin1\n\n\xe4"} {
		c, err := ReadCommit(plumbing.Object{Kind: plumbing.Commit, Contents: []byte(text)})
		if err != nil || c == nil || !c.Author.When.IsZero() || !c.Committer.When.IsZero() || strings.HasPrefix(text, "enc") && c.Subject != "ä" {
			t.Errorf("%q: %+v %v", text, c, err)
		}
	}
	if _, err := ReadCommit(plumbing.Object{Kind: plumbing.Blob}); !errors.Is(err, ErrKind) {
		t.Error(err)
	}
}

func TestChangesAreFound(t *testing.T) {
	m := &memory{}
	one, two, three := m.add(plumbing.Blob, "1"), m.add(plumbing.Blob, "2"), m.add(plumbing.Blob, "3")
	same := m.tree(entry("100644", "deep", one))
	old := m.tree(entry("100644", "a", one), entry("40000", "b", m.tree(entry("100644", "x", two), entry("100644", "y", two))),
		entry("100644", "c", three),
		entry("40000", "same", same), entry("100644", "z", one))
	new := m.tree(entry("100755", "a", one), entry("100644", "b", two), entry("40000", "c", m.tree(entry("100644", "x", one))),
		entry("100644", "d", three),
		entry("40000", "same", same), entry("100644", "z", two))
	changes, isWhole, err := Changes(background, m, old, new)
	var text []string
	for _, it := range changes {
		text = append(text, fmt.Sprintf("%s>%s", it.Old.Path, it.New.Path))
	}
	// `b` came with the content of `b/x`, and `d` with that of `c`.
	if got := strings.Join(text, " "); err != nil || !isWhole || got != "a>a b/x>b b/y> >c/x c>d z>z" {
		t.Fatal(got, isWhole, err)
	}
	delete(m.objects, same)
	if _, _, err := Changes(background, m, old, new); err != nil {
		t.Fatal("a tree that does not differ was read:", err)
	}
	if changes, isWhole, err := Changes(background, m, plumbing.Name{}, plumbing.Name{}); len(changes) > 0 || !isWhole || err != nil {
		t.Fatal(changes, isWhole, err)
	}
}

func TestChangesHaveABound(t *testing.T) {
	m := &memory{}
	blob := m.add(plumbing.Blob, "1")
	var entries []plumbing.Entry
	for at := 0; at < mostChanges+1; at++ {
		entries = append(entries, entry("100644", fmt.Sprint(at), blob))
	}
	wide := m.tree(entries...)
	if changes, isWhole, err := Changes(background, m, plumbing.Name{}, wide); len(changes) != mostChanges || isWhole || err != nil {
		t.Fatal(len(changes), isWhole, err)
	}
	for depth := 0; depth < 100; depth++ {
		wide = m.tree(entry("40000", "a", wide), entry("40000", "b", wide))
	}
	m.read = 0
	if _, isWhole, err := Changes(background, m, plumbing.Name{}, wide); isWhole || err != nil || m.read > mostTrees {
		t.Fatal(isWhole, err, m.read)
	}
}

func TestArchivesHaveABound(t *testing.T) {
	m := &memory{}
	blob, odd := m.add(plumbing.Blob, strings.Repeat("x", 1000)), m.add(plumbing.Blob, "a\x00b")
	tree := m.tree(entry("120000", "\xff\nlink", odd), entry("100755", strings.Repeat("long", 100), blob), entry("160000", "module", blob))
	var text bytes.Buffer
	if err := (Archive{Format: Tar, Prefix: "p/", Files: 10, Bytes: 3000}).Write(background, m, &text, tree); err != nil {
		t.Fatal(err)
	}
	var names []string
	for from := tar.NewReader(&text); ; {
		head, err := from.Next()
		if err == io.EOF {
			break
		}
		if err != nil {
			t.Fatal(err)
		}
		names = append(names, fmt.Sprintf("%s:%c%o", head.Name, head.Typeflag, head.Mode))
	}
	want := []string{"p/:5775", "p/\xff\nlink:0664", "p/" + strings.Repeat("long", 100) + ":0775", "p/module/:5775"}
	if fmt.Sprint(names) != fmt.Sprint(want) {
		t.Fatalf("%q", names)
	}
	for depth := 0; depth < 60; depth++ {
		tree = m.tree(entry("40000", "a", tree), entry("40000", "b", tree))
	}
	for _, a := range []Archive{{Format: Tar, Files: 1000, Bytes: 1 << 40}, {Format: Zip, Files: 1 << 40, Bytes: 100000}} {
		if err := a.Write(background, m, io.Discard, tree); !errors.Is(err, ErrTooMuch) {
			t.Fatal(err)
		}
	}
}
