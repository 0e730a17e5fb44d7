package browse

import (
	"archive/tar"
	"archive/zip"
	"bytes"
	"compress/gzip"
	"errors"
	"fmt"
	"io"
	"math/rand"
	"strings"
	"testing"
	"time"

	"gitpoold/linediff"
	"gitpoold/plumbing"
)

// told is a file whose lines each say which commit brought them.
type told struct {
	lines []string
	by    []plumbing.Name
}

// history makes commits that each change a few lines of a file, and gives the last one and what the file has there.
func history(m *memory, random *rand.Rand, commits int) (*Commit, told) {
	var file told
	var last []plumbing.Name
	for number := 0; number < commits; number++ {
		after := told{append([]string{}, file.lines...), append([]plumbing.Name{}, file.by...)}
		var fresh []int
		for count := 1 + random.Intn(5); count > 0; count-- {
			at := random.Intn(len(after.lines) + 1)
			if at < len(after.lines) && random.Intn(3) == 0 {
				after.lines, after.by = append(after.lines[:at], after.lines[at+1:]...), append(after.by[:at], after.by[at+1:]...)
				continue
			}
			line := fmt.Sprintf("%d of %d\n", count, number)
			after.lines = append(after.lines[:at], append([]string{line}, after.lines[at:]...)...)
			after.by = append(after.by[:at], append([]plumbing.Name{{}}, after.by[at:]...)...)
		}
		blob := m.add(plumbing.Blob, strings.Join(after.lines, ""))
		name := m.commit(m.tree(entry("40000", "d", m.tree(entry("100644", "f", blob)))), 1000+number, last...)
		for at, it := range after.by {
			if it.IsZero() {
				fresh = append(fresh, at)
			}
		}
		for _, at := range fresh {
			after.by[at] = name
		}
		file, last = after, []plumbing.Name{name}
	}
	c, _ := ReadCommit(m.objects[last[0]])
	return c, file
}

func TestBlameSaysWhoBroughtALine(t *testing.T) {
	for seed := int64(0); seed < 20; seed++ {
		m := &memory{}
		of, file := history(m, rand.New(rand.NewSource(seed)), 150)
		found, err := Blame(background, m, of, "d/f", much)
		if err != nil || len(found) != len(file.lines) {
			t.Fatal(err, len(found))
		}
		for at, it := range found {
			if it.Commit == nil || it.Commit.Name != file.by[at] || it.Path != "d/f" {
				t.Fatalf("seed %d: line %d is of %v: %+v", seed, at+1, file.by[at], it)
			}
			if lines := linediff.Lines(string(m.objects[blobAt(t, m, it.Commit, "d/f")].Contents)); lines[it.Line-1] != file.lines[at] {
				t.Fatalf("seed %d: line %d is not line %d there", seed, at+1, it.Line)
			}
		}
	}
}

func blobAt(t *testing.T, m *memory, c *Commit, path string) plumbing.Name {
	t.Helper()
	f := newFinder(path)
	if err := f.find(background, m, []plumbing.Name{c.Tree}); err != nil {
		t.Fatal(err)
	}
	return f.at(c.Tree).Name
}

func TestWalksEndAtTheirBounds(t *testing.T) {
	m := &memory{}
	of, file := history(m, rand.New(rand.NewSource(1)), 500)
	for _, bounds := range []Bounds{{300, 1 << 40, time.Hour}, {1 << 30, 20000, time.Hour}, {1 << 30, 1 << 40, time.Nanosecond}} {
		m.read = 0
		found, err := Blame(background, m, of, "d/f", bounds)
		older := 0
		for _, it := range found {
			if it.Commit == nil {
				older++
			}
		}
		if err != nil || len(found) != len(file.lines) || older == 0 || m.read > 1000 {
			t.Errorf("%+v: %d of %d lines, %d objects, %v", bounds, older, len(found), m.read, err)
		}
		if _, next, err := Log(background, m, Query{From: []plumbing.Name{of.Name}, Path: "none", Most: 50, Bounds: bounds}); err != nil || len(next) == 0 {
			t.Errorf("%+v: the history ends: %v", bounds, err)
		}
	}
	latest, err := Latest(background, m, of, "", []string{"d", "none"}, Bounds{100, 1 << 40, time.Hour})
	if err != nil || latest["d"] == nil || latest["none"] != nil {
		t.Error(latest, err)
	}
}

func TestBlameOfWhatIsNoText(t *testing.T) {
	m := &memory{}
	large := m.add(plumbing.Blob, strings.Repeat("x\n", mostBlamed))
	c, err := ReadCommit(m.objects[m.commit(m.tree(entry("100644", "large", large), entry("160000", "module", large)), 1)])
	if err != nil {
		t.Fatal(err)
	}
	for _, path := range []string{"large", "module", "none", "none/x", "large/x"} {
		if found, err := Blame(background, m, c, path, much); err != nil || len(found) != 0 {
			t.Error(path, len(found), err)
		}
	}
}

// TestArchivesStayInside has trees that no git would write, of which some entries lead out of the archive.
func TestArchivesStayInside(t *testing.T) {
	m := &memory{}
	blob, target := m.add(plumbing.Blob, "contents"), m.add(plumbing.Blob, "/etc")
	below := m.tree(entry("100644", "passwd", blob))
	tree := m.tree(entry("40000", "..", below), entry("40000", ".", below), entry("100644", "", blob), entry("100644", "/etc/passwd", blob),
		entry("100644", "../x", blob), entry("120000", "link", target), entry("40000", "link", below), entry("100644", "good", blob),
		entry("100644", `..\x`, blob), entry("0100664", "odd", blob), entry("040000", "zero", below))
	want := map[Format]string{Tar: `p/ p/link p/good p/..\x p/odd p/zero/ p/zero/passwd`, Zip: "p/ p/link p/good p/odd p/zero/ p/zero/passwd"}
	want[TarGz] = want[Tar]
	for _, format := range Formats {
		var text bytes.Buffer
		a := Archive{Format: format, Prefix: "p/", Commit: strings.Repeat("a", 40), When: time.Unix(1e9, 0), Files: 100, Bytes: 1 << 20}
		if err := a.Write(background, m, &text, tree); err != nil {
			t.Fatal(err)
		}
		if got := strings.Join(members(t, format, text.Bytes()), " "); got != want[format] {
			t.Errorf("%s: %s", format, got)
		}
	}
}

func members(t *testing.T, format Format, text []byte) (names []string) {
	t.Helper()
	if format == Zip {
		found, err := zip.NewReader(bytes.NewReader(text), int64(len(text)))
		if err != nil && !errors.Is(err, zip.ErrInsecurePath) {
			t.Fatal(err)
		}
		for _, it := range found.File {
			names = append(names, it.Name)
		}
		return names
	}
	var from io.Reader = bytes.NewReader(text)
	if format == TarGz {
		inflated, err := gzip.NewReader(from)
		if err != nil {
			t.Fatal(err)
		}
		from = inflated
	}
	for in := tar.NewReader(from); ; {
		head, err := in.Next()
		if err == io.EOF {
			return names
		}
		if err != nil && !errors.Is(err, tar.ErrInsecurePath) {
			t.Fatal(err)
		}
		if head.Typeflag != tar.TypeXGlobalHeader {
			names = append(names, head.Name)
		}
	}
}

func TestModesAreReadByTheirFormat(t *testing.T) {
	name := plumbing.Name{1}
	for mode, want := range map[string]string{"40000": "tree", "040000": "tree odd", "40755": "tree odd", "100644": "file", "100755": "run", "100664": "file odd",
		"100775": "run odd", "120000": "link", "120777": "link odd", "160000": "module", "0": "module odd", "644": "module odd", "": "module odd",
		"x": "module odd"} {
		it, got := entry(mode, "x", name), ""
		for word, is := range map[string]bool{"tree": it.IsTree(), "file": it.IsFile() && !it.IsExecutable(), "run": it.IsExecutable(), "link": it.IsLink(),
			"module": it.IsGitlink()} {
			if is {
				got += word
			}
		}
		if !it.IsUsual() {
			got += " odd"
		}
		if got != want {
			t.Errorf("%q is a %s", mode, got)
		}
	}
}

func TestSignaturesAndFurtherHeaders(t *testing.T) {
	text := "tree 4b825dc642cb6eb9a060e54bf8d69288fbee4904\nauthor A <a@b> 1 +0000\ncommitter A <a@b> 1 +0000\nencoding UTF-8\n" +
		"gpgsig -----BEGIN SSH SIGNATURE-----\n abc\n -----END SSH SIGNATURE-----\nHG:extra a\n b\nempty\n\nSubject\n"
	c, err := ReadCommit(plumbing.Object{Kind: plumbing.Commit, Contents: []byte(text)})
	if err != nil || c.Signature != "SSH" || fmt.Sprintf("%q", c.Further) != `[{"HG:extra" "a\nb"} {"empty" ""}]` || c.Subject != "Subject" {
		t.Fatalf("%+v %v", c, err)
	}
	message := "A tag\n\nof two\n-----BEGIN PGP SIGNATURE-----\nabc\n-----END PGP SIGNATURE-----\n"
	tag, err := ReadTag(plumbing.Object{Kind: plumbing.Tag, Contents: []byte("object 4b\ntype commit\ntag x\n\n" + message)})
	if err != nil || tag.Signature != "OpenPGP" || tag.Subject != "A tag" || tag.Body != "of two" {
		t.Fatalf("%+v %v", tag, err)
	}
}

func TestPatternsFold(t *testing.T) {
	for _, it := range []struct {
		text, in string
		want     bool
	}{{"", "", true}, {"a", "A", true}, {"A", "a", false}, {"ä", "Ä", false}, {"x.y", "x-y", false}, {"\xff", "a\xff", true}, {"ab", "aAb", true}} {
		if p := NewPattern(it.text); p.IsIn("", it.in) != it.want {
			t.Errorf("%q in %q", it.text, it.in)
		}
	}
}

func TestASearchHasBounds(t *testing.T) {
	m := &memory{}
	small, large := m.add(plumbing.Blob, "a needle\nNeedle needle\nneedle"), m.add(plumbing.Blob, strings.Repeat("needle\n", 1000))
	binary := m.add(plumbing.Blob, "needle\x00")
	var entries []plumbing.Entry
	for at := 0; at < 50; at++ {
		entries = append(entries, entry("100644", fmt.Sprintf("n%02d", at), small))
	}
	tree := m.tree(append(entries, entry("100644", "a-large", large), entry("100644", "b-binary", binary), entry("120000", "c-link", small))...)
	q := Search{Files: 60, Lines: 2, Size: 1000, Bounds: much}
	found, isWhole, err := q.Text(background, m, tree, NewPattern("needle"))
	if err != nil || !isWhole || len(found) != 50 || fmt.Sprint(found[0]) != "{n00 [{1 a needle\n} {2 Needle needle\n}] 3}" {
		t.Fatal(len(found), isWhole, err, found)
	}
	q.Files = 10
	if found, isWhole, err = q.Paths(background, m, tree, NewPattern("N")); err != nil || !isWhole || len(found) != 0 {
		t.Fatal(found, isWhole, err)
	}
	if found, isWhole, err = q.Paths(background, m, tree, NewPattern("n")); err != nil || isWhole || len(found) != 10 {
		t.Fatal(found, isWhole, err)
	}
	for depth := 0; depth < 60; depth++ {
		tree = m.tree(entry("40000", "a", tree), entry("40000", "b", tree))
	}
	q.Bounds = Bounds{1000, 1 << 20, time.Hour}
	if _, isWhole, err := q.Paths(background, m, tree, NewPattern("none")); isWhole || err != nil {
		t.Fatal(isWhole, err)
	}
}
