package pack

import (
	"bytes"
	"compress/zlib"
	"context"
	"crypto/sha1"
	"encoding/binary"
	"errors"
	"os"
	"os/exec"
	"runtime"
	"strings"
	"testing"

	"gitpoold/plumbing"
)

// noBase is a tenant that has nothing.
type noBase struct{}

func (noBase) Object(context.Context, plumbing.Name) (plumbing.Object, error) {
	return plumbing.Object{}, plumbing.ErrMissing
}

// mapBase is a tenant that has some objects.
type mapBase map[plumbing.Name]plumbing.Object

func (m mapBase) Object(_ context.Context, name plumbing.Name) (plumbing.Object, error) {
	o, is := m[name]
	if !is {
		return o, plumbing.ErrMissing
	}
	return o, nil
}

func read(t testing.TB, pack []byte, base Base, limits Limits) (*Quarantine, error) {
	t.Helper()
	q, err := NewQuarantine(t.TempDir(), base, limits)
	if err != nil {
		t.Fatal(err)
	}
	t.Cleanup(func() { q.Close() })
	return q, q.Read(context.Background(), bytes.NewReader(pack))
}

// namesOf gives the names of a kind of objects.
func namesOf(q *Quarantine, kind plumbing.Kind) (names []plumbing.Name) {
	_ = q.Each(kind, func(at int) error {
		names = append(names, q.NameAt(at))
		return nil
	})
	return names
}

// gitPack has a few versions of files, with deltas that git made; names are those of its objects.
func gitPack(t testing.TB, words ...string) (pack []byte, names []string) {
	room := t.TempDir()
	script := `cd "$0"; export GIT_AUTHOR_NAME=a GIT_AUTHOR_EMAIL=a@b GIT_COMMITTER_NAME=a GIT_COMMITTER_EMAIL=a@b
git init -q; for i in 1 2 3 4 5 6; do seq $((i*100)) 3000 > f; echo $i > g; git add .; git commit -qm $i; done; git tag -a t -m t
git rev-list --all --objects --no-object-names > names; git rev-parse t >> names; sort -u names > sorted
git pack-objects --stdout -q --window=20 ` + strings.Join(words, " ") + ` < sorted > pack`
	if said, err := exec.Command("sh", "-c", script, room).CombinedOutput(); err != nil {
		t.Fatal(string(said))
	}
	pack, _ = os.ReadFile(room + "/pack")
	list, _ := os.ReadFile(room + "/sorted")
	return pack, strings.Fields(string(list))
}

func TestPacksOfGitAreRead(t *testing.T) {
	for _, word := range []string{"", "--delta-base-offset"} {
		pack, names := gitPack(t, word)
		q, err := read(t, pack, noBase{}, Usual)
		if err != nil {
			t.Fatal(err)
		}
		for _, text := range names {
			name, _ := plumbing.ParseName(text)
			o, err := q.Object(context.Background(), name)
			if err != nil || NameOf(o.Kind, o.Contents) != name {
				t.Fatalf("%s: %v", text, err)
			}
		}
		if count := len(namesOf(q, plumbing.Commit)); count != 6 {
			t.Fatalf("%d commits", count)
		}
	}
}

func TestCutAndChangedPacksAreRefused(t *testing.T) {
	pack, _ := gitPack(t)
	for at := 0; at < len(pack); at += 1 + len(pack)/100 {
		if _, err := read(t, pack[:at], noBase{}, Usual); err == nil {
			t.Fatalf("a pack was taken that is cut at %d", at)
		}
		changed := append([]byte{}, pack...)
		changed[at] ^= 0x10
		if _, err := read(t, changed, noBase{}, Usual); err == nil {
			t.Fatalf("a pack was taken that is changed at %d", at)
		}
	}
	if _, err := read(t, append(append([]byte{}, pack...), 0), noBase{}, Usual); err == nil {
		t.Fatal("a pack was taken with a byte after its end")
	}
}

// The writer of small contents begins anew without much work, and that of large ones goes through zeros fast.
var (
	deflater, _ = zlib.NewWriterLevel(nil, zlib.BestSpeed)
	quick, _    = zlib.NewWriterLevel(nil, zlib.HuffmanOnly)
)

// maker makes packs of any entries, with the right digest.
type maker struct{ bytes.Buffer }

func newMaker(count uint32) *maker {
	m := &maker{}
	m.WriteString("PACK\x00\x00\x00\x02")
	_ = binary.Write(m, binary.BigEndian, count)
	return m
}

// entry writes an entry that says to have so many bytes, whatever it has.
func (m *maker) entry(kind byte, says int, base, contents []byte) *maker {
	first := kind<<4 | byte(says&15)
	for says >>= 4; says > 0; says >>= 7 {
		m.WriteByte(first | 0x80)
		first = byte(says & 0x7f)
	}
	m.WriteByte(first)
	m.Write(base)
	to := deflater
	if len(contents) < 100 {
		to = quick
	}
	to.Reset(m)
	_, _ = to.Write(contents)
	_ = to.Close()
	return m
}

func (m *maker) done() []byte {
	sum := sha1.Sum(m.Bytes())
	return append(m.Bytes(), sum[:]...)
}

// delta makes instructions: the sizes, and then these bytes.
func delta(was, size uint64, instructions ...byte) []byte {
	return append(binary.AppendUvarint(binary.AppendUvarint(nil, was), size), instructions...)
}

func TestWhatIsRefused(t *testing.T) {
	blob := []byte("some contents\n")
	name := NameOf(plumbing.Blob, blob)
	other := NameOf(plumbing.Blob, []byte("other"))
	zeros := make([]byte, 66<<20)
	small := Usual
	small.Bytes, small.Objects, small.PackBytes = 1<<20, 3, 1<<16
	for what, it := range map[string]struct {
		pack   []byte
		limits Limits
		says   string
	}{
		"an empty input":               {nil, Usual, "cut off"},
		"another file":                 {[]byte("PUCK\x00\x00\x00\x02\x00\x00\x00\x00aaaaaaaaaaaaaaaaaaaa"), Usual, "does not begin"},
		"another version":              {[]byte("PACK\x00\x00\x00\x09\x00\x00\x00\x00aaaaaaaaaaaaaaaaaaaa"), Usual, "version"},
		"an unknown kind":              {newMaker(1).entry(5, 3, nil, blob).done(), Usual, "unknown kind"},
		"no kind":                      {newMaker(1).entry(0, 3, nil, blob).done(), Usual, "unknown kind"},
		"a size that is too small":     {newMaker(1).entry(3, len(blob)-1, nil, blob).done(), Usual, "another size"},
		"a size that is too large":     {newMaker(1).entry(3, len(blob)+1, nil, blob).done(), Usual, "another size"},
		"a count that is too large":    {newMaker(2).entry(3, len(blob), nil, blob).done(), Usual, "malformed"},
		"a count that is too small":    {newMaker(1).entry(3, len(blob), nil, blob).entry(3, 5, nil, []byte("other")).done(), Usual, "digest"},
		"too many objects":             {newMaker(4).done(), small, "more objects"},
		"a bomb":                       {newMaker(1).entry(3, len(zeros), nil, zeros).done(), Usual, "more than"},
		"a bomb that lies":             {newMaker(1).entry(3, 10, nil, zeros).done(), Usual, "another size"},
		"many small ones":              {newMaker(3).entry(3, 600<<10, nil, zeros[:600<<10]).entry(3, 601<<10, nil, zeros[:601<<10]).done(), small, "more than 1048576"},
		"a long pack":                  {newMaker(1).entry(3, 1<<17, nil, noise(1<<17)).done(), small, "a pack has more than 65536"},
		"a base before the pack":       {newMaker(1).entry(6, 4, []byte{100}, delta(14, 14, 0x90, 14)).done(), Usual, "no entry begins"},
		"a delta of itself":            {newMaker(1).entry(6, 4, []byte{0}, delta(14, 14, 0x90, 14)).done(), Usual, "no entry begins"},
		"a base that is nowhere":       {newMaker(1).entry(7, 4, name[:], delta(14, 14, 0x90, 14)).done(), Usual, "is not here"},
		"a cycle":                      {newMaker(2).entry(7, 4, name[:], delta(14, 14, 0x90, 14)).entry(7, 4, other[:], delta(14, 14, 0x90, 14)).done(), Usual, "is not here"},
		"another base's size":          {newMaker(2).entry(3, 14, nil, blob).entry(7, 4, name[:], delta(13, 14, 0x90, 14)).done(), Usual, "does not fit"},
		"a copy past the base":         {newMaker(2).entry(3, 14, nil, blob).entry(7, 5, name[:], delta(14, 14, 0x91, 1, 14)).done(), Usual, "does not fit"},
		"a delta that gives too much":  {newMaker(2).entry(3, 14, nil, blob).entry(7, 4, name[:], delta(14, 13, 0x90, 14)).done(), Usual, "does not fit"},
		"a delta that gives little":    {newMaker(2).entry(3, 14, nil, blob).entry(7, 4, name[:], delta(14, 15, 0x90, 14)).done(), Usual, "does not fit"},
		"a delta that claims too much": {newMaker(2).entry(3, 14, nil, blob).entry(7, 8, name[:], delta(14, 1<<40, 0x90, 14)).done(), Usual, ""},
		"an instruction 0":             {newMaker(2).entry(3, 14, nil, blob).entry(7, 3, name[:], delta(14, 1, 0)).done(), Usual, "does not fit"},
		"a long chain":                 {chain(5000), Usual, "chain"},
	} {
		isRefused(t, what, it.pack, it.limits, it.says)
	}
}

// isRefused asks that a pack is refused in a sentence with these words, and takes little memory.
func isRefused(t *testing.T, what string, pack []byte, limits Limits, says string) {
	t.Helper()
	var before, after runtime.MemStats
	runtime.ReadMemStats(&before)
	_, err := read(t, pack, noBase{}, limits)
	runtime.ReadMemStats(&after)
	if err == nil || !strings.Contains(err.Error(), says) {
		t.Errorf("%s: %v", what, err)
	}
	if used := after.TotalAlloc - before.TotalAlloc; used > 64<<20 {
		t.Errorf("%s takes %d bytes", what, used)
	}
}

func noise(size int) []byte {
	data := make([]byte, 0, size)
	for seed := sha1.Sum(nil); len(data) < size; seed = sha1.Sum(seed[:]) {
		data = append(data, seed[:]...)
	}
	return data[:size]
}

// chain has a blob and so many deltas, each against the one before.
func chain(count int) []byte {
	blob := []byte("some contents\n")
	m := newMaker(uint32(count+1)).entry(3, len(blob), nil, blob)
	last := 12
	for at := 0; at < count; at++ {
		now := m.Len()
		m.entry(6, 4, []byte{byte(now - last)}, delta(14, 14, 0x90, 14))
		last = now
	}
	return m.done()
}

func TestShortChainsAreRead(t *testing.T) {
	if _, err := read(t, chain(4000), noBase{}, Usual); err != nil {
		t.Fatal(err)
	}
}

func TestThinPacks(t *testing.T) {
	blob := []byte("some contents\n")
	name := NameOf(plumbing.Blob, blob)
	made := append(append([]byte{}, blob...), "more\n"...)
	last := NameOf(plumbing.Blob, append(append([]byte{}, made...), '!'))
	// The second delta comes before its base, the first one, which is against the tenant's object.
	first := NameOf(plumbing.Blob, made)
	pack := newMaker(2).
		entry(7, 6, first[:], delta(uint64(len(made)), uint64(len(made)+1), 0x90, byte(len(made)), 1, '!')).
		entry(7, 10, name[:], delta(14, uint64(len(made)), append([]byte{0x90, 14, 5}, "more\n"...)...)).done()
	q, err := read(t, pack, mapBase{name: {Name: name, Kind: plumbing.Blob, Contents: blob}}, Usual)
	if err != nil {
		t.Fatal(err)
	}
	if o, err := q.Object(context.Background(), last); err != nil || string(o.Contents) != "some contents\nmore\n!" {
		t.Fatalf("%q, %v", o.Contents, err)
	}
	if _, isOwn := q.Kind(name); isOwn {
		t.Fatal("the tenant's object became one of the pack")
	}
}

func TestAWriterWritesPacks(t *testing.T) {
	entries := newMaker(0)
	entries.Reset()
	entries.entry(3, 1, nil, []byte("a")).entry(3, 2, nil, []byte("bc"))
	want := newMaker(2)
	want.Write(entries.Bytes())
	var out bytes.Buffer
	w := NewWriter(&out)
	for _, err := range []error{w.Begin(2), w.Entries(entries.Bytes()[:5]), w.Entries(entries.Bytes()[5:]), w.Finish()} {
		if err != nil {
			t.Fatal(err)
		}
	}
	if got := out.Bytes(); !bytes.Equal(got, want.done()) {
		t.Fatalf("%q", got)
	}
}

func FuzzPatch(f *testing.F) {
	f.Add([]byte("some base"), []byte("\x09\x05\x90\x05"))
	f.Add([]byte("some base"), []byte("\x09\x03\x03abc"))
	f.Add([]byte("some base"), []byte("\x09\x04\x91\x02\x04"))
	f.Fuzz(func(t *testing.T, base, delta []byte) {
		if out, err := Patch(base, delta, 1<<16); err == nil && len(out) > 1<<16 {
			t.Fatal("too long")
		}
	})
}

func FuzzRead(f *testing.F) {
	blob := []byte("some contents\n")
	name := NameOf(plumbing.Blob, blob)
	f.Add(newMaker(1).entry(3, 14, nil, blob).Bytes())
	f.Add(newMaker(2).entry(3, 14, nil, blob).entry(7, 4, name[:], delta(14, 14, 0x90, 14)).Bytes())
	f.Add(newMaker(2).entry(7, 4, name[:], delta(14, 14, 0x90, 14)).entry(3, 14, nil, blob).Bytes())
	f.Add(newMaker(2).entry(3, 14, nil, blob).entry(6, 4, []byte{24}, delta(14, 14, 0x90, 14)).Bytes())
	limits := Usual
	limits.Bytes, limits.ObjectBytes = 1<<20, 1<<16
	folder := f.TempDir()
	f.Fuzz(func(t *testing.T, pack []byte) {
		sum := sha1.Sum(pack)
		q, err := NewQuarantine(folder, noBase{}, limits)
		if err != nil {
			t.Fatal(err)
		}
		defer q.Close()
		if q.Read(context.Background(), bytes.NewReader(append(pack, sum[:]...))) != nil {
			return
		}
		for kind := plumbing.Commit; kind <= plumbing.Tag; kind++ {
			for _, name := range namesOf(q, kind) {
				if o, err := q.Object(context.Background(), name); err != nil || NameOf(o.Kind, o.Contents) != name {
					t.Fatalf("%v: %v", name, err)
				}
			}
		}
	})
}

// TestWorkIsBounded has deltas that cost far more than their bytes: those of one base in a row are cheap, others are refused in the end.
func TestWorkIsBounded(t *testing.T) {
	const size, count = 1 << 16, 100
	defer func(was int64) { leastWork = was }(leastWork)
	leastWork = 1 << 20
	limits := Usual
	limits.Bytes = 1 << 18
	base, other := make([]byte, size), bytes.Repeat([]byte{1}, size)
	small := delta(size, 1, 1, 'x')
	one, two := NameOf(plumbing.Blob, base), NameOf(plumbing.Blob, other)
	row := newMaker(count+1).entry(3, size, nil, base)
	turns := newMaker(count+2).entry(3, size, nil, base).entry(3, size, nil, other)
	for at := 0; at < count; at++ {
		row.entry(7, len(small), one[:], small)
		turns.entry(7, len(small), [][]byte{one[:], two[:]}[at%2], small)
	}
	if _, err := read(t, row.done(), noBase{}, limits); err != nil {
		t.Fatal(err)
	}
	if _, err := read(t, turns.done(), noBase{}, limits); err == nil || !strings.Contains(err.Error(), "more work") {
		t.Fatal(err)
	}
}

// manyEntries makes packs of so many entries: empty blobs, the same blob again and again, and deltas that wait for one base.
func manyEntries(count int) map[string][]byte {
	empty, same, waiting := newMaker(uint32(count)), newMaker(uint32(count)), newMaker(uint32(count))
	base := NameOf(plumbing.Blob, []byte("a base"))
	for at := 0; at < count; at++ {
		empty.entry(3, 0, nil, nil)
		same.entry(3, 4, nil, []byte("same"))
		waiting.entry(7, 0, base[:], nil)
	}
	return map[string][]byte{"empty blobs": empty.done(), "duplicates": same.done(), "deltas that wait": waiting.done()}
}

// TestEntriesAreAskedFor has packs that put next to nothing into the temporary file, and take memory for each entry.
func TestEntriesAreAskedFor(t *testing.T) {
	full := errors.New("full")
	const step = entriesAsked * entryCost
	for what, pack := range manyEntries(3*entriesAsked + 1) {
		for _, room := range []int64{4 * step, 3 * step, 3*step - 1, step, 0} {
			asked := int64(0)
			limits := Usual
			limits.MayGrow = func(bytes int64) error {
				if asked += bytes; asked > room {
					return full
				}
				return nil
			}
			q, err := read(t, pack, noBase{}, limits)
			if isRefused := err == full; isRefused != (room < 3*step) {
				t.Errorf("%s with room for %d bytes: %v", what, room, err)
			}
			if most := (room/step + 1) * entriesAsked; err == full && int64(q.Len()) > most {
				t.Errorf("%s with room for %d bytes: %d entries", what, room, q.Len())
			}
			if want := int64(3 * step); room >= want && asked != want {
				t.Errorf("%s: %d bytes were asked for, and not %d", what, asked, want)
			}
		}
	}
}

// TestSmallPacksAreNotAskedFor has no room at all, and a pack of less than 64 KiB with as many entries as it can have.
func TestSmallPacksAreNotAskedFor(t *testing.T) {
	const smallest = "\x30\x78\x9c\x03\x00\x00\x00\x00\x01" // an empty blob
	count := (1<<16 - 32) / len(smallest)
	limits := Usual
	limits.MayGrow = func(int64) error { return errors.New("full") }
	pack := newMaker(uint32(count))
	pack.WriteString(strings.Repeat(smallest, count))
	if q, err := read(t, pack.done(), noBase{}, limits); err != nil || q.Len() != count {
		t.Fatal(err)
	}
}
