package tenants

import (
	"bytes"
	"compress/zlib"
	"context"
	"errors"
	"fmt"
	"io"
	"strings"
	"testing"

	"gitpoold/child"
	"gitpoold/faults"
	"gitpoold/frames"
	"gitpoold/plumbing"
	"gitpoold/store"
)

// edges are sizes at which an entry has another form.
var edges = []int{0, 1, 15, 16, 2047, 2048, 65534, 65535, 65536, 131070, 131071, 262143, 262144, 1 << 20, 3_000_000}

// edgy makes a tenant with a blob of each size.
func edgy(t testing.TB, p *Pool, name string) (it Tenant, commit plumbing.Name) {
	it = tenant(t, p, name)
	err := it.Push(background, agree, func(s *Stream) (err error) {
		s.WriteString("commit refs/heads/main\nmark :1\ncommitter a <a@b> 1 +0000\ndata 2\nhi\n")
		for at, size := range edges {
			fmt.Fprintf(s, "M 644 inline f%d\ndata %d\n%s\n", at, size, strings.Repeat(string(rune('a'+at)), size))
		}
		commit, err = s.Name(":1")
		return err
	})
	if err != nil {
		t.Fatal(err)
	}
	return it, commit
}

// nextEntry reads the next entry of a pack.
func nextEntry(t *testing.T, from *bytes.Reader) (kind plumbing.Kind, contents []byte) {
	t.Helper()
	b, err := from.ReadByte()
	size, shift := int(b&15), 4
	for kind = plumbing.Kind(b >> 4 & 7); err == nil && b&0x80 != 0; shift += 7 {
		b, err = from.ReadByte()
		size |= int(b&0x7f) << shift
	}
	if err != nil {
		t.Fatal(err)
	}
	inflater, err := zlib.NewReader(from)
	if err != nil {
		t.Fatal(err)
	}
	contents, err = io.ReadAll(inflater)
	if err != nil || len(contents) != size {
		t.Fatal(err, len(contents), size)
	}
	return kind, contents
}

func TestMissingAndEntries(t *testing.T) {
	it, commit := edgy(t, pool(t, 0), "acme/site")
	listing, err := it.Missing(background, []plumbing.Name{commit}, nil)
	if err != nil || listing.Len() != len(edges)+2 || listing.Name(listing.Len()-1) != commit {
		t.Fatal(listing.Len(), err)
	}
	var entries []byte
	count := 0
	err = it.Entries(background, listing, func(part []byte) error {
		count++
		entries = append(entries, part...)
		return nil
	})
	if err != nil || count < 3 {
		t.Fatal(count, err)
	}
	from := bytes.NewReader(entries)
	for at := 0; at < listing.Len(); at++ {
		kind, contents := nextEntry(t, from)
		o, err := it.Object(background, listing.Name(at))
		if err != nil || kind != o.Kind || kind != listing.Kind(at) || !bytes.Equal(contents, o.Contents) || uint64(len(contents)) != listing.Size(at) {
			t.Fatal(at, kind, len(contents), err)
		}
	}
	if from.Len() > 0 {
		t.Fatal("bytes after the last entry", from.Len())
	}
	if _, err := it.Missing(background, []plumbing.Name{commit, {1}}, nil); !errors.Is(err, plumbing.ErrMissing) {
		t.Fatal(err)
	}
	haves := []plumbing.Name{{1}, listing.Name(0), listing.Name(1)}
	if some, err := it.Missing(background, []plumbing.Name{commit}, haves); err != nil || some.Len() != len(edges) {
		t.Fatal(some.Len(), err)
	}
}

// long makes a tenant whose main has `count` commits by first parents, of which every hundredth merges a commit of another branch. Each commit
// changes one of ten files.
func long(t *testing.T, p *Pool, name string, count int) (it Tenant, tip plumbing.Name) {
	it = tenant(t, p, name)
	err := it.Push(background, agree, func(s *Stream) (err error) {
		for at := 1; at <= count; at++ {
			fmt.Fprintf(s, "commit refs/heads/side\ncommitter a <a@b> %d +0000\ndata 0\nM 644 inline side\ndata 4\n%04d\n", at, at)
			fmt.Fprintf(s, "commit refs/heads/main\nmark :%d\ncommitter a <a@b> %d +0000\ndata 0\n", at, at)
			if at%100 == 0 {
				s.WriteString("merge refs/heads/side\n")
			}
			fmt.Fprintf(s, "M 644 inline dir/f%d\ndata 4\n%04d\n", at%10, at%1000)
		}
		tip, err = s.Name(fmt.Sprintf(":%d", count))
		return err
	})
	if err != nil {
		t.Fatal(err)
	}
	return it, tip
}

func TestALongHistoryIsListedInParts(t *testing.T) {
	it, tip := long(t, pool(t, 0), "acme/site", 3*commitsAtOnce+7)
	points, err := it.points(background, tip)
	if err != nil || len(points) != 3 {
		t.Fatal(len(points), err)
	}
	whole, err := it.missing(background, []plumbing.Name{tip}, nil)
	if err != nil {
		t.Fatal(err)
	}
	parts, err := it.Missing(background, []plumbing.Name{tip}, nil)
	if err != nil || parts.Len() != whole.Len() {
		t.Fatal(parts.Len(), whole.Len(), err)
	}
	at := places(parts)
	for i := 0; i < whole.Len(); i++ {
		if _, has := at[whole.Name(i)]; !has {
			t.Fatal("the parts lack", whole.Name(i), whole.Kind(i))
		}
	}
	goesUp(t, it, parts, at)
}

// places gives the place of each object of a listing.
func places(l plumbing.Listing) map[plumbing.Name]int {
	at := map[plumbing.Name]int{}
	for i := 0; i < l.Len(); i++ {
		at[l.Name(i)] = i
	}
	return at
}

// goesUp asks that each commit of a listing comes after its tree and its parents.
func goesUp(t *testing.T, it Tenant, l plumbing.Listing, at map[plumbing.Name]int) {
	t.Helper()
	var commits []plumbing.Name
	for i := 0; i < l.Len(); i++ {
		if l.Kind(i) == plumbing.Commit {
			commits = append(commits, l.Name(i))
		}
	}
	err := it.Objects(background, commits, func(o plumbing.Object) error {
		head, _, _ := bytes.Cut(o.Contents, []byte("author "))
		for _, line := range bytes.Split(bytes.TrimSpace(head), []byte("\n")) {
			_, digits, _ := bytes.Cut(line, []byte(" "))
			name, ok := plumbing.ParseName(string(digits))
			if place, has := at[name]; !ok || !has || place >= at[o.Name] {
				return fmt.Errorf("%s of %v comes at %d, and the commit at %d", line, o.Name, place, at[o.Name])
			}
		}
		return nil
	})
	if err != nil {
		t.Fatal(err)
	}
}

func TestWhatHasNoLongHistoryIsListedAtOnce(t *testing.T) {
	it, tip := long(t, pool(t, 0), "acme/site", commitsAtOnce)
	blob, err := it.missing(background, []plumbing.Name{tip}, nil)
	if err != nil || blob.Kind(0) != plumbing.Blob {
		t.Fatal(err)
	}
	for _, of := range []plumbing.Name{tip, blob.Name(0), {1}} {
		if points, err := it.points(background, of); err != nil || len(points) != 0 {
			t.Fatal(of, points, err)
		}
	}
}

func TestPartings(t *testing.T) {
	for _, it := range []struct{ length, count, step int }{
		{2 * commitsAtOnce, 1, commitsAtOnce},
		{mostParts * commitsAtOnce, mostParts - 1, commitsAtOnce},
		{2 * mostParts * commitsAtOnce, mostParts - 1, 2 * commitsAtOnce},
		{1 << 30, mostParts - 1, 1 << 30 / mostParts},
	} {
		found := partings(it.length)
		if len(found) != it.count || found[0] != it.step || found[it.count-1] != it.length-it.step {
			t.Fatal(it, len(found), found[0])
		}
	}
}

func TestAnotherTenantsObjectsAreMissing(t *testing.T) {
	p := pool(t, 0)
	_, commit := edgy(t, p, "acme/site")
	other := tenant(t, p, "acme/other")
	if _, err := other.Missing(background, []plumbing.Name{commit}, nil); !errors.Is(err, plumbing.ErrMissing) {
		t.Fatal(err)
	}
	foreign := plumbing.Listing{}.With(commit, plumbing.Commit, 10)
	if err := other.Entries(background, foreign, func([]byte) error { return nil }); !errors.Is(err, plumbing.ErrMissing) {
		t.Fatal(err)
	}
	if some, err := other.Missing(background, nil, []plumbing.Name{commit}); err != nil || some.Len() != 0 {
		t.Fatal(some, err)
	}
}

func TestEntriesEndWithTheirUse(t *testing.T) {
	it, commit := edgy(t, pool(t, 0), "acme/site")
	listing, err := it.Missing(background, []plumbing.Name{commit}, nil)
	if err != nil {
		t.Fatal(err)
	}
	stop := errors.New("enough")
	if err := it.Entries(background, listing, func([]byte) error { return stop }); err != stop {
		t.Fatal(err)
	}
	if err := it.Entries(background, nil, func([]byte) error { return stop }); err != nil {
		t.Fatal(err)
	}
	wrong := plumbing.Listing{}.With(commit, plumbing.Commit, 1)
	if err := it.Entries(background, wrong, func([]byte) error { return nil }); err != faults.Fault(25) {
		t.Fatal(err)
	}
}

// counting is a memory of so many bytes of entries, of one fetch.
type counting struct {
	t          *testing.T
	room       int64
	held       int64
	taken      int64
	took, left int // how often there was room, and how often not
}

func (c *counting) Hold(bytes int64) error {
	c.held += bytes
	return nil
}

func (c *counting) Share(_ any, bytes int64) error { return c.Hold(bytes) }

// Take does not wait: who waits for itself waits forever.
func (c *counting) Take(_ context.Context, bytes int64) (func(), error) {
	giveBack := c.TryTake(bytes)
	if giveBack == nil {
		c.t.Error("a fetch waits for itself")
		return nil, errAnswer
	}
	return giveBack, nil
}

func (c *counting) TryTake(bytes int64) func() {
	if c.taken+bytes > c.room {
		c.left++
		return nil
	}
	c.took++
	c.taken += bytes
	return func() { c.taken -= bytes }
}

// TestLargeEntriesTakeMemory sends entries with memory for the largest one alone, and with memory for all of them, to the end and not.
func TestLargeEntriesTakeMemory(t *testing.T) {
	it, commit := edgy(t, pool(t, 0), "acme/site")
	listed := &counting{t: t}
	listing, err := it.Missing(plumbing.Counted(background, listed), []plumbing.Name{commit}, nil)
	if err != nil || listed.held != int64(listing.Len()*heldBytes) {
		t.Fatal(listed.held, err)
	}
	stop := errors.New("enough")
	largest := int64(entryBytes(3_000_000))
	for _, c := range []*counting{{room: largest}, {room: 10 * largest}} {
		for _, end := range []error{nil, stop} {
			c.t, c.took, c.left = t, 0, 0
			err := it.Entries(plumbing.Counted(background, c), listing, func(entries []byte) error {
				if len(entries) > entriesAtOnce && c.taken < int64(len(entries)) {
					t.Error(len(entries), c.taken)
				}
				if len(entries) > 1<<20 {
					return end
				}
				return nil
			})
			if err != end || c.taken != 0 || c.took == 0 || (c.left > 0) != (c.room == largest) {
				t.Fatalf("%v: %+v", err, c)
			}
		}
	}
}

// measured notes how many bytes the answers to a batch had at most.
type measured struct {
	Keeper
	most int
}

type measuredAnswers struct {
	store.Answers
	of *measured
}

func (m *measured) Ask(ctx context.Context, class child.Class, steps ...frames.Step) (store.Answers, error) {
	answers, err := m.Keeper.Ask(ctx, class, steps...)
	return measuredAnswers{answers, m}, err
}

func (m measuredAnswers) Wait(ctx context.Context) ([]frames.Answer, error) {
	answers, err := m.Answers.Wait(ctx)
	bytes := 0
	for _, it := range answers {
		bytes += len(it.Reply)
	}
	if bytes > m.of.most {
		m.of.most = bytes
	}
	return answers, err
}

// TestLargerObjectsThanBefore asks for small objects, and then for many large ones, of which those come again for which there is no room.
func TestLargerObjectsThanBefore(t *testing.T) {
	p := pool(t, 0)
	m := &measured{Keeper: p.store}
	p.store = m
	it := tenant(t, p, "acme/site")
	var names []plumbing.Name
	err := it.Push(background, agree, func(s *Stream) error {
		for at := 1; at <= 100; at++ {
			size := 10
			if at > 20 {
				size = 300_000
			}
			fmt.Fprintf(s, "blob\nmark :%d\ndata %d\n%0*d\n", at, size, size, at)
		}
		for at := 1; at <= 100; at++ {
			name, err := s.Name(fmt.Sprintf(":%d", at))
			if err != nil {
				return err
			}
			names = append(names, name)
		}
		return nil
	})
	if err != nil {
		t.Fatal(err)
	}
	count := 0
	err = it.Objects(background, names, func(o plumbing.Object) error {
		if o.Name != names[count] || strings.TrimLeft(string(o.Contents), "0") != fmt.Sprint(count+1) {
			t.Fatal(count, len(o.Contents))
		}
		count++
		return nil
	})
	if err != nil || count != len(names) || m.most > mostBytes+400_000 {
		t.Fatal(count, m.most, err)
	}
}

func TestListings(t *testing.T) {
	var l plumbing.Listing
	for at := 0; at < 5; at++ {
		l = l.With(plumbing.Name{byte(at)}, plumbing.Kind(1+at%4), uint64(at)<<40)
	}
	l = l.Keep(func(at int) bool { return at != 1 && at != 3 })
	if l.Len() != 3 || l.Name(1) != (plumbing.Name{2}) || l.Kind(2) != 1 || l.Size(2) != 4<<40 {
		t.Fatalf("%x", []byte(l))
	}
}
