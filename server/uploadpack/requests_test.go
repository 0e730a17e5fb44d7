package uploadpack

import (
	"bufio"
	"bytes"
	"compress/zlib"
	"context"
	"encoding/binary"
	"fmt"
	"runtime"
	"strings"
	"syscall"
	"testing"
	"time"

	"gitpoold/pack"
	"gitpoold/pktline"
	"gitpoold/plumbing"
	"gitpoold/tenants"
)

// memoryRepository has objects and refs in memory.
type memoryRepository struct {
	objects map[plumbing.Name]plumbing.Object
	refs    []tenants.Ref
	head    string
	name    string
}

func (m *memoryRepository) add(kind plumbing.Kind, contents string) plumbing.Name {
	name := pack.NameOf(kind, []byte(contents))
	m.objects[name] = plumbing.Object{Name: name, Kind: kind, Contents: []byte(contents)}
	return name
}

func (m *memoryRepository) Objects(_ context.Context, names []plumbing.Name, use func(plumbing.Object) error) error {
	for _, name := range names {
		o, is := m.objects[name]
		if !is {
			return plumbing.ErrMissing
		}
		if err := use(o); err != nil {
			return err
		}
	}
	return nil
}

func (m *memoryRepository) Log(_ context.Context, revisions string) (names []plumbing.Name, err error) {
	seen := map[plumbing.Name]bool{}
	out, from, isRange := strings.Cut(revisions, "..")
	if !isRange {
		out, from = "", out
	}
	var walk func(text string, use func(plumbing.Name))
	walk = func(text string, use func(plumbing.Name)) {
		name, _ := plumbing.ParseName(text)
		if text == "" || seen[name] {
			return
		}
		seen[name] = true
		use(name)
		for _, parent := range plumbing.ReadHead(m.objects[name].Contents).Parents {
			walk(parent.String(), use)
		}
	}
	walk(out, func(plumbing.Name) {})
	walk(from, func(name plumbing.Name) { names = append(names, name) })
	return names, nil
}

func (m *memoryRepository) Has(_ context.Context, names []plumbing.Name) (has []bool, err error) {
	for _, name := range names {
		_, is := m.objects[name]
		has = append(has, is)
	}
	return has, nil
}

func (m *memoryRepository) Name() string { return m.name }

func (m *memoryRepository) Tags(_ context.Context, names []plumbing.Name) (tags, others []plumbing.Name, err error) {
	tags, others = m.parted(plumbing.Tag, names)
	return tags, others, nil
}

func (m *memoryRepository) Commits(_ context.Context, names []plumbing.Name) (commits, others []plumbing.Name, err error) {
	commits, others = m.parted(plumbing.Commit, names)
	return commits, others, nil
}

// parted parts names into those of objects of a kind and the others.
func (m *memoryRepository) parted(kind plumbing.Kind, names []plumbing.Name) (found, others []plumbing.Name) {
	for _, name := range names {
		if m.objects[name].Kind == kind {
			found = append(found, name)
		} else {
			others = append(others, name)
		}
	}
	return found, others
}

func (m *memoryRepository) Refs(context.Context) ([]tenants.Ref, string, error) {
	return m.refs, m.head, nil
}

// references are the objects that an object refers to.
func references(o plumbing.Object) (names []plumbing.Name) {
	switch o.Kind {
	case plumbing.Commit:
		head := plumbing.ReadHead(o.Contents)
		return append([]plumbing.Name{head.Tree}, head.Parents...)
	case plumbing.Tag:
		target, _ := plumbing.Tagged(o.Contents)
		return []plumbing.Name{target}
	case plumbing.Tree:
		for entry, rest, ok := plumbing.NextEntry(string(o.Contents)); ok; entry, rest, ok = plumbing.NextEntry(rest) {
			names = append(names, entry.Name)
		}
	}
	return names
}

// Missing lists what the wants reach and the haves do not, as the service does.
func (m *memoryRepository) Missing(_ context.Context, wants, haves []plumbing.Name) (found plumbing.Listing, err error) {
	seen := map[plumbing.Name]bool{}
	var walk func(name plumbing.Name, use func(plumbing.Object))
	walk = func(name plumbing.Name, use func(plumbing.Object)) {
		o, is := m.objects[name]
		if seen[name] || !is {
			return
		}
		seen[name] = true
		for _, name := range references(o) {
			walk(name, use)
		}
		use(o)
	}
	for _, name := range haves {
		walk(name, func(plumbing.Object) {})
	}
	for _, name := range wants {
		if _, is := m.objects[name]; !is {
			return nil, plumbing.ErrMissing
		}
		walk(name, func(o plumbing.Object) { found = found.With(o.Name, o.Kind, uint64(len(o.Contents))) })
	}
	return found, nil
}

// Entries gives entries of a pack, one at a time.
func (m *memoryRepository) Entries(_ context.Context, listing plumbing.Listing, use func([]byte) error) error {
	deflater, _ := zlib.NewWriterLevel(nil, zlib.NoCompression)
	for at := 0; at < listing.Len(); at++ {
		o, is := m.objects[listing.Name(at)]
		if !is || o.Kind != listing.Kind(at) || uint64(len(o.Contents)) != listing.Size(at) {
			return plumbing.ErrMissing
		}
		entry := bytes.NewBuffer([]byte{byte(o.Kind)<<4 | byte(len(o.Contents)&15)})
		if rest := len(o.Contents) >> 4; rest > 0 {
			entry.Bytes()[0] |= 0x80
			entry.Write(binary.AppendUvarint(nil, uint64(rest)))
		}
		deflater.Reset(entry)
		_, _ = deflater.Write(o.Contents)
		_ = deflater.Close()
		if err := use(entry.Bytes()); err != nil {
			return err
		}
	}
	return nil
}

// smallRepository has a history of some commits, and a tag.
func smallRepository() (*memoryRepository, []plumbing.Name) {
	m := &memoryRepository{objects: map[plumbing.Name]plumbing.Object{}, head: "refs/heads/main"}
	var commits []plumbing.Name
	parent := ""
	for at := 0; at < 5; at++ {
		blob := m.add(plumbing.Blob, fmt.Sprintf("blob %d\n", at))
		tree := m.add(plumbing.Tree, "100644 f\x00"+string(blob[:]))
		who := fmt.Sprintf("A <a@b> %d +0000", 1000+at)
		commits = append(commits, m.add(plumbing.Commit, fmt.Sprintf("tree %v\n%sauthor %s\ncommitter %s\n\nm\n", tree, parent, who, who)))
		parent = fmt.Sprintf("parent %v\n", commits[at])
	}
	tag := m.add(plumbing.Tag, fmt.Sprintf("object %v\ntype commit\ntag v\n\nm\n", commits[2]))
	m.refs = []tenants.Ref{{Name: "refs/heads/main", Target: commits[4]}, {Name: "refs/tags/v", Target: tag}}
	return m, commits
}

func serve(m *memoryRepository, version int, request []byte) []byte {
	var out bytes.Buffer
	s := Server{}
	_ = s.Serve(context.Background(), m, bufio.NewReader(bytes.NewReader(request)), pktline.NewWriter(&out), version, true)
	return out.Bytes()
}

func lines(texts ...string) (out []byte) {
	for _, text := range texts {
		if text == "" {
			out = append(out, "0000"...)
		} else if text == "|" {
			out = append(out, "0001"...)
		} else {
			out = append(out, fmt.Sprintf("%04x%s", len(text)+4, text)...)
		}
	}
	return out
}

// packIn reads the pack at the end of an answer without bands.
func packIn(t *testing.T, answer []byte) *pack.Quarantine {
	t.Helper()
	at := bytes.Index(answer, []byte("PACK"))
	if at < 0 {
		t.Fatalf("no pack: %.300q", answer)
	}
	q, err := pack.NewQuarantine(t.TempDir(), nil, pack.Usual)
	if err != nil {
		t.Fatal(err)
	}
	t.Cleanup(func() { q.Close() })
	if err := q.Read(context.Background(), bytes.NewReader(answer[at:])); err != nil {
		t.Fatal(err)
	}
	return q
}

func TestAnswersOfTheFirstProtocols(t *testing.T) {
	m, commits := smallRepository()
	want := fmt.Sprintf("want %v ofs-delta\n", commits[4])
	have := func(at int) string { return fmt.Sprintf("have %v\n", commits[at]) }
	for what, it := range map[string]struct {
		request []byte
		begins  string
		commits int
	}{
		"a clone":               {lines(want, "", "done\n"), "0008NAK\n", 5},
		"a fetch":               {lines(want, "", have(2), "done\n"), "0031ACK " + commits[2].String() + "\n", 2},
		"several haves":         {lines(want, "", have(3), have(0), "done\n"), "0031ACK " + commits[3].String() + "\n", 1},
		"an unknown have":       {lines(want, "", "have "+strings.Repeat("1", 40)+"\n", "done\n"), "0008NAK\n", 5},
		"a depth":               {lines(want, "deepen 2", "", "done\n"), "0034shallow " + commits[3].String() + "0000", 2},
		"an old shallow clone":  {lines(want, "shallow "+commits[3].String(), "", have(3), "done\n"), "0031ACK", 1},
		"a tag":                 {lines(fmt.Sprintf("want %v\n", m.refs[1].Target), "", "done\n"), "0008NAK\n", 3},
		"nothing at all":        {lines(""), "", -1},
		"what is there already": {lines(want, "", have(4), "done\n"), "0031ACK", 0},
	} {
		answer := serve(m, 0, it.request)
		begins := strings.ReplaceAll(it.begins, "\n0000", "0000")
		if !strings.HasPrefix(strings.ReplaceAll(string(answer), "\n0000", "0000"), begins) && it.commits >= 0 && what != "a depth" {
			t.Errorf("%s: %.200q", what, answer)
		}
		if it.commits < 0 {
			continue
		}
		got := 0
		_ = packIn(t, answer).Each(plumbing.Commit, func(int) error { got++; return nil })
		if got != it.commits {
			t.Errorf("%s: %d commits", what, got)
		}
	}
}

func TestAnswersOfTheSecondProtocol(t *testing.T) {
	m, commits := smallRepository()
	want := fmt.Sprintf("want %v\n", commits[4])
	answer := string(serve(m, 2, lines("command=ls-refs\n", "|", "peel\n", "symrefs\n", "ref-prefix refs/tags/\n", "ref-prefix HEAD\n", "")))
	for _, text := range []string{" HEAD symref-target:refs/heads/main\n", "refs/tags/v peeled:" + commits[2].String()} {
		if !strings.Contains(answer, text) || strings.Contains(answer, " refs/heads/main\n00") {
			t.Errorf("%q", answer)
		}
	}
	answer = string(serve(m, 2, lines("command=fetch\n", "|", want, fmt.Sprintf("have %v\n", commits[1]), "")))
	if !strings.HasPrefix(answer, "0014acknowledgments\n0031ACK "+commits[1].String()+"\n000aready\n0001000dpackfile\n") {
		t.Errorf("%.200q", answer)
	}
	answer = string(serve(m, 2, lines("command=fetch\n", "|", want, fmt.Sprintf("have %v\n", commits[1]), "wait-for-done\n", "")))
	if !strings.HasSuffix(answer, commits[1].String()+"\n0000") {
		t.Errorf("%.200q", answer)
	}
	answer = string(serve(m, 2, lines("command=fetch\n", "|", want, "done\n", "sideband-all\n", "")))
	if !strings.HasPrefix(answer, "000e\x01packfile\n") {
		t.Errorf("%.200q", answer)
	}
}

func TestPrefixesAreLookedUpOnce(t *testing.T) {
	var refs []tenants.Ref
	for at := 0; at < 1000; at++ {
		refs = append(refs, tenants.Ref{Name: fmt.Sprintf("refs/heads/b%03d", at)})
	}
	l := listing{prefixes: []string{"refs/heads/b01", "refs/heads/b0", "refs/heads/b01", "refs/heads/b999", "refs/none"}}
	got := 0
	for _, part := range l.selected(refs) {
		got += len(part)
	}
	if got != 101 {
		t.Fatalf("%d refs", got)
	}
}

// TestCapabilitiesAreFew has a want with thousands of words, each of which would take many times its own size of memory.
func TestCapabilitiesAreFew(t *testing.T) {
	m, commits := smallRepository()
	words := ""
	for at := 0; at < 5000; at++ {
		words += fmt.Sprintf(" c%d", at)
	}
	answer := string(serve(m, 0, lines(fmt.Sprintf("want %v%s\n", commits[4], words), "", "done\n")))
	if !strings.Contains(answer, "ERR a request asks for more than 64 capabilities") {
		t.Fatalf("%.200q", answer)
	}
}

// TestASessionHasManyRequests has a session of protocol 2 whose requests have more lines together than one may have, and one that has too many by itself.
func TestASessionHasManyRequests(t *testing.T) {
	m, _ := smallRepository()
	request := func(count int) []byte {
		prefixes := bytes.Repeat(lines("ref-prefix "+strings.Repeat("x", 60_000)+"\n"), count)
		return bytes.Join([][]byte{lines("command=ls-refs\n", "|", "ref-prefix HEAD\n"), prefixes, lines("")}, nil)
	}
	out := spoken(m, bytes.Repeat(request(mostLines/60_000*2/3), 4))
	if got := bytes.Count(out, []byte(" HEAD\n")); got != 4 {
		t.Fatalf("%d of 4 requests were answered: %.200q", got, out)
	}
	if out = spoken(m, request(mostLines/60_000+1)); !bytes.Contains(out, []byte("ERR "+pktline.ErrTooMuch.Error())) {
		t.Fatalf("%.200q", out)
	}
}

// spoken is what a session of protocol 2 is answered.
func spoken(m *memoryRepository, session []byte) []byte {
	var out bytes.Buffer
	_ = Server{}.Serve(context.Background(), m, bufio.NewReader(bytes.NewReader(session)), pktline.NewWriter(&out), 2, false)
	return out.Bytes()
}

// longRepository has a history of so many commits, the oldest first.
func longRepository(count int) (*memoryRepository, []plumbing.Name) {
	m := &memoryRepository{objects: map[plumbing.Name]plumbing.Object{}, head: "refs/heads/main"}
	tree := m.add(plumbing.Tree, "")
	var commits []plumbing.Name
	parent := ""
	for at := 0; at < count; at++ {
		who := fmt.Sprintf("A <a@b> %d +0000", 1000+at)
		commits = append(commits, m.add(plumbing.Commit, fmt.Sprintf("tree %v\n%sauthor %s\ncommitter %s\n\nm\n", tree, parent, who, who)))
		parent = fmt.Sprintf("parent %v\n", commits[at])
	}
	m.refs = []tenants.Ref{{Name: "refs/heads/main", Target: commits[count-1]}}
	return m, commits
}

// allocated is how many bytes of memory a call takes, whether or not it gives them back.
func allocated(call func()) uint64 {
	var before, after runtime.MemStats
	runtime.ReadMemStats(&before)
	call()
	runtime.ReadMemStats(&after)
	return after.TotalAlloc - before.TotalAlloc
}

// TestRoundsOfANegotiationAddUp has a client that tells one commit in each of 2,000 rounds, and wants one that is on no way to any of them. It
// may not cost a round more the more rounds there were before.
func TestRoundsOfANegotiationAddUp(t *testing.T) {
	m, commits := longRepository(2000)
	who := "A <a@b> 5000 +0000"
	apart := m.add(plumbing.Commit, fmt.Sprintf("tree %v\nauthor %s\ncommitter %s\n\nm\n", m.add(plumbing.Tree, ""), who, who))
	request := lines(fmt.Sprintf("want %v multi_ack_detailed\n", apart), "")
	for _, name := range commits {
		request = append(request, lines(fmt.Sprintf("have %v\n", name), "")...)
	}
	var out bytes.Buffer
	took := allocated(func() {
		_ = Server{}.Serve(context.Background(), m, bufio.NewReader(bytes.NewReader(request)), pktline.NewWriter(&out), 0, false)
	})
	if acknowledged := strings.Count(out.String(), " common"); acknowledged != len(commits) {
		t.Fatalf("%d of %d commits were acknowledged", acknowledged, len(commits))
	}
	if took > 64<<20 {
		t.Fatalf("2,000 rounds took %d MB", took>>20)
	}
}

// bounded is a memory of so many bytes.
type bounded struct {
	held, most   int64
	holds, frees int
}

func (b *bounded) Hold(bytes int64) error {
	b.holds++
	if b.held += bytes; b.held > b.most {
		return Refused{"too much is held"}
	}
	return nil
}

func (b *bounded) Share(_ any, bytes int64) error              { return b.Hold(bytes) }
func (b *bounded) Take(context.Context, int64) (func(), error) { return func() {}, nil }
func (b *bounded) TryTake(int64) func()                        { return func() {} }
func (b *bounded) Free()                                       { b.frees++ }

// TestCommitsThatAreWalkedAreCounted has a fetch walk a history by both kinds of protocol, with room for half of its commits and for all of them.
func TestCommitsThatAreWalkedAreCounted(t *testing.T) {
	m, commits := longRepository(1000)
	want := fmt.Sprintf("want %v\n", commits[len(commits)-1])
	for version, request := range map[int][]byte{
		0: lines(want, "deepen 1000\n", "", "done\n"),
		2: lines("command=fetch\n", "|", want, "deepen 1000\n", "done\n", ""),
	} {
		for most, isRefused := range map[int64]bool{500 * 300: true, 1000 * 300: false} {
			b := &bounded{most: most}
			var out bytes.Buffer
			s := Server{Memory: func() Memory { return b }}
			_ = s.Serve(context.Background(), m, bufio.NewReader(bytes.NewReader(request)), pktline.NewWriter(&out), version, true)
			if bytes.Contains(out.Bytes(), []byte("ERR too much is held")) != isRefused || bytes.Contains(out.Bytes(), []byte("PACK")) == isRefused || b.frees != 1 {
				t.Errorf("protocol %d with %d bytes: %+v, %.200q", version, most, b, out.Bytes())
			}
			// Each of them asks for the limits, which takes longer than to read a commit.
			if b.holds > len(commits)/16 {
				t.Errorf("protocol %d: %d commits were counted in %d steps", version, len(commits), b.holds)
			}
		}
	}
}

// TestSetsOfNamesAreCounted has 1,000 files, which a filter looks for by their depth, or which a client lists that wants one of them by its name too.
func TestSetsOfNamesAreCounted(t *testing.T) {
	m := &memoryRepository{objects: map[plumbing.Name]plumbing.Object{}, head: "refs/heads/main"}
	tree, last := "", plumbing.Name{}
	for at := 0; at < 1000; at++ {
		last = m.add(plumbing.Blob, fmt.Sprint(at))
		tree += fmt.Sprintf("100644 f%04d\x00%s", at, last[:])
	}
	parent := m.add(plumbing.Commit, fmt.Sprintf("tree %v\ncommitter A <a@b> 1 +0000\n\nm\n", m.add(plumbing.Tree, "")))
	commit := m.add(plumbing.Commit, fmt.Sprintf("tree %v\nparent %v\ncommitter A <a@b> 2 +0000\n\nm\n", m.add(plumbing.Tree, tree), parent))
	want := fmt.Sprintf("want %v\n", commit)
	for what, request := range map[string][]byte{
		"depth": lines("command=fetch\n", "|", want, "filter tree:2\n", "done\n", ""),
		"named": lines("command=fetch\n", "|", want, fmt.Sprintf("want %v\n", last), fmt.Sprintf("have %v\n", parent), "done\n", ""),
	} {
		for most, isRefused := range map[int64]bool{1000 * 60: true, 1000 * 90: false} {
			b := &bounded{most: most}
			var out bytes.Buffer
			s := Server{Memory: func() Memory { return b }}
			_ = s.Serve(context.Background(), m, bufio.NewReader(bytes.NewReader(request)), pktline.NewWriter(&out), 2, true)
			if bytes.Contains(out.Bytes(), []byte("too much is held")) != isRefused || bytes.Contains(out.Bytes(), []byte("PACK")) == isRefused {
				t.Errorf("%s with %d bytes: %+v, %.200q", what, most, b, out.Bytes())
			}
		}
	}
}

// TestManyWantsWalkOneWay wants each commit of a history by itself, and has its oldest one.
func TestManyWantsWalkOneWay(t *testing.T) {
	m, commits := longRepository(3000)
	request := lines(fmt.Sprintf("want %v multi_ack_detailed\n", commits[1]))
	for at := len(commits) - 1; at > 1; at-- {
		request = append(request, lines(fmt.Sprintf("want %v\n", commits[at]))...)
	}
	request = append(request, lines("", fmt.Sprintf("have %v\n", commits[0]), "")...)
	var answer []byte
	took := allocated(func() { answer = serve(m, 0, request) })
	if !bytes.Contains(answer, []byte(" ready\n")) {
		t.Fatalf("%.200q", answer)
	}
	if took > 64<<20 {
		t.Fatalf("3,000 wants took %d MB", took>>20)
	}
}

// TestNamesOfDeepenNotAreLookedUp has one name again and again, and many refs.
func TestNamesOfDeepenNotAreLookedUp(t *testing.T) {
	m, commits := smallRepository()
	for at := 0; at < 40_000; at++ {
		m.refs = append(m.refs, tenants.Ref{Name: fmt.Sprintf("refs/tags/x%05d", at), Target: commits[0]})
	}
	request := lines("command=fetch\n", "|", fmt.Sprintf("want %v\n", commits[4]))
	for at := 0; at < 40_000; at++ {
		request = append(request, lines("deepen-not x39999\n")...)
	}
	began := worked()
	answer := serve(m, 2, append(request, lines("done\n", "")...))
	if !bytes.Contains(answer, []byte("packfile")) {
		t.Fatalf("%.200q", answer)
	}
	if took := worked() - began; took > 5*time.Second {
		t.Fatalf("it took %v of a processor", took)
	}
}

// worked is for how long processors have worked for this process, whatever else they do.
func worked() time.Duration {
	var usage syscall.Rusage
	_ = syscall.Getrusage(syscall.RUSAGE_SELF, &usage)
	return time.Duration(usage.Utime.Nano())
}

func FuzzRequests(f *testing.F) {
	m, commits := smallRepository()
	want := fmt.Sprintf("want %v side-band-64k ofs-delta include-tag\n", commits[4])
	f.Add(0, lines(want, "deepen 2\n", "", "done\n"))
	f.Add(0, lines(want, "shallow "+commits[3].String()+"\n", "deepen-since 1002\n", "filter blob:limit=1\n", "", "have "+commits[1].String()+"\n", "", "done\n"))
	f.Add(2, lines("command=fetch\n", "|", want, "deepen-not v\n", "done\n", ""))
	f.Add(2, lines("command=fetch\n", "|", "want "+commits[4].String()+"\n", "have "+commits[0].String()+"\n", "deepen 1\n", "deepen-relative\n", "shallow "+commits[2].String()+"\n", "filter combine:tree:1+blob:none\n", ""))
	f.Add(2, lines("command=ls-refs\n", "|", "peel\n", "symrefs\n", "unborn\n", "ref-prefix r\n", ""))
	f.Fuzz(func(t *testing.T, version int, request []byte) {
		if version >= 0 && version <= 2 {
			serve(m, version, request)
		}
	})
}
