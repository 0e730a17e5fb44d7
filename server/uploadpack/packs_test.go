package uploadpack

import (
	"bufio"
	"bytes"
	"context"
	"fmt"
	"math/rand"
	"os"
	"path/filepath"
	"sort"
	"strings"
	"sync/atomic"
	"testing"
	"time"

	"gitpoold/metrics"
	"gitpoold/packcache"
	"gitpoold/pktline"
	"gitpoold/plumbing"
	"gitpoold/tenants"
)

// packed is a server with a cache of packs that is kept going, and its folder.
type packed struct {
	t      *testing.T
	cache  *packcache.Cache
	folder string
	most   atomic.Int64
	isOff  atomic.Bool
	ahead  atomic.Int64 // of the clock, in nanoseconds
	told   chan string
}

func newPacked(t *testing.T) *packed {
	t.Helper()
	p := &packed{t: t, folder: filepath.Join(t.TempDir(), "packs"), told: make(chan string, 100)}
	p.most.Store(1 << 30)
	// On a busy machine git would have no turn for minutes.
	p.onPath("nice", `shift 2; exec "$@"`)
	cache, err := packcache.New(packcache.Config{Folder: p.folder, Most: p.most.Load, MayGrow: func() error { return nil },
		IsOff: func(string) bool { return p.isOff.Load() }, Metrics: metrics.New(), Clock: p.clock,
		Tell: func(format string, values ...any) { p.told <- fmt.Sprintf(format, values...) }})
	if err != nil {
		t.Fatal(err)
	}
	p.cache = cache
	keeping, stop := context.WithCancel(background)
	ended := make(chan struct{})
	go func() {
		defer close(ended)
		cache.Keep(keeping)
	}()
	t.Cleanup(func() { stop(); <-ended })
	return p
}

func (p *packed) clock() time.Time { return time.Now().Add(time.Duration(p.ahead.Load())) }

// await waits until the state of the cache is one.
func (p *packed) await(what string, is func(packcache.State) bool) {
	p.t.Helper()
	for until := time.Now().Add(5 * time.Minute); !is(p.cache.State()); time.Sleep(5 * time.Millisecond) {
		if time.Now().After(until) {
			p.t.Fatalf("%s: %+v", what, p.cache.State())
		}
	}
}

func (p *packed) awaitMade(count int64) {
	p.t.Helper()
	p.await("a pack is made", func(s packcache.State) bool { return s.Made == count })
}

// ask is the answer to a request.
func (p *packed) ask(m Repository, request []byte) (answer []byte, err error) {
	var out bytes.Buffer
	err = Server{Packs: p.cache}.Serve(background, m, bufio.NewReader(bytes.NewReader(request)), pktline.NewWriter(&out), 0, true)
	return out.Bytes(), err
}

// clone clones objects, asks that just what they reach has come, and gives how many bytes that took.
func (p *packed) clone(m *memoryRepository, wants ...plumbing.Name) int {
	p.t.Helper()
	answer, err := p.ask(m, wanting("ofs-delta include-tag", wants...))
	if err != nil {
		p.t.Fatal(err)
	}
	p.has(m, answer, wants...)
	return len(answer)
}

// wanting is a request for objects by a client that can so much.
func wanting(can string, wants ...plumbing.Name) []byte {
	var asked []string
	for at, want := range wants {
		asked = append(asked, fmt.Sprintf("want %v", want))
		if at == 0 {
			asked[0] += " " + can
		}
		asked[at] += "\n"
	}
	return lines(append(asked, "", "done\n")...)
}

// has asks that an answer has just what names reach, each object once.
func (p *packed) has(m *memoryRepository, answer []byte, names ...plumbing.Name) {
	p.t.Helper()
	listing, err := m.Missing(background, names, nil)
	if err != nil {
		p.t.Fatal(err)
	}
	var wanted, got []string
	for at := 0; at < listing.Len(); at++ {
		wanted = append(wanted, listing.Name(at).String())
	}
	q := packIn(p.t, answer)
	for kind := plumbing.Commit; kind <= plumbing.Tag; kind++ {
		_ = q.Each(kind, func(at int) error {
			got = append(got, q.NameAt(at).String())
			return nil
		})
	}
	sort.Strings(wanted)
	sort.Strings(got)
	if strings.Join(wanted, " ") != strings.Join(got, " ") {
		p.t.Fatalf("%d objects where %d were wanted", len(got), len(wanted))
	}
}

// wordy is a repository of so many commits, each with a change of a text that git makes small, and the commits.
func wordy(name string, count int, seed int64) (*memoryRepository, []plumbing.Name) {
	m := &memoryRepository{objects: map[plumbing.Name]plumbing.Object{}, head: "refs/heads/main", name: name}
	var commits []plumbing.Name
	text := make([]string, 700)
	for at := range text {
		text[at] = fmt.Sprintf("line %d %d", seed, rand.Int63())
	}
	parent := plumbing.Name{}
	for at := 0; at < count; at++ {
		text[at] = fmt.Sprintf("changed %d %d", seed, at)
		parent = m.commit(strings.Join(text, "\n"), parent)
		commits = append(commits, parent)
	}
	m.refs = []tenants.Ref{{Name: "refs/heads/main", Target: parent}}
	return m, commits
}

// commit adds a commit with one file.
func (m *memoryRepository) commit(contents string, parents ...plumbing.Name) plumbing.Name {
	blob := m.add(plumbing.Blob, contents)
	tree := m.add(plumbing.Tree, "100644 f\x00"+string(blob[:]))
	said := fmt.Sprintf("tree %v\n", tree)
	for _, parent := range parents {
		if !parent.IsZero() {
			said += fmt.Sprintf("parent %v\n", parent)
		}
	}
	who := fmt.Sprintf("A <a@b> %d +0000", 1000+len(m.objects))
	return m.add(plumbing.Commit, said+fmt.Sprintf("author %s\ncommitter %s\n\nm\n", who, who))
}

func TestAClonePackedByGit(t *testing.T) {
	p := newPacked(t)
	m, commits := wordy("acme/a", 10, 1)
	tip := commits[9]
	before := p.clone(m, tip)
	p.awaitMade(1)
	after := p.clone(m, tip)
	if s := p.cache.State(); after*5 > before || s.Hits != 1 || s.Misses != 1 || s.Packs != 1 || s.SentBytes == 0 || s.Bytes < s.SentBytes {
		t.Fatalf("%d bytes before and %d after: %+v", before, after, s)
	}
	// What is new comes beside the pack, twice by the plan that is remembered.
	m.commit("elsewhere")
	next := m.commit("next\n", tip)
	for count := int64(1); count <= 2; count++ {
		if near := p.clone(m, next); near > after+2000 || p.cache.State().Near != count {
			t.Fatalf("%d bytes after %d: %+v", near, after, p.cache.State())
		}
	}
	// A merge of two roots, one of which the pack was made for.
	p.clone(m, m.commit("merged", next, m.commit("root")))
	// What does not reach the tip of the pack goes the ordinary way.
	for _, other := range []plumbing.Name{commits[8], m.commit("rewritten", commits[8])} {
		if p.clone(m, other); p.cache.State().Near != 3 {
			t.Fatalf("%+v", p.cache.State())
		}
	}
}

// TestWhoGetsNoKeptPack has requests that are no clones of everything, and clients without offsets of deltas.
func TestWhoGetsNoKeptPack(t *testing.T) {
	p := newPacked(t)
	m, commits := wordy("acme/a", 10, 1)
	p.clone(m, commits[9])
	p.awaitMade(1)
	want := fmt.Sprintf("want %v ofs-delta shallow filter deepen-since\n", commits[9])
	for what, request := range map[string][]byte{
		"no offsets": wanting("include-tag", commits[9]),
		"a have":     lines(want, "", fmt.Sprintf("have %v\n", commits[3]), "done\n"),
		"a filter":   lines(want, "filter blob:none\n", "", "done\n"),
		"a depth":    lines(want, "deepen 3\n", "", "done\n"),
		"a time":     lines(want, "deepen-since 1\n", "", "done\n"),
		"shallow":    lines(want, fmt.Sprintf("shallow %v\n", commits[3]), "", "done\n"),
	} {
		if _, err := p.ask(m, request); err != nil {
			t.Error(what, err)
		}
	}
	if s := p.cache.State(); s.Hits+s.Near != 0 || s.Misses != 1 || s.SentBytes != 0 {
		t.Fatalf("%+v", s)
	}
	if _, err := p.ask(m, lines(want, "", "have "+strings.Repeat("1", 40)+"\n", "done\n")); err != nil || p.cache.State().Hits != 1 {
		t.Fatalf("%v: %+v", err, p.cache.State())
	}
}

// TestTenantsSharePacksWithNobody has a tenant with the same objects as another one.
func TestTenantsSharePacksWithNobody(t *testing.T) {
	p := newPacked(t)
	one, commits := wordy("acme/a", 10, 1)
	other := *one
	other.name = "acme/b"
	before := p.clone(one, commits[9])
	p.awaitMade(1)
	if got := p.clone(&other, commits[9]); got != before || p.cache.State().Hits != 0 {
		t.Fatalf("%d bytes of %d: %+v", got, before, p.cache.State())
	}
}

// TestATenantMadeAnew forgets a tenant while it has a pack, while one is sent, and while git makes one.
func TestATenantMadeAnew(t *testing.T) {
	p := newPacked(t)
	m, commits := wordy("acme/a", 10, 1)
	p.clone(m, commits[9])
	p.awaitMade(1)
	kept := p.cache.Find(background, m, packcache.Clone{Wants: commits[9:]})
	defer kept.Close()
	p.cache.Removed("acme/a")
	if err := kept.Entries(background, func([]byte) error { t.Error("a part was sent"); return nil }); err != packcache.ErrGone {
		t.Fatal(err)
	}
	if s := p.cache.State(); s.Packs != 0 || s.Bytes != 0 || len(p.files()) != 0 {
		t.Fatalf("%+v %v", s, p.files())
	}
	// The same names, and other contents: as if the two had one name. Nothing of the pack before is sent.
	blob := plumbing.Name{}
	for name, o := range m.objects {
		if o.Kind == plumbing.Blob {
			blob = name
		}
	}
	changed := m.objects[blob]
	changed.Contents = append([]byte("X"), changed.Contents[1:]...)
	m.objects[blob] = changed
	answer, err := p.ask(m, wanting("ofs-delta", commits[9]))
	if s := p.cache.State(); err != nil || s.Hits != 1 || s.Misses != 2 {
		t.Fatalf("%v: %+v", err, s)
	}
	q, isThere := packIn(t, answer), false
	_ = q.Each(plumbing.Blob, func(at int) error {
		contents, err := q.ContentsAt(at)
		isThere = isThere || err == nil && bytes.Equal(contents, changed.Contents)
		return nil
	})
	if !isThere {
		t.Fatal("the changed contents did not come")
	}
}

// TestForgottenWhileItIsSent has a clone that began before, and goes on.
func TestForgottenWhileItIsSent(t *testing.T) {
	p := newPacked(t)
	m, commits := wordy("acme/a", 10, 1)
	p.clone(m, commits[9])
	p.awaitMade(1)
	kept := p.cache.Find(background, m, packcache.Clone{Wants: commits[9:]})
	defer kept.Close()
	p.cache.Forget("acme/a")
	sent := 0
	if err := kept.Entries(background, func(part []byte) error { sent += len(part); return nil }); err != nil || sent == 0 || len(p.files()) != 0 {
		t.Fatal(err, sent, p.files())
	}
}

// TestForgottenWhileGitIsAtWork has a git that has begun and waits.
func TestForgottenWhileGitIsAtWork(t *testing.T) {
	p := newPacked(t)
	begun := p.fakeGit(`touch $0.begun; case $1 in pack-objects) cat > /dev/null; while :; do sleep 1; done;; esac; exec $real "$@"`)
	m, commits := wordy("acme/a", 10, 1)
	p.clone(m, commits[9])
	awaitFile(t, begun)
	p.cache.Forget("acme/a")
	p.await("the room is given back", func(s packcache.State) bool { return s.Bytes == 0 })
	if s := p.cache.State(); s.Packs != 0 || s.Made != 0 || s.Failed != 0 {
		t.Fatalf("%+v", s)
	}
	p.clone(m, commits[9])
	if s := p.cache.State(); s.Hits != 0 || s.Misses != 2 {
		t.Fatalf("%+v", s)
	}
}

// onPath lets a script stand on the PATH, and gives its folder.
func (p *packed) onPath(name, script string) (folder string) {
	p.t.Helper()
	folder = p.t.TempDir()
	if err := os.WriteFile(filepath.Join(folder, name), []byte("#!/bin/sh\n"+script+"\n"), 0o700); err != nil {
		p.t.Fatal(err)
	}
	p.t.Setenv("PATH", folder+":"+os.Getenv("PATH"))
	return folder
}

// fakeGit lets a script stand in the place of git, in which $real is the true one, and $0.begun a file that it may make.
func (p *packed) fakeGit(script string) (begun string) {
	p.t.Helper()
	return filepath.Join(p.onPath("git", "real="+realGit(p.t)+"\n"+script), "git.begun")
}

func realGit(t *testing.T) string {
	t.Helper()
	for _, folder := range filepath.SplitList(os.Getenv("PATH")) {
		if _, err := os.Stat(filepath.Join(folder, "git")); err == nil {
			return filepath.Join(folder, "git")
		}
	}
	t.Skip("there is no git")
	return ""
}

func awaitFile(t *testing.T, path string) {
	t.Helper()
	for until := time.Now().Add(5 * time.Minute); ; time.Sleep(5 * time.Millisecond) {
		if _, err := os.Stat(path); err == nil {
			return
		}
		if time.Now().After(until) {
			t.Fatal("not there: ", path)
		}
	}
}

// files are those of the cache's folder.
func (p *packed) files() (names []string) {
	entries, _ := os.ReadDir(p.folder)
	for _, it := range entries {
		names = append(names, it.Name())
	}
	return names
}

// TestGitThatFails has gits that die, print something else, or are not there. Clones go the ordinary way, and nothing is left.
func TestGitThatFails(t *testing.T) {
	for what, script := range map[string]string{
		"dies at once":        `exit 3`,
		"is killed":           `kill -9 $$`,
		"dies while it reads": `head -c 1000 > /dev/null; exit 0`,
		"prints nothing":      `case $1 in pack-objects) cat > /dev/null; exit 0;; esac; exec $real "$@"`,
		"prints garbage":      `case $1 in pack-objects) cat > /dev/null; yes | head -c 100000; exit 0;; esac; exec $real "$@"`,
		"prints without end":  `case $1 in pack-objects) cat > /dev/null; exec yes;; esac; exec $real "$@"`,
		"prints a part":       `case $1 in pack-objects) $real "$@" | head -c 5000; exit 0;; esac; exec $real "$@"`,
		"fails behind a part": `case $1 in pack-objects) $real "$@" | head -c 5000; exit 1;; esac; exec $real "$@"`,
		"packs a part":        `case $1 in pack-objects) cat > /dev/null; echo | $real "$@"; exit 0;; esac; exec $real "$@"`,
		"takes its folder":    `case $1 in pack-objects) cat > /dev/null; rm -rf "$PWD";; esac; exec $real "$@"`,
	} {
		t.Run(what, func(t *testing.T) {
			p := newPacked(t)
			p.fakeGit(script)
			m, commits := wordy("acme/a", 10, 1)
			p.clone(m, commits[9])
			p.await("it fails", func(s packcache.State) bool { return s.Failed == 1 })
			p.clone(m, commits[9])
			if s := p.cache.State(); s.Made != 0 || s.Packs != 0 || s.Bytes != 0 || len(p.files()) != 0 {
				t.Errorf("%+v %v", s, p.files())
			}
			if said := <-p.told; !strings.HasPrefix(said, "no pack for clones of acme/a was made: ") {
				t.Error(said)
			}
		})
	}
}

func TestNoGit(t *testing.T) {
	p := newPacked(t)
	t.Setenv("PATH", t.TempDir())
	m, commits := wordy("acme/a", 10, 1)
	p.clone(m, commits[9])
	if said := <-p.told; !strings.Contains(said, "this needs the program git, which is not on the PATH") {
		t.Fatal(said)
	}
}

// TestDamagedFiles changes, cuts and takes away the file of a pack. A client gets no byte of what is not as git made it.
func TestDamagedFiles(t *testing.T) {
	for what, damage := range map[string]func(path string) error{
		"changed": func(path string) error {
			text, err := os.ReadFile(path)
			text[len(text)/2] ^= 1
			if err == nil {
				err = os.WriteFile(path, text, 0o600)
			}
			return err
		},
		"cut":       func(path string) error { return os.Truncate(path, 1000) },
		"longer":    func(path string) error { return os.Truncate(path, 10_000_000) },
		"gone":      os.Remove,
		"no file":   func(path string) error { _ = os.Remove(path); return os.Mkdir(path, 0o700) },
		"no folder": func(path string) error { return os.RemoveAll(filepath.Dir(path)) },
	} {
		t.Run(what, func(t *testing.T) {
			p := newPacked(t)
			m, commits := wordy("acme/a", 10, 1)
			before := p.clone(m, commits[9])
			p.awaitMade(1)
			if err := damage(filepath.Join(p.folder, p.files()[0])); err != nil {
				t.Fatal(err)
			}
			answer, err := p.ask(m, wanting("ofs-delta", commits[9]))
			if what == "changed" {
				if err == nil || len(answer) > 200 || p.cache.State().SentBytes != 0 {
					t.Fatalf("%v: %d bytes", err, len(answer))
				}
			} else if err != nil || len(answer) != before {
				t.Fatalf("%v: %d bytes of %d", err, len(answer), before)
			}
			if s := p.cache.State(); s.Packs != 0 || s.Bytes != 0 {
				t.Fatalf("%+v", s)
			}
			if got := p.clone(m, commits[9]); got != before {
				t.Fatalf("%d bytes of %d", got, before)
			}
		})
	}
}

// TestACutWhileItIsSent cuts a file that is open.
func TestACutWhileItIsSent(t *testing.T) {
	p := newPacked(t)
	m, commits := wordy("acme/a", 10, 1)
	p.clone(m, commits[9])
	p.awaitMade(1)
	kept := p.cache.Find(background, m, packcache.Clone{Wants: commits[9:]})
	defer kept.Close()
	if err := os.Truncate(filepath.Join(p.folder, p.files()[0]), 5000); err != nil {
		t.Fatal(err)
	}
	if err := kept.Entries(background, func([]byte) error { return nil }); err != packcache.ErrDamaged {
		t.Fatal(err)
	}
}

// TestRoom has room for one pack, for none, and no cache any more.
func TestRoom(t *testing.T) {
	p := newPacked(t)
	one, commits := wordy("acme/a", 10, 1)
	other, others := wordy("acme/b", 10, 2)
	p.clone(one, commits[9])
	p.awaitMade(1)
	// As much as the second one takes while it is made, which is more than both packs take.
	p.most.Store(2*int64(p.clone(other, others[9])) + 4<<20)
	p.awaitMade(2)
	p.await("both are kept", func(s packcache.State) bool { return s.Packs == 2 })
	p.clone(one, commits[9])
	p.most.Store(p.cache.State().Bytes - 1)
	p.await("the one that was used least lately goes", func(s packcache.State) bool { return s.Packs == 1 })
	hits := p.cache.State().Hits
	if p.clone(one, commits[9]); p.cache.State().Hits != hits+1 {
		t.Fatalf("%+v", p.cache.State())
	}
	third, thirds := wordy("acme/c", 10, 3)
	p.most.Store(1 << 20)
	p.clone(third, thirds[9])
	p.await("it is too large", func(s packcache.State) bool { return s.Failed == 1 })
	p.most.Store(0)
	p.await("all go", func(s packcache.State) bool { return s.Packs == 0 && s.Bytes == 0 })
	misses := p.cache.State().Misses
	if p.clone(one, commits[9]); p.cache.State().Misses != misses || len(p.files()) != 0 {
		t.Fatalf("%+v %v", p.cache.State(), p.files())
	}
}

// TestBlockedTenants loses the packs of tenants that may have none any more.
func TestBlockedTenants(t *testing.T) {
	p := newPacked(t)
	m, commits := wordy("acme/a", 10, 1)
	before := p.clone(m, commits[9])
	p.awaitMade(1)
	p.isOff.Store(true)
	if got := p.clone(m, commits[9]); got != before {
		t.Fatalf("%d bytes of %d", got, before)
	}
	p.await("it goes", func(s packcache.State) bool { return s.Packs == 0 && s.Bytes == 0 })
}

// TestTagsOfKeptPacks has clones of a branch, with which tags come that lead into it.
func TestTagsOfKeptPacks(t *testing.T) {
	p := newPacked(t)
	m, commits := wordy("acme/a", 10, 1)
	tip := commits[9]
	tag := func(name string, of plumbing.Name) plumbing.Name {
		added := m.add(plumbing.Tag, fmt.Sprintf("object %v\ntype commit\ntag %s\n\nm\n", of, name))
		m.refs = append(m.refs, tenants.Ref{Name: plumbing.Tags + name, Target: added})
		return added
	}
	inside := tag("a", commits[2])
	tag("b", m.commit("elsewhere"))
	follows := func() {
		t.Helper()
		answer, err := p.ask(m, wanting("ofs-delta include-tag", tip))
		if err != nil {
			t.Fatal(err)
		}
		p.has(m, answer, tip, inside)
	}
	follows()
	p.awaitMade(1)
	follows()
	if s := p.cache.State(); s.Hits != 1 {
		t.Fatalf("%+v", s)
	}
	// Another tag may lead there too, which is asked in the ordinary way.
	inside2 := tag("c", commits[3])
	answer, err := p.ask(m, wanting("ofs-delta include-tag", tip))
	if err != nil || p.cache.State().Near != 0 {
		t.Fatalf("%v: %+v", err, p.cache.State())
	}
	p.has(m, answer, tip, inside, inside2)
	// Who wants all tags gets the pack and what is beside it.
	p.clone(m, tip, inside, inside2, m.refs[2].Target)
	if s := p.cache.State(); s.Near != 1 {
		t.Fatalf("%+v", s)
	}
}

// TestAFarPackIsMadeAnew has more beside a pack than it is worth.
func TestAFarPackIsMadeAnew(t *testing.T) {
	p := newPacked(t)
	m, commits := wordy("acme/a", 10, 1)
	p.clone(m, commits[9])
	p.awaitMade(1)
	large := make([]byte, 300<<10)
	rand.Read(large)
	far := m.commit(string(large), commits[9])
	m.refs[0].Target = far
	p.clone(m, far)
	p.ahead.Store(int64(24 * time.Hour))
	p.clone(m, far)
	p.awaitMade(2)
	hits := p.cache.State().Hits
	if p.clone(m, far); p.cache.State().Hits != hits+1 || p.cache.State().Packs != 1 || len(p.files()) != 1 {
		t.Fatalf("%+v %v", p.cache.State(), p.files())
	}
}

// TestClonesAtOnce clones while a pack is made, kept and dropped.
func TestClonesAtOnce(t *testing.T) {
	p := newPacked(t)
	m, commits := wordy("acme/a", 10, 1)
	done := make(chan error, 8)
	for client := 0; client < cap(done); client++ {
		go func() {
			for round := 0; round < 5; round++ {
				answer, err := p.ask(m, wanting("ofs-delta", commits[9]))
				if err != nil && err != packcache.ErrGone || err == nil && !bytes.Contains(answer, []byte("PACK")) {
					done <- fmt.Errorf("%w: %d bytes", err, len(answer))
					return
				}
			}
			done <- nil
		}()
	}
	for ended := 0; ended < cap(done); {
		select {
		case err := <-done:
			ended++
			if err != nil {
				t.Error(err)
			}
		case <-time.After(20 * time.Millisecond):
			if p.cache.Forget("acme/a"); ended%2 == 0 {
				p.cache.Removed("acme/a")
			}
		case <-p.told:
		}
	}
}

// TestWhatAServerLeftIsRemoved begins a cache in a folder that has something.
func TestWhatAServerLeftIsRemoved(t *testing.T) {
	folder := filepath.Join(t.TempDir(), "packs")
	if err := os.MkdirAll(filepath.Join(folder, "making", "objects"), 0o700); err != nil {
		t.Fatal(err)
	}
	if err := os.WriteFile(filepath.Join(folder, "1.pack"), []byte("PACK"), 0o600); err != nil {
		t.Fatal(err)
	}
	_, err := packcache.New(packcache.Config{Folder: folder, Metrics: metrics.New()})
	if _, found := os.Stat(folder); err != nil || !os.IsNotExist(found) {
		t.Fatal(err, found)
	}
}
