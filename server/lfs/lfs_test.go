package lfs

import (
	"bytes"
	"context"
	"crypto/sha256"
	"encoding/hex"
	"errors"
	"fmt"
	"io"
	"os"
	"path/filepath"
	"strings"
	"sync"
	"testing"
	"time"

	"gitpoold/child"
	"gitpoold/frames"
	"gitpoold/idempotency"
	"gitpoold/store"
	"gitpoold/tenants"
)

// nothing is a pool in which no tenant has anything.
type nothing struct{}

func (nothing) Ask(context.Context, child.Class, ...frames.Step) (store.Answers, error) {
	return nil, nil
}
func (nothing) Begin(context.Context, string, store.Form) (*store.Stream, error) { return nil, nil }
func (nothing) Kept(string, string) (kept idempotency.Answer, has bool)          { return kept, false }
func (nothing) Bytes(string) int64                                               { return 0 }
func (nothing) AtMost(string) int64                                              { return 0 }
func (nothing) Recount(context.Context, string) error                            { return nil }
func (nothing) Usages() []store.Usage                                            { return nil }

func check(t *testing.T, err error) {
	t.Helper()
	if err != nil {
		t.Fatal(err)
	}
}

// opened gives the files of a folder, and a tenant that may have so many bytes.
func opened(t *testing.T, folder string, quota int64) (*Store, func(name string) tenants.Tenant) {
	t.Helper()
	s, err := Open(folder, func(string) bool { return false }, t.Logf)
	check(t, err)
	pool := tenants.New(nothing{}, func(string) int64 { return quota })
	pool.Beside(s.Bytes)
	return s, func(name string) tenants.Tenant {
		it, err := pool.Tenant(name)
		check(t, err)
		return it
	}
}

func named(contents string) Object {
	sum := sha256.Sum256([]byte(contents))
	return Object{hex.EncodeToString(sum[:]), int64(len(contents))}
}

func may() error { return nil }

// put keeps a file.
func put(s *Store, t tenants.Tenant, contents string) error {
	return s.Put(t, named(contents), strings.NewReader(contents), may)
}

// isThere asks that a tenant has a file, or has not.
func isThere(t *testing.T, s *Store, name, contents string, has bool) {
	t.Helper()
	file, err := s.Get(name, named(contents).OID)
	if !has {
		if err != ErrMissing {
			t.Fatalf("%s has %q: %v", name, contents, err)
		}
		return
	}
	check(t, err)
	defer file.Close()
	if text, err := io.ReadAll(file); err != nil || string(text) != contents {
		t.Fatalf("%s has %q, and not %q: %v", name, text, contents, err)
	}
}

// isEmpty asks that nothing is left of what was refused.
func isEmpty(t *testing.T, s *Store) {
	t.Helper()
	if left, err := os.ReadDir(filepath.Join(s.folder, newName)); err != nil && !errors.Is(err, os.ErrNotExist) || len(left) > 0 {
		t.Errorf("left over: %v %v", left, err)
	}
}

// TestWhatIsRefusedIsNotKept sends files of other bytes, that are cut, that fail, and that do not fit.
func TestWhatIsRefusedIsNotKept(t *testing.T) {
	s, tenant := opened(t, t.TempDir(), 3*grant)
	broken := errors.New("broken")
	large := strings.Repeat("x", 3*grant)
	for what, it := range map[string]struct {
		of   Object
		from io.Reader
		may  func() error
		err  error
	}{
		"other bytes": {named("good"), strings.NewReader("evil"), may, ErrDigest},
		"cut":         {named("good"), strings.NewReader("goo"), may, ErrCut},
		"broken":      {named("good"), io.MultiReader(strings.NewReader("g"), failing{broken}), may, broken},
		"forbidden":   {named("good"), strings.NewReader("good"), func() error { return broken }, broken},
		"too large":   {named(large), strings.NewReader(large), may, ErrRoom},
	} {
		if err := s.Put(tenant("acme/site"), it.of, it.from, it.may); !errors.Is(err, it.err) {
			t.Errorf("%s: %v", what, err)
		}
		isThere(t, s, "acme/site", "good", false)
	}
	isEmpty(t, s)
	if left := s.Bytes("acme/site"); left != 0 || len(s.of) != 0 {
		t.Errorf("%d bytes, %d tenants", left, len(s.of))
	}
}

// failing fails at once.
type failing struct{ err error }

func (f failing) Read([]byte) (int, error) { return 0, f.err }

// TestFilesFillTheQuotaToTheByte has room for two files of which one is a byte too long, and then for an empty one.
func TestFilesFillTheQuotaToTheByte(t *testing.T) {
	s, tenant := opened(t, t.TempDir(), 3*Beside+100)
	gateway := tenant("acme/site")
	check(t, put(s, gateway, strings.Repeat("a", 60)))
	if err := put(s, gateway, strings.Repeat("b", 41+Beside)); err != ErrRoom {
		t.Fatal(err)
	}
	check(t, put(s, gateway, strings.Repeat("b", 40)))
	check(t, put(s, gateway, ""))
	if err := put(s, gateway, "c"); Refused(err).Status != 507 {
		t.Fatal(err)
	}
	check(t, put(s, tenant("acme/other"), "c"))
	isThere(t, s, "acme/other", strings.Repeat("a", 60), false)
	isEmpty(t, s)
}

// TestManyAtOnce sends the same files side by side: each is counted once, and no quota is passed.
func TestManyAtOnce(t *testing.T) {
	folder := t.TempDir()
	s, tenant := opened(t, folder, 0)
	var all sync.WaitGroup
	for number := 0; number < 16; number++ {
		all.Add(1)
		go func(number int) {
			defer all.Done()
			if err := put(s, tenant("acme/site"), fmt.Sprint("file ", number%4)); err != nil {
				t.Error(err)
			}
		}(number)
	}
	all.Wait()
	if count := s.Bytes("acme/site"); count != 4*(6+Beside) {
		t.Error(count)
	}
	isEmpty(t, s)
	again, _ := opened(t, folder, 0)
	if count := again.Bytes("acme/site"); count != 4*(6+Beside) {
		t.Error(count)
	}
}

// TestUploadsNeverPassTheQuota lets files come side by side that fit alone, and not together.
func TestUploadsNeverPassTheQuota(t *testing.T) {
	s, tenant := opened(t, t.TempDir(), 5*(grant+Beside))
	var all sync.WaitGroup
	var mutex sync.Mutex
	kept := 0
	for number := 0; number < 12; number++ {
		all.Add(1)
		go func(number int) {
			defer all.Done()
			if put(s, tenant("acme/site"), string(bytes.Repeat([]byte{byte(number)}, grant))) == nil {
				mutex.Lock()
				kept++
				mutex.Unlock()
			}
		}(number)
	}
	all.Wait()
	if count := s.Bytes("acme/site"); kept > 5 || count != int64(kept)*(grant+Beside) {
		t.Error(kept, count)
	}
	isEmpty(t, s)
}

// TestWhatComesForARemovedTenantIsRefused removes a tenant while a file comes in, and makes it anew.
func TestWhatComesForARemovedTenantIsRefused(t *testing.T) {
	s, tenant := opened(t, t.TempDir(), 0)
	gateway := tenant("acme/site")
	check(t, put(s, gateway, "old"))
	_, err := s.AddLock("acme/site", "a", "alice")
	check(t, err)
	remove := func() error {
		check(t, s.Leave("acme/site"))
		if _, err := s.Get("acme/site", named("old").OID); err != ErrLeaving {
			t.Errorf("while it is removed: %v", err)
		}
		if err := put(s, gateway, "new"); err != ErrLeaving {
			t.Errorf("while it is removed: %v", err)
		}
		check(t, s.Remove("acme/site"))
		check(t, put(s, gateway, "new"))
		return nil
	}
	var once sync.Once
	late := func() error {
		once.Do(func() { check(t, remove()) })
		return nil
	}
	if err := s.Put(gateway, named("late"), strings.NewReader("late"), late); err != ErrLeaving {
		t.Fatal(err)
	}
	isThere(t, s, "acme/site", "new", true)
	isThere(t, s, "acme/site", "old", false)
	isThere(t, s, "acme/site", "late", false)
	if locks, err := s.Locks("acme/site"); err != nil || len(locks) > 0 {
		t.Error(locks, err)
	}
	if count := s.Bytes("acme/site"); count != 3+Beside {
		t.Error(count)
	}
	isEmpty(t, s)
}

// TestRemovalsThatWereCutOff opens a folder in which a tenant was about to be removed, as the pool has it or not, or does not say it yet.
func TestRemovalsThatWereCutOff(t *testing.T) {
	for has, want := range map[string]error{"yes": nil, "no": ErrMissing, "unknown": ErrLeaving} {
		folder := t.TempDir()
		s, tenant := opened(t, folder, 0)
		check(t, put(s, tenant("acme/site"), "good"))
		check(t, s.Leave("acme/site"))
		check(t, os.MkdirAll(filepath.Join(s.folder, newName, "removed-1", "files"), 0o700))
		known := func(string) bool { return has == "yes" }
		if has == "unknown" {
			known = nil
		}
		again, err := Open(folder, known, t.Logf)
		check(t, err)
		file, err := again.Get("acme/site", named("good").OID)
		if err != want {
			t.Errorf("%s: %v", has, err)
		}
		if err == nil {
			file.Close()
		}
		isEmpty(t, again)
	}
}

// TestARefusedRemovalLeavesAll notes a removal and takes that back.
func TestARefusedRemovalLeavesAll(t *testing.T) {
	s, tenant := opened(t, t.TempDir(), 0)
	check(t, s.Leave("acme/none"))
	check(t, put(s, tenant("acme/site"), "good"))
	check(t, s.Leave("acme/site"))
	check(t, s.Stay("acme/site"))
	isThere(t, s, "acme/site", "good", true)
	check(t, s.Remove("acme/none"))
}

// TestCopiesAreApart copies the files of a tenant, also into one that has some, and removes the first one.
func TestCopiesAreApart(t *testing.T) {
	s, tenant := opened(t, t.TempDir(), 0)
	check(t, put(s, tenant("acme/site"), "good"))
	check(t, put(s, tenant("acme/site"), "both"))
	check(t, put(s, tenant("acme/fork"), "both"))
	_, err := s.AddLock("acme/site", "a", "alice")
	check(t, err)
	check(t, s.Copy("acme/site", "acme/fork"))
	check(t, s.Copy("acme/none", "acme/other"))
	check(t, s.Remove("acme/site"))
	isThere(t, s, "acme/fork", "good", true)
	isThere(t, s, "acme/fork", "both", true)
	if count := s.Bytes("acme/fork"); count != 2*(4+Beside) {
		t.Error(count)
	}
	if locks, err := s.Locks("acme/fork"); err != nil || len(locks) > 0 {
		t.Error(locks, err)
	}
	isEmpty(t, s)
}

// TestADamagedFileIsSentAgain cuts a file on the disk: it is asked for again, and whole then.
func TestADamagedFileIsSentAgain(t *testing.T) {
	s, tenant := opened(t, t.TempDir(), 0)
	check(t, put(s, tenant("acme/site"), "good"))
	check(t, os.Truncate(s.file("acme/site", named("good").OID), 2))
	reply := s.Answer(Asked{Batch: Batch{Operation: Upload, Objects: []Object{named("good")}}, Tenant: "acme/site", Room: grant, Most: grant,
		Link: func(string, string) Action { return Action{} }}).Objects[0]
	if len(reply.Actions) != 2 || reply.Error != nil {
		t.Fatal(reply)
	}
	check(t, put(s, tenant("acme/site"), "good"))
	isThere(t, s, "acme/site", "good", true)
}

// TestLocks locks paths of any letters, up to as many as there may be.
func TestLocks(t *testing.T) {
	folder := t.TempDir()
	s, _ := opened(t, folder, 0)
	paths := []string{"a b.bin", "# x", "ä/%20", "end", strings.Repeat("x", longestPath)}
	for _, path := range paths {
		_, err := s.AddLock("acme/site", path, "alice")
		check(t, err)
	}
	if again, err := s.AddLock("acme/site", "# x", "bob"); err != ErrLocked || again.Owner.Name != "alice" {
		t.Error(again, err)
	}
	s, _ = opened(t, folder, 0)
	locks, err := s.Locks("acme/site")
	check(t, err)
	for at, it := range locks {
		if it.Path != paths[at] || it.Owner.Name != "alice" || at > 0 && it.ID <= locks[at-1].ID {
			t.Error(it, paths[at])
		}
	}
	if _, err := s.RemoveLock("acme/site", locks[1].ID, "bob", false); err != ErrOthers {
		t.Error(err)
	}
	taken, err := s.RemoveLock("acme/site", locks[1].ID, "bob", true)
	if err != nil || taken != locks[1] {
		t.Error(taken, err)
	}
	if _, err := s.RemoveLock("acme/site", locks[1].ID, "alice", true); err != ErrNoLock {
		t.Error(err)
	}
	many := make([]Lock, mostLocks)
	for at := range many {
		many[at] = Lock{fmt.Sprint(at + 1), fmt.Sprint(at), "now", Owner{"alice"}}
	}
	check(t, s.writeLocks(filepath.Join(s.place("acme/site"), locksName), many))
	if _, err := s.AddLock("acme/site", "one more", "alice"); err != ErrManyLocks {
		t.Error(err)
	}
}

// TestLocksAtOnce locks the same paths side by side: one user has each.
func TestLocksAtOnce(t *testing.T) {
	s, _ := opened(t, t.TempDir(), 0)
	var all sync.WaitGroup
	for number := 0; number < 12; number++ {
		all.Add(1)
		go func(number int) {
			defer all.Done()
			_, err := s.AddLock("acme/site", fmt.Sprint(number%3), fmt.Sprint(number))
			if err != nil && err != ErrLocked {
				t.Error(err)
			}
		}(number)
	}
	all.Wait()
	if locks, err := s.Locks("acme/site"); err != nil || len(locks) != 3 {
		t.Error(locks, err)
	}
}

// TestPasses holds passes against other tenants, times, keys and passwords, and changes each byte of one.
func TestPasses(t *testing.T) {
	s, _ := opened(t, t.TempDir(), 0)
	now := time.Unix(1_800_000_000, 0)
	hash, keys := "hash", "key"
	verify := func(text, tenant string, at time.Time) error {
		_, err := s.Check(text, tenant, at, func(string) string { return hash }, func(_, key string) bool { return key == keys })
		return err
	}
	pass := Pass{Login: "alice", Tenant: "acme/site", Until: now.Unix() + 60}
	byPassword := s.Sign(pass, hash)
	pass.Key = []byte("key")
	byKey := s.Sign(pass, hash)
	for _, text := range []string{byPassword, byKey} {
		check(t, verify(text, "acme/site", now))
		for at := range text {
			other := []byte(text)
			if other[at]++; verify(string(other), "acme/site", now) == nil {
				t.Fatalf("byte %d of %s", at, text)
			}
		}
		if verify(text, "acme/other", now) != ErrPass || verify(text, "acme/site", now.Add(time.Minute)) != ErrPass {
			t.Error(text)
		}
		if verify(text[:len(text)/2], "acme/site", now) != ErrPass {
			t.Error("half of " + text)
		}
	}
	hash, keys = "another", "another"
	if verify(byPassword, "acme/site", now) != ErrPass || verify(byKey, "acme/site", now) != ErrPass {
		t.Error("a pass outlives what let its login in")
	}
	hash, keys = "hash", "key"
	other, _ := opened(t, t.TempDir(), 0)
	if _, err := other.Check(byKey, "acme/site", now, func(string) string { return hash }, func(string, string) bool { return true }); err != ErrPass {
		t.Error("a pass of another server")
	}
}

// TestTheList switches tenants on and off, and reads lists of other forms.
func TestTheList(t *testing.T) {
	folder := t.TempDir()
	s, _ := opened(t, folder, 0)
	if s.IsUsed() || s.IsOn("acme/site") || (*Store)(nil).IsUsed() || (*Store)(nil).IsOn("acme/site") {
		t.Error("on from the beginning")
	}
	check(t, Switch(folder, "acme/*", true))
	check(t, Switch(folder, "site", true))
	check(t, Switch(folder, "site", true))
	if rows, err := Rows(folder); err != nil || strings.Join(rows, " ") != "acme/* site" {
		t.Error(rows, err)
	}
	if !s.IsOn("acme/site") || !s.IsOn("site") || s.IsOn("other") {
		t.Error("not as the list says")
	}
	check(t, Switch(folder, "site", false))
	if Switch(folder, "site", false) == nil || Switch(folder, "../x", true) == nil || s.IsOn("site") {
		t.Error("what was off is on, or taken")
	}
	check(t, os.WriteFile(filepath.Join(folder, ListName), []byte("two words\n"), 0o600))
	if s.Unread() == nil || !s.IsOn("acme/site") {
		t.Error("a list that cannot be read")
	}
}
