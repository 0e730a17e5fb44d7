package tenants

import (
	"bytes"
	"context"
	"errors"
	"fmt"
	"os"
	"runtime"
	"strings"
	"sync"
	"testing"
	"time"

	"gitpoold/faults"
	"gitpoold/plumbing"
	"gitpoold/store"
)

var background = context.Background()

// pool makes the tenants of a new store, with a quota for all of them.
func pool(t testing.TB, quota int64) *Pool {
	t.Helper()
	program := os.Getenv("GITPOOL")
	if program == "" {
		t.Skip("GITPOOL names no program")
	}
	folder := t.TempDir()
	if err := store.Create(folder, program); err != nil {
		t.Fatal(err)
	}
	s, err := store.Open(store.Config{Folder: folder, Program: program, Tell: func(string, ...any) {}})
	if err != nil {
		t.Fatal(err)
	}
	t.Cleanup(func() { s.Close(background) })
	return New(s, func(string) int64 { return quota })
}

func tenant(t testing.TB, p *Pool, name string) Tenant {
	t.Helper()
	found, err := p.Tenant(name)
	if err != nil {
		t.Fatal(err)
	}
	return found
}

func agree(Refs) error { return nil }

// commits feeds a commit with a file to main.
func commits(contents string, name *plumbing.Name) func(*Stream) error {
	return func(s *Stream) error {
		s.WriteString("commit refs/heads/main\nmark :1\ncommitter a <a@b> 1 +0000\ndata 2\nhi\nM 644 inline f\n")
		fmt.Fprintf(s, "data %d\n%s\n", len(contents), contents)
		found, err := s.Name(":1")
		if name != nil {
			*name = found
		}
		return err
	}
}

func TestPushAndRead(t *testing.T) {
	it := tenant(t, pool(t, 0), "acme/site")
	var name plumbing.Name
	told := 0
	err := it.Push(background, agree, func(s *Stream) error {
		s.WhenItLasts(func() {
			// No other push has begun, and the refs are there.
			if _, isTaken := it.pool.locks.try(it.name); !isTaken {
				told++
			}
		})
		return commits("abc", &name)(s)
	})
	if err != nil || told != 1 {
		t.Fatal(told, err)
	}
	refs, head, err := it.Refs(background)
	if err != nil || len(refs) != 1 || refs[0] != (Ref{"refs/heads/main", name}) || head != "refs/heads/main" {
		t.Fatal(refs, head, err)
	}
	names, err := it.Log(background, "main")
	if err != nil || len(names) != 1 || names[0] != name {
		t.Fatal(names, err)
	}
	o, err := it.Object(background, name)
	if err != nil || o.Kind != plumbing.Commit || !bytes.HasSuffix(o.Contents, []byte("\n\nhi")) {
		t.Fatal(o, err)
	}
	has, err := it.Has(background, []plumbing.Name{name, {1}, name})
	if err != nil || !has[0] || has[1] || !has[2] {
		t.Fatal(has, err)
	}
	if _, err := it.Ask(background, "cat nothing"); !errors.Is(err, plumbing.ErrMissing) {
		t.Fatal(err)
	}
	if _, err := it.Ask(background, "what"); err != faults.Fault(40) {
		t.Fatal(err)
	}
	if err := it.Objects(background, []plumbing.Name{name, {9}}, func(plumbing.Object) error { return nil }); !errors.Is(err, plumbing.ErrMissing) {
		t.Fatal(err)
	}
}

func TestObjectsComeInOrder(t *testing.T) {
	it := tenant(t, pool(t, 0), "a")
	const count = 300
	names := make([]plumbing.Name, count)
	err := it.Push(background, agree, func(s *Stream) (err error) {
		for i := range names {
			fmt.Fprintf(s, "blob\nmark :1\ndata %d\n%s\n", i*999, strings.Repeat(string(rune('a'+i%26)), i*999))
			if i%50 == 0 {
				fmt.Fprint(s, "# a comment\n")
			}
			if names[i], err = s.Name(":1"); err != nil {
				return err
			}
		}
		return nil
	})
	if err != nil {
		t.Fatal(err)
	}
	at := 0
	err = it.Objects(background, names, func(o plumbing.Object) error {
		if o.Name != names[at] || o.Kind != plumbing.Blob || len(o.Contents) != at*999 {
			return fmt.Errorf("object %d is another", at)
		}
		at++
		return nil
	})
	if err != nil || at != count {
		t.Fatal(at, err)
	}
	stop := errors.New("stop")
	if err := it.Objects(background, names, func(plumbing.Object) error { return stop }); err != stop {
		t.Fatal(err)
	}
}

// TestAPushThatFailsLeavesNothing has each way in which a push fails; then another one goes well.
func TestAPushThatFailsLeavesNothing(t *testing.T) {
	it := tenant(t, pool(t, 0), "a")
	refused := errors.New("refused")
	expects := func(name plumbing.Name) func(*Stream) error {
		return func(s *Stream) error {
			s.WriteString("blob\nmark :1\ndata 3\nabc\n")
			return s.Expect(":1", name)
		}
	}
	for name, one := range map[string]struct {
		judge func(Refs) error
		feed  func(*Stream) error
		want  error
	}{
		"judge":   {func(Refs) error { return refused }, commits("x", nil), refused},
		"feed":    {agree, func(s *Stream) error { commits("x", nil)(s); return refused }, refused},
		"name":    {agree, expects(plumbing.Name{1}), ErrOtherName},
		"command": {agree, func(s *Stream) error { s.WriteString("what\n"); return nil }, faults.Fault(2)},
		"large":   {agree, func(s *Stream) error { s.WriteString("blob\ndata 99999999999\n"); return nil }, faults.Fault(25)},
		"last":    {agree, func(s *Stream) error { commits("x", nil)(s); s.Last("what\n"); return nil }, faults.Fault(2)},
		"half":    {agree, func(s *Stream) error { s.WriteString("blob\ndata 9\nx"); return nil }, faults.Fault(7)},
	} {
		err := it.Push(background, one.judge, one.feed)
		if !errors.Is(err, one.want) && name != "half" || err == nil {
			t.Errorf("%s: %v", name, err)
		}
		if refs, _, err := it.Refs(background); len(refs) > 0 || err != nil {
			t.Errorf("%s left %v %v", name, refs, err)
		}
	}
	abc, _ := plumbing.ParseName("f2ba8f84ab5c1bce84a7b441cb1959cfc7093b7f")
	if err := it.Push(background, agree, expects(abc)); err != nil {
		t.Fatal(err)
	}
}

// TestAPanicGivesTheStreamUp has a feed that panics, as net/http lets a handler do.
func TestAPanicGivesTheStreamUp(t *testing.T) {
	it := tenant(t, pool(t, 0), "a")
	func() {
		defer func() { recover() }()
		it.Push(background, agree, func(s *Stream) error { commits("x", nil)(s); panic("a bug") })
	}()
	if err := it.Push(background, agree, commits("x", nil)); err != nil {
		t.Fatal(err)
	}
}

func TestQuota(t *testing.T) {
	it := tenant(t, pool(t, 100_000), "a")
	if room, err := it.Room(); room != 100_000 || err != nil {
		t.Fatal(room, err)
	}
	if err := it.Push(background, agree, commits(strings.Repeat("x", 200_000), nil)); !errors.Is(err, ErrFull) {
		t.Fatal(err)
	}
	if err := it.Push(background, agree, commits(strings.Repeat("x", 99_000), nil)); err != nil {
		t.Fatal(err)
	}
	if room, err := it.Room(); room > 1000 || err != nil {
		t.Fatal(room, err)
	}
	if err := it.Push(background, agree, commits(strings.Repeat("y", 5000), nil)); !errors.Is(err, ErrFull) {
		t.Fatal(err)
	}
	if _, _, err := it.Refs(background); err != nil {
		t.Fatal("reading stops:", err)
	}
}

// TestPushesToOneTenantComeOneAfterAnother has pushes that each see the refs that the one before left.
func TestPushesToOneTenantComeOneAfterAnother(t *testing.T) {
	p := pool(t, 0)
	var all sync.WaitGroup
	for i := 0; i < 8; i++ {
		for _, name := range []string{"a", "b"} {
			all.Add(1)
			go func(it Tenant) {
				defer all.Done()
				var before Refs
				err := it.Push(background, func(refs Refs) error { before = refs; return nil }, func(s *Stream) error {
					_, err := fmt.Fprintf(s, "commit refs/heads/b%d\ncommitter a <a@b> 1 +0000\ndata 1\nx\n", len(before))
					return err
				})
				if err != nil {
					t.Error(err)
				}
			}(tenant(t, p, name))
		}
	}
	all.Wait()
	for _, name := range []string{"a", "b"} {
		if refs, _, err := tenant(t, p, name).Refs(background); len(refs) != 8 || err != nil {
			t.Fatal(name, refs, err)
		}
	}
}

func TestWhoWaitsTooLongIsTold(t *testing.T) {
	it := tenant(t, pool(t, 0), "a")
	err := it.Push(background, agree, func(*Stream) error {
		ctx, stop := context.WithTimeout(background, 20*time.Millisecond)
		defer stop()
		return it.Push(ctx, agree, commits("x", nil))
	})
	if !errors.Is(err, ErrBusy) {
		t.Fatal(err)
	}
}

func TestNames(t *testing.T) {
	p := pool(t, 0)
	for name, good := range map[string]bool{"a": true, "acme/site": true, "A_b-1/x": true, "": false, "/a": false, "a/": false, "a//b": false,
		"-a": false, "a/-b": false, "../a": false, "a.git": false, "a b": false, "a\n": false, strings.Repeat("x", 64): true,
		strings.Repeat("x", 65): false, "_": true} {
		_, err := p.Tenant(name)
		if (err == nil) != good || err != nil && err != faults.Fault(32) {
			t.Errorf("%q: %v", name, err)
		}
		// The program judges names in the same way.
		_, err = Tenant{pool: p, name: name}.Ask(background, "head")
		if (err == nil) != good || err != nil && err != faults.Fault(32) {
			t.Errorf("%q: the program says %v", name, err)
		}
	}
	for _, err := range []error{ErrFull, ErrBusy, fmt.Errorf("x: %w", ErrOtherName), faults.Fault(25), faults.Fault(99)} {
		if !IsSentence(err) {
			t.Error(err)
		}
	}
	if IsSentence(errAnswer) || IsSentence(errors.New("x")) {
		t.Error("an error of the server's own is a sentence")
	}
}

// TestALongLogIsPassedOver has commits whose messages have first lines of a megabyte: no log of them all is held.
func TestALongLogIsPassedOver(t *testing.T) {
	const count, long = 40, 1 << 20
	it := tenant(t, pool(t, 0), "a")
	must := func(err error) {
		if t.Helper(); err != nil {
			t.Fatal(err)
		}
	}
	must(it.Push(background, agree, func(s *Stream) error {
		for at := 0; at < count; at++ {
			fmt.Fprintf(s, "commit refs/heads/main\ncommitter a <a@b> 1 +0000\ndata %d\n%s\n", long, strings.Repeat("m", long))
		}
		return nil
	}))
	var before, after runtime.MemStats
	runtime.ReadMemStats(&before)
	names, err := it.Log(background, "main~4..main")
	if err != nil || len(names) != 4 {
		t.Fatal(len(names), err)
	}
	_, err = it.Log(background, "main")
	if runtime.ReadMemStats(&after); after.TotalAlloc-before.TotalAlloc > count*long/2 || err == nil {
		t.Fatalf("%d bytes are taken: %v", after.TotalAlloc-before.TotalAlloc, err)
	}
}
