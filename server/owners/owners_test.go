package owners

import (
	"errors"
	"fmt"
	"os"
	"path/filepath"
	"sync"
	"testing"

	"gitpoold/configfile"
	"gitpoold/tenants"
)

// fixture is what tenants have, and what a user may have.
type fixture struct {
	t       *testing.T
	folder  string
	mutex   sync.Mutex
	has     map[string]int64
	bytes   int64
	tenants int
}

func newFixture(t *testing.T) *fixture {
	return &fixture{t: t, folder: t.TempDir(), has: map[string]int64{}}
}

func (s *fixture) open() *Owners {
	s.t.Helper()
	o, err := Open(s.folder, func(user string) (int64, int) { return s.bytes, s.tenants }, func(tenant string) int64 {
		s.mutex.Lock()
		defer s.mutex.Unlock()
		return s.has[tenant]
	})
	if err != nil {
		s.t.Fatal(err)
	}
	s.t.Cleanup(func() { o.Close() })
	return o
}

// push is a push of a user that brings so many bytes.
func (s *fixture) push(o *Owners, user, tenant string, bytes int64) error {
	room, err := o.Room(user, tenant)
	if err == nil && room < bytes {
		err = tenants.ErrUserFull
	}
	if err != nil {
		return err
	}
	share, err := o.Enter(user, tenant)
	if err != nil {
		return err
	}
	defer func() { share.Leave(err == nil) }()
	if err = share.Take(bytes); err != nil {
		return err
	}
	s.mutex.Lock()
	defer s.mutex.Unlock()
	s.has[tenant] += bytes
	return nil
}

func must(t *testing.T, err error) {
	t.Helper()
	if err != nil {
		t.Fatal(err)
	}
}

func (s *fixture) owner(o *Owners, tenant, want string) {
	s.t.Helper()
	if has := o.Of(tenant); has != want {
		s.t.Fatalf("%s belongs to %s, and not to %s", tenant, has, want)
	}
}

func TestAUserMakesSoManyTenants(t *testing.T) {
	s := newFixture(t)
	s.tenants = 3
	s.has["old"] = 7
	o := s.open()
	for _, tenant := range []string{"a", "b", "c"} {
		must(t, s.push(o, "alice", tenant, 1))
	}
	if err := s.push(o, "alice", "d", 1); err != tenants.ErrUserTenants || !errors.Is(err, tenants.ErrFull) {
		t.Fatal(err)
	}
	// What there is takes pushes, whoever made it.
	for _, tenant := range []string{"a", "old"} {
		must(t, s.push(o, "alice", tenant, 1))
	}
	must(t, s.push(o, "bob", "a", 1))
	must(t, s.push(o, "bob", "d", 1))
	s.owner(o, "a", "alice")
	s.owner(o, "d", "bob")
	s.owner(o, "old", "-")
	must(t, o.Forget("b"))
	delete(s.has, "b")
	must(t, s.push(o, "alice", "e", 1))
	s.tenants = 0
	must(t, s.push(o, "alice", "f", 1))
}

func TestAUserHasSoManyBytesInAllTenants(t *testing.T) {
	s := newFixture(t)
	s.bytes = 10 << 20
	o := s.open()
	must(t, s.push(o, "alice", "a", 6<<20))
	must(t, s.push(o, "alice", "b", 3<<20))
	if room, err := o.Room("alice", "c"); room != 1<<20 || err != nil {
		t.Fatal(room, err)
	}
	if err := s.push(o, "alice", "c", 2<<20); err != tenants.ErrUserFull {
		t.Fatal(err)
	}
	// Whoever pushes to a tenant takes of what its owner may have.
	must(t, s.push(o, "bob", "b", 1<<20))
	for _, user := range []string{"alice", "bob"} {
		if _, err := o.Room(user, "a"); err != tenants.ErrUserFull {
			t.Fatal(err)
		}
	}
	if room, err := o.Room("bob", "d"); room != 10<<20 || err != nil {
		t.Fatal(room, err)
	}
	// A copy counts for who has what it was copied from.
	s.bytes, s.has["copy"] = 20<<20, s.has["a"]
	must(t, o.Put("copy", o.Of("a")))
	if room, err := o.Room("alice", "c"); room != 4<<20 || err != nil {
		t.Fatal(room, err)
	}
}

// TestPushesAtOnceShareWhatIsLeft has pushes to many tenants of one user at work at once, none of which ends.
func TestPushesAtOnceShareWhatIsLeft(t *testing.T) {
	s := newFixture(t)
	s.bytes = 10 << 20
	o := s.open()
	var shares []tenants.Reservation
	taken := 0
	for at := 0; at < 20; at++ {
		share, err := o.Enter("alice", fmt.Sprint("t", at))
		must(t, err)
		shares = append(shares, share)
		if share.Take(1<<20) == nil {
			taken++
		}
	}
	if taken != 10 {
		t.Fatalf("%d MB are taken", taken)
	}
	for _, it := range shares {
		it.Leave(false)
	}
	if room, err := o.Room("alice", "t0"); room != 10<<20 || err != nil || len(o.of)+len(o.busy)+len(o.taken) > 0 {
		t.Fatal(room, err, o)
	}
}

// TestOwnersComeBack asks after a new start, a crash inside a line, and a damaged line.
func TestOwnersComeBack(t *testing.T) {
	s := newFixture(t)
	o := s.open()
	for _, tenant := range []string{"a", "b", "c"} {
		must(t, s.push(o, "alice", tenant, 1))
	}
	must(t, s.push(o, tenants.Visitors, "open", 1))
	must(t, o.Forget("b"))
	path := filepath.Join(s.folder, "owners")
	text, err := os.ReadFile(path)
	must(t, err)
	for _, torn := range []string{"", "d", "d bob", "d bo"} {
		must(t, os.WriteFile(path, append(append([]byte(nil), text...), torn...), 0o600))
		o = s.open()
		for tenant, want := range map[string]string{"a": "alice", "b": "-", "c": "alice", "open": "*", "d": "-"} {
			s.owner(o, tenant, want)
		}
		must(t, s.push(o, "bob", "e", 1))
		s.owner(s.open(), "e", "bob")
		delete(s.has, "e")
	}
	must(t, os.WriteFile(path, []byte("a alice\nb\nc alice\n"), 0o600))
	if _, err := Open(s.folder, nil, nil); !errors.As(err, new(*configfile.Lost)) {
		t.Fatal(err)
	}
}

// TestAnotherFileIsTaken has the operator put the owners of another server there while this one runs, as at a replica, and write a line.
func TestAnotherFileIsTaken(t *testing.T) {
	s := newFixture(t)
	o := s.open()
	must(t, s.push(o, "alice", "a", 1))
	path := filepath.Join(s.folder, "owners")
	must(t, os.WriteFile(path+".new", []byte(configfile.Text("# TENANT USER", "a bob")+"b carol\n"), 0o600))
	must(t, os.Rename(path+".new", path))
	s.has["b"] = 1
	must(t, s.push(o, "alice", "c", 1))
	for _, it := range []*Owners{o, s.open()} {
		for tenant, want := range map[string]string{"a": "bob", "b": "carol", "c": "alice"} {
			s.owner(it, tenant, want)
		}
	}
	file, err := os.OpenFile(path, os.O_WRONLY|os.O_APPEND, 0)
	must(t, err)
	_, err = file.WriteString("b -\n")
	must(t, err)
	must(t, file.Close())
	s.owner(o, "b", "-")
	must(t, os.Remove(path))
	if err := s.push(o, "alice", "d", 1); err == nil || s.has["d"] > 0 {
		t.Fatal("the push has no owner that lasts")
	}
	must(t, s.push(o, "alice", "c", 1))
}

// TestTenantsInWhichNothingCameToBe have pushes that fail, and a crash before one has ended.
func TestTenantsInWhichNothingCameToBe(t *testing.T) {
	s := newFixture(t)
	s.tenants = 2
	o := s.open()
	for at := 0; at < 10; at++ {
		share, err := o.Enter("alice", fmt.Sprint("failed", at))
		must(t, err)
		share.Leave(false)
	}
	if len(o.of) > 0 {
		t.Fatal(o.of)
	}
	// One that may have ended stays, although the tenant has nothing that is known, as while another child is started.
	share, err := o.Enter("alice", "unknown")
	must(t, err)
	share.Leave(true)
	s.owner(o, "unknown", "alice")
	must(t, o.Forget("unknown"))
	for at := 0; at < 2; at++ {
		_, err := o.Enter("alice", fmt.Sprint("crashed", at))
		must(t, err)
	}
	// While they are at work, they are as many as there may be.
	if _, err := o.Enter("alice", "more"); err != tenants.ErrUserTenants {
		t.Fatal(err)
	}
	o = s.open()
	must(t, s.push(o, "bob", "crashed1", 1))
	s.owner(o, "crashed1", "bob")
	must(t, s.push(o, "alice", "first", 1))
	must(t, s.push(o, "alice", "second", 1))
	if err := s.push(o, "alice", "third", 1); err != tenants.ErrUserTenants {
		t.Fatal(err)
	}
}

// TestAnOwnerIsOnTheDiskBefore has a file that takes nothing: no push begins.
func TestAnOwnerIsOnTheDiskBefore(t *testing.T) {
	s := newFixture(t)
	o := s.open()
	readOnly, err := os.Open(filepath.Join(s.folder, "owners"))
	must(t, err)
	o.file.Close()
	o.file = readOnly
	if err := s.push(o, "alice", "a", 1); err == nil || s.has["a"] > 0 {
		t.Fatal("the push has no owner")
	}
	s.owner(o, "a", "-")
}
