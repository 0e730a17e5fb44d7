package store

import (
	"bytes"
	"errors"
	"os"
	"path/filepath"
	"strings"
	"syscall"
	"testing"
	"time"

	"gitpoold/await"
	"gitpoold/journal"
	"gitpoold/redistest"
)

// placed gives a configuration a journal in Redis where GITPOOLD_LOG asks for one: so each test of this package is one of both journals.
func placed(t testing.TB, c Config) Config {
	t.Helper()
	if os.Getenv("GITPOOLD_LOG") == "" {
		return c
	}
	return overRedis(t, redistest.Start(t), c)
}

// overRedis gives a configuration a journal in a Redis, which is begun if there is none.
func overRedis(t testing.TB, server *redistest.Server, c Config) Config {
	t.Helper()
	address, err := journal.ParseAddress(server.Address("site"), "")
	if err != nil {
		t.Fatal(err)
	}
	c.Log = &journal.Options{Address: address, Wait: 5 * time.Second}
	c.Stop = func(why error) { t.Errorf("the server stops: %v", why) }
	if err := CreateLog(c.Folder, *c.Log); err != nil {
		t.Fatal(err)
	}
	return c
}

func pushAll(t testing.TB, s *Store, texts ...string) {
	t.Helper()
	for _, text := range texts {
		if err := push(s, "a", "refs/heads/main", text); err != nil {
			t.Fatal(err)
		}
	}
}

// stopped lets a configuration's Stop be waited for.
func stopped(c *Config) chan error {
	why := make(chan error, 1)
	c.Stop = func(err error) { why <- err }
	return why
}

func waitFor(t testing.TB, why chan error, isTaken bool) {
	t.Helper()
	select {
	case err := <-why:
		var bad *journal.BadLog
		if !errors.As(err, &bad) || bad.IsTaken != isTaken {
			t.Fatal(err)
		}
	case <-time.After(await.Longest):
		t.Fatal("the server goes on")
	}
}

// endStopped ends a store that may go on no more, and so starts no other child.
func endStopped(s *Store) {
	close(s.stopping)
	crash(s)
}

// copied copies the pool file of a folder to another one.
func copied(t testing.TB, from, to string) {
	t.Helper()
	if err := os.Remove(filepath.Join(to, "pool")); err != nil {
		t.Fatal(err)
	}
	if err := copyFile(from, filepath.Join(to, "pool")); err != nil {
		t.Fatal(err)
	}
}

// TestAnotherMachineGoesOn starts a second server from a copy of the pool file of the last save, while the first one runs still.
func TestAnotherMachineGoesOn(t *testing.T) {
	server := redistest.Start(t)
	c := overRedis(t, server, plain(t, folder(t)))
	c.Copy = filepath.Join(t.TempDir(), "shared.pool")
	why := stopped(&c)
	first := opened(t, c)
	pushAll(t, first, "m0", "m1")
	if err := first.Save(background); err != nil {
		t.Fatal(err)
	}
	pushAll(t, first, "m2")
	other := plain(t, folder(t))
	copied(t, c.Copy, other.Folder)
	second := opened(t, overRedis(t, server, other))
	hasMessages(t, second, "a", "refs/heads/main", []string{"m0", "m1", "m2"})
	if err := push(first, "a", "refs/heads/main", "late"); err == nil {
		t.Fatal("the first server tells a push")
	}
	waitFor(t, why, true)
	pushAll(t, second, "m3")
	if err := second.Save(background); err != nil {
		t.Fatal(err)
	}
	endStopped(first)
	hasMessages(t, second, "a", "refs/heads/main", []string{"m0", "m1", "m2", "m3"})
	if err := second.Close(background); err != nil {
		t.Fatal(err)
	}
	if _, err := Open(c); err == nil || !strings.Contains(err.Error(), "no record goes on from the pool file") {
		t.Fatalf("an old pool file: %v", err)
	}
}

// TestALostEndIsRescued has a Redis that loses pushes that were told, and the checkpoint of a stream that is open: the server stops, and leaves a pool
// file that has them.
func TestALostEndIsRescued(t *testing.T) {
	server := redistest.Start(t)
	c := overRedis(t, server, plain(t, folder(t)))
	why := stopped(&c)
	s := opened(t, c)
	pushAll(t, s, "m0", "m1")
	size := server.LogBytes()
	pushAll(t, s, "m2", "m3")
	open, err := s.Begin(background, "open", Checkpoints)
	must(t, err)
	must(t, fed(open, append(commitOn("refs/heads/main", "one", ""), "checkpoint\n"...)))
	must(t, fed(open, commitOn("refs/heads/main", "two", "")))
	must(t, s.journal.Sync(s.journal.Number()))
	server.Lose(size)
	waitFor(t, why, false)
	endStopped(s)
	other := plain(t, folder(t))
	copied(t, filepath.Join(c.Folder, rescuedName), other.Folder)
	s = opened(t, other)
	defer s.Close(background)
	hasMessages(t, s, "a", "refs/heads/main", []string{"m0", "m1", "m2", "m3"})
	hasMessages(t, s, "open", "refs/heads/main", []string{"one"})
}

// TestASilentRedisIsWaitedFor stops Redis inside a push: the push is told to be unknown, reading goes on, and what Redis has then is served.
func TestASilentRedisIsWaitedFor(t *testing.T) {
	server := redistest.Start(t)
	c := overRedis(t, server, plain(t, folder(t)))
	c.Log.Wait = time.Second
	s := opened(t, c)
	pushAll(t, s, "m0")
	server.Signal(syscall.SIGSTOP)
	want := []string{"m0"}
	switch err := push(s, "a", "refs/heads/main", "m1"); err {
	case journal.ErrUnsure:
		want = append(want, "m1")
	case journal.ErrAway: // A look at the log had found Redis silent before the push came.
	default:
		t.Fatal(err)
	}
	hasMessages(t, s, "a", "refs/heads/main", []string{"m0"})
	if err := push(s, "a", "refs/heads/main", "m2"); err != journal.ErrAway {
		t.Fatal(err)
	}
	server.Signal(syscall.SIGCONT)
	await.Until(t, "a push that is taken", func() bool { return push(s, "a", "refs/heads/main", "m3") == nil })
	want = append(want, "m3")
	hasMessages(t, s, "a", "refs/heads/main", want)
	crash(s)
	s = opened(t, c)
	defer s.Close(background)
	hasMessages(t, s, "a", "refs/heads/main", want)
}

// TestAChildThatDiesWhileRedisIsAway has a push whose end is in the log when the child dies and Redis stops: it is told once both are back.
func TestAChildThatDiesWhileRedisIsAway(t *testing.T) {
	server := redistest.Start(t)
	c := overRedis(t, server, plain(t, folder(t)))
	c.Log.Wait = time.Second
	s := opened(t, c)
	pushAll(t, s, "m0")
	server.Kill()
	s.child.process.Kill()
	time.Sleep(1500 * time.Millisecond)
	server.Restart()
	hasMessages(t, s, "a", "refs/heads/main", []string{"m0"})
	await.Until(t, "a push that is taken", func() bool { return push(s, "a", "refs/heads/main", "m1") == nil })
	s.Close(background)
}

// TestMoves moves a journal from files to Redis and back, and refuses to leave one behind that has pushes.
func TestMoves(t *testing.T) {
	server := redistest.Start(t)
	c := plain(t, folder(t))
	s := opened(t, c)
	pushAll(t, s, "m0")
	crash(s)
	address, _ := journal.ParseAddress(server.Address("site"), "")
	log := journal.Options{Address: address, Wait: 5 * time.Second}
	if err := CreateLog(c.Folder, log); err == nil || !strings.Contains(err.Error(), "has pushes that the pool file has not") {
		t.Fatal(err)
	}
	s = opened(t, c)
	inRedis := c
	inRedis.Log, inRedis.Stop = &log, func(why error) { t.Error(why) }
	if err := s.Close(background); err != nil {
		t.Fatal(err)
	}
	if _, err := Open(inRedis); err == nil || !strings.Contains(err.Error(), "is in files") {
		t.Fatal(err)
	}
	s = opened(t, overRedis(t, server, c))
	hasMessages(t, s, "a", "refs/heads/main", []string{"m0"})
	pushAll(t, s, "m1")
	if err := s.Close(background); err != nil {
		t.Fatal(err)
	}
	if _, err := Open(c); err == nil || !strings.Contains(err.Error(), "is in Redis") {
		t.Fatal(err)
	}
	if err := os.Remove(filepath.Join(c.Folder, placeName)); err != nil {
		t.Fatal(err)
	}
	s = opened(t, c)
	defer s.Close(background)
	hasMessages(t, s, "a", "refs/heads/main", []string{"m0", "m1"})
}

// TestAnOtherPoolFileIsCopied has an operator who puts another pool file in place while the server is stopped: its copy follows, by itself
// or by the next save.
func TestAnOtherPoolFileIsCopied(t *testing.T) {
	from := config(t, folder(t))
	s := opened(t, from)
	pushAll(t, s, "m0", "m1")
	if err := s.Close(background); err != nil {
		t.Fatal(err)
	}
	c := plain(t, folder(t))
	c.Copy = filepath.Join(t.TempDir(), "shared.pool")
	for _, bring := range []func(*Store) error{
		func(s *Store) error { return s.BringCopy(background) }, func(s *Store) error { return s.Save(background) },
	} {
		if err := os.WriteFile(c.Copy, []byte("an older pool file of another length"), 0o600); err != nil {
			t.Fatal(err)
		}
		must(t, os.RemoveAll(filepath.Join(c.Folder, "journal")))
		must(t, os.RemoveAll(filepath.Join(c.Folder, begunName)))
		copied(t, filepath.Join(from.Folder, "pool"), c.Folder)
		s = opened(t, c)
		if err := bring(s); err != nil {
			t.Fatal(err)
		}
		crash(s)
		isSame(t, c.Copy, filepath.Join(c.Folder, "pool"))
	}
}

// isSame asks that two files have the same bytes.
func isSame(t testing.TB, one, other string) {
	t.Helper()
	first, err := os.ReadFile(one)
	second, errSecond := os.ReadFile(other)
	if err != nil || errSecond != nil || !bytes.Equal(first, second) {
		t.Fatalf("%s is not %s: %v %v", one, other, err, errSecond)
	}
}

// TestACopyThatIsCutOffIsRemoved has a file that cannot be read to its end.
func TestACopyThatIsCutOffIsRemoved(t *testing.T) {
	to := filepath.Join(t.TempDir(), "pool")
	if err := copySynced(t.TempDir(), to); err == nil {
		t.Fatal("a folder is copied")
	}
	if left, err := os.ReadDir(filepath.Dir(to)); err != nil || len(left) > 0 {
		t.Fatalf("%v is left: %v", left, err)
	}
}

// TestACopyThatFails has a path to which no pool file can be copied: the save is told to have failed, and the log keeps all.
func TestACopyThatFails(t *testing.T) {
	server := redistest.Start(t)
	c := overRedis(t, server, plain(t, folder(t)))
	c.Copy = filepath.Join(c.Folder, "nowhere", "pool")
	s := opened(t, c)
	pushAll(t, s, "m0")
	before := s.journal.Bytes()
	if err := s.Save(background); err == nil || s.journal.Bytes() < before {
		t.Fatal(err)
	}
	crash(s)
	s = opened(t, c)
	defer s.Close(background)
	hasMessages(t, s, "a", "refs/heads/main", []string{"m0"})
}
