package store

import (
	"bytes"
	"errors"
	"fmt"
	"os"
	"path/filepath"
	"strings"
	"sync"
	"syscall"
	"testing"
	"time"

	"gitpoold/child"
	"gitpoold/frames"
	"gitpoold/journal"
	"gitpoold/redistest"
)

// followerOf gives the configuration of a store that follows the log of another one, from a copy of its pool file.
func followerOf(t testing.TB, leader Config) Config {
	t.Helper()
	c := plain(t, folder(t))
	log := *leader.Log
	c.Log, c.Follows = &log, &Follows{"http://leader"}
	c.Stop = func(why error) { t.Errorf("the follower stops: %v", why) }
	copied(t, filepath.Join(leader.Folder, "pool"), c.Folder)
	return c
}

// samePool asks that two stores have the same pool file, byte for byte.
func samePool(t testing.TB, one, other Config) {
	t.Helper()
	first, err := os.ReadFile(filepath.Join(one.Folder, "pool"))
	if err != nil {
		t.Fatal(err)
	}
	second, err := os.ReadFile(filepath.Join(other.Folder, "pool"))
	if err != nil || !bytes.Equal(first, second) {
		t.Fatalf("the pool files differ: %d and %d bytes (%v)", len(first), len(second), err)
	}
}

// saves saves a store, and waits until another one has followed.
func saves(t testing.TB, leader, follower *Store) {
	t.Helper()
	before := follower.Counts().Saves
	if err := leader.Save(background); err != nil {
		t.Fatal(err)
	}
	if err := follower.Fresh(background); err != nil {
		t.Fatal(err)
	}
	if follower.Counts().Saves != before+1 {
		t.Fatal("the follower has not saved")
	}
}

// TestARescueWaitsForRecords saves what a follower has while that takes records: these may need another child for a merge, which nobody keeps from them.
func TestARescueWaitsForRecords(t *testing.T) {
	server := redistest.Start(t)
	c := overRedis(t, server, plain(t, folder(t)))
	leader := opened(t, c)
	defer leader.Close(background)
	of := followerOf(t, c)
	follower := opened(t, of)
	defer follower.Close(background)
	pushAll(t, leader, "m0")
	hasMessages(t, follower, "a", "refs/heads/main", []string{"m0"})
	follower.follower.turn.Lock()
	done := make(chan struct{})
	go func() { follower.Rescue(); close(done) }()
	if !waits(done) {
		t.Fatal("a rescue does not wait")
	}
	m, err := follower.beginMaintenance(background)
	must(t, err)
	m.done()
	follower.follower.turn.Unlock()
	<-done
	if _, err := os.Stat(filepath.Join(of.Folder, rescuedName)); err != nil {
		t.Fatal(err)
	}
}

// TestARescueThatHasNoTurn has a follower that takes records for longer than a rescue waits: nothing is saved, and the operator is told.
func TestARescueThatHasNoTurn(t *testing.T) {
	defer func(was time.Duration) { rescueWithin = was }(rescueWithin)
	rescueWithin = 100 * time.Millisecond
	server := redistest.Start(t)
	c := overRedis(t, server, plain(t, folder(t)))
	leader := opened(t, c)
	defer leader.Close(background)
	of := followerOf(t, c)
	count := heard(&of)
	follower := opened(t, of)
	defer follower.Close(background)
	follower.follower.turn.Lock()
	follower.Rescue()
	follower.follower.turn.Unlock()
	if _, err := os.Stat(filepath.Join(of.Folder, rescuedName)); !errors.Is(err, os.ErrNotExist) || count("what the log lost is not saved") != 1 {
		t.Fatal("a rescue does not wait for its turn", err)
	}
}

// TestAChildThatDiesInASave has a follower's child die when it has written the pool file, while that is not in its place yet. The next child begins
// from the file that is.
func TestAChildThatDiesInASave(t *testing.T) {
	server := redistest.Start(t)
	c := overRedis(t, server, plain(t, folder(t)))
	leader := opened(t, c)
	defer leader.Close(background)
	of := followerOf(t, c)
	follower := opened(t, of)
	defer follower.Close(background)
	f := follower.follower
	f.turn.Lock()
	pushAll(t, leader, "m0")
	must(t, leader.Save(background))
	followToSave(t, follower)
	digest, err := follower.pool.write(f.replay.started)
	must(t, err)
	f.replay.process.Kill()
	<-f.replay.process.Gone()
	time.Sleep(200 * time.Millisecond)
	must(t, follower.pool.takeNext())
	f.log.Saved(digest)
	f.turn.Unlock()
	hasMessages(t, follower, "a", "refs/heads/main", []string{"m0"})
	pushAll(t, leader, "m1")
	hasMessages(t, follower, "a", "refs/heads/main", []string{"m1", "m0"})
	saves(t, leader, follower)
	samePool(t, c, of)
}

// followToSave lets a follower whose turn is held carry out what the log has up to its next save.
func followToSave(t testing.TB, follower *Store) {
	t.Helper()
	f := follower.follower
	for {
		entries, err := f.log.Read()
		must(t, err)
		for f.log.HasNext(&entries) {
			it, err := f.log.Take(&entries)
			must(t, err)
			if it.IsSave {
				must(t, f.replay.settle(0))
				return
			}
			must(t, recordTurn{f}.follow(it))
		}
	}
}

// TestAFollowerComesToTheSameBytes has a leader with pushes of several tenants at once, streams that stay open over a save, streams that are given
// up and requests of the operator. The follower answers as the leader does, and comes to the same pool files.
func TestAFollowerComesToTheSameBytes(t *testing.T) {
	server := redistest.Start(t)
	c := overRedis(t, server, plain(t, folder(t)))
	leader := opened(t, c)
	defer leader.Close(background)
	pushAll(t, leader, "before the follower")
	of := followerOf(t, c)
	follower := opened(t, of)
	defer func() { follower.Close(background) }()
	hasMessages(t, follower, "a", "refs/heads/main", []string{"before the follower"})
	open, err := leader.Begin(background, "open", Whole)
	if err != nil {
		t.Fatal(err)
	}
	feed(t, open, header+"commit refs/heads/main\ncommitter a <a@b> 1 +0000\ndata 4\nopen\n")
	for round := 0; round < 3; round++ {
		changes(t, leader, round)
		saves(t, leader, follower)
		samePool(t, c, of)
		if round == 1 {
			follower.Close(background)
			follower = opened(t, of)
		}
	}
	if err := leader.Remove(background, "fork1"); err != nil {
		t.Fatal(err)
	}
	if _, err := open.Commit(background, []byte("done\n")); err != nil {
		t.Fatal(err)
	}
	hasMessages(t, follower, "open", "refs/heads/main", []string{"open"})
	if ask(t, follower, "fork1", "refs") != "" || ask(t, follower, "fork2", "refs") != ask(t, leader, "fork2", "refs") {
		t.Fatal("the follower has other tenants")
	}
	saves(t, leader, follower)
	samePool(t, c, of)
	if fmt.Sprint(leader.Usages()) != fmt.Sprint(follower.Usages()) {
		t.Fatalf("the leader has %v, and the follower %v", leader.Usages(), follower.Usages())
	}
}

// changes pushes to three tenants at once, gives a stream up, and copies a tenant.
func changes(t testing.TB, leader *Store, round int) {
	t.Helper()
	var all sync.WaitGroup
	for _, tenant := range []string{"a", "b", "c/d"} {
		all.Add(1)
		go func(tenant string) {
			defer all.Done()
			for i := 0; i < 4; i++ {
				if err := push(leader, tenant, fmt.Sprint("refs/heads/r", i), fmt.Sprint(tenant, round, i)); err != nil {
					t.Error(err)
				}
			}
		}(tenant)
	}
	all.Wait()
	given, err := leader.Begin(background, "given", Form(round%2))
	if err != nil {
		t.Fatal(err)
	}
	feed(t, given, "commit refs/heads/main\ncommitter a <a@b> 1 +0000\ndata 1\nx\ncheckpoint\n")
	given.GiveUp()
	if err := leader.Copy(background, "a", fmt.Sprint("fork", round)); err != nil {
		t.Fatal(err)
	}
}

func feed(t testing.TB, st *Stream, text string) {
	t.Helper()
	pending, err := st.Feed(background, []byte(text))
	if err == nil {
		_, err = pending.Wait(background)
	}
	if err != nil {
		t.Fatal(err)
	}
}

// TestAFollowerRefusesChanges asks a follower for all that changes: each is refused with where to do it, and the log stays as it is.
func TestAFollowerRefusesChanges(t *testing.T) {
	server := redistest.Start(t)
	c := overRedis(t, server, plain(t, folder(t)))
	leader := opened(t, c)
	pushAll(t, leader, "m0")
	of := followerOf(t, c)
	if err := leader.Close(background); err != nil {
		t.Fatal(err)
	}
	of = followerOf(t, c)
	follower := opened(t, of)
	defer follower.Close(background)
	before := fmt.Sprint(server.Do("XRANGE", "site", "-", "+"))
	var follows *Follows
	for what, err := range map[string]error{
		"push":    push(follower, "a", "refs/heads/main", "m1"),
		"remove":  follower.Remove(background, "a"),
		"compact": follower.Compact(background, "a"),
		"copy":    follower.Copy(background, "a", "b"),
	} {
		if !errors.As(err, &follows) || !strings.Contains(err.Error(), "http://leader") {
			t.Errorf("%s: %v", what, err)
		}
	}
	if err := follower.Save(background); err != nil {
		t.Fatal(err)
	}
	hasMessages(t, follower, "a", "refs/heads/main", []string{"m0"})
	if before != fmt.Sprint(server.Do("XRANGE", "site", "-", "+")) {
		t.Fatal("the log has changed")
	}
}

// TestAFollowerThatLags stops the child of a follower: no answer is older than what was told before the question.
func TestAFollowerThatLags(t *testing.T) {
	server := redistest.Start(t)
	c := overRedis(t, server, plain(t, folder(t)))
	leader := opened(t, c)
	defer leader.Close(background)
	pushAll(t, leader, "m0")
	of := followerOf(t, c)
	of.Log.Wait = time.Second
	follower := opened(t, of)
	defer follower.Close(background)
	messages := []string{"m0"}
	for i := 1; i < 5; i++ {
		_ = syscall.Kill(follower.child.process.Pid(), syscall.SIGSTOP)
		pushAll(t, leader, fmt.Sprint("m", i))
		messages = append(messages, fmt.Sprint("m", i))
		if i == 1 {
			if _, err := follower.Ask(background, child.Short, frames.Step{Kind: frames.Sizes}); err != journal.ErrBehind {
				t.Fatal(err)
			}
		}
		go func() {
			time.Sleep(50 * time.Millisecond)
			_ = syscall.Kill(follower.child.process.Pid(), syscall.SIGCONT)
		}()
		hasMessages(t, follower, "a", "refs/heads/main", messages)
	}
	server.Kill()
	if _, err := follower.Ask(background, child.Short, frames.Step{Kind: frames.Sizes}); err != journal.ErrBehind {
		t.Fatal(err)
	}
	server.Restart()
	hasMessages(t, follower, "a", "refs/heads/main", messages)
}

// TestAFollowersChildDies kills the child of a follower again and again while the leader is pushed to and saves.
func TestAFollowersChildDies(t *testing.T) {
	server := redistest.Start(t)
	c := overRedis(t, server, plain(t, folder(t)))
	leader := opened(t, c)
	defer leader.Close(background)
	of := followerOf(t, c)
	follower := opened(t, of)
	defer follower.Close(background)
	var messages []string
	for i := 0; i < 8; i++ {
		pushAll(t, leader, fmt.Sprint("m", i))
		messages = append(messages, fmt.Sprint("m", i))
		follower.replaceChild()
		if i%3 == 2 {
			if err := leader.Save(background); err != nil {
				t.Fatal(err)
			}
		}
		if i%4 == 3 {
			hasMessages(t, follower, "a", "refs/heads/main", messages)
		}
	}
	hasMessages(t, follower, "a", "refs/heads/main", messages)
	saves(t, leader, follower)
	samePool(t, c, of)
}

// TestAFollowerTakesBack has a log that takes an End and a request back which the follower has carried out: it begins anew without them.
func TestAFollowerTakesBack(t *testing.T) {
	server := redistest.Start(t)
	c := overRedis(t, server, plain(t, folder(t)))
	leader := opened(t, c)
	defer leader.Abort()
	of := followerOf(t, c)
	follower := opened(t, of)
	defer func() { follower.Close(background) }()
	pushAll(t, leader, "m0", "m1")
	hasMessages(t, follower, "a", "refs/heads/main", []string{"m0", "m1"})
	if err := leader.journal.takeBack(0, end{tenant: "a"}); err != nil {
		t.Fatal(err)
	}
	hasMessages(t, follower, "a", "refs/heads/main", []string{"m0"})
	if err := leader.Copy(background, "a", "b"); err != nil {
		t.Fatal(err)
	}
	if ask(t, follower, "b", "refs") == "" {
		t.Fatal("the follower has no copy")
	}
	if err := leader.journal.takeBack(leader.journal.Number(), end{isRequest: true}); err != nil {
		t.Fatal(err)
	}
	if ask(t, follower, "b", "refs") != "" {
		t.Fatal("the follower has a copy that was taken back")
	}
	follower.Close(background)
	follower = opened(t, of)
	hasMessages(t, follower, "a", "refs/heads/main", []string{"m0"})
	if ask(t, follower, "b", "refs") != "" {
		t.Fatal("the follower has a copy that was taken back, after a start")
	}
}

// TestAFollowerWaitsForTheEnd has a log with all pieces of a push and without its End: the follower has nothing of it, also after it is given up.
func TestAFollowerWaitsForTheEnd(t *testing.T) {
	server := redistest.Start(t)
	c := overRedis(t, server, plain(t, folder(t)))
	leader := opened(t, c)
	defer leader.Abort()
	of := followerOf(t, c)
	follower := opened(t, of)
	defer func() { follower.Close(background) }()
	pushAll(t, leader, "m0")
	body := header + "commit refs/heads/main\ncommitter a <a@b> 1 +0000\ndata 4\nlost\n"
	number, err := leader.journal.Append(frames.Step{Kind: frames.Open, Tenant: "a", Body: []byte{byte(Whole)}},
		frames.Step{Kind: frames.Feed, Tenant: "a", Body: []byte(body)}, frames.Step{Kind: frames.Feed, Tenant: "a", Body: []byte("done\n")})
	if err == nil {
		err = leader.journal.Sync(number)
	}
	if err != nil {
		t.Fatal(err)
	}
	hasMessages(t, follower, "a", "refs/heads/main", []string{"m0"})
	follower.Close(background)
	follower = opened(t, of)
	hasMessages(t, follower, "a", "refs/heads/main", []string{"m0"})
	leader.journal.noteGivenUp("a")
	pushAll(t, leader, "m1")
	hasMessages(t, follower, "a", "refs/heads/main", []string{"m0", "m1"})
	saves(t, leader, follower)
	samePool(t, c, of)
}

// unsureBegin is a log that begins a segment and does not say so once.
type unsureBegin struct {
	journal.Journal
	left int
}

func (u *unsureBegin) IsFollowed() bool { return true }

func (u *unsureBegin) Begin(pool journal.Digest, open []uint64) error {
	err := u.Journal.Begin(pool, open)
	if u.left--; err == nil && u.left >= 0 {
		return journal.ErrUnsure
	}
	return err
}

// TestAMergeThatOnlyTheLogHas merges a tenant, and is not told that the log has that. So the leader goes on without the tenant, while its follower
// merges it. Both have the same pool file again at the next save, and after another merge of the tenant.
func TestAMergeThatOnlyTheLogHas(t *testing.T) {
	from := opened(t, plain(t, folder(t)))
	defer from.Close(background)
	must(t, push(from, "b", "refs/heads/main", "of b"))
	moved := filepath.Join(t.TempDir(), "moved")
	must(t, from.Extract(background, "b", moved))
	server := redistest.Start(t)
	c := overRedis(t, server, plain(t, folder(t)))
	leader := opened(t, c)
	defer leader.Close(background)
	of := followerOf(t, c)
	follower := opened(t, of)
	defer follower.Close(background)
	pushAll(t, leader, "m0")
	log := leader.journal.Journal
	leader.journal.Journal = &unsureBegin{Journal: log, left: 1}
	if err := leader.Merge(background, "b", moved); !errors.Is(err, journal.ErrUnsure) {
		t.Fatal(err)
	}
	leader.journal.Journal = log
	must(t, follower.Fresh(background))
	hasMessages(t, follower, "b", "refs/heads/main", []string{"of b"})
	if leader.Has("b") {
		t.Fatal("the leader has the tenant")
	}
	pushAll(t, leader, "m1")
	saves(t, leader, follower)
	samePool(t, c, of)
	hasMessages(t, follower, "b", "refs/heads/main", nil)
	must(t, leader.Merge(background, "b", moved))
	must(t, push(leader, "b", "refs/heads/main", "more"))
	must(t, follower.Fresh(background))
	saves(t, leader, follower)
	samePool(t, c, of)
	hasMessages(t, leader, "b", "refs/heads/main", []string{"more", "of b"})
}
