package shards

import (
	"bytes"
	"errors"
	"fmt"
	"os"
	"path/filepath"
	"strings"
	"sync"
	"syscall"
	"testing"
	"time"

	"gitpoold/await"
	"gitpoold/idempotency"
	"gitpoold/journal"
	"gitpoold/redistest"
	"gitpoold/store"
)

// followerOf gives the configuration of a server that follows another one, from copies of its pool files.
func followerOf(t testing.TB, leader Config, takeOver time.Duration) Config {
	t.Helper()
	c := inFiles(t, 1)
	c.Logs = append([]journal.Options(nil), leader.Logs...)
	c.Follow = &Follow{Leader: "http://leader", TakeOver: takeOver}
	must(t, Create(c.Store.Folder, c.Store.Program, len(leader.Logs), nil))
	for number := 1; number <= len(leader.Logs); number++ {
		must(t, os.RemoveAll(filepath.Join(Folder(c.Store.Folder, number), "journal")))
		copyPool(t, leader, c, number)
	}
	return c
}

func copyPool(t testing.TB, from, to Config, number int) {
	t.Helper()
	text, err := os.ReadFile(filepath.Join(Folder(from.Store.Folder, number), "pool"))
	must(t, err)
	must(t, os.WriteFile(filepath.Join(Folder(to.Store.Folder, number), "pool"), text, 0o600))
}

// samePools saves the leader, and asks that the follower has the same pool files.
func samePools(t testing.TB, leader, follower *Set) {
	t.Helper()
	must(t, leader.Save(background))
	follower.freshAll()
	for number := 1; number <= leader.Count(); number++ {
		first, err := os.ReadFile(filepath.Join(Folder(leader.config.Store.Folder, number), "pool"))
		must(t, err)
		second, err := os.ReadFile(filepath.Join(Folder(follower.config.Store.Folder, number), "pool"))
		must(t, err)
		if !bytes.Equal(first, second) {
			t.Fatalf("the pool files of shard %d differ", number)
		}
	}
}

// stops lets a configuration's Stop be waited for.
func stops(c *Config) chan error {
	why := make(chan error, 1)
	c.Store.Stop = func(err error) {
		select {
		case why <- err:
		default:
		}
	}
	return why
}

func stopsWith(t testing.TB, why chan error, says string) {
	t.Helper()
	select {
	case err := <-why:
		if !strings.Contains(err.Error(), says) {
			t.Fatalf("it stops with %v, and should say %q", err, says)
		}
	case <-time.After(await.Longest):
		t.Fatal("the server goes on")
	}
}

// leads waits until one of several servers takes pushes, and gives it.
func leads(t testing.TB, all ...*Set) *Set {
	t.Helper()
	var leader *Set
	await.Until(t, "one who takes the logs over", func() bool {
		for _, it := range all {
			if it.Follows() == nil {
				leader = it
				return true
			}
		}
		return false
	})
	return leader
}

// TestAReplicaFollowsMoves moves tenants to and fro while a replica follows and is asked: it answers with all that was told, and comes to the
// same pool files.
func TestAReplicaFollowsMoves(t *testing.T) {
	servers := []*redistest.Server{redistest.Start(t), redistest.Start(t)}
	c := inRedis(t, servers...)
	leader := opened(t, c)
	defer leader.Close(background)
	for _, tenant := range []string{"a", "b", "c"} {
		must(t, push(leader, tenant, "m0"))
	}
	of := followerOf(t, c, 0)
	follower := opened(t, of)
	defer func() { follower.Close(background) }()
	want := []string{"m0"}
	for round := 1; round < 5; round++ {
		must(t, leader.Move(background, "a", 3-leader.ShardOf("a")))
		hasMessages(t, follower, "a", want...)
		text := fmt.Sprint("m", round)
		must(t, push(leader, "a", text))
		want = append(want, text)
		hasMessages(t, follower, "a", want...)
		isIn(t, follower, "a", leader.ShardOf("a"))
		if round == 2 {
			must(t, follower.Close(background))
			follower = opened(t, of)
		}
	}
	samePools(t, leader, follower)
	must(t, push(leader, "new", "m0"))
	hasMessages(t, follower, "new", "m0")
	if fmt.Sprint(leader.Usages()) != fmt.Sprint(follower.Usages()) {
		t.Fatalf("the leader has %v, and the replica %v", leader.Usages(), follower.Usages())
	}
	refusesChanges(t, follower)
}

func refusesChanges(t testing.TB, follower *Set) {
	t.Helper()
	var follows *store.Follows
	for what, err := range map[string]error{
		"push": push(follower, "a", "m"), "move": follower.Move(background, "a", 1), "remove": follower.Remove(background, "a"),
		"compact": follower.Compact(background, "a"), "copy": follower.Copy(background, "a", "d"),
	} {
		if !errors.As(err, &follows) || !strings.Contains(err.Error(), "http://leader") {
			t.Errorf("%s: %v", what, err)
		}
	}
	if err := follower.Save(background); err != ErrSave {
		t.Error(err)
	}
}

// TestPoolFilesFromBeforeAMove starts a server on copies of the pool files while a replica follows, so that the logs keep what came before the
// last save: copies from before a move are refused, and those from before a save without one have all that was told.
func TestPoolFilesFromBeforeAMove(t *testing.T) {
	c := inRedis(t, redistest.Start(t), redistest.Start(t))
	leader := opened(t, c)
	defer func() { leader.Close(background) }()
	for _, tenant := range []string{"a", "b"} {
		must(t, push(leader, tenant, "m0"))
	}
	must(t, leader.Save(background))
	follower := opened(t, followerOf(t, c, 0))
	defer follower.Close(background)
	before := elsewhere(t, c)
	must(t, leader.Move(background, "a", 3-leader.ShardOf("a")))
	after := elsewhere(t, c)
	must(t, push(leader, "a", "m1"))
	must(t, leader.Save(background))
	hasMessages(t, follower, "a", "m0", "m1")
	crash(leader)
	if s, err := Open(before); err == nil || !strings.Contains(err.Error(), "no record goes on from the pool file") {
		t.Fatal("a start goes on from pool files that lack what was moved: ", err, s)
	}
	leader = opened(t, after)
	hasMessages(t, leader, "a", "m0", "m1")
	hasMessages(t, leader, "b", "m0")
}

// elsewhere gives the configuration of a server on another machine, with copies of the pool files of now.
func elsewhere(t testing.TB, leader Config) Config {
	t.Helper()
	c := followerOf(t, leader, 0)
	c.Follow = nil
	return c
}

// TestReadsOfAReplicaAreNeverOlder pushes to and moves tenants while readers ask a replica: no answer is older than what was told before.
func TestReadsOfAReplicaAreNeverOlder(t *testing.T) {
	servers := []*redistest.Server{redistest.Start(t), redistest.Start(t)}
	c := inRedis(t, servers...)
	leader := opened(t, c)
	defer leader.Close(background)
	names := []string{"a", "b", "c"}
	for _, tenant := range names {
		must(t, push(leader, tenant, "m0"))
	}
	follower := opened(t, followerOf(t, c, 0))
	defer follower.Close(background)
	over := make(chan struct{})
	var all sync.WaitGroup
	for _, tenant := range names {
		all.Add(1)
		go func(tenant string) {
			defer all.Done()
			pushesAndAsks(t, leader, follower, tenant, over)
		}(tenant)
	}
	for round := 0; round < 6; round++ {
		tenant := names[round%2]
		must(t, leader.Move(background, tenant, 3-leader.ShardOf(tenant)))
		if round%3 == 1 {
			must(t, leader.Save(background))
		}
	}
	close(over)
	all.Wait()
	samePools(t, leader, follower)
}

// pushesAndAsks pushes to a leader until it is over, and asks a replica before each push for those that were told.
func pushesAndAsks(t testing.TB, leader, follower *Set, tenant string, over chan struct{}) {
	for told := 1; ; told++ {
		select {
		case <-over:
			return
		default:
		}
		if got := messages(t, follower, tenant); len(got) != told {
			t.Errorf("the replica has %d pushes to %s, and %d were told", len(got), tenant, told)
		}
		if err := push(leader, tenant, fmt.Sprint("m", told)); err != nil {
			t.Error(err)
			return
		}
	}
}

// TestOneOfTwoReplicasTakesOver crashes a leader: one of its replicas goes on with all that was told, and the other one follows that.
func TestOneOfTwoReplicasTakesOver(t *testing.T) {
	servers := []*redistest.Server{redistest.Start(t), redistest.Start(t)}
	c := inRedis(t, servers...)
	leader := opened(t, c)
	for _, tenant := range []string{"a", "b"} {
		must(t, push(leader, tenant, "m0"))
	}
	// A stream that is open is given up by whoever takes over.
	open, err := leader.Begin(background, "a", store.Checkpoints)
	must(t, err)
	_, err = open.Feed(background, []byte("commit refs/heads/main\ncommitter a <a@b> 1 +0000\ndata 4\nlost\n"))
	must(t, err)
	must(t, push(leader, "b", "m1"))
	// A server that lives writes something each second, or a few seconds later on a busy machine.
	const silence = 5 * time.Second
	replicas := []*Set{opened(t, followerOf(t, c, silence)), opened(t, followerOf(t, c, silence))}
	time.Sleep(silence + time.Second/2)
	if replicas[0].Follows() == nil || replicas[1].Follows() == nil {
		t.Fatal("a leader that lives is taken over")
	}
	crash(leader)
	next := leads(t, replicas...)
	other := replicas[0]
	if other == next {
		other = replicas[1]
	}
	hasMessages(t, next, "a", "m0")
	hasMessages(t, next, "b", "m0", "m1")
	must(t, push(next, "a", "m1"))
	must(t, push(next, "new", "m0"))
	if other.Follows() == nil {
		t.Fatal("both lead")
	}
	hasMessages(t, other, "a", "m0", "m1")
	hasMessages(t, other, "new", "m0")
	must(t, next.Move(background, "a", 3-next.ShardOf("a")))
	samePools(t, next, other)
	crash(next)
	comesBack(t, leads(t, other), c)
}

// comesBack lets a server that leads stop, and starts the first one from its pool files.
func comesBack(t testing.TB, last *Set, c Config) {
	t.Helper()
	must(t, push(last, "a", "m2"))
	must(t, last.Close(background))
	// The first server comes back, with the pool files of the last one.
	for number := 1; number < 3; number++ {
		copyPool(t, last.config, c, number)
	}
	leader := opened(t, c)
	hasMessages(t, leader, "a", "m0", "m1", "m2")
	must(t, leader.Close(background))
}

// TestAReplicaIsLeftBehind has a replica that was stopped while the log was trimmed past its place: it says that it needs a newer pool file.
func TestAReplicaIsLeftBehind(t *testing.T) {
	servers := []*redistest.Server{redistest.Start(t)}
	c := inRedis(t, servers...)
	leader := opened(t, c)
	defer leader.Close(background)
	of := followerOf(t, c, 0)
	why := stops(&of)
	follower := opened(t, of)
	state := follower.States()[0]
	pid := state.ChildPid
	must(t, syscall.Kill(pid, syscall.SIGSTOP))
	must(t, push(leader, "a", "m"))
	await.Until(t, "a replica that takes records", func() bool { return follower.States()[0].Records != state.Records })
	want := []string{"m"}
	for i := 0; i < 10; i++ {
		must(t, push(leader, "a", fmt.Sprint("m", i)))
		must(t, leader.Save(background))
		want = append(want, fmt.Sprint("m", i))
	}
	must(t, syscall.Kill(pid, syscall.SIGCONT))
	stopsWith(t, why, "copy the newest pool file")
	if _, err := os.Stat(filepath.Join(of.Store.Folder, "pool.rescued")); err == nil {
		t.Fatal("a replica that is behind claims to have all pushes")
	}
	crash(follower)
	if _, err := Open(of); err == nil || !strings.Contains(err.Error(), "no record goes on from the pool file") {
		t.Fatal(err)
	}
	copyPool(t, c, of, 1)
	follower = opened(t, of)
	hasMessages(t, follower, "a", want...)
	must(t, follower.Close(background))
}

// TestAReplicaKeepsWhatALogLost has a Redis that loses pushes that were told: leader and replica stop, and both have them in a file.
func TestAReplicaKeepsWhatALogLost(t *testing.T) {
	server := redistest.Start(t)
	c := inRedis(t, server)
	stops(&c)
	leader := opened(t, c)
	of := followerOf(t, c, 0)
	why := stops(&of)
	follower := opened(t, of)
	must(t, push(leader, "a", "m0"))
	size := server.LogBytes()
	must(t, push(leader, "a", "m1"))
	hasMessages(t, follower, "a", "m0", "m1")
	crash(leader)
	server.Lose(size)
	stopsWith(t, why, "the log lost its end")
	crash(follower)
	other := inFiles(t, 1)
	text, err := os.ReadFile(filepath.Join(of.Store.Folder, "pool.rescued"))
	must(t, err)
	must(t, os.WriteFile(filepath.Join(other.Store.Folder, "pool"), text, 0o600))
	s := opened(t, other)
	hasMessages(t, s, "a", "m0", "m1")
	must(t, s.Close(background))
}

// TestAReplicaKnowsTokens has a stream with a token whose tenant is moved then: a replica knows what it was answered, also after it started again.
func TestAReplicaKnowsTokens(t *testing.T) {
	servers := []*redistest.Server{redistest.Start(t), redistest.Start(t)}
	c := inRedis(t, servers...)
	leader := opened(t, c)
	defer leader.Close(background)
	must(t, push(leader, "b", "m0"))
	of := followerOf(t, c, 0)
	follower := opened(t, of)
	st, err := leader.Begin(background, "a", store.Checkpoints)
	must(t, err)
	_, err = st.Feed(background, []byte("commit refs/heads/main\ncommitter a <a@b> 1 +0000\ndata 1\nx\n"))
	must(t, err)
	st.Keep(idempotency.New("word", []byte("told")))
	_, err = st.Commit(background, nil)
	must(t, err)
	for round := 0; round < 3; round++ {
		follower.freshAll()
		if it, is := follower.Kept("a", "word"); !is || string(it.Reply) != "told" {
			t.Fatalf("in round %d the replica knows %q (%v)", round, it.Reply, is)
		}
		if round == 0 {
			must(t, leader.Move(background, "a", 3-leader.ShardOf("a")))
		} else {
			must(t, follower.Close(background))
			follower = opened(t, of)
		}
	}
	samePools(t, leader, follower)
	must(t, follower.Close(background))
}
