package store

import (
	"context"
	"errors"
	"fmt"
	"os"
	"path/filepath"
	"strings"
	"sync"
	"sync/atomic"
	"syscall"
	"testing"
	"time"

	"gitpoold/await"
	"gitpoold/child"
	"gitpoold/frames"
	"gitpoold/redistest"
)

// always is the configuration of a store whose saves all have a second child.
func always(c Config) Config {
	c.SecondChild = func() int64 { return 1 }
	return c
}

// heard lets what a store tells be looked at.
func heard(c *Config) func(part string) int {
	var mutex sync.Mutex
	var said []string
	c.Tell = func(format string, values ...any) {
		mutex.Lock()
		defer mutex.Unlock()
		said = append(said, fmt.Sprintf(format, values...))
	}
	return func(part string) int {
		mutex.Lock()
		defer mutex.Unlock()
		return strings.Count(strings.Join(said, "\n"), part)
	}
}

// saving stops the first child and begins a save, which then lasts until the child goes on. It waits until a second child answers, if one is to.
func saving(t testing.TB, s *Store, hasSecond bool) (goOn func() error) {
	t.Helper()
	pid, saved := s.State().ChildPid, make(chan error, 1)
	must(t, syscall.Kill(pid, syscall.SIGSTOP))
	// A test that fails ends all the same.
	late := time.AfterFunc(3*await.Longest, func() { _ = syscall.Kill(pid, syscall.SIGCONT) })
	go func() { saved <- s.Save(background) }()
	await.Until(t, "a save that is where the first child writes", func() bool { return s.isShut() && (secondOf(s) != nil) == hasSecond })
	return func() error {
		late.Stop()
		must(t, syscall.Kill(pid, syscall.SIGCONT))
		return <-saved
	}
}

func must(t testing.TB, err error) {
	t.Helper()
	if err != nil {
		t.Fatal(err)
	}
}

func (s *Store) isShut() bool {
	s.child.mutex.Lock()
	defer s.child.mutex.Unlock()
	return s.child.isShut
}

// secondOf gives the second child, if one answers.
func secondOf(s *Store) *child.Process {
	s.child.mutex.Lock()
	defer s.child.mutex.Unlock()
	return s.child.beside
}

// waits tells whether nothing comes for a while.
func waits[T any](from <-chan T) bool {
	select {
	case <-from:
		return false
	case <-time.After(200 * time.Millisecond):
		return true
	}
}

// TestQuestionsAreAnsweredDuringASave stops the first child inside a save: questions are answered with all that was told before, with the checkpoints of a
// stream that is open and nothing else of it; a push, and a piece of the stream, wait and come through.
func TestQuestionsAreAnsweredDuringASave(t *testing.T) {
	c := always(config(t, folder(t)))
	s := opened(t, c)
	pushAll(t, s, "m0")
	must(t, s.Save(background))
	open, err := s.Begin(background, "f", Checkpoints)
	must(t, err)
	must(t, fed(open, append(commitOn("refs/heads/main", "one", ""), "checkpoint\n"...)))
	must(t, fed(open, commitOn("refs/heads/main", "two", "")))
	whole, err := s.Begin(background, "w", Whole)
	must(t, err)
	must(t, fed(whole, append([]byte(header), commitOn("refs/heads/main", "one", "")...)))
	pushAll(t, s, "m1")
	must(t, s.Copy(background, "a", "b"))
	goOn := saving(t, s, true)
	hasMessages(t, s, "a", "refs/heads/main", []string{"m0", "m1"})
	hasMessages(t, s, "b", "refs/heads/main", []string{"m0", "m1"})
	hasMessages(t, s, "f", "refs/heads/main", []string{"one"})
	hasMessages(t, s, "w", "refs/heads/main", nil)
	if state := s.State(); !state.IsAnswering || state.SecondPid == 0 || state.SecondPid == state.ChildPid {
		t.Fatalf("%+v", state)
	}
	pushed, ended := make(chan error, 1), make(chan error, 1)
	go func() { pushed <- push(s, "a", "refs/heads/main", "m2") }()
	go func() { _, err := open.Commit(background, nil); ended <- err }()
	if !waits(pushed) || !waits(ended) {
		t.Fatal("a push is told while the first child is stopped")
	}
	must(t, goOn())
	must(t, <-pushed)
	must(t, <-ended)
	_, err = whole.Commit(background, []byte("done\n"))
	must(t, err)
	for turn := 0; turn < 2; turn++ {
		hasMessages(t, s, "a", "refs/heads/main", []string{"m0", "m1", "m2"})
		hasMessages(t, s, "f", "refs/heads/main", []string{"one", "two"})
		hasMessages(t, s, "w", "refs/heads/main", []string{"one"})
		if left, err := filepath.Glob(s.config.work() + "/child-*"); len(left) != 1 || s.State().SecondPid != 0 {
			t.Fatal("the second child left something:", left, err)
		}
		crash(s)
		s = opened(t, c)
	}
	s.Close(background)
}

// TestWhatWasToldIsAnsweredDuringSaves asks while pushes and saves run: no answer is older than what was told before the question.
func TestWhatWasToldIsAnsweredDuringSaves(t *testing.T) {
	c := always(config(t, folder(t)))
	s := opened(t, c)
	ctx, stop := context.WithCancel(background)
	var told [3]atomic.Int64
	var all sync.WaitGroup
	during := func(do func()) {
		all.Add(1)
		go func() {
			defer all.Done()
			for ctx.Err() == nil {
				do()
			}
		}()
	}
	for i := range told {
		i, tenant := i, fmt.Sprint("t", i)
		during(func() {
			if err := push(s, tenant, "refs/heads/main", "m"); err != nil {
				t.Error(err)
			}
			told[i].Add(1)
		})
		during(func() {
			before := told[i].Load()
			if has := strings.Count(ask(t, s, tenant, "log refs/heads/main"), " m\n"); int64(has) < before {
				t.Errorf("%s has %d pushes, and %d were told", tenant, has, before)
			}
		})
	}
	for s.Counts().Saves < 8 && !t.Failed() {
		must(t, s.Save(background))
	}
	stop()
	all.Wait()
	if wasAlone(s) || s.Counts().Recoveries > 0 {
		t.Fatal("a save had no second child, or the first one was replaced")
	}
	s.Close(background)
}

// TestASecondChildThatIsKilled kills it inside a save: whoever asks waits for the first one.
func TestASecondChildThatIsKilled(t *testing.T) {
	s := opened(t, always(config(t, folder(t))))
	defer s.Close(background)
	pushAll(t, s, "m0")
	goOn := saving(t, s, true)
	stopped := secondOf(s)
	must(t, syscall.Kill(stopped.Pid(), syscall.SIGSTOP))
	batch, err := s.Ask(background, child.Short, frames.Step{Kind: frames.Ask, Tenant: "a", Body: []byte("refs")})
	must(t, err)
	must(t, syscall.Kill(stopped.Pid(), syscall.SIGKILL))
	if _, err := batch.Wait(background); !errors.Is(err, child.ErrGone) {
		t.Fatal(err)
	}
	answered := make(chan string, 1)
	go func() { answered <- ask(t, s, "a", "log refs/heads/main") }()
	if !waits(answered) || s.State().IsAnswering {
		t.Fatal("a question is answered by nobody")
	}
	must(t, goOn())
	if text := <-answered; !strings.HasSuffix(text, " m0\n") {
		t.Fatal(text)
	}
	if s.Counts().Recoveries > 0 {
		t.Fatal("the first child was replaced")
	}
}

// TestASecondChildThatDoesNotAnswer stops it inside a save: the save ends all the same, and whoever has asked is told soon.
func TestASecondChildThatDoesNotAnswer(t *testing.T) {
	defer func(was time.Duration) { dismissWithin = was }(dismissWithin)
	dismissWithin = time.Second
	s := opened(t, always(config(t, folder(t))))
	defer s.Close(background)
	pushAll(t, s, "m0")
	goOn := saving(t, s, true)
	must(t, syscall.Kill(secondOf(s).Pid(), syscall.SIGSTOP))
	batch, err := s.Ask(background, child.Short, frames.Step{Kind: frames.Ask, Tenant: "a", Body: []byte("refs")})
	must(t, err)
	must(t, goOn())
	if _, err := batch.Wait(background); !errors.Is(err, child.ErrGone) {
		t.Fatal(err)
	}
	pushAll(t, s, "m1")
	hasMessages(t, s, "a", "refs/heads/main", []string{"m0", "m1"})
}

// TestAnswersBeforeASecondChildEnds asks it for much while the save ends: all is answered.
func TestAnswersBeforeASecondChildEnds(t *testing.T) {
	s := opened(t, always(config(t, folder(t))))
	defer s.Close(background)
	pushAll(t, s, "m0")
	goOn := saving(t, s, true)
	pid := secondOf(s).Pid()
	must(t, syscall.Kill(pid, syscall.SIGSTOP))
	var batches []Answers
	for i := 0; i < 50; i++ {
		batch, err := s.Ask(background, child.Short, frames.Step{Kind: frames.Ask, Tenant: "a", Body: []byte("refs")})
		must(t, err)
		batches = append(batches, batch)
	}
	saved := make(chan error, 1)
	go func() { saved <- goOn() }()
	for s.isShut() {
		time.Sleep(time.Millisecond)
	}
	must(t, syscall.Kill(pid, syscall.SIGCONT))
	for _, batch := range batches {
		answers, err := batch.Wait(background)
		if err != nil || !strings.Contains(string(answers[0].Reply), "refs/heads/main") {
			t.Fatal(answers, err)
		}
	}
	must(t, <-saved)
}

// TestASaveWithoutASecondChild has saves for which there can be no second child, or shall be none: they go on as ever, and the operator is told once.
func TestASaveWithoutASecondChild(t *testing.T) {
	c := always(config(t, folder(t)))
	whole, count := c.Program, heard(&c)
	c.Program = t.TempDir() + "/gitpool"
	must(t, os.Symlink(whole, c.Program))
	var least atomic.Int64
	least.Store(1)
	c.SecondChild = least.Load
	s := opened(t, c)
	must(t, os.Remove(c.Program))
	for turn := 0; turn < 3; turn++ {
		pushAll(t, s, fmt.Sprint("m", turn))
		if turn == 2 {
			least.Store(1 << 40)
			must(t, os.Symlink(whole, c.Program))
		}
		goOn := saving(t, s, false)
		asked := make(chan string, 1)
		go func() { asked <- ask(t, s, "a", "refs") }()
		if !waits(asked) || s.State().IsAnswering {
			t.Fatal("the stopped child answers")
		}
		must(t, goOn())
		if text := <-asked; !strings.Contains(text, "refs/heads/main") {
			t.Fatal(text)
		}
	}
	if told := count("there is no second child"); told != 1 || s.Counts().Saves != 3 {
		t.Fatal("told so often that there is no second child:", told, s.Counts())
	}
	least.Store(1)
	pushAll(t, s, "m3")
	goOn := saving(t, s, true)
	hasMessages(t, s, "a", "refs/heads/main", []string{"m0", "m1", "m2", "m3"})
	must(t, goOn())
	pushAll(t, s, "m4")
	must(t, s.Close(background))
	if count("there is no second child") != 1 || count("the pool is saved in") != 5 {
		t.Fatal("a server that stops wants a second child")
	}
}

// TestASecondChildHasTooLittleMemory has memory for the first child and not for one that loads all of it.
func TestASecondChildHasTooLittleMemory(t *testing.T) {
	c := always(plain(t, folder(t)))
	count := heard(&c)
	s := opened(t, c)
	pushAll(t, s, strings.Repeat("x", 4<<20))
	s.config.ChildMemory = 1 << 20
	must(t, s.Save(background))
	if count("there is no second child") != 1 || s.State().SecondPid != 0 {
		t.Fatal("the second child loads the pool file in 1 MB")
	}
	s.config.ChildMemory = 0
	pushAll(t, s, "m1")
	must(t, s.Close(background))
}

// TestASecondChildThatCannotReadTheJournal has a journal that is damaged, and a Redis that is away: a save goes on, or fails, as it does without one.
func TestASecondChildThatCannotReadTheJournal(t *testing.T) {
	c := always(plain(t, folder(t)))
	count := heard(&c)
	s := opened(t, c)
	pushAll(t, s, "m0", "m1")
	text, err := os.ReadFile(c.Folder + "/journal/00000001")
	must(t, err)
	text[len(text)/2] ^= 1
	must(t, os.WriteFile(c.Folder+"/journal/00000001", text, 0o600))
	must(t, s.Save(background))
	if count("there is no second child") != 1 || count("a record is not as it was written") != 1 {
		t.Fatal("the second child carries a damaged record out")
	}
	crash(s)
	s = opened(t, c)
	hasMessages(t, s, "a", "refs/heads/main", []string{"m0", "m1"})
	must(t, s.Close(background))
	server := redistest.Start(t)
	c = always(overRedis(t, server, plain(t, folder(t))))
	c.Log.Wait = time.Second
	count = heard(&c)
	s = opened(t, c)
	pushAll(t, s, "m0")
	server.Kill()
	if err := s.Save(background); err == nil || count("there is no second child") != 1 {
		t.Fatal(err, count("there is no second child"))
	}
	server.Restart()
	for push(s, "a", "refs/heads/main", "m1") != nil {
		time.Sleep(10 * time.Millisecond)
	}
	goOn := saving(t, s, true)
	hasMessages(t, s, "a", "refs/heads/main", []string{"m0", "m1"})
	must(t, goOn())
	must(t, s.Close(background))
}

// TestASecondChildThatDoesNotLoad has one that never loads: it is ended where the server stops, where the first child ends, and where it is silent for
// too long; then the save goes on.
func TestASecondChildThatDoesNotLoad(t *testing.T) {
	for name, end := range map[string]func(s *Store){
		"the server stops":        func(s *Store) { close(s.stopping) },
		"the log is lost":         func(s *Store) { close(s.rescuing) },
		"the first child ends":    func(s *Store) { syscall.Kill(s.State().ChildPid, syscall.SIGKILL) },
		"it is silent for long":   func(s *Store) { go s.endStalled(stopsWith(s), func() Rhythm { return Rhythm{Step: time.Millisecond} }) },
		"nobody waits for a save": nil,
	} {
		s := opened(t, always(config(t, folder(t))))
		whole := s.config.Program
		pushAll(t, s, "m0")
		s.config.Program = silent(t)
		ctx, stop := context.WithCancel(background)
		saved := make(chan error, 1)
		go func() { saved <- s.Save(ctx) }()
		for s.State().SecondPid == 0 {
			time.Sleep(time.Millisecond)
		}
		pushAll(t, s, "m1")
		hasMessages(t, s, "a", "refs/heads/main", []string{"m0", "m1"})
		if !waits(saved) {
			t.Fatal(name, "the save did not wait for the second child")
		}
		s.config.Program = whole
		if end == nil {
			stop()
		} else {
			end(s)
		}
		err := await.From(t, "a save that waits for no second child: "+name, saved)
		if isKilled := name == "the first child ends"; isKilled != errors.Is(err, errNotSaved) || isKilled == (err == nil) && end != nil {
			t.Fatal(name, err)
		}
		stop()
		hasMessages(t, s, "a", "refs/heads/main", []string{"m0", "m1"})
		crash(s)
	}
}

// stopsWith is a context that ends with a store.
func stopsWith(s *Store) context.Context {
	ctx, stop := context.WithCancel(background)
	go func() { <-s.closing; stop() }()
	return ctx
}

// TestShardsTakeTurns has a store whose save waits for its turn: it takes pushes and answers meanwhile, and saves when the other one's is over.
func TestShardsTakeTurns(t *testing.T) {
	c := always(config(t, folder(t)))
	c.Turn = make(chan struct{}, 1)
	c.Turn <- struct{}{}
	s := opened(t, c)
	pushAll(t, s, "m0")
	saved := make(chan error, 1)
	go func() { saved <- s.Save(background) }()
	if !waits(saved) {
		t.Fatal("two shards have a second child at once")
	}
	pushAll(t, s, "m1")
	must(t, s.Copy(background, "a", "b"))
	hasMessages(t, s, "b", "refs/heads/main", []string{"m0", "m1"})
	<-c.Turn
	must(t, <-saved)
	if len(c.Turn) > 0 || s.Counts().Saves != 1 || wasAlone(s) {
		t.Fatal(len(c.Turn), s.Counts())
	}
	pushAll(t, s, "m2")
	c.Turn <- struct{}{}
	must(t, s.Close(background))
}

// silent is a program that takes steps and answers none.
func silent(t testing.TB) string {
	t.Helper()
	path := filepath.Join(t.TempDir(), "silent")
	must(t, os.WriteFile(path, []byte("#!/bin/sh\nexec sleep 600\n"), 0o700))
	return path
}

// TestAPieceThatIsInTheJournalComesToTheChild has a client that leaves while its piece waits for the child: the child gets what the journal has.
func TestAPieceThatIsInTheJournalComesToTheChild(t *testing.T) {
	s := opened(t, always(config(t, folder(t))))
	defer s.Close(background)
	st, err := s.Begin(background, "a", Checkpoints)
	must(t, err)
	pid, before := s.State().ChildPid, s.journal.Number()
	must(t, syscall.Kill(pid, syscall.SIGSTOP))
	piece, left := []byte("blob\ndata 1048576\n"+strings.Repeat("x", 1<<20)+"\n"), make(chan struct{})
	ctx, leave := context.WithCancel(background)
	go func() {
		defer close(left)
		for i := 0; i < 3; i++ {
			_, _ = st.Feed(ctx, piece)
		}
		_, _ = st.Feed(ctx, append(commitOn("refs/heads/main", "one", ""), "checkpoint\n"...))
	}()
	await.Until(t, "a journal that has a piece", func() bool { return s.journal.Number() > before })
	time.Sleep(200 * time.Millisecond)
	leave()
	time.Sleep(200 * time.Millisecond)
	must(t, syscall.Kill(pid, syscall.SIGCONT))
	<-left
	st.GiveUp()
	was := ask(t, s, "a", "refs")
	goOn := saving(t, s, true)
	if now := ask(t, s, "a", "refs"); now != was || !strings.Contains(now, "refs/heads/main") {
		t.Fatalf("the second child has %q, and the first one had %q", now, was)
	}
	must(t, goOn())
}

// TestALeaderOrItsReplicaAnswers stops the children of both inside their saves, without second ones: at each moment the other one answers.
func TestALeaderOrItsReplicaAnswers(t *testing.T) {
	c := overRedis(t, redistest.Start(t), plain(t, folder(t)))
	leader := opened(t, c)
	defer leader.Close(background)
	pushAll(t, leader, "m0")
	follower := opened(t, followerOf(t, c))
	defer follower.Close(background)
	goOn := saving(t, leader, false)
	hasMessages(t, follower, "a", "refs/heads/main", []string{"m0"})
	pid := follower.State().ChildPid
	must(t, syscall.Kill(pid, syscall.SIGSTOP))
	must(t, goOn())
	hasMessages(t, leader, "a", "refs/heads/main", []string{"m0"})
	pushAll(t, leader, "m1")
	hasMessages(t, leader, "a", "refs/heads/main", []string{"m0", "m1"})
	if follower.Counts().Saves > 0 {
		t.Fatal("the replica has saved with a child that is stopped")
	}
	must(t, syscall.Kill(pid, syscall.SIGCONT))
	hasMessages(t, follower, "a", "refs/heads/main", []string{"m0", "m1"})
	if follower.Counts().Saves != 1 {
		t.Fatal("the replica has not saved")
	}
}

// wasAlone tells whether the last save had no second child, although it should have had one.
func wasAlone(s *Store) bool {
	m, _ := s.beginMaintenance(background)
	defer m.done()
	return m.isAlone
}
