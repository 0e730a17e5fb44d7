package store

import (
	"context"
	"errors"
	"fmt"
	"io"
	"os"
	"strings"
	"sync"
	"syscall"
	"testing"
	"time"

	"gitpoold/await"
	"gitpoold/child"
	"gitpoold/frames"
)

// TestSavesWhilePushesRun has saves between pushes, with a stream of frames that is open all the time.
func TestSavesWhilePushesRun(t *testing.T) {
	c := config(t, folder(t))
	s := opened(t, c)
	idle, err := s.Begin(background, "idle", Checkpoints)
	if err != nil {
		t.Fatal(err)
	}
	var all sync.WaitGroup
	for i := 0; i < 3; i++ {
		all.Add(1)
		go func(i int) {
			defer all.Done()
			for k := 0; k < 20; k++ {
				if err := push(s, fmt.Sprint("t", i), "refs/heads/main", fmt.Sprint(k)); err != nil {
					t.Error(err)
				}
			}
		}(i)
	}
	for k := 0; k < 4; k++ {
		if err := s.Save(background); err != nil {
			t.Fatal(err)
		}
	}
	all.Wait()
	if _, err := idle.Commit(background, []byte("reset refs/heads/none\n")); err != nil {
		t.Fatal("the stream that was open at saves:", err)
	}
	crash(s)
	hasTwenty(t, opened(t, c))
}

// commitOn is a commit on top of what a ref of the stream has.
func commitOn(ref, text, from string) []byte {
	return []byte(fmt.Sprintf("commit %s\ncommitter a <a@b> 1 +0000\ndata %d\n%s\n%s\n", ref, len(text), text, from))
}

// TestStreamsLiveThroughSaves saves with streams open, before and after a checkpoint, and crashes at each moment.
func TestStreamsLiveThroughSaves(t *testing.T) {
	for moment := 0; moment < 5; moment++ {
		c := config(t, folder(t))
		s := opened(t, c)
		frames, err := s.Begin(background, "f", Checkpoints)
		if err != nil {
			t.Fatal(err)
		}
		whole, err := s.Begin(background, "w", Whole)
		if err != nil {
			t.Fatal(err)
		}
		acts := []func() error{
			func() error { return fed(frames, append(commitOn("refs/heads/main", "one", ""), "checkpoint\n"...)) },
			func() error { return fed(whole, append([]byte(header), commitOn("refs/heads/main", "one", "")...)) },
			func() error { return fed(frames, commitOn("refs/heads/main", "two", "")) },
			func() error { _, err := frames.Commit(background, nil); return err },
			func() error { _, err := whole.Commit(background, []byte("done\n")); return err },
		}
		for at, act := range acts {
			if err := act(); err != nil {
				t.Fatal(at, err)
			}
			if err := push(s, "other", "refs/heads/main", fmt.Sprint(at)); err != nil {
				t.Fatal(err)
			}
			if err := s.Save(background); err != nil {
				t.Fatal(at, err)
			}
			if at == moment {
				break
			}
		}
		crash(s)
		s = opened(t, c)
		left := [][]string{{"one"}, {"one"}, {"one"}, {"one", "two"}, {"one", "two"}}[moment]
		hasMessages(t, s, "f", "refs/heads/main", left)
		hasMessages(t, s, "w", "refs/heads/main", [][]string{nil, nil, nil, nil, {"one"}}[moment])
		if err := s.Close(background); err != nil {
			t.Fatal(err)
		}
		if first, last := s.journal.Segments(); first != last {
			t.Fatal(moment, "segments of streams that have ended are kept:", first, last)
		}
	}
}

func fed(st *Stream, body []byte) error {
	pending, err := st.Feed(background, body)
	if err == nil {
		_, err = pending.Wait(background)
	}
	return err
}

func hasTwenty(t *testing.T, s *Store) {
	t.Helper()
	defer s.Close(background)
	want := make([]string, 20)
	for k := range want {
		want[k] = fmt.Sprint(k)
	}
	for i := 0; i < 3; i++ {
		hasMessages(t, s, fmt.Sprint("t", i), "refs/heads/main", want)
	}
}

// TestWantOfMemoryRefusesAPush lets the child have little memory: the push is refused, the others last, and the server goes on.
func TestWantOfMemoryRefusesAPush(t *testing.T) {
	c := config(t, folder(t))
	c.ChildMemory = 48 << 20
	s := opened(t, c)
	if err := push(s, "a", "refs/heads/main", "before"); err != nil {
		t.Fatal(err)
	}
	err := push(s, "a", "refs/heads/main", strings.Repeat("x", 15<<20)+"\n")
	for i := 0; i < 4 && err == nil; i++ {
		err = push(s, "a", fmt.Sprint("refs/heads/b", i), strings.Repeat(fmt.Sprint(i), 15<<20)+"\n")
	}
	var refused *Refused
	if !errors.As(err, &refused) || refused.Number != 90 {
		t.Fatal(err)
	}
	// (a child that had no memory for the end of a push is replaced, and the next push may meet the one that is about to end)
	for err = child.ErrGone; errors.Is(err, child.ErrGone); time.Sleep(time.Millisecond) {
		err = push(s, "a", "refs/heads/small", "after")
	}
	must(t, err)
	hasMessages(t, s, "a", "refs/heads/small", []string{"after"})
	crash(s)
	s = opened(t, c)
	defer s.Close(background)
	hasMessages(t, s, "a", "refs/heads/small", []string{"after"})
}

func TestUsageIsCounted(t *testing.T) {
	c := config(t, folder(t))
	s := opened(t, c)
	if err := push(s, "a", "refs/heads/main", strings.Repeat("x", 1000)); err != nil {
		t.Fatal(err)
	}
	fed := s.Bytes("a")
	if fed < 1000 || fed > 1200 || s.Bytes("b") != 0 {
		t.Fatal(fed)
	}
	crash(s)
	s = opened(t, c)
	if told := s.Bytes("a"); told < 1000 || told > 1300 {
		t.Fatal(told, fed)
	}
	s.Save(background)
	defer s.Close(background)
	if s.Bytes("a") < 1000 || s.usage.get("a").Objects != 2 || s.usage.get("a").Refs != 1 || s.usage.get("a").since != 0 {
		t.Fatal(s.usage.get("a"))
	}
}

func isRefused(err error, number int) bool {
	var refused *Refused
	return errors.As(err, &refused) && refused.Number == number
}

// TestRequestsOfTheOperatorLast copies, compacts and removes tenants, and crashes before a save.
func TestRequestsOfTheOperatorLast(t *testing.T) {
	c := config(t, folder(t))
	s := opened(t, c)
	push(s, "a", "refs/heads/main", "m")
	push(s, "a", "refs/heads/side", strings.Repeat("x", 3000))
	if err := s.Copy(background, "a", "b"); err != nil {
		t.Fatal(err)
	}
	if err := s.Copy(background, "a", "b"); !isRefused(err, 33) {
		t.Fatal(err)
	}
	if err := s.Remove(background, "bad name"); !isRefused(err, 32) {
		t.Fatal(err)
	}
	st, err := s.Begin(background, "a", Whole)
	if err != nil {
		t.Fatal(err)
	}
	for _, err := range []error{s.Remove(background, "a"), s.Compact(background, "a"), s.Copy(background, "b", "a")} {
		if !isRefused(err, 31) {
			t.Fatal(err)
		}
	}
	deletes(t, st, "refs/heads/side")
	before := s.Bytes("a")
	if err := s.Compact(background, "a"); err != nil || s.Bytes("a") > before-3000 {
		t.Fatal(err, before, s.Bytes("a"))
	}
	push(s, "c", "refs/heads/main", "secret")
	if err := s.Remove(background, "c"); err != nil || s.Bytes("c") != 0 {
		t.Fatal(err, s.Bytes("c"))
	}
	after := s.Bytes("a")
	for i := 0; i < 2; i++ {
		crash(s)
		s = opened(t, c)
		hasMessages(t, s, "a", "refs/heads/main", []string{"m"})
		hasMessages(t, s, "b", "refs/heads/main", []string{"m"})
		if refs := ask(t, s, "c", "refs"); refs != "" || s.Bytes("a") != after || s.Bytes("c") != 0 {
			t.Fatal(refs, s.Bytes("a"), after, s.Bytes("c"))
		}
		if err := s.Save(background); err != nil {
			t.Fatal(err)
		}
	}
	defer s.Close(background)
	if text, _ := os.ReadFile(c.Folder + "/pool"); strings.Contains(string(text), "secret") {
		t.Fatal("the pool file has what was removed")
	}
}

// deletes ends a stream that deletes a ref.
func deletes(t testing.TB, st *Stream, ref string) {
	t.Helper()
	if err := fed(st, []byte(header+"reset "+ref+"\nfrom "+strings.Repeat("0", 40)+"\n\n")); err != nil {
		t.Fatal(err)
	}
	if _, err := st.Commit(background, []byte("done\n")); err != nil {
		t.Fatal(err)
	}
}

// TestARequestLivesThroughTheChild kills the child while a request of the operator is on its way.
func TestARequestLivesThroughTheChild(t *testing.T) {
	s := opened(t, config(t, folder(t)))
	defer s.Close(background)
	push(s, "a", "refs/heads/main", "m")
	pid := s.State().ChildPid
	syscall.Kill(pid, syscall.SIGSTOP)
	done := make(chan error)
	go func() { done <- s.Copy(background, "a", "b") }()
	time.Sleep(200 * time.Millisecond)
	syscall.Kill(pid, syscall.SIGKILL)
	if err := <-done; err != nil {
		t.Fatal(err)
	}
	hasMessages(t, s, "b", "refs/heads/main", []string{"m"})
}

// TestAChildThatDoesNotAnswerIsReplaced stops the child in the middle of a question.
func TestAChildThatDoesNotAnswerIsReplaced(t *testing.T) {
	s := opened(t, config(t, folder(t)))
	defer s.Close(background)
	if err := push(s, "a", "refs/heads/main", "m"); err != nil {
		t.Fatal(err)
	}
	ctx, stop := context.WithCancel(background)
	defer stop()
	// The next child may take as long as the machine lets it take.
	first := s.State().ChildPid
	go s.Keep(ctx, func() Rhythm {
		if syscall.Kill(first, 0) == nil {
			return Rhythm{1 << 40, time.Hour, 100 * time.Millisecond}
		}
		return Rhythm{1 << 40, time.Hour, time.Hour}
	})
	syscall.Kill(first, syscall.SIGSTOP)
	batch, err := s.Ask(background, child.Short, frames.Step{Kind: frames.Ask, Tenant: "a", Body: []byte("refs")})
	if err != nil {
		t.Fatal(err)
	}
	if _, err := batch.Wait(background); !errors.Is(err, child.ErrGone) {
		t.Fatal(err)
	}
	hasMessages(t, s, "a", "refs/heads/main", []string{"m"})
	if s.Counts().Recoveries != 1 {
		t.Fatal(s.Counts())
	}
}

func TestKeepSaves(t *testing.T) {
	for name, rhythm := range map[string]Rhythm{"by bytes": {600, time.Hour, time.Hour}, "by time": {1 << 40, time.Millisecond, time.Hour}} {
		s, rhythm := opened(t, config(t, folder(t))), rhythm
		ctx, stop := context.WithCancel(background)
		go s.Keep(ctx, func() Rhythm { return rhythm })
		for i := 0; i < 3; i++ {
			if err := push(s, "a", "refs/heads/main", fmt.Sprint(i, strings.Repeat("x", 300))); err != nil {
				t.Fatal(err)
			}
		}
		await.Until(t, "a save "+name, func() bool {
			return s.Counts().Saves > 0 && !s.isDue(rhythm, &lastSave{at: time.Now().Add(-time.Second)})
		})
		stop()
		s.Close(background)
	}
}

// TestABrokenJournalIsHealedSoon has a journal whose file fails, and a disk on which a save fails: while no push is taken, a save is tried more often, and
// the one that goes well lets pushes in.
func TestABrokenJournalIsHealedSoon(t *testing.T) {
	s := opened(t, plain(t, folder(t)))
	defer s.Close(background)
	pushAll(t, s, "m0")
	errDisk := errors.New("the disk is full")
	if s.pauseAfter(nil) != 0 || s.pauseAfter(errDisk) != afterFailure {
		t.Fatal(s.pauseAfter(nil), s.pauseAfter(errDisk))
	}
	if err := s.journal.Close(); err != nil {
		t.Fatal(err)
	}
	rhythm, failed := Rhythm{1 << 40, time.Hour, time.Hour}, lastSave{at: time.Now().Add(-whileBroken), failed: errDisk}
	if s.isDue(rhythm, &failed) {
		t.Fatal("a save that failed is tried again too soon")
	}
	if err := push(s, "a", "refs/heads/main", "m1"); err == nil || s.pauseAfter(errDisk) != whileBroken || !s.isDue(rhythm, &failed) {
		t.Fatalf("%v; the next save comes after %v", err, s.pauseAfter(errDisk))
	}
	if err := s.Save(background); err != nil {
		t.Fatal(err)
	}
	pushAll(t, s, "m1")
	hasMessages(t, s, "a", "refs/heads/main", []string{"m0", "m1"})
}

// TestAChildThatCannotBeStartedLeavesNothing has a pool file that can be neither linked nor copied, as on a full disk: each try leaves no file.
func TestAChildThatCannotBeStartedLeavesNothing(t *testing.T) {
	s := opened(t, config(t, folder(t)))
	defer s.Close(background)
	before, err := os.ReadDir(s.config.work())
	if err != nil {
		t.Fatal(err)
	}
	for _, pool := range []string{s.config.file("nowhere"), s.config.work()} {
		if _, err := s.config.startChild(pool, io.Discard); err == nil {
			t.Fatal("a child has no pool file")
		}
	}
	if after, err := os.ReadDir(s.config.work()); err != nil || len(after) != len(before) {
		t.Fatalf("%d files are left, and there were %d: %v", len(after), len(before), err)
	}
}

// TestASaveThatFailsLosesNothing lets the child save nowhere, by a folder at the place of its file.
func TestASaveThatFailsLosesNothing(t *testing.T) {
	c := config(t, folder(t))
	s := opened(t, c)
	if err := push(s, "a", "refs/heads/main", "one"); err != nil {
		t.Fatal(err)
	}
	place := s.child.room + "/pool"
	os.Remove(place)
	if err := os.MkdirAll(place+"/in the way", 0o700); err != nil {
		t.Fatal(err)
	}
	if err := s.Save(background); err == nil {
		t.Fatal("saved")
	}
	if err := push(s, "a", "refs/heads/main", "two"); err != nil {
		t.Fatal(err)
	}
	hasMessages(t, s, "a", "refs/heads/main", []string{"one", "two"})
	if s.Counts().Recoveries != 0 {
		t.Fatal("the child was replaced")
	}
	os.RemoveAll(place)
	if err := s.Save(background); err != nil || s.Counts().FailedSaves != 1 {
		t.Fatal(err, s.Counts())
	}
	crash(s)
	s = opened(t, c)
	defer s.Close(background)
	hasMessages(t, s, "a", "refs/heads/main", []string{"one", "two"})
}

func TestADamagedPoolFileIsNotServed(t *testing.T) {
	c := config(t, folder(t))
	s := opened(t, c)
	push(s, "a", "refs/heads/main", "one")
	s.Close(background)
	text, _ := os.ReadFile(c.Folder + "/pool")
	text[40] ^= 1
	os.WriteFile(c.Folder+"/pool", text, 0o600)
	if _, err := Open(c); !errors.Is(err, ErrLoad) || !strings.Contains(err.Error(), "fault 6") {
		t.Fatal(err)
	}
	text[40] ^= 1
	os.WriteFile(c.Folder+"/pool", text, 0o600)
	s = opened(t, c)
	hasMessages(t, s, "a", "refs/heads/main", []string{"one"})
	s.Close(background)
}

func TestAFolderWithAJournalAloneIsNotCreatedAnew(t *testing.T) {
	c := config(t, folder(t))
	s := opened(t, c)
	push(s, "a", "refs/heads/main", "one")
	crash(s)
	os.Remove(c.Folder + "/pool")
	if err := Create(c.Folder, c.Program); err == nil {
		t.Fatal("created")
	}
	if _, err := Open(c); err == nil {
		t.Fatal("opened")
	}
}
