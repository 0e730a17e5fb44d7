package store

import (
	"errors"
	"os"
	"path/filepath"
	"testing"
	"time"

	"gitpoold/frames"
	"gitpoold/idempotency"
	"gitpoold/journal"
)

// lossy is a journal that has lost records.
type lossy struct{ journal.Journal }

func (l lossy) Losses() uint64 { return l.Journal.Losses() + 1 }

// TestWhatIsTakenBackIsNotTold has a push that the child has carried out and that is about to be told, when no other child can be started and all that
// was not told is taken back: then that is told.
func TestWhatIsTakenBackIsNotTold(t *testing.T) {
	c := config(t, folder(t))
	s := opened(t, c)
	pushAll(t, s, "m0")
	st, err := s.Begin(background, "b", Whole)
	if err != nil {
		t.Fatal(err)
	}
	sent, err := st.sendEnd(background, []byte(header+"commit refs/heads/main\ncommitter a <a@b> 1 +0000\ndata 1\nx\ndone\n"))
	if err != nil {
		t.Fatal(err)
	}
	if answers, err := sent.batch.Wait(background); err != nil || answers[1].Status != frames.Ok {
		t.Fatal(answers, err)
	}
	s.takeBackUntold()
	if s.inDoubt.forget(sent.number) {
		t.Fatal("the push is told to be there, and was taken back")
	}
	if answers, err := s.inDoubt.outcome(sent.outcome); err != nil || answers[0].Value != 90 {
		t.Fatal(answers, err)
	}
	crash(s)
	s = opened(t, c)
	defer s.Close(background)
	hasMessages(t, s, "b", "refs/heads/main", nil)
	hasMessages(t, s, "a", "refs/heads/main", []string{"m0"})
}

// TestAStreamWhoseRecordsAreLostIsRefused has a stream open while the journal takes records back: what the journal lacks may not be told.
func TestAStreamWhoseRecordsAreLostIsRefused(t *testing.T) {
	s := opened(t, config(t, folder(t)))
	defer s.Close(background)
	st, err := s.Begin(background, "a", Whole)
	if err != nil {
		t.Fatal(err)
	}
	if _, err := st.Feed(background, []byte(header+"commit refs/heads/main\ncommitter a <a@b> 1 +0000\ndata 1\nx\n")); err != nil {
		t.Fatal(err)
	}
	s.journal.Journal = lossy{s.journal.Journal}
	if _, err := st.Feed(background, []byte("\n")); !errors.Is(err, journal.ErrBroken) {
		t.Fatalf("the stream goes on: %v", err)
	}
	if _, err := st.Commit(background, []byte("done\n")); !errors.Is(err, journal.ErrBroken) {
		t.Fatalf("the stream ends: %v", err)
	}
	if numbers := (exclusive{maintenance{Store: s}}).openNumbers(); len(numbers) > 0 {
		t.Fatalf("a save would name the lost Opens %v", numbers)
	}
	st.GiveUp()
	if err := push(s, "a", "refs/heads/main", "m"); err != nil {
		t.Fatal(err)
	}
	hasMessages(t, s, "a", "refs/heads/main", []string{"m"})
}

// full is a journal that has no room for an Open.
type full struct{ journal.Journal }

func (f full) Append(steps ...frames.Step) (uint64, error) {
	if steps[0].Kind == frames.Open {
		return 0, journal.ErrFull
	}
	return f.Journal.Append(steps...)
}

// TestAnOpenWithoutRoomTakesNothingBack has a stream whose Open found no room in the journal. It is given up, and the stream before, which has ended, stays.
func TestAnOpenWithoutRoomTakesNothingBack(t *testing.T) {
	c := config(t, folder(t))
	s := opened(t, c)
	pushAll(t, s, "m0")
	log := s.journal.Journal
	s.journal.Journal = full{log}
	if _, err := s.Begin(background, "a", Whole); !errors.Is(err, journal.ErrFull) {
		t.Fatal(err)
	}
	s.journal.Journal = log
	pushAll(t, s, "m1")
	crash(s)
	s = opened(t, c)
	defer s.Close(background)
	hasMessages(t, s, "a", "refs/heads/main", []string{"m0", "m1"})
}

// TestCheckpointsOfALostStreamAreSaved has a stream whose checkpoint others have read when the journal loses its records. A push on top of it stays.
func TestCheckpointsOfALostStreamAreSaved(t *testing.T) {
	c := config(t, folder(t))
	s := opened(t, c)
	st, err := s.Begin(background, "a", Checkpoints)
	if err != nil {
		t.Fatal(err)
	}
	if err := fed(st, append(commitOn("refs/heads/main", "m0", ""), "checkpoint\n"...)); err != nil {
		t.Fatal(err)
	}
	hasMessages(t, s, "a", "refs/heads/main", []string{"m0"})
	s.journal.Journal = lossy{s.journal.Journal}
	if err := s.Save(background); err != nil {
		t.Fatal(err)
	}
	st.GiveUp()
	pushAll(t, s, "m1")
	crash(s)
	s = opened(t, c)
	defer s.Close(background)
	hasMessages(t, s, "a", "refs/heads/main", []string{"m0", "m1"})
}

// TestAJournalThatWasDeleted has pushes in a journal whose segments, or whose folder, somebody deletes: no start takes that for a new folder.
func TestAJournalThatWasDeleted(t *testing.T) {
	c := plain(t, folder(t))
	s := opened(t, c)
	pushAll(t, s, "m0")
	crash(s)
	segments, aside := filepath.Join(c.Folder, "journal"), filepath.Join(c.Folder, "aside")
	must(t, os.Rename(segments, aside))
	for _, isThere := range []bool{false, true} {
		if isThere {
			must(t, os.MkdirAll(segments, 0o700))
		}
		var damaged *journal.Damaged
		if _, err := Open(c); !errors.As(err, &damaged) {
			t.Fatalf("the push is lost without a word: %v", err)
		}
		if err := CreateLog(c.Folder, journal.Options{}); !errors.As(err, &damaged) {
			t.Fatal(err)
		}
	}
	must(t, os.Rename(filepath.Join(c.Folder, "pool"), filepath.Join(c.Folder, "pool.aside")))
	if err := Create(c.Folder, c.Program); err == nil {
		t.Fatal("another pool is made")
	}
	must(t, os.Rename(filepath.Join(c.Folder, "pool.aside"), filepath.Join(c.Folder, "pool")))
	must(t, os.Remove(segments))
	must(t, os.Rename(aside, segments))
	s = opened(t, c)
	hasMessages(t, s, "a", "refs/heads/main", []string{"m0"})
	must(t, s.Close(background))
	// The pool file alone is a backup.
	restored := plain(t, folder(t))
	copied(t, filepath.Join(c.Folder, "pool"), restored.Folder)
	s = opened(t, restored)
	defer s.Close(background)
	hasMessages(t, s, "a", "refs/heads/main", []string{"m0"})
}

// untold has a stream with a token whose End is in the journal and with the child, and of which nobody was told.
func untold(t *testing.T, s *Store) (*Stream, sentEnd) {
	t.Helper()
	st, err := s.Begin(background, "b", Checkpoints)
	if err != nil {
		t.Fatal(err)
	}
	st.Keep(idempotency.New("t0", nil))
	if err := fed(st, commitOn("refs/heads/main", "m0", "")); err != nil {
		t.Fatal(err)
	}
	sent, err := st.sendEnd(background, nil)
	if err != nil {
		t.Fatal(err)
	}
	return st, sent
}

// TestATokenOfWhatIsTakenBackIsNotKept has a stream with a token whose End is taken back: a client that sends it again is not told that it has ended.
func TestATokenOfWhatIsTakenBackIsNotKept(t *testing.T) {
	c := config(t, folder(t))
	s := opened(t, c)
	st, sent := untold(t, s)
	told, err := sent.batch.Wait(background)
	if err != nil || told[0].Status != frames.Ok {
		t.Fatal(told, err)
	}
	s.takeBackUntold()
	st.keep(told, s.inDoubt.forget(sent.number))
	if _, has := s.Kept("b", "t0"); has {
		t.Fatal("the token is kept")
	}
	s.answers.Add("b", idempotency.New("t0", nil))
	if err := s.answers.Save(); err != nil {
		t.Fatal(err)
	}
	crash(s)
	s = opened(t, c)
	defer s.Close(background)
	if _, has := s.Kept("b", "t0"); has {
		t.Fatal("the token is kept after a start")
	}
	hasMessages(t, s, "b", "refs/heads/main", nil)
}

// cut is a journal that has another stream when it is read for the second time, and cannot be read to its end.
type cut struct {
	journal.Journal
	reads int
}

func (c *cut) Records(pool journal.Digest, take func(journal.Record) error) error {
	err := c.Journal.Records(pool, take)
	if c.reads++; c.reads != 2 || err != nil {
		return err
	}
	step := frames.Step{Kind: frames.Open, Tenant: "c", Body: []byte{byte(Checkpoints)}}
	for number := uint64(1 << 40); number < 1<<40+2*replayAhead && err == nil; number++ {
		err = take(journal.Record{Number: number, Step: step})
		step = frames.Step{Kind: frames.Feed, Tenant: "c", Body: []byte("\n")}
	}
	if err == nil {
		err = journal.ErrUnread
	}
	return err
}

// startsAgain starts another child, as where the one that there was has died.
func startsAgain(s *Store) error {
	m, _ := s.beginMaintenance(background)
	defer m.done()
	x := m.alone()
	defer x.open()
	before := s.child.process
	defer before.Kill()
	return x.start()
}

// TestTokensAreKeptAfterAWholeStart has a start that fails when the child has carried out an End with a token: that may be taken back still.
func TestTokensAreKeptAfterAWholeStart(t *testing.T) {
	s := opened(t, plain(t, folder(t)))
	defer s.Close(background)
	st, sent := untold(t, s)
	st.keep(nil, false)
	log := s.journal.Journal
	s.journal.Journal = &cut{Journal: log}
	err := startsAgain(s)
	s.journal.Journal = log
	if _, has := s.Kept("b", "t0"); !errors.Is(err, journal.ErrUnread) || has {
		t.Fatal(has, err)
	}
	if err := startsAgain(s); err != nil {
		t.Fatal(err)
	}
	if _, err := s.inDoubt.outcome(sent.outcome); err != nil {
		t.Fatal(err)
	}
	if _, has := s.Kept("b", "t0"); !has {
		t.Fatal("the token is not kept")
	}
}

// unsynced is a journal of which nobody knows whether it has what was appended last.
type unsynced struct{ journal.Journal }

func (u unsynced) Sync(uint64) error { return journal.ErrUnsure }

// TestWhatIsPerhapsTakenBackIsUnknown has an End that is taken back when the journal does not say whether it has that.
func TestWhatIsPerhapsTakenBackIsUnknown(t *testing.T) {
	s := opened(t, config(t, folder(t)))
	defer s.Close(background)
	st, sent := untold(t, s)
	st.keep(nil, false)
	log := s.journal.Journal
	s.journal.Journal = unsynced{log}
	s.takeBackUntold()
	s.journal.Journal = log
	if _, err := s.inDoubt.outcome(sent.outcome); err != ErrUnknown {
		t.Fatal(err)
	}
}

// dropping is a journal that loses the Opens of streams, as one in Redis does that is away, and that cannot be read.
type dropping struct{ journal.Journal }

func (d dropping) Append(steps ...frames.Step) (uint64, error) {
	if steps[0].Kind == frames.Open {
		return 1 << 40, nil
	}
	return d.Journal.Append(steps...)
}

func (d dropping) Records(journal.Digest, func(journal.Record) error) error { return journal.ErrUnread }

// TestAStreamOfTheChildBeforeTakesNothingBack has a stream whose Open was lost with its child, when no other child could be started and the server stops.
func TestAStreamOfTheChildBeforeTakesNothingBack(t *testing.T) {
	c := plain(t, folder(t))
	s := opened(t, c)
	pushAll(t, s, "m0")
	log := s.journal.Journal
	s.journal.Journal = dropping{log}
	st, err := s.Begin(background, "a", Checkpoints)
	if err != nil {
		t.Fatal(err)
	}
	if err := startsAgain(s); !errors.Is(err, journal.ErrUnread) {
		t.Fatal(err)
	}
	st.GiveUp()
	s.journal.Journal = log
	crash(s)
	s = opened(t, c)
	defer s.Close(background)
	hasMessages(t, s, "a", "refs/heads/main", []string{"m0"})
}

// TestALossBeforeTheFirstChild has a log that reports a loss while the store still starts its first child: there is nothing that could be saved.
func TestALossBeforeTheFirstChild(t *testing.T) {
	defer func(was time.Duration) { rescueWithin = was }(rescueWithin)
	rescueWithin = 100 * time.Millisecond
	c := config(t, folder(t))
	count := heard(&c)
	newStore(&c, locks{}, filepath.Join(c.Folder, "pool")).Rescue()
	if _, err := os.Stat(filepath.Join(c.Folder, rescuedName)); !errors.Is(err, os.ErrNotExist) || count("what the log lost is not saved") != 1 {
		t.Fatal("a store without a child is saved", err)
	}
}
