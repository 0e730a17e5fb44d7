package store

import (
	"context"
	"errors"
	"fmt"
	"os"
	"sync"
	"time"

	"gitpoold/child"
	"gitpoold/frames"
	"gitpoold/journal"
)

// recovery starts another child where one ends, and keeps what a log has lost.
type recovery struct {
	store *Store
	// rescuing is closed once what the log has lost is being kept.
	rescued  sync.Once
	rescuing chan struct{}
}

// start starts a child on the pool file and lets it carry out the journal. Where this store follows a log, it takes no record
// meanwhile, for one that says that the leader saved would put another pool file there.
func (x exclusive) start() error {
	s, turn := x.Store, x.follower.takeTurn()
	defer turn.end()
	digest, err := s.pool.digest()
	if err != nil {
		return err
	}
	carryOut := s.recovery.carryOut
	if s.isFollowing() {
		carryOut = turn.carryOut
	}
	next, err := s.config.startOn(s.pool.path, func(it started) error { return carryOut(it, digest) })
	var failed *loadError
	if errors.As(err, &failed) {
		// The journal may have gone on without steps of streams that the child before had: these write no more.
		s.child.process = next.process
		if failed.said == "" && errors.Is(failed.reason, child.ErrGone) {
			failed.said = "the child ended: " + child.Why(next.process.Err())
		}
	}
	if err == nil {
		os.RemoveAll(x.put(next).room)
	}
	return err
}

// loadError is ErrLoad with its reason, and what the child said last.
type loadError struct {
	reason error
	said   string
}

func (l *loadError) Error() string { return fmt.Sprintf("%v: %v (%s)", ErrLoad, l.reason, l.said) }

func (l *loadError) Unwrap() error { return l.reason }

// Is tells that this is ErrLoad, where nothing is wrong with the way to the journal.
func (l *loadError) Is(err error) bool {
	return err == ErrLoad && !errors.Is(l.reason, journal.ErrUnread)
}

// watch starts another child where this one ends although nobody told it to.
func (r *recovery) watch(process *child.Process) {
	s := r.store
	<-process.Gone()
	var m maintenance
	select {
	case kept := <-s.maintain:
		m = maintenance{s, kept}
	case <-s.closing:
		return
	}
	defer m.done()
	if m.child.process != process {
		return
	}
	why := child.Why(process.Err())
	s.count(func(c *Counts) { c.LastEnd, c.EndedAt = why, time.Now() })
	s.config.Tell("the child ended: %s; another one is started", why)
	x := m.alone()
	x.revive()
	x.open()
}

// revive starts a child, and tries again until there is one or the server stops.
func (x exclusive) revive() {
	s := x.Store
	wait := time.Second / 4
	for {
		err := x.start()
		if err == nil {
			s.count(func(c *Counts) { c.Recoveries++ })
			return
		}
		s.config.Tell("no child could be started: %v", err)
		if s.isFollowing() && isOfLog(err) && !errors.Is(err, journal.ErrUnread) {
			s.recovery.lost(err)
		}
		if wait > time.Second/4 && !isOfLog(err) {
			s.recovery.takeBackUntold()
		}
		select {
		case <-s.stopping:
			return
		case <-time.After(wait):
		}
		if wait < 30*time.Second {
			wait *= 2
		}
	}
}

// takeBackUntold takes back what nobody was told of, where the journal cannot be carried out with them. Of what could perhaps not be taken back
// nobody can tell what came.
func (r *recovery) takeBackUntold() {
	for number, it := range r.store.inDoubt.takeAll() {
		if r.store.journal.takeBack(number, it) == nil {
			it.answer <- frames.Answer{Status: frames.Fault, Value: 90}
		} else {
			// The journal may have it that it is taken back.
			close(it.answer)
		}
	}
}

// carryOut carries out the journal, and waits until the child has done so.
func (v *recovery) carryOut(by started, pool journal.Digest) error {
	s := v.store
	s.journal.Resume()
	fate, err := s.journal.fateOf(pool)
	if err != nil {
		return err
	}
	// The answers of streams with tokens are kept where this goes well to its end.
	r, answers, keep := newReplay(by, fate), map[uint64]frames.Answer{}, []func(){}
	r.answered = func(record journal.Record, answer frames.Answer) {
		answers[record.Number] = answer
		keep = append(keep, func() { s.keepAgain(record.Step, answer) })
	}
	// What tenants have, the child before has told: the journal has more than the file.
	if err := by.hasLoaded(); err != nil {
		return err
	}
	err = s.journal.Records(pool, func(record journal.Record) error {
		if it := record.Step; it.Kind == journal.Brought {
			keep = append(keep, func() { s.takeBroughtAnswer(it) })
			return nil
		}
		return r.take(record)
	})
	if err == nil {
		err = r.settle(0)
	}
	if err != nil {
		return err
	}
	s.dropTokens(fate)
	for _, it := range keep {
		it()
	}
	for tenant := range r.streams {
		r.drop(tenant)
		s.journal.noteGivenUp(tenant)
	}
	s.inDoubt.tell(answers)
	return s.usage.readFrom(by.process)
}

// replaceChild replaces a child that was given other records than the journal has.
func (r *recovery) replaceChild() {
	if process := r.store.child.newest.Load(); process != nil {
		process.Kill()
	}
}

// lost ends the server: its log is another server's now, or lost records. Then the child has what the log lost, so it is kept in a file.
func (r *recovery) lost(why error) {
	var bad *journal.BadLog
	if !errors.As(why, &bad) || bad.IsLoss() {
		r.Rescue()
	}
	r.store.config.Stop(why)
}

// rescueWithin is how long a server that stops waits for those who use the child.
var rescueWithin = 10 * time.Second

// Rescue saves what the child has beside the pool file, once.
func (r *recovery) Rescue() {
	r.rescued.Do(func() {
		close(r.rescuing)
		ctx, stop := context.WithTimeout(context.Background(), rescueWithin)
		defer stop()
		if err := r.rescue(ctx); err != nil {
			r.store.config.Tell("what the log lost is not saved: %v", err)
			return
		}
		r.store.config.Tell("%s has all pushes that were told", r.store.config.file(rescuedName))
	})
}

// rescue does so while nobody else uses the child. The streams that it has it gives up, so that the file has their last checkpoints, which
// readers have seen.
func (r *recovery) rescue(ctx context.Context) error {
	s := r.store
	turn, err := s.follower.holdTurn(ctx)
	if err != nil {
		return err
	}
	defer turn.end()
	m, err := s.beginMaintenance(ctx)
	if err != nil {
		return err
	}
	defer m.done()
	x, err := m.shut(ctx)
	if err != nil {
		return err
	}
	defer x.open()
	for _, tenant := range turn.withStreams() {
		giveUp(ctx, s.child.process, tenant)
	}
	for _, st := range s.streams.those(func(*Stream) bool { return !s.isFollowing() }) {
		giveUp(ctx, s.child.process, st.tenant)
	}
	if err = s.child.save(); err == nil {
		err = copySynced(s.child.file(), s.config.file(rescuedName))
	}
	if failed := s.answers.Save(); failed != nil {
		s.config.Tell("the answers of streams with tokens are not saved: %v", failed)
	}
	return err
}

// endStalled ends a child that works without an answer for too long; `watch`, or the save that waits for it, starts another one. Without a second
// one questions wait.
func (r *recovery) endStalled(ctx context.Context, rhythm func() Rhythm) {
	ticker := time.NewTicker(lookEvery)
	defer ticker.Stop()
	for {
		select {
		case <-ctx.Done():
			return
		case <-ticker.C:
		}
		gate := r.store.child
		r.endIfStalled(gate.newest.Load(), rhythm().Step, "the child has not answered for %.0f s and is replaced")
		r.endIfStalled(gate.second.Load(), rhythm().Step, "the second child has not answered for %.0f s and is ended")
	}
}

func (r *recovery) endIfStalled(process *child.Process, most time.Duration, told string) {
	if process == nil {
		return
	}
	if silent := process.Stalled(); silent > most {
		r.store.config.Tell(told, silent.Seconds())
		process.Kill()
	}
}
