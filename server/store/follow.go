package store

import (
	"context"
	"errors"
	"os"
	"sync"
	"time"

	"gitpoold/faultpoint"
	"gitpoold/frames"
	"gitpoold/journal"
)

// How a store follows a log that another server writes stands in this file.
//
// The child carries each record out as it comes, so at a record it has what the other server had there. Where that one saved, the child saves
// too, and comes to the same pool file, byte for byte. The record has the digest of that file, so this is compared.

// Follows says that a store follows a log that another server writes, which alone takes changes. Leader is where users find it.
type Follows struct{ Leader string }

func (f *Follows) Error() string {
	if f.Leader == "" {
		return "this server follows another one, and takes no changes"
	}
	return "this server follows another one, and takes no changes; make them at " + f.Leader
}

// follower brings the child to what a log has that another server writes.
type follower struct {
	store *Store
	log   *journal.Following
	ended chan struct{}

	// turn guards the pool file, and the journal on its way to the child.
	turn   sync.Mutex
	replay *replay
}

// recordTurn is a follower whose caller alone takes records, or starts another child that carries them out. A store that follows nothing has none.
type recordTurn struct{ *follower }

func (f *follower) takeTurn() recordTurn {
	if f != nil {
		f.turn.Lock()
	}
	return recordTurn{f}
}

// holdTurn waits no longer than the context lasts: who takes records may need another child for a merge, for which it would not wait.
func (f *follower) holdTurn(ctx context.Context) (recordTurn, error) {
	for f != nil && !f.turn.TryLock() {
		if ctx.Err() != nil {
			return recordTurn{}, ctx.Err()
		}
		time.Sleep(time.Millisecond)
	}
	return recordTurn{f}, nil
}

func (t recordTurn) end() {
	if t.follower != nil {
		t.turn.Unlock()
	}
}

// withStreams gives the tenants of which the child may have a stream.
func (t recordTurn) withStreams() (tenants []string) {
	if !t.isFollowing() || t.replay == nil {
		return nil
	}
	for tenant := range t.replay.streams {
		tenants = append(tenants, tenant)
	}
	return tenants
}

// isFollowing tells whether another server writes the log.
func (f *follower) isFollowing() bool { return f != nil && !f.log.IsLeading() }

// carryOut brings a child to where the log goes on from the pool file; followOn carries out what comes from there on.
func (t recordTurn) carryOut(by started, pool journal.Digest) error {
	s := t.store
	fate, err := s.journal.fateOf(pool)
	if err != nil {
		return err
	}
	s.dropTokens(fate)
	r := newOngoing(by, fate)
	r.answered = func(record journal.Record, answer frames.Answer) { s.keepAgain(record.Step, answer) }
	r.brought = func(tenant string, fed int64) { s.usage.add(tenant, fed, unbounded) }
	if err := s.usage.readFrom(by.process); err != nil {
		return err
	}
	if err := t.log.Rewind(pool); err != nil {
		return err
	}
	// These are the streams that were open when the file was made.
	if err := s.journal.Records(pool, r.take); err != nil {
		return err
	}
	t.follower.replay = r
	return r.settle(0)
}

// followOn takes records as they come, until the store closes or leads.
func (f *follower) followOn() {
	defer close(f.ended)
	s, wait := f.store, shortestWait
	for f.isFollowing() && !s.child.isClosing() {
		entries, err := f.log.Read()
		if err == nil {
			err = f.carryOn(entries)
		}
		switch {
		case err == nil && wait > shortestWait:
			s.config.Tell("the log is followed again")
			wait = shortestWait
		case err == nil:
		case isOfLog(err) && !errors.Is(err, journal.ErrUnread):
			s.recovery.lost(err)
			return
		default:
			wait = f.pause(err, wait)
		}
	}
}

const (
	shortestWait = time.Second / 20
	longestWait  = time.Second
)

// pause waits after an error, and gives how long to wait after the next one. The first error is told.
func (f *follower) pause(err error, wait time.Duration) time.Duration {
	if wait == shortestWait {
		f.store.config.Tell("the log is not followed: %v", err)
	}
	time.Sleep(wait)
	if wait *= 2; wait > longestWait {
		return longestWait
	}
	return wait
}

// carryOn lets the child carry out entries. Where it does not, another one is started, and what the pool file has not is taken again.
func (f *follower) carryOn(entries journal.Entries) error {
	turn := f.takeTurn()
	defer turn.end()
	if !f.isFollowing() {
		return nil
	}
	err := turn.followAll(&entries)
	if err != nil && !isOfLog(err) {
		turn.replay.process.Kill()
	}
	return err
}

func (t recordTurn) followAll(entries *journal.Entries) error {
	var last uint64
	for t.log.HasNext(entries) {
		it, err := t.log.Take(entries)
		if err == nil {
			err = t.follow(it)
		}
		if err == nil && it.Step.Kind == frames.End {
			err = t.arrive(it.Number)
		}
		if err != nil {
			return err
		}
		last = it.Number
	}
	return t.arrive(last)
}

// arrive waits until the child has carried out all records up to a number.
func (t recordTurn) arrive(number uint64) error {
	err := t.replay.settle(0)
	if err == nil {
		t.log.Arrive(number)
	}
	return err
}

// follow carries out one record.
func (t recordTurn) follow(it journal.Followed) error {
	faultpoint.Here("before a record is followed")
	if it.IsSave {
		return t.followSave(it)
	}
	if it.Step.Kind == journal.Brought {
		return t.takeBrought(it.Step)
	}
	err := t.replay.take(it.Record)
	switch it.Step.Kind {
	case frames.Remove, frames.Compact, frames.Copy:
		if err == nil {
			err = t.replay.settle(0)
		}
		if err == nil {
			err = t.store.usage.readFrom(t.replay.process)
		}
	}
	return err
}

// followSave saves where the other server saved, with the tenant that the log brought before, if it did. A save that fails leaves the pool file
// that there was. One that comes to other bytes than those of the other server is the end.
func (t recordTurn) followSave(it journal.Followed) error {
	if err := t.replay.settle(0); err != nil {
		return err
	}
	s, began := t.store, time.Now()
	digest, err := s.pool.write(t.replay.started)
	isMerged := err == nil && digest != it.Pool
	if isMerged {
		digest, err = t.mergeBrought()
	}
	if err == nil && digest != it.Pool {
		return t.log.OtherPool(it.Number)
	}
	if err == nil {
		err = s.saveAnswers()
	}
	if err == nil {
		err = s.pool.takeNext()
	}
	s.saver.note(began, err)
	switch {
	case err != nil && isMerged:
		return err
	case err == nil:
		t.log.Saved(digest)
		_ = os.Remove(t.brought())
	}
	if isMerged {
		if err := t.exchange(); err != nil {
			return err
		}
	}
	return s.usage.readFrom(t.replay.process)
}

// Fresh waits until the child has what the log had when this was called, where this store follows.
func (f *follower) Fresh(ctx context.Context) error {
	if !f.isFollowing() {
		return nil
	}
	_, err := f.log.Fresh(ctx)
	return err
}

// enterFresh goes in where the child has what the log had when this was called, or a second one has it.
func (s *Store) enterFresh(ctx context.Context) (inside, error) {
	for s.isFollowing() {
		number, err := s.follower.log.Fresh(ctx)
		if err != nil {
			return inside{}, err
		}
		if in, err := s.child.enter(ctx); err != nil || s.follower.log.HasCome(number) {
			return in, err
		} else {
			// Another child was started meanwhile.
			in.leave()
		}
	}
	return s.child.enterOrBeside(ctx)
}

// Silence is for how long nothing was seen of the server that writes the log.
func (f *follower) Silence() time.Duration { return f.log.Silence() }

// Hush lets the silence begin anew.
func (f *follower) Hush() { f.log.Hush() }

// Behind tells how many records this store has not carried out, and for how many seconds it may be behind; 0 unless it follows.
func (f *follower) Behind() (records uint64, seconds float64) {
	if f == nil {
		return 0, 0
	}
	return f.log.Behind()
}

// TakeOver makes this server the one that writes the log. It is journal.ErrNotAtEnd where the log has records that were not taken yet, or was not
// silent for so long; on any error this store goes on following. Streams that are open in the log are given up.
func (f *follower) TakeOver(silence time.Duration) error {
	turn := f.takeTurn()
	defer turn.end()
	if !f.isFollowing() {
		return nil
	}
	s := f.store
	digest, err := s.pool.digest()
	if err == nil {
		err = f.log.TakeOver(digest, silence)
	}
	if err != nil {
		return err
	}
	faultpoint.Here("after a log is taken over")
	for tenant := range turn.replay.streams {
		turn.replay.drop(tenant)
		s.journal.noteGivenUp(tenant)
	}
	if err := s.usage.readFrom(turn.replay.process); err != nil {
		// The child has died, and the next one is asked.
		s.config.Tell("the child does not tell sizes: %v", err)
	}
	return nil
}
