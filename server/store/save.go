package store

import (
	"context"
	"errors"
	"fmt"
	"sync/atomic"
	"time"
)

// How a save is made stands in this file alone. The child writes the file and goes on, with all its streams. A stream that is open is in
// that file as it was at its Open, and the journal keeps its steps from there on. So a save waits for no stream and ends none.

// saveWithin is how long the child has to save.
const saveWithin = 30 * time.Minute

// errNotSaved says that the child could not write the pool file. It has what it had, and so has the file.
var errNotSaved = errors.New("the child did not save")

// saver saves a store.
type saver struct {
	store *Store
	// wanted has room for one: somebody asks Keep for a save.
	wanted chan struct{}
	// hasStarved says that a stream was given up for which the child had had no memory, and that no save came since.
	hasStarved atomic.Bool
}

// Save brings the pool file to what the store has, and drops the journal's segments before. Where the pool file is up to date, it sees to
// its copy alone, and where this store follows, it does nothing: then it saves where the other server does. On an error the pool file and the
// journal together have everything, as before.
func (v *saver) Save(ctx context.Context) error {
	s := v.store
	if s.isFollowing() {
		return nil
	}
	endTurn := v.takeTurn(ctx)
	defer endTurn()
	m, err := s.beginMaintenance(ctx)
	if err != nil {
		return err
	}
	defer m.done()
	began := time.Now()
	if err = m.removeHalfMerged(ctx); err == nil {
		if !s.journal.HasSteps() && !s.journal.IsHealedBySave() {
			return m.saveNothing()
		}
		err = m.save(ctx, endTurn)
	}
	v.note(began, err)
	return err
}

// BringCopy copies the pool file where its copy is not there or is another file, as after the operator has put a pool file in place. Where
// that fails, it is tried again like a save that failed.
func (v *saver) BringCopy(ctx context.Context) error {
	m, err := v.store.beginMaintenance(ctx)
	if err != nil {
		return err
	}
	defer m.done()
	return m.pool.bringCopy()
}

// saveNothing sees to the copy of a pool file that is up to date, and lets a log in Redis drop what it keeps for servers that follow it no more.
func (m maintenance) saveNothing() error {
	if err := m.pool.bringCopy(); err != nil || m.config.Log == nil {
		return err
	}
	if err := m.journal.Drop(); err != nil {
		m.config.Tell("%v", err)
	}
	return nil
}

// save saves, and calls `written` when the pool file is written and not in its place yet.
func (m maintenance) save(ctx context.Context, written func()) error {
	hadStarved, err := m.writeAndBegin(ctx)
	written()
	if err == nil {
		err = m.pool.takeNext()
	}
	if err == nil {
		if err = m.pool.copy(); err != nil {
			err = fmt.Errorf("%s: %w", m.config.Copy, err)
		}
	}
	if err == nil {
		err = m.journal.Drop()
	}
	if err != nil && hadStarved {
		m.hasStarved.Store(true)
	}
	return err
}

// writeAndBegin has the child write the pool file, and begins the segment of what comes after it. No step comes in between, so what is in
// the file and what is in the segment are parted for all tenants at one place. The child answers nobody while it writes; a second one may.
// It tells whether a stream had been given up because the child had no memory for it.
func (m maintenance) writeAndBegin(ctx context.Context) (hadStarved bool, err error) {
	x, open, err := m.shutForSave(ctx)
	if err != nil {
		return false, err
	}
	defer open()
	x.abandonLost()
	hadStarved = x.hasStarved.Swap(false)
	digest, err := x.pool.write(x.child.started)
	if err == nil {
		err = x.usage.readFrom(x.child.process)
	}
	if err == nil {
		err = x.saveAnswers()
	}
	if err == nil {
		err = x.journal.Begin(digest, x.openNumbers())
	}
	return hadStarved, err
}

// abandonLost lets the child give up the streams of which the journal has lost steps. What they had at their last checkpoints has been read by
// others, who may push on top of it, so the pool file is to have it.
func (x exclusive) abandonLost() {
	isLost := func(st *Stream) bool { return st.isOfChild(x) && !st.isInJournal() }
	for _, st := range x.streams.those(isLost) {
		giveUp(context.Background(), x.child.process, st.tenant)
	}
}

func (v *saver) note(began time.Time, err error) {
	s := v.store
	if err != nil {
		s.config.Tell("the pool is not saved: %v; the journal has all of it", err)
		s.count(func(c *Counts) { c.FailedSaves++ })
		return
	}
	s.config.Tell("the pool is saved in %.1f s", time.Since(began).Seconds())
	s.count(func(c *Counts) { c.Saves++; c.LastSave = time.Now() })
}
