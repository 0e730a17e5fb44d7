package store

import (
	"context"
	"time"
)

// Rhythm says when a store saves by itself, and how long an answer may take.
type Rhythm struct {
	// JournalBytes is the size of the journal that asks for a save.
	JournalBytes int64
	// SaveEvery is how long what has changed may wait for a save.
	SaveEvery time.Duration
	// Step is how long the child may work without an answer. Then it is replaced; the stream or the question that kept it is lost.
	Step time.Duration
}

const (
	lookEvery = time.Second
	// afterFailure is how long nothing is saved by itself after a save failed: each try writes a pool file. While the journal takes no records
	// until a save goes well, it is whileBroken.
	afterFailure = 10 * time.Minute
	whileBroken  = 30 * time.Second
	// starvedEvery is how often at most a save is made because the child had no memory for a piece of a stream that was given up.
	starvedEvery = time.Minute
)

// pauseAfter is how long nothing is saved by itself after a save.
func (v *saver) pauseAfter(failed error) time.Duration {
	switch {
	case failed == nil:
		return 0
	case v.store.journal.IsHealedBySave():
		return whileBroken
	}
	return afterFailure
}

// WantSave asks Keep for a save.
func (v *saver) WantSave() {
	select {
	case v.wanted <- struct{}{}:
	default:
	}
}

// Keep saves when it is time, and replaces a child that does not answer, until the context ends.
func (v *saver) Keep(ctx context.Context, rhythm func() Rhythm) {
	go v.store.recovery.endStalled(ctx, rhythm)
	ticker := time.NewTicker(lookEvery)
	defer ticker.Stop()
	last := lastSave{at: time.Now()}
	for {
		isWanted := false
		select {
		case <-ctx.Done():
			return
		case <-v.wanted:
			isWanted = true
		case <-ticker.C:
		}
		if isWanted || v.isDue(rhythm(), &last) {
			last = v.saveNow(ctx)
		}
	}
}

// lastSave is the last save that Keep made: when it began, why it failed, and how many bytes of the journal it left, for streams that are open.
type lastSave struct {
	at     time.Time
	failed error
	left   int64
}

func (v *saver) saveNow(ctx context.Context) lastSave {
	it := lastSave{at: time.Now()}
	if it.failed = v.Save(ctx); it.failed == nil && !v.store.isFollowing() {
		it.left = v.store.journal.Bytes()
	}
	return it
}

// isDue tells whether it is time for another save. What the last one had to leave in the journal asks for none: another one would leave it too.
func (v *saver) isDue(now Rhythm, last *lastSave) bool {
	bytes, since := v.store.journal.Bytes(), time.Since(last.at)
	if bytes < last.left {
		last.left = bytes
	}
	if since < v.pauseAfter(last.failed) {
		return false
	}
	return bytes-last.left > now.JournalBytes || v.store.journal.IsHealedBySave() || v.store.pool.isCopyLate.Load() ||
		v.hasStarved.Load() && since > starvedEvery || v.store.journal.HasSteps() && since > now.SaveEvery
}
