package store

import (
	"context"
	"errors"
	"fmt"
	"os"
	"strings"
	"sync"
	"time"

	"gitpoold/child"
	"gitpoold/faultpoint"
	"gitpoold/journal"
)

// How questions are answered while the child saves stands in this file.
//
// Before a save keeps others from the child, a second one is started on the pool file, and carries the journal out as that of a store does that
// follows a log; the first child goes on. Once nobody else uses that, no record comes any more. So the second child carries out the last ones, and
// then has what the first one has, and all that was told. It answers questions until others use the first one again. Nothing else comes of what it
// carries out.

const (
	// prepareWithin is how long a second child has to load the pool file and carry the journal out, while the first one goes on.
	prepareWithin = 10 * time.Minute
	// arriveWithin is how long it has to carry out the last records, for which everybody waits.
	arriveWithin = 3 * time.Second
	// fewBytes and fewRecords are how much may be left for then, and mostTurns how often what came meanwhile is carried out to come to that.
	fewBytes   = 4 << 20
	fewRecords = 64
	mostTurns  = 16
)

// dismissWithin is how long a second child has to answer what it was asked before the gate was opened.
var dismissWithin = 30 * time.Second

var (
	errSlow   = errors.New("it does not keep up with what is pushed")
	errUnsame = errors.New("the journal lacks what the first child has")
)

// second is a second child, on its way to what the first one has.
type second struct {
	started
	maintenance
	first  *child.Process
	said   *lines
	replay *replay
	reader journal.Reader
	// bytes and records are how much the last turn brought.
	bytes, records int
}

// shutForSave waits until nobody else uses the child, for a save, and gives the call that lets others in again. Where the pool file is as large as
// the configuration says, a second child answers questions meanwhile. Where there can be none, they wait.
func (m maintenance) shutForSave(ctx context.Context) (x exclusive, open func(), err error) {
	it := m.prepareSecond(ctx)
	if x, err = m.shut(ctx); err != nil {
		it.dismiss()
		return x, nil, err
	}
	if it = it.unless(it.answer(x)); it != nil {
		m.isAlone = false
	}
	return x, func() {
		x.open()
		it.dismiss()
	}, nil
}

// prepareSecond starts a second child and brings it near to what the first one has. It is nil where there is none.
func (m maintenance) prepareSecond(ctx context.Context) *second {
	if !m.isLarge() || m.isHurried() || !m.isSame() {
		return nil
	}
	faultpoint.Here("before a second child is started")
	it := &second{maintenance: m, first: m.child.process, said: &lines{tell: func(string, ...any) {}}}
	err := it.start()
	if err == nil {
		err = it.within(ctx, prepareWithin, it.prepare)
	}
	return it.unless(err)
}

// takeTurn waits until no other shard has a second child, where this one is to have one, and gives the call that ends the turn.
func (v *saver) takeTurn(ctx context.Context) (end func()) {
	s := v.store
	if s.config.Turn == nil || !v.isLarge() {
		return func() {}
	}
	select {
	case s.config.Turn <- struct{}{}:
		var once sync.Once
		return func() { once.Do(func() { <-s.config.Turn }) }
	case <-ctx.Done():
	case <-s.stopping:
	case <-s.rescuing:
	}
	return func() {}
}

// isLarge tells whether the pool file, with its journal, is as large as the configuration says.
func (v *saver) isLarge() bool {
	s := v.store
	if s.config.SecondChild == nil {
		return false
	}
	least := s.config.SecondChild()
	info, err := os.Stat(s.pool.path)
	return least > 0 && err == nil && info.Size()+s.journal.Bytes() >= least
}

// isSame tells whether the child comes to nothing but what the pool file and the journal come to.
func (m maintenance) isSame() bool {
	return !m.journal.IsBroken() && m.journal.Losses() == m.child.losses
}

// isHurried tells whether the server stops, so that nobody may wait for a second child.
func (v *saver) isHurried() bool {
	select {
	case <-v.store.stopping:
	case <-v.store.rescuing:
	default:
		return false
	}
	return true
}

// unless ends the second child where there was an error. The operator is told of the first of several saves without one.
func (it *second) unless(err error) *second {
	if it == nil || err == nil {
		return it
	}
	if last := it.said.last(); last != "" {
		err = fmt.Errorf("%w (%s)", err, last)
	}
	if !it.isAlone && !it.isHurried() {
		it.config.Tell("who reads waits while the pool is saved, for there is no second child: %v", err)
	}
	it.isAlone = true
	if it.process != nil {
		// Nobody has asked it.
		it.process.Kill()
	}
	it.dismiss()
	return nil
}

func (it *second) start() (err error) {
	if err := hasMemory(it.first); err != nil {
		return err
	}
	if it.started, err = it.config.startChild(it.pool.path, it.said); err != nil {
		return err
	}
	faultpoint.SetSecond(it.process.Pid())
	it.child.second.Store(it.process)
	return nil
}

// within does something with the second child, which is ended where that takes too long, or where nobody may wait for it any more.
func (it *second) within(ctx context.Context, most time.Duration, do func() error) error {
	done := make(chan struct{})
	defer close(done)
	go func() {
		timer := time.NewTimer(most)
		defer timer.Stop()
		select {
		case <-done:
			return
		case <-timer.C:
		case <-ctx.Done():
		case <-it.first.Gone():
		case <-it.stopping:
		case <-it.rescuing:
		}
		it.process.Kill()
	}()
	return do()
}

// prepare loads the pool file, and carries the journal out until little of it is left.
func (it *second) prepare() error {
	digest, err := it.pool.digest()
	if err == nil {
		err = it.hasLoaded()
	}
	if err != nil {
		return err
	}
	faultpoint.Here("after a second child is started")
	fate, err := it.journal.fateOf(digest)
	if err != nil {
		return err
	}
	it.replay = newOngoing(it.started, fate)
	if it.reader, err = it.journal.Reader(digest, it.take); err != nil {
		return err
	}
	for turn := 0; turn < mostTurns; turn++ {
		if err := it.carryOn(); err != nil {
			return err
		}
		if it.bytes <= fewBytes && it.records <= fewRecords {
			return nil
		}
	}
	return errSlow
}

// carryOn carries out what the journal has now.
func (it *second) carryOn() error {
	it.bytes, it.records = 0, 0
	if err := it.reader.Read(); err != nil {
		return err
	}
	return it.replay.settle(0)
}

func (it *second) take(record journal.Record) error {
	it.bytes += record.Step.Size()
	it.records++
	return it.replay.take(record)
}

// answer lets the second child carry out the last records, and answer questions from then on.
func (it *second) answer(x exclusive) error {
	if it == nil {
		return nil
	}
	err := it.within(context.Background(), arriveWithin, it.carryOn)
	if err == nil && !x.isSame() {
		err = errUnsame
	}
	if err != nil {
		return err
	}
	faultpoint.Here("before a second child answers")
	x.child.putBeside(it.process)
	go func() {
		<-it.process.Gone()
		x.child.dropBeside(it.process)
	}()
	return nil
}

// dismiss ends the second child, once it has answered what it was asked.
func (it *second) dismiss() {
	if it == nil || it.process == nil {
		return
	}
	faultpoint.Here("before a second child is ended")
	it.process.Dismiss(dismissWithin)
	os.RemoveAll(it.room)
	if it.reader != nil {
		it.reader.Close()
	}
	it.child.second.Store(nil)
	faultpoint.SetSecond(0)
	faultpoint.Here("after a second child is ended")
}

// hasMemory asks that the machine has memory for what a child has of its own once more, and some beside.
func hasMemory(process *child.Process) error {
	own := process.Memory().Anonymous
	needed := own + own/4
	if available, isKnown := availableMemory(); isKnown && available < needed {
		return fmt.Errorf("it needs %d MB of memory, and the machine has %d MB", needed>>20, available>>20)
	}
	return nil
}

// availableMemory is how much memory the machine has for programs that start.
func availableMemory() (bytes int64, isKnown bool) {
	text, err := os.ReadFile("/proc/meminfo")
	if err != nil {
		return 0, false
	}
	_, rest, _ := strings.Cut(string(text), "MemAvailable:")
	_, err = fmt.Sscanf(rest, "%d kB", &bytes)
	return bytes << 10, err == nil
}
