package store

import (
	"encoding/binary"
	"sync"

	"gitpoold/faultpoint"
	"gitpoold/frames"
	"gitpoold/journal"
)

// wal is the write-ahead log of a store.
type wal struct {
	journal.Journal
	tell func(format string, values ...any)
}

// add appends steps and syncs them, and gives the number of the last one.
func (w *wal) add(steps ...frames.Step) (number uint64, err error) {
	if number, err = w.Append(steps...); err == nil {
		err = w.Sync(number)
	}
	return number, err
}

// takeBack notes that something in doubt does not count, for which the child had no memory: the next start might have it. Any other refusal comes
// again there. It is ErrUnknown where the log keeps what was refused.
func (w *wal) takeBack(number uint64, it end) error {
	what, step := "the end of a push that is", frames.Step{Kind: journal.GivenUp, Tenant: it.tenant}
	if it.isRequest {
		what = "a request of the operator that was"
		step = frames.Step{Kind: journal.TakenBack, Body: binary.BigEndian.AppendUint64(nil, number)}
	}
	if _, err := w.add(step); err != nil {
		w.tell("the journal keeps %s refused for want of memory: %v", what, err)
		return ErrUnknown
	}
	return nil
}

// noteGivenUp lets the log keep the steps of a tenant's stream no longer than until the next save.
func (w *wal) noteGivenUp(tenant string) {
	if _, err := w.Append(frames.Step{Kind: journal.GivenUp, Tenant: tenant}); err != nil {
		w.tell("a stream that was given up is not noted in the journal: %v", err)
	}
}

// noteMerged lets no later start go on from an older pool file, such as one that was copied before and of which a log in Redis keeps the records.
func (w *wal) noteMerged() error {
	number, err := w.Append(frames.Step{Kind: journal.Merged})
	if err != nil {
		return err
	}
	faultpoint.Here("before a merge is noted")
	return w.Sync(number)
}

// isFollowed tells whether other servers follow the log.
func (w *wal) isFollowed() bool {
	log, isRedis := w.Journal.(interface{ IsFollowed() bool })
	return isRedis && log.IsFollowed()
}

// inDoubt is what is in the log, under numbers, and of which nobody was told.
type inDoubt struct {
	mutex   sync.Mutex
	ends    map[uint64]end
	closing <-chan struct{}
}

// end is an End of a tenant, or a request of the operator, that is in the journal, and of which nobody was told.
type end struct {
	tenant    string
	isRequest bool
	answer    chan frames.Answer
}

// expect gives the channel to which the answer to what is in the journal under a number comes, if a later child carries that out. It may
// come before anybody waits for it.
func (d *inDoubt) expect(number uint64, it end) <-chan frames.Answer {
	d.mutex.Lock()
	defer d.mutex.Unlock()
	it.answer = make(chan frames.Answer, 1)
	d.ends[number] = it
	return it.answer
}

// forget lets nobody tell what came of what is in the journal under a number, since that is about to be told. It is false where another child has
// been asked for it, or it is being taken back: then that is what is told.
func (d *inDoubt) forget(number uint64) bool {
	d.mutex.Lock()
	defer d.mutex.Unlock()
	_, has := d.ends[number]
	delete(d.ends, number)
	return has
}

// outcome waits until another child has carried it out, and gives its answer. It is ErrUnknown where it was perhaps taken back.
func (d *inDoubt) outcome(from <-chan frames.Answer) ([]frames.Answer, error) {
	select {
	case answer, isKnown := <-from:
		if !isKnown {
			return nil, ErrUnknown
		}
		return []frames.Answer{answer}, nil
	case <-d.closing:
		return nil, ErrUnknown
	}
}

// tell gives answers to those who wait for them.
func (d *inDoubt) tell(answers map[uint64]frames.Answer) {
	d.mutex.Lock()
	defer d.mutex.Unlock()
	for number, it := range d.ends {
		if answer, found := answers[number]; found && len(it.answer) == 0 {
			it.answer <- answer
			delete(d.ends, number)
		}
	}
}

// takeAll takes all that nobody was told of.
func (d *inDoubt) takeAll() map[uint64]end {
	d.mutex.Lock()
	defer d.mutex.Unlock()
	all := d.ends
	d.ends = map[uint64]end{}
	return all
}
