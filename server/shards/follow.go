package shards

import (
	"context"
	"errors"
	"sync"
	"time"

	"gitpoold/faultpoint"
	"gitpoold/journal"
	"gitpoold/store"
)

// How a server follows another one, and takes its logs over, stands in this file.

// Follow says that a server follows the logs of another one.
type Follow struct {
	// Leader is where users make changes, for the sentence with which they are refused here; it may be empty.
	Leader string
	// TakeOver is after how long without a sign of life of the other server this one takes its logs over; 0 for never.
	TakeOver time.Duration
}

// ErrSave says that a server that follows saves when the other one does.
var ErrSave = errors.New("this server follows another one, and saves when that one saves")

// refusal is what a change is told while the server follows, and nil once it leads.
func (s *Set) refusal() error {
	if s.isFollowing.Load() {
		return s.config.refusal()
	}
	return nil
}

func (c *Config) refusal() error {
	if c.Follow == nil {
		return nil
	}
	return &store.Follows{Leader: c.Follow.Leader}
}

// Follows gives the error with which a change is refused, nil where this server leads.
func (s *Set) Follows() error { return s.refusal() }

// IsReplica tells whether this server was started to follow another one.
func (s *Set) IsReplica() bool { return s.config.Follow != nil }

// Behind tells how many records all shards together have not carried out, and for how many seconds one of them may be behind at most.
func (s *Set) Behind() (records uint64, seconds float64) {
	for _, it := range s.stores {
		count, behind := it.Behind()
		records += count
		seconds = max(seconds, behind)
	}
	return records, seconds
}

// freshTable waits until the table has what its log had when this was called, where this server follows.
func (s *Set) freshTable(ctx context.Context) error {
	if s.table == nil || s.table.following == nil || !s.isFollowing.Load() {
		return nil
	}
	_, err := s.table.following.Fresh(ctx)
	return err
}

// freshAll waits for the table and all shards. Where one of them does not come to what its log has, the others do all the same.
func (s *Set) freshAll() {
	if !s.isFollowing.Load() {
		return
	}
	_ = s.freshTable(context.Background())
	var all sync.WaitGroup
	for _, it := range s.stores {
		all.Add(1)
		go func(it *store.Store) {
			defer all.Done()
			_ = it.Fresh(context.Background())
		}(it)
	}
	all.Wait()
}

// follow lets the table follow its log, and takes the logs over when the other server is silent.
func (s *Set) follow() {
	if s.table != nil {
		s.table.followed = make(chan struct{})
		go s.followTable(s.table)
	}
	if s.config.Follow.TakeOver > 0 {
		go s.watchLeader(s.config.Follow.TakeOver)
	}
}

// followTable takes the table's records as they come.
func (s *Set) followTable(t *table) {
	defer close(t.followed)
	for !t.following.IsLeading() && !s.isStopping() {
		entries, err := t.following.Read()
		if err == nil {
			err = t.takeAll(entries)
		}
		var bad *journal.BadLog
		if errors.As(err, &bad) || errors.Is(err, errPlace) {
			s.stop(err)
			return
		}
		if err != nil {
			time.Sleep(time.Second / 20)
		}
	}
}

// takeAll takes entries of the table's log.
func (t *table) takeAll(entries journal.Entries) error {
	t.turn.Lock()
	defer t.turn.Unlock()
	for t.following.HasNext(&entries) {
		it, err := t.following.Take(&entries)
		if err == nil && !it.IsSave && it.Step.Kind != journal.TakenOver {
			t.mutex.Lock()
			err = t.take(it.Record)
			t.mutex.Unlock()
		}
		if err != nil {
			return err
		}
		t.following.Arrive(it.Number)
	}
	return nil
}

func (s *Set) isStopping() bool {
	select {
	case <-s.stopping:
		return true
	default:
		return false
	}
}

// silenceEvery is how often the other server's signs of life are looked at.
const silenceEvery = time.Second / 10

// watchLeader takes the logs over when nothing was seen of the other server for so long.
func (s *Set) watchLeader(most time.Duration) {
	ticker := time.NewTicker(silenceEvery)
	defer ticker.Stop()
	for {
		select {
		case <-s.stopping:
			return
		case <-ticker.C:
		}
		if s.isSilent(most) && s.takeFirst() {
			s.takeRest()
			return
		}
	}
}

// isSilent tells whether nothing was seen of the other server in any log. A log whose Redis does not answer says nothing of it.
func (s *Set) isSilent(most time.Duration) bool {
	for _, it := range s.stores {
		if it.Silence() < most {
			return false
		}
	}
	return s.table == nil || s.table.following.Silence() >= most
}

// takeFirst takes the first log over. It decides: of several servers that try, one comes to it, and the others go on following.
func (s *Set) takeFirst() bool {
	silence := s.config.Follow.TakeOver
	err := s.stores[0].TakeOver(silence)
	if err == nil {
		s.config.Store.Tell("nothing was seen of the other server for %v; its logs are taken over", silence)
	} else if !errors.Is(err, journal.ErrNotAtEnd) {
		s.config.Store.Tell("the logs are not taken over: %v", err)
		s.stores[0].Hush()
	}
	return err == nil
}

// takeRest takes the other logs over, and serves as the server that writes them. Where one is not to be had, the server ends.
func (s *Set) takeRest() {
	var err error
	if s.table != nil {
		err = s.untilTaken(s.takeTable)
	}
	for _, it := range s.stores[1:] {
		it := it
		if err == nil {
			err = s.untilTaken(func() error { return it.TakeOver(0) })
		}
	}
	faultpoint.Here("after all logs are taken over")
	if err == nil && s.table != nil {
		err = s.agree()
	}
	if err != nil {
		if !s.isStopping() {
			s.stop(err)
		}
		return
	}
	s.isFollowing.Store(false)
	s.config.Store.Tell("the logs are taken over: this server takes pushes")
	s.bringCopies()
}

func (s *Set) takeTable() error {
	s.table.turn.Lock()
	defer s.table.turn.Unlock()
	return s.table.following.TakeOver(journal.Digest{}, 0)
}

// untilTaken tries to take a log over for as long as a push waits for Redis. The records that come meanwhile are taken first.
func (s *Set) untilTaken(take func() error) error {
	for until := time.Now().Add(s.config.Logs[0].Wait); ; time.Sleep(time.Second / 100) {
		err := take()
		var bad *journal.BadLog
		if err == nil || errors.As(err, &bad) || time.Now().After(until) || s.isStopping() {
			return err
		}
	}
}
