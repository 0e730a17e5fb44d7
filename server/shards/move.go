package shards

import (
	"context"
	"errors"
	"fmt"
	"os"
	"path/filepath"
	"time"

	"gitpoold/faultpoint"
	"gitpoold/frames"
	"gitpoold/journal"
	"gitpoold/store"
)

// A move has these steps, of which each lasts before the next one begins:
//
//  1. The tenant's pushes wait from now on. The table gets a record that it is Moving.
//  2. Its old shard writes it to a file, and its new shard merges that.
//  3. The table gets a record that it is Moved. From now on its new shard answers for it.
//  4. Its old shard removes it. The table gets a record that this is Settled.
//
// So where a crash comes between, the table says which of the two has the tenant: up to the third step the old one, and the new one drops
// what it has; then the new one, and the old one drops what it has (settle).

const (
	// streamsWithin is how long a move waits for a stream of the tenant.
	streamsWithin = 30 * time.Second
	lookEvery     = 5 * time.Millisecond
	settleEvery   = time.Second
	settleWithin  = time.Minute
)

var (
	errOneShard = errors.New("the server has one shard")
	errNothing  = errors.New("there is no such repository")
	errThere    = errors.New("the repository is there already")
)

// Move moves a tenant to a shard. Reading goes on meanwhile; pushes to the tenant wait, and so do those to the other tenants of the new
// shard. On an error the tenant is at its old place, unless that says otherwise.
func (s *Set) Move(ctx context.Context, tenant string, to int) error {
	if s.table == nil {
		return errOneShard
	}
	if to < 1 || to > len(s.stores) {
		return fmt.Errorf("there is no shard %d; there are %d", to, len(s.stores))
	}
	return s.operate(ctx, func() error { return s.move(ctx, tenant, to) })
}

func (s *Set) move(ctx context.Context, tenant string, to int) error {
	arrived, err := s.hold(ctx, tenant)
	if err != nil {
		return err
	}
	isHeld := true
	defer func() {
		if isHeld {
			s.release(tenant, arrived)
		}
	}()
	if err := s.settle(tenant); err != nil {
		return err
	}
	from := s.shardOf(tenant)
	switch {
	case !s.stores[from-1].Has(tenant):
		return errNothing
	case from == to:
		return errThere
	}
	isKnown, err := s.carry(ctx, tenant, from, to)
	if !isKnown {
		isHeld = false
		go s.resolve(tenant, arrived)
		return fmt.Errorf("%w; the repository takes pushes again when it is known where it is", err)
	}
	if failed := s.settle(tenant); failed != nil {
		s.config.Store.Tell("what %s left in another shard is not removed yet: %v", tenant, failed)
		s.settleApart(tenant)
	}
	return err
}

// carry brings a tenant that is held into another shard, and lets the table say so. The tenant is not removed where it was. It is not known
// where the tenant is if nobody knows whether the table's log has the record that says so.
func (s *Set) carry(ctx context.Context, tenant string, from, to int) (isKnown bool, err error) {
	if err := s.bring(ctx, tenant, from, to); err != nil {
		return true, err
	}
	faultpoint.Here("before a tenant has its new place")
	err = s.table.note(frames.Step{Kind: journal.Moved, Tenant: tenant, Body: bodyOf(to, from)})
	faultpoint.Here("after a tenant has its new place")
	return !errors.Is(err, journal.ErrUnsure) && !errors.Is(err, journal.ErrUnknown), err
}

// bring brings a tenant that is held into another shard. The table goes on to say that it is where it was.
func (s *Set) bring(ctx context.Context, tenant string, from, to int) error {
	faultpoint.Here("before a move is noted")
	if err := s.table.note(frames.Step{Kind: journal.Moving, Tenant: tenant, Body: bodyOf(to)}); err != nil {
		return err
	}
	faultpoint.Here("after a move is noted")
	file := filepath.Join(Folder(s.config.Store.Folder, to), "work", "moved")
	defer os.Remove(file)
	if err := s.stores[from-1].Extract(ctx, tenant, file); err != nil {
		return named(from, len(s.stores), err)
	}
	err := s.stores[to-1].Merge(ctx, tenant, file)
	if err == nil {
		err = s.stores[to-1].PutAnswers(tenant, s.stores[from-1].Answers(tenant))
	}
	if err != nil {
		return named(to, len(s.stores), err)
	}
	return nil
}

// hold lets no stream of a tenant begin, and waits until it has none. It is Refused under 31 where that takes too long.
func (s *Set) hold(ctx context.Context, tenant string) (arrived chan struct{}, err error) {
	arrived = make(chan struct{})
	s.mutex.Lock()
	isHeld := s.moving[tenant] != nil
	if !isHeld {
		s.moving[tenant] = arrived
	}
	s.mutex.Unlock()
	if isHeld {
		return nil, &store.Refused{Number: 31}
	}
	soon, stop := context.WithTimeout(ctx, streamsWithin)
	defer stop()
	ticker := time.NewTicker(lookEvery)
	defer ticker.Stop()
	for s.isBusy(tenant) {
		select {
		case <-ticker.C:
		case <-soon.Done():
			s.release(tenant, arrived)
			return nil, &store.Refused{Number: 31}
		}
	}
	return arrived, nil
}

func (s *Set) isBusy(tenant string) bool {
	s.mutex.Lock()
	isBeginning := s.beginning[tenant] > 0
	s.mutex.Unlock()
	return isBeginning || s.storeOf(tenant).HasStream(tenant)
}

func (s *Set) release(tenant string, arrived chan struct{}) {
	s.mutex.Lock()
	defer s.mutex.Unlock()
	delete(s.moving, tenant)
	close(arrived)
}

// settle removes a tenant where the table says that it is not, if a move of it is not at its end.
func (s *Set) settle(tenant string) error {
	if s.table == nil || s.table.placeOf(tenant).step == 0 {
		return nil
	}
	if !s.table.isReady() {
		// The log may say that the tenant is where it would be removed.
		return journal.ErrAway
	}
	it := s.table.placeOf(tenant)
	if it.step == journal.Moved && !s.stores[it.shard-1].Has(tenant) && s.stores[it.other-1].Has(tenant) {
		s.config.Store.Tell("%s is in shard %d alone, and the table of places said that it was moved", tenant, it.other)
		return s.table.note(frames.Step{Kind: journal.Placed, Tenant: tenant, Body: bodyOf(it.other)})
	}
	if it.step == journal.Moving && !s.stores[it.shard-1].Has(tenant) && s.stores[it.other-1].Has(tenant) {
		// The table has lost that the tenant was moved, and its old shard has removed it already.
		s.config.Store.Tell("%s is in shard %d alone, and the table of places did not say so", tenant, it.other)
		return s.table.note(frames.Step{Kind: journal.Placed, Tenant: tenant, Body: bodyOf(it.other)})
	}
	ctx, stop := context.WithTimeout(context.Background(), settleWithin)
	defer stop()
	if err := s.stores[it.other-1].Remove(ctx, tenant); err != nil {
		return named(it.other, len(s.stores), err)
	}
	faultpoint.Here("before a move is settled")
	return s.table.note(frames.Step{Kind: journal.Settled, Tenant: tenant})
}

// settleApart lets a tenant be settled as soon as that can be done, unless somebody is at it.
func (s *Set) settleApart(tenant string) {
	s.mutex.Lock()
	defer s.mutex.Unlock()
	if s.settling[tenant] {
		return
	}
	s.settling[tenant] = true
	go func() {
		s.settleSoon(tenant)
		s.mutex.Lock()
		defer s.mutex.Unlock()
		delete(s.settling, tenant)
	}()
}

// settleSoon settles a tenant as soon as that can be done.
func (s *Set) settleSoon(tenant string) {
	for {
		select {
		case <-s.stopping:
			return
		case <-time.After(settleEvery):
		}
		if s.operate(context.Background(), func() error { return s.settle(tenant) }) == nil {
			return
		}
	}
}

// resolve lets a tenant go of which the table did not say where it is, once the log of the table has been read again.
func (s *Set) resolve(tenant string, arrived chan struct{}) {
	for !s.table.isReady() {
		select {
		case <-s.stopping:
			return
		case <-time.After(settleEvery):
		}
	}
	// Until the table has been read again, nothing can be noted in it.
	s.settleSoon(tenant)
	s.release(tenant, arrived)
}

// readAgain reads the table again after its log was away, until that goes well.
func (s *Set) readAgain(t *table) {
	for err := t.read(); err != nil; err = t.read() {
		s.config.Store.Tell("the table of places cannot be read: %v", err)
		select {
		case <-s.stopping:
			return
		case <-time.After(settleEvery):
		}
	}
	for _, tenant := range t.pending() {
		s.settleApart(tenant)
	}
}

// agree brings moves to their ends that a crash cut off, and compares the table with what the shards have. A tenant that is in two shards
// is for the operator.
func (s *Set) agree() error {
	for _, tenant := range s.table.pending() {
		if err := s.settle(tenant); err != nil {
			return err
		}
	}
	found := map[string]int{}
	for at, it := range s.stores {
		for _, has := range it.Usages() {
			if before := found[has.Name]; before > 0 {
				return &TwoPlaces{has.Name, before, at + 1}
			}
			found[has.Name] = at + 1
		}
	}
	return s.table.putAll(s.differing(found))
}

// differing gives the tenants of which the table says nothing, or another shard.
func (s *Set) differing(found map[string]int) (steps []frames.Step) {
	for tenant, shard := range found {
		known := s.table.shardOf(tenant)
		if known == shard {
			continue
		}
		if known > 0 {
			s.config.Store.Tell("%s is in shard %d alone, and the table of places said %d", tenant, shard, known)
		}
		steps = append(steps, frames.Step{Kind: journal.Placed, Tenant: tenant, Body: bodyOf(shard)})
	}
	return steps
}

// TwoPlaces says that a tenant is in two shards and that no move of it was at work, so pool files are from different times.
type TwoPlaces struct {
	Tenant        string
	First, Second int
}

func (t *TwoPlaces) Error() string {
	return fmt.Sprintf("%s is in shard %d and in shard %d; nothing was changed (docs/DEPLOY.md, \"A tenant in two shards\")", t.Tenant, t.First, t.Second)
}
