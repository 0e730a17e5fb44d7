package shards

import (
	"context"
	"time"

	"gitpoold/frames"
	"gitpoold/journal"
)

// heal lets a table whose log in files could not be synced or cut take records again: another segment gets the whole table. A log in Redis heals by
// itself, and tells when the table is to be read again.
func (t *table) heal() (isHealed bool, err error) {
	files, isInFiles := t.journal.(*journal.Files)
	if !isInFiles || !files.IsHealedBySave() {
		return false, nil
	}
	t.writers.Lock()
	defer t.writers.Unlock()
	err = files.Renew(journal.Digest{}, t.steps())
	return err == nil, err
}

// steps are records that come to the table as it is.
func (t *table) steps() (all []frames.Step) {
	t.mutex.Lock()
	defer t.mutex.Unlock()
	for tenant, it := range t.places {
		switch it.step {
		case journal.Moved:
			all = append(all, frames.Step{Kind: journal.Moved, Tenant: tenant, Body: bodyOf(it.shard, it.other)})
		case journal.Moving:
			all = append(all, frames.Step{Kind: journal.Placed, Tenant: tenant, Body: bodyOf(it.shard)},
				frames.Step{Kind: journal.Moving, Tenant: tenant, Body: bodyOf(it.other)})
		default:
			all = append(all, frames.Step{Kind: journal.Placed, Tenant: tenant, Body: bodyOf(it.shard)})
		}
	}
	return all
}

// healEvery is how often a table that takes no records is tried.
const healEvery = 5 * time.Second

// keepTable lets the table take records again as soon as it can, until the context ends.
func (s *Set) keepTable(ctx context.Context) {
	ticker := time.NewTicker(healEvery)
	defer ticker.Stop()
	for {
		select {
		case <-ctx.Done():
			return
		case <-ticker.C:
		}
		isHealed, err := s.table.heal()
		if err != nil {
			s.config.Store.Tell("the table of places takes no record: %v", err)
		} else if isHealed {
			s.config.Store.Tell("the table of places takes records again")
		}
	}
}
