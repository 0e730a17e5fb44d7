package shards

import (
	"context"
	"errors"

	"gitpoold/store"
)

// ErrInRedis says that what the journals have is not in this folder.
var ErrInRedis = errors.New(`the journal is in Redis, of which no backup is made here (docs/SERVER-REFERENCE.md, "Backup, restore, upgrade")`)

// Still does something while nothing changes in any pool file or journal: no step comes to a child, nothing is saved, and no operator changes a
// tenant. Whoever pushes or asks waits meanwhile. It is ErrInRedis where the journals are not in files.
func (s *Set) Still(ctx context.Context, do func() error) error {
	if len(s.config.Logs) > 0 {
		return ErrInRedis
	}
	return s.operate(ctx, func() error {
		unsaved := make([]store.Unsaved, len(s.stores))
		for at, it := range s.stores {
			var err error
			if unsaved[at], err = it.Unsaved(ctx); err != nil {
				return err
			}
			defer unsaved[at].End()
		}
		for _, it := range unsaved {
			open, err := it.Shut(ctx)
			if err != nil {
				return err
			}
			defer open()
		}
		if s.table != nil {
			s.table.writers.Lock()
			defer s.table.writers.Unlock()
		}
		return do()
	})
}
