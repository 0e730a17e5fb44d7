package store

import (
	"context"
	"errors"
	"fmt"
	"os"
	"path/filepath"
	"time"

	"gitpoold/faultpoint"
	"gitpoold/frames"
	"gitpoold/journal"
	"gitpoold/poolfile"
	"gitpoold/regular"
)

// How a tenant goes from one pool to another stands in this file alone: `gitpool extract` writes it to a file of its own, and `gitpool
// merge` adds that file to a copy of the other pool file, on which another child is then started.

// streamsWithin is how long a merge waits for the streams that are open.
const streamsWithin = 30 * time.Second

// ErrStreams says that streams were open for longer than a merge waits for them.
var ErrStreams = errors.New("pushes are at work that take too long; try again")

// Extract writes a tenant to a pool file of its own, as it is now. The tenant may have no stream. It saves first, where there is
// something to save. On an error nothing of the store has changed, and the file may be there or not.
func (s *Store) Extract(ctx context.Context, tenant, to string) error {
	if err := s.Save(ctx); err != nil {
		return err
	}
	m, err := s.beginMaintenance(ctx)
	if err != nil {
		return err
	}
	from := filepath.Join(s.config.work(), "extracted")
	if err = os.RemoveAll(from); err == nil {
		err = linkOrCopy(s.pool.path, from)
	}
	m.done()
	if err != nil {
		return err
	}
	defer os.Remove(from)
	faultpoint.Here("before a tenant is extracted")
	return s.config.runProgram(ctx, "extract", tenant, "--pool", from, "--to", to)
}

// Merge adds the tenant of a pool file that has no other one. The store may not have it. It lasts when Merge returns nil. Reading goes on meanwhile,
// and pushes wait. On an error the store may have the tenant, or may get it at its next start: see Has.
func (s *Store) Merge(ctx context.Context, tenant, file string) error {
	// A stream may need the turn of maintenance to end.
	d, err := s.streams.drain(ctx)
	if err != nil {
		return err
	}
	defer d.end()
	m, err := s.beginMaintenance(ctx)
	if err != nil {
		return err
	}
	defer m.done()
	if err := m.removeHalfMerged(ctx); err != nil {
		return err
	}
	began := time.Now()
	err = merger{m, d}.merge(ctx, file)
	switch {
	case err == nil:
		s.config.Tell("a tenant came in %.1f s", time.Since(began).Seconds())
	case errors.Is(err, journal.ErrUnsure):
		m.halfMerged = tenant
	}
	return err
}

// removeHalfMerged removes the tenant of a merge that the log may have, while this store has gone on without it. Servers that follow the log have
// merged it then, and would come to another pool file at the next save.
func (m maintenance) removeHalfMerged(ctx context.Context) error {
	tenant := m.halfMerged
	if tenant != "" && !m.Has(tenant) {
		number, _, err := m.sendRequest(ctx, tenant, frames.Step{Kind: frames.Remove, Tenant: tenant})
		if number == 0 {
			return err
		}
		// The log has it, so that a child which dies meanwhile changes nothing.
		m.inDoubt.forget(number)
	}
	m.halfMerged = ""
	return nil
}

// drained are the streams of a store of which none is open, and none begins until `end`.
type drained struct{ streams *openStreams }

// merger is a store whose caller has the turn of maintenance, and in which no stream is open.
type merger struct {
	maintenance
	drained
}

// drain waits until all streams have ended. It may be ErrStreams.
func (o *openStreams) drain(ctx context.Context) (drained, error) {
	soon, stop := context.WithTimeout(ctx, streamsWithin)
	defer stop()
	o.merging.Lock()
	err := o.shut(soon)
	if err == nil {
		return drained{o}, nil
	}
	o.merging.Unlock()
	if ctx.Err() == nil {
		err = ErrStreams
	}
	return drained{}, err
}

func (d drained) end() {
	d.streams.open()
	d.streams.merging.Unlock()
}

// merge makes the merged file and the child that has it, and puts both in the place of those before.
func (m merger) merge(ctx context.Context, file string) error {
	room, err := os.MkdirTemp(m.config.work(), "merged-")
	if err != nil {
		return err
	}
	defer os.RemoveAll(room)
	merged := filepath.Join(room, "pool")
	if err := m.writeTo(ctx, merged); err != nil {
		return err
	}
	faultpoint.Here("before a tenant is merged")
	if err := m.config.runProgram(ctx, "merge", file, "--pool", merged); err != nil {
		return err
	}
	faultpoint.Here("after a tenant is merged")
	next, err := m.config.startOn(merged, started.hasLoaded)
	if err != nil {
		return err
	}
	if err := m.journal.bringFollowers(file); err != nil {
		next.end()
		return err
	}
	return m.putInPlace(merged, next)
}

// writeTo has the child write its pool file, and gives it another name.
func (m merger) writeTo(ctx context.Context, path string) error {
	x, open, err := m.shutForSave(ctx)
	if err != nil {
		return err
	}
	defer open()
	if err := x.child.save(); err != nil {
		return fmt.Errorf("%w: %v", errNotSaved, err)
	}
	return linkOrCopy(x.child.file(), path)
}

// putInPlace makes a merged file the pool file, and the child that has loaded it the one of this store. It is the end of a save: what
// comes after it goes to another segment.
func (m merger) putInPlace(merged string, next started) error {
	old, err := m.exchange(merged, next)
	if old.process == nil {
		return err
	}
	old.retire()
	if err == nil {
		err = regular.SyncFolder(filepath.Dir(m.pool.path))
	}
	if err != nil {
		return err
	}
	faultpoint.Here("after a merged pool file is synced")
	if err := m.pool.copy(); err != nil {
		return err
	}
	if err := m.journal.noteMerged(); err != nil {
		return err
	}
	return m.journal.Drop()
}

// exchange exchanges the pool file and the child, and gives the child before. From the renaming of the file on, the store has what was merged;
// where it does not come to that, there is no child before.
func (m merger) exchange(merged string, next started) (old started, err error) {
	x := m.alone()
	defer x.open()
	digest, err := poolfile.Digest(merged)
	if err == nil {
		err = x.saveAnswers()
	}
	if err == nil {
		err = x.journal.Begin(digest, nil)
	}
	faultpoint.Here("before a merged pool file is renamed")
	if err == nil {
		err = x.pool.place(merged)
	}
	if err != nil {
		next.end()
		return started{}, err
	}
	faultpoint.Here("after a merged pool file is renamed")
	faultpoint.SetChild(next.process.Pid())
	return x.put(next), x.usage.readFrom(next.process)
}

// HasStream tells whether a tenant has a stream.
func (s *Store) HasStream(tenant string) bool {
	s.streams.mutex.Lock()
	defer s.streams.mutex.Unlock()
	return s.streams.of[tenant] != nil
}
