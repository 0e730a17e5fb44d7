package store

import (
	"bufio"
	"context"
	"errors"
	"io"
	"os"
	"path/filepath"

	"gitpoold/child"
	"gitpoold/faultpoint"
	"gitpoold/frames"
	"gitpoold/idempotency"
	"gitpoold/journal"
	"gitpoold/poolfile"
)

// A tenant that comes from another shard is merged into the pool file, which the log's steps do not tell. So where servers follow the log, it gets
// the file with the tenant too, right before the record that names the merged file; and they merge it as well.

const (
	// broughtBytes is how much of the file a record has. A record begins with whether it is the first one.
	broughtBytes  = 1 << 20
	broughtFirst  = 1
	broughtMore   = 0
	broughtAnswer = 2
	broughtName   = "brought"
)

// bringFollowers puts the file of a tenant that comes into the log, if servers follow that.
func (w *wal) bringFollowers(file string) error {
	if !w.isFollowed() {
		return nil
	}
	from, err := os.Open(file)
	if err != nil {
		return err
	}
	defer from.Close()
	in, first := bufio.NewReader(from), byte(broughtFirst)
	for {
		body := make([]byte, 1+broughtBytes)
		size, err := io.ReadFull(in, body[1:])
		if err == io.EOF {
			return nil
		}
		if err != nil && err != io.ErrUnexpectedEOF {
			return err
		}
		body[0], first = first, broughtMore
		if _, err := w.Append(frames.Step{Kind: journal.Brought, Body: body[:1+size]}); err != nil {
			return err
		}
	}
}

// bringAnswers does the same with what the streams of such a tenant were answered.
func (w *wal) bringAnswers(tenant string, all []idempotency.Answer) error {
	if !w.isFollowed() {
		return nil
	}
	for _, it := range all {
		body := append([]byte{broughtAnswer}, it.Body()...)
		if _, err := w.add(frames.Step{Kind: journal.Brought, Tenant: tenant, Body: body}); err != nil {
			return err
		}
	}
	return nil
}

// brought is where such a file is, beside the pool file.
func (t recordTurn) brought() string { return filepath.Join(t.store.config.work(), broughtName) }

// takeBrought keeps what the log brought: an answer, or a part of such a file, which it puts beside the pool file.
func (t recordTurn) takeBrought(step frames.Step) error {
	body := step.Body
	if len(body) == 0 || t.store.takeBroughtAnswer(step) {
		return nil
	}
	how := os.O_WRONLY | os.O_CREATE | os.O_APPEND
	if body[0] == broughtFirst {
		how |= os.O_TRUNC
	}
	file, err := os.OpenFile(t.brought(), how, 0o600)
	if err != nil {
		return err
	}
	defer file.Close()
	_, err = file.Write(body[1:])
	return err
}

// mergeBrought merges a file that the log brought, if it did, into the pool file that the child has just written, and gives the digest of that.
func (t recordTurn) mergeBrought() (digest journal.Digest, err error) {
	file, next, s := t.brought(), t.store.pool.next(), t.store
	if _, err := os.Stat(file); errors.Is(err, os.ErrNotExist) {
		return digest, nil
	}
	ctx, stop := context.WithTimeout(context.Background(), saveWithin)
	defer stop()
	if err := s.config.runProgram(ctx, "merge", file, "--pool", next); err != nil {
		return digest, err
	}
	return poolfile.Digest(next)
}

// exchange puts a child on the merged pool file in the place of the one before. There are no streams.
func (t recordTurn) exchange() error {
	s := t.store
	next, err := s.config.startOn(s.pool.path, started.hasLoaded)
	if err != nil {
		return err
	}
	var m maintenance
	select {
	case kept := <-s.maintain:
		m = maintenance{s, kept}
	default:
		next.end()
		return child.ErrGone
	}
	defer m.done()
	faultpoint.Here("before a followed child is exchanged")
	x := m.alone()
	old := x.put(next)
	t.replay.started = next
	x.open()
	faultpoint.Here("after a followed child is exchanged")
	old.retire()
	return nil
}
