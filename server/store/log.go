package store

import (
	"errors"
	"fmt"
	"os"
	"os/exec"
	"path/filepath"

	"gitpoold/journal"
	"gitpoold/poolfile"
)

// What a store does so that its journal can be in Redis stands in this file.

const (
	// placeName is the file of the place in the log, and rescuedName that of the pool as it was when the log lost records. begunName says of a
	// journal in files that it has begun.
	placeName   = "log-place"
	rescuedName = "pool.rescued"
	begunName   = "journal-begun"
)

// openJournal opens the journal where the configuration says that it is, unless it is elsewhere.
func (s *Store) openJournal(pool journal.Digest) (journal.Journal, error) {
	if s.config.Log == nil {
		return s.openFiles(pool)
	}
	if has, err := hasFiles(s.config.Folder); err != nil || has {
		if err == nil {
			err = errors.New("the journal of this folder is in files; `gitpoold init DIR --log ADDRESS` moves it")
		}
		return nil, err
	}
	options := *s.config.Log
	options.Place, options.Tell, options.Stale, options.Lost = s.config.file(placeName), s.config.Tell, s.recovery.replaceChild, s.recovery.lost
	if s.config.Follows == nil {
		return journal.OpenRedis(options, pool)
	}
	opened, err := journal.Follow(options, pool, s.config.Follows)
	if err == nil {
		s.follower = &follower{store: s, log: opened, ended: make(chan struct{})}
	}
	return opened, err
}

func (s *Store) openFiles(pool journal.Digest) (journal.Journal, error) {
	place := s.config.file(placeName)
	if _, err := os.Stat(place); !errors.Is(err, os.ErrNotExist) {
		return nil, fmt.Errorf("the journal of this folder is in Redis: give --log, or remove %s if the pool file has all of it", place)
	}
	return journal.OpenBegun(s.config.file("journal"), s.config.file(begunName), pool, s.config.Tell)
}

// hasFiles tells whether the journal of a folder is in files, or was.
func hasFiles(folder string) (bool, error) {
	if _, err := os.Lstat(filepath.Join(folder, begunName)); err == nil {
		return true, nil
	}
	entries, err := os.ReadDir(filepath.Join(folder, "journal"))
	return len(entries) > 0, err
}

// Create makes a pool without tenants in a folder, unless it has a pool file. A folder that has a journal alone is refused: its pool
// file was lost.
func Create(folder, program string) error {
	if err := os.MkdirAll(filepath.Join(folder, "journal"), 0o700); err != nil {
		return err
	}
	pool := filepath.Join(folder, "pool")
	if _, err := os.Lstat(pool); err == nil {
		return nil
	}
	hasJournal, err := hasFiles(folder)
	if err != nil {
		return err
	}
	if _, err := os.Stat(filepath.Join(folder, placeName)); hasJournal || err == nil {
		return errors.New("there is a journal and no pool file: put the pool file back from a backup")
	}
	command := exec.Command(program, "serve", "--pool", pool)
	command.Stderr = os.Stderr
	if err := command.Run(); err != nil {
		return fmt.Errorf("%s: %w", program, err)
	}
	return os.Chmod(pool, 0o600)
}

// CreateLog begins a log in Redis for the pool file of a folder, unless there is one. A journal in files has to be empty, and is removed.
func CreateLog(folder string, options journal.Options) error {
	held, pool, err := lockAll(folder)
	if err != nil {
		return err
	}
	defer held.close()
	digest, err := poolfile.Digest(pool)
	if err != nil {
		return err
	}
	if err := removeFiles(folder, digest); err != nil {
		return err
	}
	options.Place = filepath.Join(folder, placeName)
	return journal.CreateRedis(options, digest)
}

// removeFiles removes the segments of a folder's journal that has no steps.
func removeFiles(folder string, pool journal.Digest) error {
	if has, err := hasFiles(folder); err != nil || !has {
		return err
	}
	segments, begun := filepath.Join(folder, "journal"), filepath.Join(folder, begunName)
	files, err := journal.OpenBegun(segments, begun, pool, func(string, ...any) {})
	if err != nil {
		return err
	}
	defer files.Close()
	if files.HasSteps() {
		return errors.New("the journal in files has pushes that the pool file has not: start the server without --log and stop it by SIGTERM first")
	}
	if err := os.Remove(begun); err != nil {
		return err
	}
	entries, err := os.ReadDir(segments)
	for _, it := range entries {
		if err == nil {
			err = os.Remove(filepath.Join(segments, it.Name()))
		}
	}
	return err
}

// isOfLog tells whether an error is that of a log in Redis, and no matter of what is in it.
func isOfLog(err error) bool {
	var bad *journal.BadLog
	return errors.Is(err, journal.ErrUnread) || errors.As(err, &bad)
}
