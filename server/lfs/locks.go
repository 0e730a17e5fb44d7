package lfs

import (
	"errors"
	"net/url"
	"os"
	"path/filepath"
	"strconv"
	"strings"
	"time"
	"unicode"
	"unicode/utf8"

	"gitpoold/configfile"
	"gitpoold/faultpoint"
)

// Lock says that a user wants to change the file of a path alone. Clients heed it; pushes are not judged by it.
type Lock struct {
	ID       string `json:"id"`
	Path     string `json:"path"`
	LockedAt string `json:"locked_at"`
	Owner    Owner  `json:"owner"`
}

// Owner is who has a lock.
type Owner struct {
	Name string `json:"name"`
}

// What a tenant may have of locks, which the refusals tell.
const (
	longestPath = 1024
	mostLocks   = 10_000
)

// Locks gives the locks of a tenant in the order in which they were made, which is that of their ids as numbers.
func (s *Store) Locks(name string) ([]Lock, error) {
	if err := s.isServed(name); err != nil {
		return nil, err
	}
	return readLocks(filepath.Join(s.place(name), locksName))
}

// readLocks reads lines `ID TIME OWNER PATH`, in which a path has escapes as in an URL.
func readLocks(path string) ([]Lock, error) { return configfile.Parse(path, parseLock) }

func parseLock(words []string) (Lock, error) {
	if len(words) != 4 {
		return Lock{}, errors.New("a line is not ID TIME OWNER PATH")
	}
	locked, err := url.PathUnescape(words[3])
	return Lock{words[0], locked, words[1], Owner{words[2]}}, err
}

// AddLock locks a path for a user. Where it is locked already, the error is ErrLocked, and the lock is that one.
func (s *Store) AddLock(name, path, owner string) (made Lock, err error) {
	if path == "" || len(path) > longestPath || !utf8.ValidString(path) || strings.IndexFunc(path, unicode.IsControl) >= 0 {
		return made, ErrPath
	}
	err = s.changeLocks(name, func(all []Lock) ([]Lock, error) {
		next := time.Now().UnixNano()
		for _, it := range all {
			if it.Path == path {
				made = it
				return nil, ErrLocked
			}
			if id, err := strconv.ParseInt(it.ID, 10, 64); err == nil && id >= next {
				next = id + 1
			}
		}
		if len(all) >= mostLocks {
			return nil, ErrManyLocks
		}
		made = Lock{strconv.FormatInt(next, 10), path, time.Now().UTC().Format(time.RFC3339), Owner{owner}}
		return append(all, made), nil
	})
	return made, err
}

// RemoveLock takes a user's lock away, or with `force` anybody's.
func (s *Store) RemoveLock(name, id, owner string, force bool) (taken Lock, err error) {
	err = s.changeLocks(name, func(all []Lock) ([]Lock, error) {
		for at, it := range all {
			if it.ID != id {
				continue
			}
			if it.Owner.Name != owner && !force {
				return nil, ErrOthers
			}
			taken = it
			return append(all[:at:at], all[at+1:]...), nil
		}
		return nil, ErrNoLock
	})
	return taken, err
}

// changeLocks puts the locks of a tenant on the disk as they are to be.
func (s *Store) changeLocks(name string, change func([]Lock) ([]Lock, error)) error {
	it := s.enter(name)
	defer s.leave(it)
	return s.changing(func() error {
		it.placing.Lock()
		defer it.placing.Unlock()
		if err := s.stays(it); err != nil {
			return err
		}
		path := filepath.Join(s.place(name), locksName)
		all, err := readLocks(path)
		if err == nil {
			all, err = change(all)
		}
		if err != nil {
			return err
		}
		return s.writeLocks(path, all)
	})
}

func (s *Store) writeLocks(path string, all []Lock) error {
	if err := os.MkdirAll(filepath.Dir(path), 0o700); err != nil {
		return err
	}
	lines := make([]string, len(all))
	for at, it := range all {
		lines[at] = strings.Join([]string{it.ID, it.LockedAt, it.Owner.Name, url.PathEscape(it.Path)}, " ")
	}
	faultpoint.Here("before locks are written")
	if err := configfile.Write(path, lines); err != nil {
		return err
	}
	faultpoint.Here("after locks are written")
	return s.syncTop()
}

// mostOfPage is how many locks one answer has at most.
const mostOfPage = 1000

// Page gives a part of some locks: at most `limit` of them from a cursor on, which is "" at the beginning; and the cursor of the next part, or "".
func Page(all []Lock, cursor string, limit int) (part []Lock, next string) {
	if limit < 1 || limit > mostOfPage {
		limit = mostOfPage
	}
	from, _ := strconv.ParseInt(cursor, 10, 64)
	part = []Lock{}
	for _, it := range all {
		if id, _ := strconv.ParseInt(it.ID, 10, 64); id < from {
			continue
		}
		if len(part) == limit {
			return part, it.ID
		}
		part = append(part, it)
	}
	return part, ""
}
