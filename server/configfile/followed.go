package configfile

import (
	"errors"
	"io/fs"
	"os"
	"sync"
	"sync/atomic"
	"syscall"
	"time"
)

// Followed is what files come to, read again when one of them has changed.
//
// One goroutine at a time looks at the files, for all that ask meanwhile. So a file system that does not answer keeps one goroutine, and nobody waits
// for it for longer than patience.
type Followed[T any] struct {
	read  func() (T, error)
	tell  func(format string, values ...any)
	paths []string
	value atomic.Pointer[T]

	mutex sync.Mutex
	// looking is the look that is at work, or nil, and looked is when the last one began that has ended.
	looking *look
	looked  time.Time
	err     error

	// These are the look's.
	seen    []stamp
	tryFrom time.Time
}

// look is one look at the files.
type look struct {
	began time.Time
	ended chan struct{}
}

// stamp says which file stands at a path.
type stamp struct {
	inode uint64
	size  int64
	time  time.Time
}

// Follow reads files for the first time. `tell` is told when they cannot be read later on; what was read before holds then.
func Follow[T any](read func() (T, error), tell func(string, ...any), paths ...string) (*Followed[T], error) {
	f := &Followed[T]{read: read, tell: tell, paths: paths, looked: time.Now()}
	f.seen = f.stamps()
	value, err := read()
	f.value.Store(&value)
	return f, err
}

// Last gives what the files came to when they were looked at last. It waits for nothing.
func (f *Followed[T]) Last() T { return *f.value.Load() }

// Get gives what the files come to now.
func (f *Followed[T]) Get() T { return f.Within(0) }

// patience is how long a file system may take to say whether files have changed. Then what they came to before holds.
var patience = time.Second

// Within gives what the files come to, or came to so long ago at most.
func (f *Followed[T]) Within(age time.Duration) T {
	f.wait(age)
	return f.Last()
}

// wait waits until the files were looked at, so long ago at most. It is false where the file system does not answer.
func (f *Followed[T]) wait(age time.Duration) bool {
	now := time.Now()
	var late <-chan time.Time
	for it := f.lookSince(now.Add(-age)); it != nil; it = f.lookSince(now.Add(-age)) {
		if now.Sub(it.began) > patience {
			return false
		}
		if late == nil {
			timer := time.NewTimer(patience)
			defer timer.Stop()
			late = timer.C
		}
		select {
		case <-it.ended:
		case <-late:
			return false
		}
	}
	return true
}

// lookSince gives a look that has to be waited for, so that one which began since then has ended. It is nil where one has.
func (f *Followed[T]) lookSince(then time.Time) *look {
	f.mutex.Lock()
	defer f.mutex.Unlock()
	if !f.looked.Before(then) {
		return nil
	}
	if f.looking == nil {
		f.looking = &look{time.Now(), make(chan struct{})}
		go f.look(f.looking)
	}
	return f.looking
}

// look looks at the files, and reads them if one of them has changed.
func (f *Followed[T]) look(it *look) {
	now, err := f.stamps(), f.Err()
	for i := range now {
		if now[i] != f.seen[i] && !time.Now().Before(f.tryFrom) {
			err = f.readAgain(now)
			break
		}
	}
	f.mutex.Lock()
	defer f.mutex.Unlock()
	f.looked, f.looking, f.err = it.began, nil, err
	close(it.ended)
}

// Unread says why the files cannot be read now, so that what was read before holds. It is nil where they can.
func (f *Followed[T]) Unread() error {
	if !f.wait(0) {
		return errSilent
	}
	return f.Err()
}

// errSilent says that it is not known whether files have changed.
var errSilent = errors.New("the file system does not answer")

// Err says why the files could not be read when they were looked at last. It is nil where they could.
func (f *Followed[T]) Err() error {
	f.mutex.Lock()
	defer f.mutex.Unlock()
	return f.err
}

// tryAgainAfter is how long files are left alone that are there and could not be read.
const tryAgainAfter = time.Second

// readAgain reads the files. What they say may be wrong, and then they have to change again. Where they could not be read, as in a process
// that has too many files open, they are tried again: a grant may have been taken back in them.
func (f *Followed[T]) readAgain(now []stamp) error {
	value, err := f.read()
	var unread *fs.PathError
	switch {
	case err == nil:
		f.seen = now
		f.value.Store(&value)
		return nil
	case errors.As(err, &unread) && !errors.Is(err, fs.ErrNotExist):
		f.tryFrom = time.Now().Add(tryAgainAfter)
	default:
		f.seen = now
	}
	f.tell("%v; what was read before holds", err)
	return err
}

// Stat asks the file system for a file. Tests count its calls, and let it not answer.
var Stat = os.Stat

func (f *Followed[T]) stamps() []stamp {
	all := make([]stamp, len(f.paths))
	for i, path := range f.paths {
		if info, err := Stat(path); err == nil {
			all[i] = stamp{info.Sys().(*syscall.Stat_t).Ino, info.Size(), info.ModTime()}
		}
	}
	return all
}
