// Package lfs keeps the large files of tenants, as Git LFS names them: by the SHA-256 of their contents, and locks of paths.
//
// The folder `lfs-objects` of a server's folder has a folder for each tenant, in whose name each `/` is a `.`. In it `ab/abcd..` has the contents of
// which that is the SHA-256, `locks` has the locks, and `removing` is there while the tenant is removed. No file changes once it has its name. The
// folder `.new` has what comes in, and what a removed tenant had until it is gone; a start empties it.
package lfs

import (
	"crypto/rand"
	"crypto/sha256"
	"errors"
	"io/fs"
	"os"
	"path/filepath"
	"regexp"
	"strings"
	"sync"

	"gitpoold/configfile"
	"gitpoold/faultpoint"
	"gitpoold/regular"
)

// FolderName is the folder of all files, in the server's folder.
const FolderName = "lfs-objects"

const (
	newName      = ".new"
	locksName    = "locks"
	removingName = "removing"
)

// Beside is how many bytes count for each file beside its contents: what the smallest one takes of a disk.
const Beside = 4096

// Store has the files of all tenants. Its methods may be called by many goroutines at once.
type Store struct {
	folder string
	on     *configfile.Followed[[]string]
	// key signs passes.
	key [sha256.Size]byte
	// taking is held by who asks for room and takes it.
	taking sync.Mutex
	// still is held for reading by what gives files and locks their places, and for writing while these have to stay.
	still sync.RWMutex

	mutex sync.Mutex
	of    map[string]*tenant
}

// tenant is a tenant that has something, or is in use. One that is removed and comes again is another one.
type tenant struct {
	name string
	// bytes are those that count, of files that come in too. These three belong to the mutex of the Store.
	bytes     int64
	uses      int
	isLeaving bool
	// placing is held while a file or the locks get their place.
	placing sync.Mutex
}

// Open takes up the files of a server's folder, counts them, and removes what a server that was killed has left. `has` tells whether a tenant has
// something in the pool, by which it is known whether a removal was carried out; nil where that is not known yet. `tell` gets a line for the operator
// where the list cannot be read later on.
func Open(folder string, has func(tenant string) bool, tell func(format string, values ...any)) (*Store, error) {
	path := filepath.Join(folder, ListName)
	on, err := configfile.Follow(func() ([]string, error) { return read(path) }, tell, path)
	if err != nil {
		return nil, err
	}
	s := &Store{folder: filepath.Join(folder, FolderName), on: on, of: map[string]*tenant{}}
	if _, err := rand.Read(s.key[:]); err != nil {
		return nil, err
	}
	entries, err := os.ReadDir(s.folder)
	if errors.Is(err, os.ErrNotExist) {
		return s, nil
	}
	if err == nil {
		err = os.RemoveAll(filepath.Join(s.folder, newName))
	}
	for _, it := range entries {
		if err == nil && it.IsDir() && it.Name() != newName {
			err = s.takeUp(strings.ReplaceAll(it.Name(), ".", "/"), has)
		}
	}
	return s, err
}

// takeUp counts what a tenant has, and brings a removal to its end.
func (s *Store) takeUp(name string, has func(string) bool) error {
	if _, err := os.Stat(filepath.Join(s.place(name), removingName)); err == nil {
		s.setLeaving(name, true)
		if has != nil && !has(name) {
			return s.Remove(name)
		}
		if has != nil {
			if err := s.Stay(name); err != nil {
				return err
			}
		}
	}
	it := s.enter(name)
	defer s.leave(it)
	return s.each(name, func(_ string, size int64) error {
		s.count(it, size+Beside)
		return nil
	})
}

var fileName = regexp.MustCompile(`^[0-9a-f]{64}$`)

// ValidOID tells whether this is the name of a file: a SHA-256 in 64 small hexadecimal digits.
func ValidOID(text string) bool { return fileName.MatchString(text) }

// each gives the files of a tenant.
func (s *Store) each(name string, do func(oid string, size int64) error) error {
	err := filepath.WalkDir(s.place(name), func(_ string, it fs.DirEntry, err error) error {
		if err != nil || it.IsDir() || !ValidOID(it.Name()) {
			return err
		}
		info, err := it.Info()
		if err != nil {
			return err
		}
		return do(it.Name(), info.Size())
	})
	if errors.Is(err, os.ErrNotExist) && !s.Has(name) {
		return nil
	}
	return err
}

// place is the folder of a tenant. No tenant has a dot in its name.
func (s *Store) place(name string) string {
	return filepath.Join(s.folder, strings.ReplaceAll(name, "/", "."))
}

func (s *Store) file(name, oid string) string { return filepath.Join(s.place(name), oid[:2], oid) }

// enter gives the tenant of a name, which is kept until it is left.
func (s *Store) enter(name string) *tenant {
	s.mutex.Lock()
	defer s.mutex.Unlock()
	if s.of[name] == nil {
		s.of[name] = &tenant{name: name}
	}
	s.of[name].uses++
	return s.of[name]
}

func (s *Store) leave(it *tenant) {
	s.mutex.Lock()
	defer s.mutex.Unlock()
	if it.uses--; it.uses == 0 && it.bytes == 0 && !it.isLeaving && s.of[it.name] == it {
		delete(s.of, it.name)
	}
}

// stays is ErrLeaving where a tenant was removed since it was entered, or is about to be.
func (s *Store) stays(it *tenant) error {
	s.mutex.Lock()
	defer s.mutex.Unlock()
	if s.of[it.name] != it || it.isLeaving {
		return ErrLeaving
	}
	return nil
}

// isServed is ErrLeaving where a tenant is about to be removed.
func (s *Store) isServed(name string) error {
	it := s.enter(name)
	defer s.leave(it)
	return s.stays(it)
}

func (s *Store) count(it *tenant, bytes int64) {
	s.mutex.Lock()
	defer s.mutex.Unlock()
	it.bytes += bytes
}

// Bytes tells how many bytes count for a tenant, those of files that come in among them.
func (s *Store) Bytes(name string) int64 {
	s.mutex.Lock()
	defer s.mutex.Unlock()
	if it := s.of[name]; it != nil {
		return it.bytes
	}
	return 0
}

// Names gives the tenants that have files.
func (s *Store) Names() (names []string) {
	s.mutex.Lock()
	defer s.mutex.Unlock()
	for name, it := range s.of {
		if it.bytes > 0 {
			names = append(names, name)
		}
	}
	return names
}

// Still does something while no file or lock gets a place and none goes.
func (s *Store) Still(do func() error) error {
	s.still.Lock()
	defer s.still.Unlock()
	return do()
}

// changing does something meanwhile Still waits.
func (s *Store) changing(do func() error) error {
	s.still.RLock()
	defer s.still.RUnlock()
	return do()
}

// Has tells whether a tenant has files or locks, or has had some.
func (s *Store) Has(name string) bool {
	_, err := os.Lstat(s.place(name))
	return err == nil
}

// Leave notes that a tenant is about to be removed from the pool. Until Remove or Stay nobody gets its files, also after a restart.
func (s *Store) Leave(name string) error {
	if !s.Has(name) {
		return nil
	}
	faultpoint.Here("before a removal of large files is noted")
	s.setLeaving(name, true)
	err := s.changing(func() error {
		if err := os.WriteFile(filepath.Join(s.place(name), removingName), nil, 0o600); err != nil {
			return err
		}
		return regular.SyncFolder(s.place(name))
	})
	if err != nil {
		_ = s.Stay(name)
	}
	faultpoint.Here("after a removal of large files is noted")
	return err
}

// Stay says that a tenant was not removed.
func (s *Store) Stay(name string) error {
	err := s.changing(func() error { return os.Remove(filepath.Join(s.place(name), removingName)) })
	if errors.Is(err, os.ErrNotExist) {
		err = nil
	}
	s.setLeaving(name, err != nil)
	return err
}

func (s *Store) setLeaving(name string, isLeaving bool) {
	it := s.enter(name)
	s.mutex.Lock()
	it.isLeaving = isLeaving
	s.mutex.Unlock()
	s.leave(it)
}

// Remove removes all that a tenant has. Whoever gets its name later has nothing of it, also if the machine stops right after Remove.
func (s *Store) Remove(name string) error {
	if !s.Has(name) {
		s.forget(name)
		return nil
	}
	if err := os.MkdirAll(filepath.Join(s.folder, newName), 0o700); err != nil {
		return err
	}
	aside, err := os.MkdirTemp(filepath.Join(s.folder, newName), "removed-")
	if err != nil {
		return err
	}
	faultpoint.Here("before large files are out of sight")
	err = s.Still(func() error {
		if err := os.Rename(s.place(name), filepath.Join(aside, "files")); err != nil {
			return err
		}
		s.forget(name)
		return regular.SyncFolder(s.folder)
	})
	faultpoint.Here("after large files are out of sight")
	if err != nil {
		return err
	}
	return os.RemoveAll(aside)
}

// forget counts nothing of a tenant any more. What comes in for it gets no place.
func (s *Store) forget(name string) {
	s.mutex.Lock()
	defer s.mutex.Unlock()
	delete(s.of, name)
}

// Copy gives a tenant the files of another one, and no locks. Each tenant counts them, and has names of its own for them.
func (s *Store) Copy(from, to string) error {
	it := s.enter(to)
	defer s.leave(it)
	return s.changing(func() error {
		err := s.each(from, func(oid string, _ int64) error {
			copied, err := s.double(s.file(from, oid))
			if err != nil {
				return err
			}
			return s.put(it, oid, copied, new(int64))
		})
		if err != nil || !s.Has(to) {
			return err
		}
		if err := regular.SyncFolders(s.place(to)); err != nil {
			return err
		}
		return s.syncTop()
	})
}

// syncTop syncs the folder of the tenants' folders, which may be new.
func (s *Store) syncTop() error {
	if err := regular.SyncFolder(s.folder); err != nil {
		return err
	}
	return regular.SyncFolder(filepath.Dir(s.folder))
}
