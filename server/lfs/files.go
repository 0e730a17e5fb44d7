package lfs

import (
	"context"
	"crypto/sha256"
	"encoding/hex"
	"errors"
	"hash"
	"io"
	"os"
	"path/filepath"

	"gitpoold/faultpoint"
	"gitpoold/regular"
	"gitpoold/tenants"
)

// Object names a file, and says how many bytes it has.
type Object struct {
	OID  string `json:"oid"`
	Size int64  `json:"size"`
}

// Get opens a file of a tenant. It is ErrMissing where there is none.
func (s *Store) Get(name, oid string) (*os.File, error) {
	if !ValidOID(oid) {
		return nil, ErrOID
	}
	if err := s.isServed(name); err != nil {
		return nil, err
	}
	file, err := regular.Open(s.file(name, oid), os.O_RDONLY)
	if errors.Is(err, os.ErrNotExist) {
		err = ErrMissing
	}
	return file, err
}

// Verify is nil where a tenant has a file of this name and as many bytes, else ErrMissing or ErrSize.
func (s *Store) Verify(name string, of Object) error {
	if err := s.isServed(name); err != nil {
		return err
	}
	if !ValidOID(of.OID) {
		return ErrOID
	}
	info, err := os.Stat(s.file(name, of.OID))
	switch {
	case errors.Is(err, os.ErrNotExist):
		return ErrMissing
	case err == nil && info.Size() != of.Size:
		return ErrSize
	}
	return err
}

// Room gives how many bytes a tenant has left for files, of which each takes Beside more than it has.
func Room(ctx context.Context, t tenants.Tenant) int64 {
	room, err := t.RoomCounted(ctx)
	if err != nil {
		return 0
	}
	return room
}

// Put takes a file of a tenant from a reader, as a user of the tenant. It lasts when Put returns nil. On an error nothing of it is kept, unless its
// folder could not be synced. `mayGrow` is asked before each megabyte.
func (s *Store) Put(t tenants.Tenant, of Object, from io.Reader, mayGrow func() error) (err error) {
	it := s.enter(t.Name())
	defer s.leave(it)
	if err := s.stays(it); err != nil {
		return err
	}
	share, err := t.Enter()
	if err != nil {
		return err
	}
	defer func() { share.Leave(err == nil) }()
	file, err := s.create()
	if err != nil {
		return err
	}
	u := &upload{store: s, t: t, it: it, file: file, left: of.Size, sum: sha256.New(), mayGrow: mayGrow}
	defer u.end()
	faultpoint.Here("before a large file is written")
	if err := u.take(of, from); err != nil {
		return err
	}
	faultpoint.Here("before a large file is synced")
	if err := file.Sync(); err != nil {
		return err
	}
	return s.give(it, of.OID, file.Name(), &u.taken)
}

// upload is a file that comes in. It gives the room that it has taken back at its end; a file that is kept counts for itself.
type upload struct {
	store   *Store
	t       tenants.Tenant
	it      *tenant
	file    *os.File
	sum     hash.Hash
	mayGrow func() error
	// written is how many bytes the file has, and left how many it is still to have; room is for how many it has taken room, and taken how much that is.
	written, left, room, taken int64
}

// grant is how many bytes of room are taken at once.
const grant = 1 << 20

func (u *upload) end() {
	u.file.Close()
	_ = os.Remove(u.file.Name())
	u.store.count(u.it, -u.taken)
}

// take writes what comes, which has to be what the name says.
func (u *upload) take(of Object, from io.Reader) error {
	if err := u.grow(Beside); err != nil {
		return err
	}
	_, err := io.Copy(u, io.LimitReader(from, of.Size))
	switch {
	case u.left > 0 && (err == nil || errors.Is(err, io.ErrUnexpectedEOF)):
		return ErrCut
	case err != nil:
		return err
	case hex.EncodeToString(u.sum.Sum(nil)) != of.OID:
		return ErrDigest
	}
	return nil
}

// Write writes a part, for which the tenant has to have room.
func (u *upload) Write(part []byte) (int, error) {
	for u.written+int64(len(part)) > u.room {
		more := u.written + u.left - u.room
		more = min(more, grant)
		if err := u.grow(more); err != nil {
			return 0, err
		}
		u.room += more
	}
	count, err := u.file.Write(part)
	u.sum.Write(part[:count])
	u.written, u.left = u.written+int64(count), u.left-int64(count)
	return count, err
}

// grow takes room, which no other file takes between the question and that.
func (u *upload) grow(bytes int64) error {
	if err := u.mayGrow(); err != nil {
		return err
	}
	u.store.taking.Lock()
	defer u.store.taking.Unlock()
	room, err := u.t.Room()
	if err == nil && room < bytes {
		err = ErrRoom
	}
	if err == nil {
		u.store.count(u.it, bytes)
		u.taken += bytes
	}
	return err
}

// create makes a file that no tenant has yet.
func (s *Store) create() (*os.File, error) {
	folder := filepath.Join(s.folder, newName)
	if err := os.MkdirAll(folder, 0o700); err != nil {
		return nil, err
	}
	return os.CreateTemp(folder, "file-")
}

// double gives a file a second name, which another tenant can get; or copies it where the file system has no such names.
func (s *Store) double(path string) (name string, err error) {
	made, err := s.create()
	if err != nil {
		return "", err
	}
	defer made.Close()
	second := made.Name() + "-second"
	if os.Link(path, second) == nil {
		return second, os.Remove(made.Name())
	}
	source, err := regular.Open(path, os.O_RDONLY)
	if err != nil {
		return "", err
	}
	defer source.Close()
	if _, err = io.Copy(made, source); err == nil {
		err = made.Sync()
	}
	return made.Name(), err
}

// give gives a file that is on the disk to a tenant. That lasts when give returns nil. It counts in the place of the room that was taken for it.
func (s *Store) give(it *tenant, oid, path string, taken *int64) error {
	if err := s.changing(func() error { return s.put(it, oid, path, taken) }); err != nil {
		return err
	}
	faultpoint.Here("after a large file has its name")
	for _, folder := range []string{filepath.Dir(s.file(it.name, oid)), s.place(it.name)} {
		if err := regular.SyncFolder(folder); err != nil {
			return err
		}
	}
	err := s.syncTop()
	faultpoint.Here("after the name of a large file is synced")
	return err
}

// put gives a file its name in a tenant, in the place of one with the same contents.
func (s *Store) put(it *tenant, oid, path string, taken *int64) error {
	it.placing.Lock()
	defer it.placing.Unlock()
	if err := s.stays(it); err != nil {
		return err
	}
	place := s.file(it.name, oid)
	if err := os.MkdirAll(filepath.Dir(place), 0o700); err != nil {
		return err
	}
	info, err := os.Stat(path)
	if err != nil {
		return err
	}
	more := info.Size() + Beside - *taken
	if before, err := os.Stat(place); err == nil {
		more -= before.Size() + Beside
	}
	faultpoint.Here("before a large file has its name")
	if err := os.Rename(path, place); err != nil {
		return err
	}
	s.count(it, more)
	*taken = 0
	return nil
}
