package store

import (
	"errors"
	"fmt"
	"io"
	"os"
	"path/filepath"
	"sync/atomic"
	"syscall"

	"gitpoold/faultpoint"
	"gitpoold/journal"
	"gitpoold/poolfile"
	"gitpoold/regular"
)

// poolFile is the pool file of a store, and its copy.
type poolFile struct {
	config *Config
	// path is where the file is, where a link in the folder leads to one elsewhere.
	path string
	// isCopyLate says that the file could not be copied.
	isCopyLate atomic.Bool
}

func (p *poolFile) digest() (journal.Digest, error) { return poolfile.Digest(p.path) }

// next is where a child's file is that is to be the pool file.
func (p *poolFile) next() string { return filepath.Join(p.config.work(), "pool") }

// write has a child write the pool file that is to be the next one, and gives its digest.
func (p *poolFile) write(by started) (digest journal.Digest, err error) {
	faultpoint.Here("before the child saves")
	if err := by.save(); err != nil {
		return digest, fmt.Errorf("%w: %v", errNotSaved, err)
	}
	faultpoint.Here("after the child has saved")
	if err := os.RemoveAll(p.next()); err != nil {
		return digest, err
	}
	if err := linkOrCopy(by.file(), p.next()); err != nil {
		return digest, err
	}
	return poolfile.Digest(p.next())
}

// takeNext puts the file that a child has written in the place of the pool file.
func (p *poolFile) takeNext() error {
	faultpoint.Here("before the pool file is renamed")
	if err := p.place(p.next()); err != nil {
		return err
	}
	faultpoint.Here("after the pool file is renamed")
	if err := regular.SyncFolder(filepath.Dir(p.path)); err != nil {
		return err
	}
	faultpoint.Here("after the pool file is synced")
	return nil
}

// place puts a file in the place of the pool file, in one step. A link in the folder may lead to another file system.
func (p *poolFile) place(from string) error {
	err := os.Rename(from, p.path)
	if !errors.Is(err, syscall.EXDEV) {
		return err
	}
	if err := os.RemoveAll(p.beside()); err != nil {
		return err
	}
	if err := copyFile(from, p.beside()); err != nil {
		return err
	}
	return os.Rename(p.beside(), p.path)
}

// beside is where a pool file is on its way to another file system. A start removes what a kill has left there.
func (p *poolFile) beside() string { return p.path + ".next" }

// copy copies the pool file to where another machine may take it from.
func (p *poolFile) copy() error {
	if p.config.Copy == "" {
		return nil
	}
	err := copySynced(p.path, p.config.Copy)
	p.isCopyLate.Store(err != nil)
	if err != nil {
		return fmt.Errorf("%s: %w", p.config.Copy, err)
	}
	return nil
}

// bringCopy copies the pool file where its copy is not there or is another file.
func (p *poolFile) bringCopy() error {
	digest, err := p.digest()
	if err != nil || p.config.Copy == "" {
		return err
	}
	if copied, err := poolfile.Digest(p.config.Copy); err == nil && copied == digest {
		return dropUnfinished(p.config.Copy)
	}
	return p.copy()
}

// linkOrCopy gives a file a second name, or copies it where the file system has no links. A save of the child replaces the name.
func linkOrCopy(from, to string) error {
	if os.Link(from, to) == nil {
		return nil
	}
	return copyFile(from, to)
}

// dropUnfinished removes the file that a kill left of a copy to a path. What is no file is none of ours.
func dropUnfinished(to string) error {
	info, err := os.Lstat(unfinished(to))
	if err == nil && info.Mode().IsRegular() {
		err = os.Remove(unfinished(to))
	}
	if errors.Is(err, os.ErrNotExist) {
		return nil
	}
	return err
}

// unfinished is where a copy to a path is until it is whole.
func unfinished(to string) string { return to + ".new" }

// copySynced copies a file, which appears whole under its new name.
func copySynced(from, to string) error {
	next := unfinished(to)
	if err := os.Remove(next); err != nil && !errors.Is(err, os.ErrNotExist) {
		return err
	}
	err := copyFile(from, next)
	if err == nil {
		err = os.Rename(next, to)
	}
	if err != nil {
		os.Remove(next)
		return err
	}
	return regular.SyncFolder(filepath.Dir(to))
}

func copyFile(from, to string) error {
	source, err := os.Open(from)
	if err != nil {
		return err
	}
	defer source.Close()
	target, err := os.OpenFile(to, os.O_WRONLY|os.O_CREATE|os.O_EXCL, 0o600)
	if err != nil {
		return err
	}
	defer target.Close()
	if _, err = io.Copy(target, source); err != nil {
		return err
	}
	return target.Sync()
}

// sweep removes the rooms of children whose server was killed.
func sweep(folder string) error {
	entries, err := os.ReadDir(folder)
	if err != nil {
		return err
	}
	for _, entry := range entries {
		if err := os.RemoveAll(filepath.Join(folder, entry.Name())); err != nil {
			return err
		}
	}
	return nil
}
