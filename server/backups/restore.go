package backups

import (
	"errors"
	"fmt"
	"os"
	"path/filepath"
	"syscall"

	"gitpoold/faultpoint"
	"gitpoold/regular"
)

// Restore makes a server's folder, which may be there if it is empty, of a moment of a folder of backups; of the newest one where `moment` is "".
// It belongs to the owner that it has, or to who runs this. The folder appears whole, or stays as it was.
func Restore(from, moment, folder string) (name string, err error) {
	if moment == "" {
		if moment, err = newest(from); err != nil {
			return "", err
		}
	}
	source := filepath.Join(from, moment)
	all, err := readList(source)
	if err != nil {
		return "", err
	}
	user, group, err := ownerOf(folder)
	if err != nil {
		return "", err
	}
	next := filepath.Clean(folder) + ".restored"
	if err := os.RemoveAll(next); err != nil {
		return "", err
	}
	err = fill(source, next, all)
	if err == nil {
		err = give(next, user, group)
	}
	faultpoint.Here("before a restored folder has its name")
	if err == nil {
		// An empty folder may be there, which os.Rename refuses to replace.
		err = syscall.Rename(next, filepath.Clean(folder))
	}
	if err != nil {
		os.RemoveAll(next)
		return "", fmt.Errorf("%s is not restored: %w", folder, err)
	}
	return moment, regular.SyncFolder(filepath.Dir(filepath.Clean(folder)))
}

func newest(from string) (string, error) {
	names, err := Moments(from)
	if err == nil && len(names) == 0 {
		err = fmt.Errorf("%s has no backup", from)
	}
	if err != nil {
		return "", err
	}
	return names[len(names)-1], nil
}

// ownerOf gives to whom a folder is to belong. One that has something is refused.
func ownerOf(folder string) (user, group int, err error) {
	entries, err := os.ReadDir(folder)
	switch {
	case errors.Is(err, os.ErrNotExist):
		return os.Geteuid(), os.Getegid(), nil
	case err != nil:
		return 0, 0, err
	case len(entries) > 0:
		return 0, 0, fmt.Errorf("%s is not empty, and nothing was changed there", folder)
	}
	return regular.Owner(folder)
}

// fill copies all files of a moment, which have to be what they were.
func fill(source, next string, all []entry) error {
	if err := os.Mkdir(next, 0o700); err != nil {
		return err
	}
	for _, it := range all {
		faultpoint.Here("before a file is restored")
		from, to := filepath.Join(source, it.path), filepath.Join(next, it.path)
		if err := os.MkdirAll(filepath.Dir(to), 0o700); err != nil {
			return err
		}
		digest, err := it.copy(from, to, true)
		if err != nil && !errors.Is(err, errShorter) {
			return err
		}
		if err != nil || digest != it.digest {
			return &Damaged{from, "has other bytes than were written"}
		}
	}
	return regular.SyncFolders(next)
}

// give gives a folder, with all that it has, to its owner.
func give(folder string, user, group int) error {
	return filepath.WalkDir(folder, func(path string, it os.DirEntry, err error) error {
		if err == nil {
			err = os.Lchown(path, user, group)
		}
		if errors.Is(err, syscall.EPERM) {
			err = fmt.Errorf("%s belongs to another user; run this as that user, or as root: %w", folder, err)
		}
		return err
	})
}
