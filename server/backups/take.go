package backups

import (
	"crypto/sha256"
	"errors"
	"fmt"
	"io"
	"os"
	"path/filepath"

	"gitpoold/configfile"
	"gitpoold/lfs"
	"gitpoold/regular"
)

// Take gives what a server's folder has now second names in another folder on the same file system. Nothing may change in the pools and journals
// meanwhile. Pool files and segments are the same files afterwards, of which a segment may grow; all others are copies.
func Take(folder, into string) error {
	unlock, err := configfile.Lock(folder)
	if err != nil {
		return err
	}
	defer unlock()
	all, err := files(folder, "")
	if err != nil {
		return err
	}
	for _, it := range all {
		if err := it.take(folder, into); err != nil {
			return err
		}
	}
	return regular.Create(filepath.Join(into, listName), format(all), into, 0o600)
}

func (e entry) take(folder, into string) error {
	from, to := filepath.Join(folder, e.path), filepath.Join(into, e.path)
	if err := os.MkdirAll(filepath.Dir(to), 0o700); err != nil {
		return err
	}
	if isLarge := filepath.Base(to) == "pool" || isJournal(filepath.Base(filepath.Dir(to))) || lfs.ValidOID(filepath.Base(to)); isLarge {
		// A link is followed: the pool file may be elsewhere.
		if real, err := filepath.EvalSymlinks(from); err == nil && os.Link(real, to) == nil {
			return nil
		}
	}
	_, err := e.copy(from, to, false)
	return err
}

// errShorter says that a file has not the bytes that belong to a moment.
var errShorter = errors.New("it has become shorter")

// copy copies the bytes of a file that belong to a moment, and gives their digest. The copy has the time of the file, and is synced if it is to last.
func (e entry) copy(from, to string, lasts bool) (digest string, err error) {
	source, err := regular.Open(from, os.O_RDONLY)
	if err != nil {
		return "", err
	}
	defer source.Close()
	info, err := source.Stat()
	if err != nil {
		return "", err
	}
	copied, err := os.OpenFile(to, os.O_WRONLY|os.O_CREATE|os.O_EXCL, 0o600)
	if err != nil {
		return "", err
	}
	sum := sha256.New()
	count, err := io.Copy(io.MultiWriter(copied, sum), io.LimitReader(source, e.size))
	if err == nil && count < e.size {
		err = fmt.Errorf("%s: %w", from, errShorter)
	}
	if err == nil && lasts {
		err = copied.Sync()
	}
	if closing := copied.Close(); err == nil {
		err = closing
	}
	if err == nil {
		err = os.Chtimes(to, info.ModTime(), info.ModTime())
	}
	return fmt.Sprintf("%x", sum.Sum(nil)), err
}
