package backups

import (
	"errors"
	"fmt"
	"os"
	"path/filepath"
	"regexp"
	"sort"
	"strings"
	"syscall"
	"time"

	"gitpoold/faultpoint"
	"gitpoold/regular"
)

const (
	// markName says that a folder has backups; whoever writes one holds it.
	markName = "gitpool-backups"
	// nextName is a moment that is not whole yet, and droppedName one that is not whole any more.
	nextName, droppedName = "next", "dropped"
	timeForm              = "2006-01-02T15-04-05.000Z"
)

var momentName = regexp.MustCompile(`^\d{4}-\d\d-\d\dT\d\d-\d\d-\d\d\.\d{3}Z$`)

// Make keeps what a server's folder has in a folder of backups, of which the last `keep` moments stay. The source is what Take made; or the server's
// folder, while no server runs. It gives the name of the new moment. On an error the folder has the moments that it had.
func Make(source, to string, keep int) (name string, err error) {
	all, err := sourceList(source)
	if err != nil {
		return "", err
	}
	held, err := begin(to)
	if err != nil {
		return "", err
	}
	defer held.Close()
	name = time.Now().UTC().Format(timeForm)
	if err := makeNext(source, to, all); err != nil {
		os.RemoveAll(filepath.Join(to, nextName))
		if errors.Is(err, syscall.ENOSPC) || errors.Is(err, syscall.EDQUOT) {
			err = fmt.Errorf("%s has no room for another backup, and has those that it had: %w", to, err)
		}
		return "", err
	}
	faultpoint.Here("before a backup has its name")
	if err := os.Rename(filepath.Join(to, nextName), filepath.Join(to, name)); err != nil {
		return "", err
	}
	if err := regular.SyncFolder(to); err != nil {
		return "", err
	}
	faultpoint.Here("after a backup has its name")
	return name, dropOld(to, keep)
}

// sourceList gives what a source has.
func sourceList(source string) ([]entry, error) {
	all, err := readList(source)
	if errors.Is(err, os.ErrNotExist) {
		return files(source, "")
	}
	return all, err
}

// begin makes a folder of backups where there is none, holds it, and removes what a run that was killed has left.
func begin(to string) (*os.File, error) {
	if err := os.MkdirAll(to, 0o700); err != nil {
		return nil, err
	}
	entries, err := os.ReadDir(to)
	if err != nil {
		return nil, err
	}
	mark := filepath.Join(to, markName)
	if _, err := os.Lstat(mark); len(entries) > 0 && errors.Is(err, os.ErrNotExist) {
		return nil, fmt.Errorf("%s has something else than backups; give an empty folder", to)
	}
	held, err := os.OpenFile(mark, os.O_RDWR|os.O_CREATE|syscall.O_NOFOLLOW, 0o600)
	if err != nil {
		return nil, err
	}
	err = syscall.Flock(int(held.Fd()), syscall.LOCK_EX|syscall.LOCK_NB)
	if err == syscall.EWOULDBLOCK {
		err = fmt.Errorf("another backup to %s is at work", to)
	}
	for _, name := range []string{nextName, droppedName} {
		if err == nil {
			err = os.RemoveAll(filepath.Join(to, name))
		}
	}
	if err != nil {
		held.Close()
		return nil, err
	}
	return held, nil
}

// makeNext writes all files of a moment, and its list at the end.
func makeNext(source, to string, all []entry) error {
	next := filepath.Join(to, nextName)
	if err := os.Mkdir(next, 0o700); err != nil {
		return err
	}
	before, known := previous(to)
	for at := range all {
		faultpoint.Here("before a file of a backup is written")
		it := &all[at]
		if err := os.MkdirAll(filepath.Join(next, filepath.Dir(it.path)), 0o700); err != nil {
			return err
		}
		place := filepath.Join(next, it.path)
		digest := known[it.path].sameAs(*it, source, before)
		if digest == "" || os.Link(filepath.Join(before, it.path), place) != nil {
			var err error
			if digest, err = it.copy(filepath.Join(source, it.path), place, true); err != nil {
				return err
			}
		}
		it.digest = digest
	}
	if err := regular.Create(filepath.Join(next, listName), format(all), next, 0o600); err != nil {
		return err
	}
	return regular.SyncFolders(next)
}

// previous gives the newest moment of a folder, and its files by their paths. One that cannot be read has none.
func previous(to string) (moment string, known map[string]entry) {
	known = map[string]entry{}
	names, err := Moments(to)
	if err != nil || len(names) == 0 {
		return "", known
	}
	moment = filepath.Join(to, names[len(names)-1])
	all, _ := readList(moment)
	for _, it := range all {
		known[it.path] = it
	}
	return moment, known
}

// sameAs gives the digest of a file of the moment before where the new one has the same: a file of the same size and time, which are those of the
// file in the server's folder.
func (e entry) sameAs(now entry, source, before string) string {
	if e.path == "" || e.size != now.size {
		return ""
	}
	one, err := os.Stat(filepath.Join(before, e.path))
	if err != nil || one.Size() != e.size {
		return ""
	}
	other, err := os.Stat(filepath.Join(source, e.path))
	if err != nil || !one.ModTime().Equal(other.ModTime()) {
		return ""
	}
	return e.digest
}

// Moments gives the names of the moments of a folder, the oldest one first.
func Moments(folder string) (names []string, err error) {
	entries, err := os.ReadDir(folder)
	for _, it := range entries {
		if it.IsDir() && momentName.MatchString(it.Name()) {
			names = append(names, it.Name())
		}
	}
	sort.Strings(names)
	return names, err
}

// dropOld removes the oldest moments, each of which has another name before it is not whole any more.
func dropOld(to string, keep int) error {
	names, err := Moments(to)
	for ; err == nil && len(names) > keep; names = names[1:] {
		dropped := filepath.Join(to, droppedName)
		if err = os.Rename(filepath.Join(to, names[0]), dropped); err == nil {
			err = regular.SyncFolder(to)
		}
		faultpoint.Here("before an old backup is removed")
		if err == nil {
			err = os.RemoveAll(dropped)
		}
	}
	return err
}

// Below tells whether a path leads into a folder.
func Below(path, folder string) bool {
	path, err := filepath.Abs(path)
	if err != nil {
		return false
	}
	folder, err = filepath.Abs(folder)
	return err == nil && (path == folder || strings.HasPrefix(path, folder+"/"))
}
