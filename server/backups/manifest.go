// Package backups keeps what a server's folder has, as of one moment, in another folder, and brings it back.
//
// A folder of backups has a folder for each moment, named by its time, which appears whole: it is written as `next`, synced, and renamed. A file that
// a moment has in common with the one before is the same file, with two names. Each has the list `moment` of its files, with their sizes and digests.
package backups

import (
	"crypto/sha256"
	"errors"
	"fmt"
	"os"
	"path/filepath"
	"regexp"
	"strconv"
	"strings"

	"gitpoold/lfs"
	"gitpoold/regular"
)

// listName is the name of the list of a moment.
const listName = "moment"

// entry is a file of a moment: its path below the folder, how many bytes of it belong to the moment, and their SHA-256, "-" while it is not known.
type entry struct {
	path   string
	size   int64
	digest string
}

// Damaged says that a backup is not what it was.
type Damaged struct{ Path, Reason string }

func (d *Damaged) Error() string {
	return fmt.Sprintf("%s: the backup %s; nothing was changed", d.Path, d.Reason)
}

// format is the text of a list. Its last line has the digest of those before, so that one that was cut is known.
func format(all []entry) string {
	var text strings.Builder
	for _, it := range all {
		fmt.Fprintf(&text, "%s %d %s\n", it.digest, it.size, it.path)
	}
	return text.String() + lastLine(text.String())
}

func lastLine(text string) string { return fmt.Sprintf("end %x\n", sha256.Sum256([]byte(text))) }

// readList reads the list of a moment.
func readList(moment string) (all []entry, err error) {
	path := filepath.Join(moment, listName)
	text, err := regular.Read(path)
	if err != nil {
		return nil, err
	}
	end := strings.LastIndex(strings.TrimSuffix(string(text), "\n"), "\n") + 1
	if string(text[end:]) != lastLine(string(text[:end])) {
		return nil, &Damaged{path, "has a list that is not whole"}
	}
	for _, line := range strings.Split(strings.TrimSuffix(string(text[:end]), "\n"), "\n") {
		words := strings.SplitN(line, " ", 3)
		if len(words) != 3 {
			return nil, &Damaged{path, "has a line that is none of DIGEST SIZE PATH"}
		}
		size, err := strconv.ParseInt(words[1], 10, 64)
		if err != nil || !isBelow(words[2]) {
			return nil, &Damaged{path, "has a line that is none of DIGEST SIZE PATH"}
		}
		all = append(all, entry{words[2], size, words[0]})
	}
	return all, nil
}

// isBelow tells whether a path leads to a place below a folder.
func isBelow(path string) bool {
	return path == filepath.Clean(path) && !filepath.IsAbs(path) && path != ".." && !strings.HasPrefix(path, "../")
}

var (
	shardName   = regexp.MustCompile(`^shard-[0-9]+$`)
	segmentName = regexp.MustCompile(`^[0-9]+$`)
	// leftOut are files that a server makes anew: locks, what it was about to put in the place of another file, and which segment is the newest one.
	leftOut = regexp.MustCompile(`^(lock|lists\.lock|journal-begun|pool\.rescued.*|.*\.new|.*\.next)$`)
)

// files lists what a server's folder has, or the folder of a shard below it.
func files(folder, below string) (all []entry, err error) {
	entries, err := os.ReadDir(filepath.Join(folder, below))
	for _, it := range entries {
		path := filepath.Join(below, it.Name())
		info, err := os.Stat(filepath.Join(folder, path))
		if err != nil {
			return nil, err
		}
		switch {
		case info.IsDir() && isPart(path):
			more, err := files(folder, path)
			if err != nil {
				return nil, err
			}
			all = append(all, more...)
		case strings.Contains(path, "\n"):
			return nil, errors.New("a file whose name has more than one line cannot be kept")
		case info.Mode().IsRegular() && isKept(path):
			all = append(all, entry{path, info.Size(), "-"})
		}
	}
	return all, err
}

// isPart tells whether a folder has something that is to be kept: a shard, a journal, the table of places, or the large files of a tenant.
func isPart(path string) bool {
	name := filepath.Base(path)
	return path == name && (shardName.MatchString(name) || name == lfs.FolderName) || isJournal(name) || isOfFiles(path) && name[0] != '.'
}

// isOfFiles tells whether a path leads to something below the large files of tenants.
func isOfFiles(path string) bool { return strings.HasPrefix(path, lfs.FolderName+"/") }

func isJournal(name string) bool { return name == "journal" || name == "places" }

// isKept tells whether a file is to be kept.
func isKept(path string) bool {
	name := filepath.Base(path)
	if isJournal(filepath.Base(filepath.Dir(path))) && !isOfFiles(path) {
		return segmentName.MatchString(name)
	}
	return !leftOut.MatchString(name)
}
