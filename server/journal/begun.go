package journal

import (
	"errors"
	"fmt"
	"os"
	"path/filepath"
	"strconv"
	"strings"

	"gitpoold/regular"
)

// Beside the folder of a journal lies a file with the number of its newest segment. Without it, a start would take a journal that was lost for one
// that has not begun. It is written behind the segment, so the journal has that segment or a later one.

// OpenBegun opens a journal as Open does, and keeps such a file, `begun`. Where the journal lacks the segment that it names, that is Damaged. One
// that is not there says nothing: the folder is new, comes from a backup, or is that of an earlier version.
func OpenBegun(folder, begun string, pool Digest, tell func(format string, values ...any)) (*Files, error) {
	if err := hasNewest(folder, begun); err != nil {
		return nil, err
	}
	j, err := Open(folder, pool, tell)
	if err != nil {
		return nil, err
	}
	j.begun = begun
	if err := j.noteBegun(); err != nil {
		j.Close()
		return nil, err
	}
	return j, nil
}

// hasNewest asks that a journal has the segment that its file names, or a later one. Where a crash has emptied the file, any segment will do.
func hasNewest(folder, begun string) error {
	text, err := regular.Read(begun)
	if errors.Is(err, os.ErrNotExist) {
		return nil
	}
	if err != nil {
		return err
	}
	newest, err := strconv.ParseUint(strings.TrimSpace(string(text)), 10, 64)
	if err != nil || newest < 1 {
		newest = 1
	}
	numbers, err := list(folder)
	if err != nil {
		return err
	}
	if len(numbers) == 0 || numbers[len(numbers)-1] < newest {
		return &Damaged{path(folder, newest), 0, "the segment is missing"}
	}
	return nil
}

// noteBegun writes which segment is the newest one.
func (j *Files) noteBegun() error {
	if j.begun == "" {
		return nil
	}
	err := writeSynced(j.begun+".new", []byte(fmt.Sprintf("%d\n", j.current().number)))
	if err == nil {
		err = os.Rename(j.begun+".new", j.begun)
	}
	if err == nil {
		err = regular.SyncFolder(filepath.Dir(j.begun))
	}
	return err
}
