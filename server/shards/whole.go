package shards

import (
	"fmt"
	"os"
	"path/filepath"
	"regexp"
)

// Missing says that a folder lacks a shard that it had, such as one whose disk is not mounted: its tenants would seem to be empty.
type Missing struct{ Folder string }

func (m *Missing) Error() string {
	return fmt.Sprintf("%s is missing, and the folder had it; put it back (docs/DEPLOY.md, \"When the server ends\"); nothing was changed", m.Folder)
}

var shardName = regexp.MustCompile(`^shard-[0-9]+$`)

// isWhole asks that no shard of a folder is missing: none stands behind one that is not there, and a table of places is of several.
func isWhole(folder string) error {
	entries, err := os.ReadDir(folder)
	if err != nil {
		return err
	}
	count, found, hasTable := Count(folder), 1, false
	for _, it := range entries {
		switch {
		case shardName.MatchString(it.Name()):
			found++
		case it.Name() == placesName:
			segments, err := os.ReadDir(filepath.Join(folder, placesName))
			hasTable = hasTable || err != nil || len(segments) > 0
		case it.Name() == placesMark:
			hasTable = true
		}
	}
	if found > count || count == 1 && hasTable {
		return &Missing{Folder(folder, count+1)}
	}
	return nil
}
