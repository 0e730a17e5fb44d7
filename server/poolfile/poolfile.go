// Package poolfile finds a pool file and reads its digest, without loading it: docs/FORMATS.md, "Pool files".
package poolfile

import (
	"errors"
	"fmt"
	"os"
	"path/filepath"

	"gitpoold/regular"
)

// ErrForm says that a file is too short for a pool file.
var ErrForm = errors.New("this is no pool file")

const magic = "gitpool\n"

// Find gives the path of the file to which links lead. A file that is named by a link is replaced where it is, and the link stays.
func Find(path string) (string, error) {
	found, err := filepath.EvalSymlinks(path)
	if err != nil {
		return "", err
	}
	file, err := regular.Open(found, os.O_RDONLY)
	if err != nil {
		return "", err
	}
	return found, file.Close()
}

// Digest gives the last 20 bytes of a pool file.
func Digest(path string) (digest [20]byte, err error) {
	file, err := regular.Open(path, os.O_RDONLY)
	if err != nil {
		return digest, err
	}
	defer file.Close()
	info, err := file.Stat()
	if err != nil {
		return digest, err
	}
	if info.Size() < int64(len(magic)+len(digest)) {
		return digest, fmt.Errorf("%s: %w", path, ErrForm)
	}
	_, err = file.ReadAt(digest[:], info.Size()-int64(len(digest)))
	return digest, err
}
