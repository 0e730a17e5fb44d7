package child

import (
	"io"
	"os"
	"path/filepath"
)

// device is the file beside the program that stands before its C library: packaging/pread.c. The loader puts the program's folder in the place of
// $ORIGIN, so that the folder may have any name.
const (
	device     = "pread.so"
	fromFolder = "$ORIGIN/" + device
)

// Behind gives the words that run the program behind its device, where it has one, and as it is where it has none. A script has none, and sees to
// the program that it runs.
func Behind(program string, words ...string) []string {
	words = append([]string{program}, words...)
	place, err := filepath.EvalSymlinks(program)
	if err != nil {
		return words
	}
	if _, err := os.Stat(filepath.Join(filepath.Dir(place), device)); err != nil || isScript(place) {
		return words
	}
	first := "LD_PRELOAD=" + fromFolder
	if others := os.Getenv("LD_PRELOAD"); others != "" {
		first += ":" + others
	}
	return append([]string{"env", first}, words...)
}

// isScript tells whether a program is a script: the loader would look for the device beside its shell.
func isScript(program string) bool {
	file, err := os.Open(program)
	if err != nil {
		return true
	}
	defer file.Close()
	first := make([]byte, 2)
	_, err = io.ReadFull(file, first)
	return err != nil || string(first) == "#!"
}
