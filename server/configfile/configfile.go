// Package configfile keeps the operator's files: text with one entry a line, which commands change and a running server reads again.
package configfile

import (
	"errors"
	"fmt"
	"os"
	"path/filepath"
	"strings"
	"syscall"

	"gitpoold/regular"
)

// Read gives the lines of a file that are neither empty nor comments, each split at white space. A file that is not there has none, unless it was
// there: see Lost.
func Read(path string) (lines [][]string, err error) {
	all, err := read(path)
	for _, line := range all {
		words := strings.Fields(line)
		if len(words) > 0 && !strings.HasPrefix(words[0], "#") {
			lines = append(lines, words)
		}
	}
	return lines, err
}

// Parse gives what `parse` makes of the words of each line of a file. The error about a line says in which file it stands.
func Parse[T any](path string, parse func(words []string) (T, error)) (all []T, err error) {
	lines, err := Read(path)
	for _, words := range lines {
		it, err := parse(words)
		if err != nil {
			return nil, fmt.Errorf("%s: %w", path, err)
		}
		all = append(all, it)
	}
	return all, err
}

// Rows gives the lines of a file, with one space between words.
func Rows(path string) ([]string, error) {
	return Parse(path, func(words []string) (string, error) { return strings.Join(words, " "), nil })
}

// Before is called before a file changes, and nothing changes where it fails: a command writes down what it is about to do.
var Before = func() error { return nil }

// Change reads a file, lets `change` give its new lines, and puts the new file in the place of the old one in one step, if it differs. Other calls of
// Change in the same folder wait meanwhile. Comments stay where no line before them goes.
func Change(path string, change func(lines []string) ([]string, error)) error {
	unlock, err := Lock(filepath.Dir(path))
	if err != nil {
		return err
	}
	defer unlock()
	lines, err := read(path)
	if err != nil {
		return err
	}
	before := Text(lines...)
	if lines, err = change(lines); err != nil || Text(lines...) == before {
		return err
	}
	if err := Before(); err != nil {
		return err
	}
	return Write(path, lines)
}

// Lock keeps commands from changing the lists of a folder until the call that it gives.
func Lock(folder string) (unlock func(), err error) {
	path := filepath.Join(folder, "lists.lock")
	file, err := os.OpenFile(path, os.O_RDWR|os.O_CREATE, 0o600)
	if err != nil {
		return nil, err
	}
	if err = regular.Own(file, folder); err == nil {
		err = syscall.Flock(int(file.Fd()), syscall.LOCK_EX)
	}
	if err != nil {
		file.Close()
		return nil, err
	}
	return func() { file.Close() }, nil
}

// Write puts a file with these lines in the place of what is there, in one step.
func Write(path string, lines []string) error { return replace(path, Text(lines...)) }

// replace writes a file beside its place, syncs it, and renames it. A link stays one. The file belongs to the owner of the folder that has it or the
// link, and has the mode of the one before.
func replace(path, text string) error {
	owned := filepath.Dir(path)
	if real, err := filepath.EvalSymlinks(path); err == nil {
		path = real
	}
	mode := os.FileMode(0o600)
	if info, err := os.Stat(path); err == nil {
		mode = info.Mode().Perm()
	}
	if err := os.Remove(path + ".new"); err != nil && !errors.Is(err, os.ErrNotExist) {
		return err
	}
	if err := regular.Create(path+".new", text, owned, mode); err != nil {
		return err
	}
	if err := os.Rename(path+".new", path); err != nil {
		return err
	}
	return regular.SyncFolder(filepath.Dir(path))
}
