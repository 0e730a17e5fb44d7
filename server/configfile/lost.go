package configfile

import (
	"errors"
	"fmt"
	"os"
	"path/filepath"
	"strings"

	"gitpoold/regular"
)

// Which lists a folder had stands in this file, and how one is known that was cut. A list that is gone, empty or cut would take blocks and grants
// back without a word.

const (
	// head is the first line of a list, and tail its last one. What is written by hand need not have them; the next change writes them.
	head = "# This list ends with the line `# end`; without that line it was cut."
	tail = "# end"
	// begunName is the file of a folder that names the lists which its server has had, a line each.
	begunName = "lists-begun"
)

// Lost says that a list is not what it was.
type Lost struct{ Path, Reason string }

func (l *Lost) Error() string {
	return fmt.Sprintf("%s: the list %s; nothing was changed (docs/SERVER-REFERENCE.md, \"A list that was lost\")", l.Path, l.Reason)
}

// Text is the text of a list with these lines.
func Text(lines ...string) string {
	return strings.Join(append(append([]string{head}, lines...), tail, ""), "\n")
}

// read gives the lines of a list but the first and the last one. It is Lost where the folder has had the list and it is gone or empty, and where it
// was cut.
func read(path string) ([]string, error) {
	text, err := regular.Read(path)
	isThere := !errors.Is(err, os.ErrNotExist)
	if isThere && err != nil {
		return nil, err
	}
	if strings.TrimSpace(string(text)) == "" {
		return nil, neverThere(path, isThere)
	}
	lines, isWhole := split(string(text))
	if !isWhole {
		return nil, &Lost{path, "was cut: it has no line `" + tail + "`"}
	}
	return lines, nil
}

// split gives the lines of a text but the first and the last one of a list, and tells whether the last one is there where the first one is.
func split(text string) (lines []string, isWhole bool) {
	var hasHead, hasTail bool
	for _, line := range strings.Split(strings.TrimSuffix(text, "\n"), "\n") {
		switch strings.TrimRight(line, "\r") {
		case head:
			hasHead = true
		case tail:
			hasTail = true
		default:
			lines = append(lines, line)
		}
	}
	return lines, hasTail || !hasHead
}

// neverThere is Lost where the folder of a list without lines has had that list.
func neverThere(path string, isThere bool) error {
	had, err := had(filepath.Dir(path))
	if err != nil || !had[filepath.Base(path)] {
		return err
	}
	if isThere {
		return &Lost{path, "is empty"}
	}
	return &Lost{path, "is gone"}
}

// had gives the lists that the server of a folder has had.
func had(folder string) (map[string]bool, error) {
	text, err := regular.Read(filepath.Join(folder, begunName))
	if err != nil && !errors.Is(err, os.ErrNotExist) {
		return nil, err
	}
	names := map[string]bool{}
	for _, name := range strings.Fields(string(text)) {
		names[name] = true
	}
	return names, nil
}

// Begin is called by a server before it reads the lists of its folder. One that the folder has never had is made, empty; from now on each has to be
// there, with a last line.
func Begin(folder string, names ...string) error {
	unlock, err := Lock(folder)
	if err != nil {
		return err
	}
	defer unlock()
	before, err := had(folder)
	if err != nil {
		return err
	}
	isNew := false
	for _, name := range names {
		path := filepath.Join(folder, name)
		lines, err := read(path)
		if err == nil && !before[name] {
			isNew = true
			err = Write(path, lines)
		}
		if err != nil {
			return err
		}
	}
	if !isNew {
		return nil
	}
	return replace(filepath.Join(folder, begunName), strings.Join(append(names, ""), "\n"))
}
