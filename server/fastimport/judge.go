package fastimport

import (
	"bytes"
	"strconv"

	"gitpoold/fsck"
	"gitpoold/objects"
	"gitpoold/plumbing"
)

// A command is what the lines and the data that follow belong to.
type command byte

const (
	other command = iota
	blob
	commit
	tag
)

// commands are the first words of lines that begin a command, and so end the one before.
var commands = map[string]command{"blob": blob, "commit": commit, "tag": tag, "reset": other, "alias": other, "checkpoint": other, "progress": other,
	"get-mark": other, "feature": other, "option": other, "done": other}

// modeTree is the mode of a directory, as a change says it.
const modeTree = "040000"

// stored is an object that a line names, and the files that git takes it for.
type stored struct {
	name    plumbing.Name
	special fsck.Special
}

// judge refuses what git's fsck refuses in the objects that a stream tells. What the program refuses it lets pass.
type judge struct {
	rules fsck.Rules
	look  Look
	// asked is what the last line puts where git reads a file.
	asked *stored

	command command
	// mark is the mark of the command, 0 for none.
	mark uint64
	// isInline says that the data of a file comes, which git reads as `special`.
	isInline bool
	special  fsck.Special
	isDone   bool

	data passing
	// isBlob says that the data is the contents of a file; else it is a message, of a commit or of a tag.
	isBlob  bool
	hasZero bool
	modules badBlobs
	others  badBlobs
	// isUnsure says that a blob which cannot be a .gitmodules passed, and that its name is not known.
	isUnsure bool
}

func (j *judge) takeLine(line []byte) error {
	word, rest, _ := bytes.Cut(line, []byte(" "))
	if next, is := commands[string(word)]; is {
		j.endCommand()
		j.command = next
		j.isDone = string(line) == "done"
		return nil
	}
	switch string(word) {
	case "mark":
		j.mark = markOf(rest)
	case "author", "committer", "tagger":
		return j.takeIdent(word, rest)
	case "encoding":
		return j.takeHeader("commit", line)
	case "M":
		return j.takeModify(rest)
	case "C", "R":
		return j.takeCopy(rest)
	}
	return nil
}

// endCommand lets the mark of a commit, a tag or an alias stand for it. Until then it may stand for a blob.
func (j *judge) endCommand() {
	if j.command != blob && j.mark > 0 {
		j.forget(j.mark)
	}
	j.mark, j.isInline = 0, false
}

func (j *judge) forget(mark uint64) {
	delete(j.modules.marks, mark)
	delete(j.others.marks, mark)
}

// markOf reads a mark, and gives 0 for what is none.
func markOf(text []byte) uint64 {
	digits := bytes.TrimPrefix(text, []byte(":"))
	mark, err := strconv.ParseUint(string(digits), 10, 64)
	if err != nil || len(digits) == len(text) {
		return 0
	}
	return mark
}

// takeIdent judges an ident as it is stored: without a name it has a space in front.
func (j *judge) takeIdent(word, ident []byte) error {
	kind := "commit"
	if string(word) == "tagger" {
		kind = "tag"
	}
	if bytes.HasPrefix(ident, []byte("<")) {
		ident = append([]byte(" "), ident...)
	}
	if !objects.IsIdent(ident) {
		return nil
	}
	if err := j.takeHeader(kind, ident); err != nil {
		return err
	}
	return judged("a "+kind, j.rules.Ident(ident))
}

// takeHeader judges a line of a header: it has no NUL.
func (j *judge) takeHeader(kind string, line []byte) error {
	at := bytes.IndexByte(line, 0)
	if at < 0 {
		return nil
	}
	return judged("a "+kind, j.rules.HeaderNul(at))
}

func (j *judge) beginData(size int64) {
	j.isBlob, j.hasZero = j.command == blob || j.isInline, false
	if j.isBlob {
		j.data.begin(size)
	}
}

func (j *judge) takeData(part []byte) {
	if j.isBlob {
		j.data.take(part)
	} else if bytes.IndexByte(part, 0) >= 0 {
		j.hasZero = true
	}
}

func (j *judge) endData() error {
	if !j.isBlob {
		return judged("a commit", j.rules.Message(j.hasZero && j.command == commit))
	}
	bad, name := j.data.end(j.rules)
	isInline := j.isInline
	j.isInline = false
	if isInline && bad&j.special != 0 {
		return badFile(bad & j.special)
	}
	mark := j.mark
	if isInline {
		mark = 0
	} else if mark > 0 {
		j.forget(mark)
	}
	return j.remember(bad, mark, name)
}

// remember keeps what a blob cannot be, until a file names it.
func (j *judge) remember(bad fsck.Special, mark uint64, name plumbing.Name) error {
	if bad&fsck.Attributes != 0 {
		j.others.add(mark, name)
	}
	if bad&fsck.Modules == 0 {
		return nil
	}
	j.isUnsure = j.isUnsure || name.IsZero()
	if !j.modules.add(mark, name) {
		return refuse("more than %d blobs that could be no .gitmodules", mostBad)
	}
	return nil
}
