package plumbing

import (
	"bytes"
	"strconv"
)

// Head is what a walk needs of a commit: its tree, its parents, and when it was committed, in seconds since 1970.
type Head struct {
	Tree    Name
	Parents []Name
	Time    int64
}

// ReadHead reads what it finds of a commit's header, and gives zeros for what is not there.
func ReadHead(contents []byte) (head Head) {
	for {
		line, rest, found := bytes.Cut(contents, []byte("\n"))
		if !found || len(line) == 0 {
			return head
		}
		word, value, _ := bytes.Cut(line, []byte(" "))
		switch string(word) {
		case "tree":
			head.Tree, _ = ReadName(value)
		case "parent":
			if parent, ok := ReadName(value); ok {
				head.Parents = append(head.Parents, parent)
			}
		case "committer":
			head.Time = TimeOf(value)
			return head
		}
		contents = rest
	}
}

// TimeOf gives the seconds of an ident, or 0.
func TimeOf(ident []byte) int64 {
	_, date, _ := bytes.Cut(ident, []byte("> "))
	digits, _, _ := bytes.Cut(date, []byte(" "))
	seconds, err := strconv.ParseUint(string(digits), 10, 63)
	if err != nil {
		return 0
	}
	return int64(seconds)
}

// Tagged gives the object that a tag's first line names.
func Tagged(contents []byte) (Name, bool) {
	line, _, _ := bytes.Cut(contents, []byte("\n"))
	return ReadName(bytes.TrimPrefix(line, []byte("object ")))
}

// ReadName reads forty hexadecimal digits as objects have them: in lower case.
func ReadName(digits []byte) (Name, bool) {
	if bytes.ContainsAny(digits, "ABCDEF") {
		return Name{}, false
	}
	return ParseName(string(digits))
}
