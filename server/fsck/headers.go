package fsck

import (
	"bytes"
	"math"
	"strconv"
)

// Commit gives the messages about a commit's contents.
func (r Rules) Commit(contents []byte) []Finding {
	j := &judge{rules: r}
	j.commit(contents)
	return j.found
}

func (j *judge) commit(contents []byte) {
	if j.headers(contents) {
		return
	}
	rest, isTree := bytes.CutPrefix(contents, []byte("tree "))
	if !isTree {
		j.report(MissingTree, "invalid format - expected 'tree' line")
		return
	}
	rest, stops := j.name(rest, BadTreeSha1, "tree")
	for !stops && bytes.HasPrefix(rest, []byte("parent ")) {
		rest, stops = j.name(rest[len("parent "):], BadParentSha1, "parent")
	}
	if stops {
		return
	}
	if rest, stops = j.authors(rest); stops {
		return
	}
	rest, isCommitter := bytes.CutPrefix(rest, []byte("committer "))
	if !isCommitter {
		j.report(MissingCommitter, "invalid format - expected 'committer' line")
		return
	}
	if _, stops = j.ident(rest); !stops && bytes.IndexByte(contents, 0) >= 0 {
		j.report(NulInCommit, "NUL byte in the commit object body")
	}
}

// authors judges all author lines, of which there is to be one.
func (j *judge) authors(rest []byte) ([]byte, bool) {
	count, stops := 0, false
	for bytes.HasPrefix(rest, []byte("author ")) {
		count++
		if rest, stops = j.ident(rest[len("author "):]); stops {
			return rest, true
		}
	}
	switch {
	case count < 1:
		stops = j.report(MissingAuthor, "invalid format - expected 'author' line")
	case count > 1:
		stops = j.report(MultipleAuthors, "invalid format - multiple 'author' lines")
	}
	return rest, stops
}

// headers looks for a NUL in the header, and for its last line end.
func (j *judge) headers(contents []byte) bool {
	end := bytes.Index(contents, []byte("\n\n"))
	if end < 0 {
		end = len(contents)
	}
	if at := bytes.IndexByte(contents[:end], 0); at >= 0 {
		return j.report(NulInHeader, "unterminated header: NUL at offset %d", at)
	}
	if end == len(contents) && !bytes.HasSuffix(contents, []byte("\n")) {
		return j.report(UnterminatedHeader, "unterminated header")
	}
	return false
}

// name judges the rest of a line that names an object, and gives what follows the line.
func (j *judge) name(rest []byte, id ID, word string) ([]byte, bool) {
	digits := 0
	for digits < 40 && digits < len(rest) && isHex(rest[digits]) {
		digits++
	}
	isGood := digits == 40 && len(rest) > 40 && rest[40] == '\n'
	if !isGood && j.report(id, "invalid '%s' line format - bad sha1", word) {
		return rest, true
	}
	if digits >= len(rest) {
		return nil, false
	}
	return rest[digits+1:], false
}

func isHex(b byte) bool {
	return b >= '0' && b <= '9' || b >= 'a' && b <= 'f' || b >= 'A' && b <= 'F'
}

// ident judges the rest of a line that names a person, and gives what follows the line.
func (j *judge) ident(text []byte) (rest []byte, stops bool) {
	line, rest, _ := bytes.Cut(text, []byte("\n"))
	if id, why := identFault(line); id != "" {
		return rest, j.report(id, "invalid author/committer line - %s", why)
	}
	return rest, false
}

// identFault finds the first fault of an ident, in the order in which git looks for them.
func identFault(line []byte) (id ID, why string) {
	if bytes.HasPrefix(line, []byte("<")) {
		return MissingNameBeforeEmail, "missing space before email"
	}
	name := indexAny(line, "<>")
	switch {
	case name < len(line) && line[name] == '>':
		return BadName, "bad name"
	case name == len(line):
		return MissingEmail, "missing email"
	case line[name-1] != ' ':
		return MissingSpaceBeforeMail, "missing space before email"
	}
	email := line[name+1:]
	end := indexAny(email, "<>")
	if end == len(email) || email[end] != '>' {
		return BadEmail, "bad email"
	}
	date, hasSpace := bytes.CutPrefix(email[end+1:], []byte(" "))
	if !hasSpace {
		return MissingSpaceBeforeDate, "missing space before date"
	}
	return dateFault(date)
}

func indexAny(text []byte, bytesOf string) int {
	if at := bytes.IndexAny(text, bytesOf); at >= 0 {
		return at
	}
	return len(text)
}

func dateFault(date []byte) (id ID, why string) {
	if len(date) > 0 && date[0] == '0' && (len(date) < 2 || date[1] != ' ') {
		return ZeroPaddedDate, "zero-padded date"
	}
	seconds, digits := readSeconds(date)
	switch {
	case seconds > math.MaxInt64:
		return BadDateOverflow, "date causes integer overflow"
	case digits == 0 || digits == len(date) || date[digits] != ' ':
		return BadDate, "bad date"
	case !isZone(date[digits+1:]):
		return BadTimezone, "bad time zone"
	}
	return "", ""
}

// readSeconds reads a number as strtoumax(3) does: blanks, a sign, digits. It gives how many bytes it read, 0 where there is no number.
func readSeconds(date []byte) (seconds uint64, size int) {
	text := bytes.TrimLeft(date, " \t\v\f\r")
	blanks := len(date) - len(text)
	sign := 0
	if len(text) > 0 && (text[0] == '-' || text[0] == '+') {
		sign = 1
	}
	digits := sign
	for digits < len(text) && text[digits] >= '0' && text[digits] <= '9' {
		digits++
	}
	if digits == sign {
		return 0, 0
	}
	seconds, err := strconv.ParseUint(string(text[sign:digits]), 10, 64)
	if err != nil {
		seconds = math.MaxUint64
	} else if text[0] == '-' {
		seconds = -seconds
	}
	return seconds, blanks + digits
}

func isZone(zone []byte) bool {
	if len(zone) != 5 || zone[0] != '+' && zone[0] != '-' {
		return false
	}
	for _, b := range zone[1:] {
		if b < '0' || b > '9' {
			return false
		}
	}
	return true
}

// Message gives the messages about a NUL in a commit's message.
func (r Rules) Message(hasNul bool) []Finding {
	j := &judge{rules: r}
	if hasNul {
		j.report(NulInCommit, "NUL byte in the commit object body")
	}
	return j.found
}

// HeaderNul gives the messages about a NUL in the header of a commit or a tag.
func (r Rules) HeaderNul(at int) []Finding {
	j := &judge{rules: r}
	j.report(NulInHeader, "unterminated header: NUL at offset %d", at)
	return j.found
}

// Ident gives the first fault of an author's, committer's or tagger's line, without its word, as its message, or none.
func (r Rules) Ident(line []byte) []Finding {
	j := &judge{rules: r}
	j.ident(line)
	return j.found
}
