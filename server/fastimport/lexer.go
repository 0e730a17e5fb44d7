package fastimport

import (
	"bytes"
	"strconv"

	"gitpoold/objects"
)

// lexer tells lines from data. It takes a stream in pieces that may be cut at any byte, and holds a line of which a part has come.
type lexer struct {
	line []byte

	isInData bool
	// left is how many bytes of a counted data are to come.
	left uint64
	// delimiter ends a data that is not counted. Its current line has `matched` bytes of the delimiter so far, or -1 where it is another line.
	delimiter []byte
	matched   int

	// isOver says that what comes counts no more: the stream is done, or the program refuses it at a line that came.
	isOver bool
}

// items take what a lexer finds. An error is about the item, which ends the stream before it is carried out.
type items interface {
	// takeLine takes a line without its line end. It is neither a comment nor the header of a data.
	takeLine(line []byte) error
	// beginData begins a data. Its size is -1 where a delimiter ends it.
	beginData(size int64)
	takeData(part []byte)
	endData() error
}

// next takes the bytes up to the end of an item, or all of them where none ends, and gives how many it took.
func (l *lexer) next(piece []byte, to items) (taken int, err error) {
	if l.isOver {
		return len(piece), nil
	}
	if l.isInData && l.delimiter == nil {
		return l.takeCounted(piece, to)
	}
	part, isWhole := piece, false
	if end := bytes.IndexByte(piece, '\n'); end >= 0 {
		part, isWhole, taken = piece[:end], true, 1
	}
	taken += len(part)
	if l.isInData {
		return taken, l.takeDelimited(part, isWhole, to)
	}
	return taken, l.takePart(part, isWhole, to)
}

func (l *lexer) takeCounted(piece []byte, to items) (taken int, err error) {
	taken = len(piece)
	if uint64(taken) > l.left {
		taken = int(l.left)
	}
	l.left -= uint64(taken)
	to.takeData(piece[:taken])
	if l.left > 0 {
		return taken, nil
	}
	l.isInData = false
	return taken, to.endData()
}

// takeDelimited takes a part of a line of a delimited data. What may be the delimiter is held back, for it is the same bytes.
func (l *lexer) takeDelimited(part []byte, isWhole bool, to items) error {
	if l.matched >= 0 && bytes.HasPrefix(l.delimiter[l.matched:], part) {
		l.matched += len(part)
		if !isWhole {
			return nil
		}
		if l.matched == len(l.delimiter) {
			l.isInData, l.delimiter = false, nil
			return to.endData()
		}
		part = nil
	}
	if l.matched >= 0 {
		to.takeData(l.delimiter[:l.matched])
		l.matched = -1
	}
	to.takeData(part)
	if isWhole {
		to.takeData([]byte("\n"))
		l.matched = 0
	}
	return nil
}

func (l *lexer) takePart(part []byte, isWhole bool, to items) error {
	if len(l.line)+len(part) > objects.LongestLine {
		l.line, l.isOver = nil, true
		return nil
	}
	if !isWhole {
		l.line = append(l.line, part...)
		return nil
	}
	if len(l.line) == 0 {
		return l.takeLine(part, to)
	}
	whole := append(l.line, part...)
	if l.line = whole[:0]; cap(whole) > heldLine {
		l.line = nil
	}
	return l.takeLine(whole, to)
}

// heldLine is how much of the memory of lines is kept for the next one.
const heldLine = 4 << 10

func (l *lexer) takeLine(line []byte, to items) error {
	header := bytes.TrimPrefix(line, []byte("data "))
	switch {
	case bytes.HasPrefix(line, []byte("#")):
		return nil
	case len(header) == len(line):
		return to.takeLine(line)
	case bytes.HasPrefix(header, []byte("<<")):
		l.delimiter, l.matched = append([]byte{}, header[2:]...), 0
		l.isInData, l.isOver = true, len(l.delimiter) == 0
		to.beginData(-1)
		return nil
	}
	return l.count(header, to)
}

// count begins a counted data. A count that is none, or is too large, is for the program to refuse.
func (l *lexer) count(digits []byte, to items) (err error) {
	l.left, err = strconv.ParseUint(string(digits), 10, 64)
	if err != nil || len(digits) > 20 || l.left > objects.LongestData {
		l.isOver = true
		return nil
	}
	l.isInData = l.left > 0
	to.beginData(int64(l.left))
	if l.left == 0 {
		return to.endData()
	}
	return nil
}
