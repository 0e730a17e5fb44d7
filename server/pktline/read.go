// Package pktline reads and writes pkt-lines and side bands: gitprotocol-common(5), gitprotocol-pack(5), gitprotocol-v2(5).
package pktline

import (
	"bufio"
	"bytes"
	"errors"
	"fmt"
	"io"
)

// LongestData is how many bytes a pkt-line has at most after its four digits.
const LongestData = 65516

// Kind says what a packet is: a line, or one of the three packets that have no data.
type Kind int

// The kinds of packets.
const (
	Data Kind = iota
	Flush
	Delim
	ResponseEnd
)

// Packet is one packet. Text is the data of a line without its line end.
type Packet struct {
	Kind Kind
	Text []byte
}

// ErrMalformed says that bytes are no pkt-line.
var ErrMalformed = errors.New("this is no pkt-line")

// ErrTooMuch says that a request has more bytes in lines than its reader was told to take.
var ErrTooMuch = errors.New("the request has more lines than this server takes")

// Budget counts the bytes of lines that a request holds. Hold refuses those that are too many, and Free gives all of them back.
type Budget interface {
	Hold(bytes int64) error
	Free()
}

// Reader reads packets. What follows the last one is left in the reader below it.
type Reader struct {
	in         *bufio.Reader
	most, left int64
	index      [4]byte
	budget     Budget
	// over are the bytes of a line that are still to be passed over, and isRefused tells that this line was refused.
	over                  int
	isRefused, isSkimming bool
}

// leastCost is what a line counts at least: to hold a short line takes more than its bytes.
const leastCost = 64

// NewReader makes a reader of at most so many bytes of lines; a short line counts as 64 of them.
func NewReader(in *bufio.Reader, most int64) *Reader {
	return &Reader{in: in, most: most, left: most}
}

// Charge lets a budget count the lines too, in the same way.
func (r *Reader) Charge(budget Budget) { r.budget = budget }

// Renew lets the reader take as many bytes again as at its beginning: another request begins, and nothing is kept of those before.
func (r *Reader) Renew() {
	if r.left = r.most; r.budget != nil {
		r.budget.Free()
	}
}

// skimmed is how much of a line is kept of a request that was refused: the two names of a change.
const skimmed = 128

// Skim lets the reader take so many bytes more, of which nobody holds anything: they are the rest of a request that was refused.
func (r *Reader) Skim(most int64) { r.left, r.budget, r.isSkimming = most, nil, true }

// MayGoOn tells whether the error that Next gave was about a line that it can pass over.
func (r *Reader) MayGoOn() bool { return r.isRefused }

// Next gives the next packet. The error is io.EOF only if the input ends before a packet; inside of one it is
// io.ErrUnexpectedEOF. The text lasts as long as the caller wants.
func (r *Reader) Next() (Packet, error) {
	if err := r.passOver(); err != nil {
		return Packet{}, err
	}
	if _, err := io.ReadFull(r.in, r.index[:]); err != nil {
		return Packet{}, err
	}
	size, ok := length(r.index)
	if !ok {
		return Packet{}, ErrMalformed
	}
	if size < len(r.index) {
		return special(size)
	}
	if err := r.take(cost(size)); err != nil {
		r.over, r.isRefused = size-len(r.index), true
		return Packet{}, err
	}
	return r.data(size - len(r.index))
}

// take counts the bytes of a line.
func (r *Reader) take(bytes int64) error {
	if r.left -= bytes; r.left < 0 {
		return ErrTooMuch
	}
	if r.budget != nil {
		return r.budget.Hold(bytes)
	}
	return nil
}

// passOver passes over what is left of the last line.
func (r *Reader) passOver() error {
	_, err := r.in.Discard(r.over)
	r.over, r.isRefused = 0, false
	if err == io.EOF {
		err = io.ErrUnexpectedEOF
	}
	return err
}

func cost(size int) int64 {
	if size < leastCost {
		return leastCost
	}
	return int64(size)
}

func (r *Reader) data(size int) (Packet, error) {
	if r.isSkimming && size > skimmed {
		r.over, size = size-skimmed, skimmed
	}
	text := make([]byte, size)
	if _, err := io.ReadFull(r.in, text); err != nil {
		if err == io.EOF {
			err = io.ErrUnexpectedEOF
		}
		return Packet{}, err
	}
	return Packet{Data, bytes.TrimSuffix(text, []byte("\n"))}, nil
}

func special(size int) (Packet, error) {
	switch size {
	case 0:
		return Packet{Kind: Flush}, nil
	case 1:
		return Packet{Kind: Delim}, nil
	case 2:
		return Packet{Kind: ResponseEnd}, nil
	}
	return Packet{}, ErrMalformed
}

// length reads the four digits in front of a packet.
func length(digits [4]byte) (size int, ok bool) {
	for _, digit := range digits {
		value := bytes.IndexByte([]byte("0123456789abcdef"), lower(digit))
		if value < 0 {
			return 0, false
		}
		size = size<<4 | value
	}
	return size, size <= LongestData+4
}

func lower(digit byte) byte {
	if digit >= 'A' && digit <= 'F' {
		return digit + 'a' - 'A'
	}
	return digit
}

// Show gives bytes of a peer as one line for a message: no control bytes, and not much of it.
func Show(text []byte) string {
	const most = 200
	shown := text
	if len(shown) > most {
		shown = shown[:most]
	}
	quoted := fmt.Sprintf("%q", shown)
	quoted = quoted[1 : len(quoted)-1]
	if len(text) > most {
		quoted += ".."
	}
	return quoted
}
