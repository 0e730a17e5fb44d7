// Package frames writes and reads the steps and answers of a service, and the requests of its operator, as bytes: docs/FORMATS.md,
// "Frames".
package frames

import (
	"bufio"
	"encoding/binary"
	"errors"
	"io"
	"math"
)

// Kind is the kind of a step.
type Kind byte

// The kinds of steps.
const (
	Open    Kind = 1
	Feed    Kind = 2
	End     Kind = 3
	Ask     Kind = 4
	Restart Kind = 5
)

// The kinds of the operator's requests, which `gitpool host` answers.
const (
	Save    Kind = 16
	Abandon Kind = 17
	Remove  Kind = 18
	Compact Kind = 19
	Copy    Kind = 20
	Sizes   Kind = 21
)

// The kinds of what a fetch asks, which `gitpool host` answers too.
const (
	Missing Kind = 22
	Entries Kind = 23
)

// AsOpened is the body of a Save that writes what each tenant with a stream had when that stream was opened.
var AsOpened = []byte{1}

// LongestBody is the most bytes that the body of a step may have.
const LongestBody = 16777216

// longestReply is above every reply that a service gives: an object, which has at most 128 MiB, with its head.
const longestReply = 1 << 32

var (
	// ErrWrong says that a frame has an unknown kind, or a length that does not go with its kind (fault 50).
	ErrWrong = errors.New("a frame is wrong (fault 50)")
	// ErrCut says that the input ends inside a frame (fault 51).
	ErrCut = errors.New("the input ends inside a frame (fault 51)")
)

// Step is one step of a tenant, or a request of the operator. A Feed has a piece as its body, an Ask a query, a Copy the name of the
// other tenant, and a Save nothing or AsOpened; a Missing has the number of the wanted names, these, and the names that the client has; an
// Entries has the most bytes of its reply, and names; the others have none. A Restart, a Save and a Sizes have no tenant.
type Step struct {
	Kind   Kind
	Tenant string
	Body   []byte
}

// AppendTo appends the frame of a step to bytes.
func (s Step) AppendTo(to []byte) []byte {
	to = append(to, byte(s.Kind), byte(len(s.Tenant)>>8), byte(len(s.Tenant)))
	to = append(to, s.Tenant...)
	to = binary.BigEndian.AppendUint32(to, uint32(len(s.Body)))
	return append(to, s.Body...)
}

// Size is how many bytes the frame of a step has.
func (s Step) Size() int { return 7 + len(s.Tenant) + len(s.Body) }

// Parse reads a frame of any kind, and tells whether the bytes are that frame and no more. The body is a part of the bytes.
func Parse(frame []byte) (step Step, whole bool) {
	if len(frame) < 7 {
		return Step{}, false
	}
	name := 3 + int(binary.BigEndian.Uint16(frame[1:]))
	if len(frame) < name+4 || uint64(len(frame)-name-4) != uint64(binary.BigEndian.Uint32(frame[name:])) {
		return Step{}, false
	}
	return Step{Kind(frame[0]), string(frame[3:name]), frame[name+4:]}, true
}

// longest gives the most bytes of a name and of a body that a step of this kind may have.
func longest(kind Kind) (name, body uint32, known bool) {
	switch kind {
	case Open, End, Abandon, Remove, Compact:
		return 65535, 0, true
	case Feed, Ask, Missing, Entries:
		return 65535, LongestBody, true
	case Copy:
		return 65535, 65535, true
	case Save:
		return 0, 1, true
	case Restart, Sizes:
		return 0, 0, true
	}
	return 0, 0, false
}

// ReadStep reads the next frame. It gives io.EOF where the input ends between frames, else ErrWrong, ErrCut, or the reader's own
// error. What a length claims is allocated only as its bytes come.
func ReadStep(from *bufio.Reader) (Step, error) {
	kind, err := from.ReadByte()
	if err != nil {
		return Step{}, err
	}
	name, body, known := longest(Kind(kind))
	if !known {
		return Step{}, ErrWrong
	}
	tenant, err := readSized(from, 2, name)
	if err != nil {
		return Step{}, err
	}
	contents, err := readSized(from, 4, body)
	if err == nil && !isBody(Kind(kind), contents) {
		err = ErrWrong
	}
	return Step{Kind(kind), string(tenant), contents}, err
}

// nameBytes is how many bytes the name of an object has.
const nameBytes = 20

// isBody tells whether a kind that has names in its body may have this one: a Missing has a number of wanted names and at least as many names,
// and an Entries a limit before them.
func isBody(kind Kind, body []byte) bool {
	switch kind {
	case Missing:
		return len(body) >= 4 && (len(body)-4)%nameBytes == 0 && uint64(binary.BigEndian.Uint32(body)) <= uint64(len(body)-4)/nameBytes
	case Entries:
		return len(body) >= 8 && (len(body)-8)%nameBytes == 0
	}
	return true
}

// readSized reads bytes that stand after their length, which has so many bytes itself.
func readSized(from *bufio.Reader, width int, longest uint32) ([]byte, error) {
	var head [4]byte
	if _, err := io.ReadFull(from, head[4-width:]); err != nil {
		return nil, cut(err)
	}
	size := binary.BigEndian.Uint32(head[:])
	if size > longest {
		return nil, ErrWrong
	}
	return readBytes(from, uint64(size))
}

// readBytes reads so many bytes. Memory is taken for a megabyte, then for twice as many bytes as are there.
func readBytes(from *bufio.Reader, size uint64) ([]byte, error) {
	const first = 1 << 20
	var found []byte
	for have := uint64(0); have < size; have = uint64(len(found)) {
		next := 2 * have
		if next == 0 {
			next = first
		}
		next = min(next, size)
		grown := make([]byte, next)
		copy(grown, found)
		if _, err := io.ReadFull(from, grown[have:]); err != nil {
			return nil, cut(err)
		}
		found = grown
	}
	return found, nil
}

func cut(err error) error {
	if err == io.EOF || err == io.ErrUnexpectedEOF {
		return ErrCut
	}
	return err
}

// Status says how a step went.
type Status byte

// The statuses of answers.
const (
	Ok     Status = 0
	Fault  Status = 1
	Memory Status = 2
)

// Answer is the answer to one step. Value is the number of a fault, or how many whole items took effect before memory ran out.
type Answer struct {
	Status Status
	Value  uint64
	Reply  []byte
}

const answerHead = 17

// AppendTo appends the frame of an answer to bytes.
func (a Answer) AppendTo(to []byte) []byte { return append(append(to, a.head()...), a.Reply...) }

// head is what stands before the reply.
func (a Answer) head() []byte {
	to := binary.BigEndian.AppendUint64([]byte{byte(a.Status)}, a.Value)
	return binary.BigEndian.AppendUint64(to, uint64(len(a.Reply)))
}

// WriteTo writes the frame of an answer.
func (a Answer) WriteTo(to io.Writer) (int64, error) {
	head, err := to.Write(a.head())
	if err != nil {
		return int64(head), err
	}
	reply, err := to.Write(a.Reply)
	return int64(head + reply), err
}

// ReadAnswer reads the next answer. It gives io.EOF where the input ends between answers, else ErrWrong, ErrCut, or the reader's
// own error.
func ReadAnswer(from *bufio.Reader) (Answer, error) { return ReadAnswerWithin(from, math.MaxInt64) }

// ReadAnswerWithin does so, and drops a reply of more than `most` bytes: then the answer is that of a fault, 25.
func ReadAnswerWithin(from *bufio.Reader, most int64) (Answer, error) {
	answer, size, err := readHead(from)
	switch {
	case err != nil:
	case int64(size) > most:
		answer = Answer{Status: Fault, Value: 25}
		_, err = io.CopyN(io.Discard, from, int64(size))
		err = cut(err)
	default:
		answer.Reply, err = readBytes(from, size)
	}
	return answer, err
}

// PassAnswer reads the next answer as ReadAnswer does, and keeps nothing of it.
func PassAnswer(from *bufio.Reader) error {
	_, size, err := readHead(from)
	if err == nil {
		_, err = io.CopyN(io.Discard, from, int64(size))
	}
	return cut(err)
}

// readHead reads what stands before the reply of an answer, and the size of that.
func readHead(from *bufio.Reader) (answer Answer, size uint64, err error) {
	if _, err := from.Peek(1); err != nil {
		return answer, 0, err
	}
	var head [answerHead]byte
	if _, err := io.ReadFull(from, head[:]); err != nil {
		return answer, 0, cut(err)
	}
	size = binary.BigEndian.Uint64(head[9:])
	if head[0] > byte(Memory) || size > longestReply {
		return answer, 0, ErrWrong
	}
	return Answer{Status: Status(head[0]), Value: binary.BigEndian.Uint64(head[1:])}, size, nil
}
