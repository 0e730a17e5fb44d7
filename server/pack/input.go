package pack

import (
	"bytes"
	"crypto/sha1"
	"hash"
	"io"
)

// input reads a pack, and digests what has been taken of it. An inflater takes no byte too many of it, for it finds ReadByte.
type input struct {
	from       io.Reader
	buffer     []byte
	start, end int
	before     int64
	most       int64
	digest     hash.Hash
	failed     error
}

func newInput(from io.Reader, most int64) *input {
	return &input{from: from, buffer: make([]byte, 1<<16), most: most, digest: sha1.New()}
}

// place is how many bytes have been taken.
func (in *input) place() int64 { return in.before + int64(in.start) }

// fill reads a block where the one before is used up.
func (in *input) fill() error {
	if in.start < in.end {
		return nil
	}
	in.digest.Write(in.buffer[:in.end])
	in.before += int64(in.end)
	in.start, in.end = 0, 0
	if in.before > in.most {
		in.failed = tooMuch("a pack", in.most)
		return in.failed
	}
	in.end, in.failed = io.ReadAtLeast(in.from, in.buffer, 1)
	if in.failed == io.EOF {
		in.failed = errCut
	}
	return in.failed
}

// Read gives bytes that are there already, or waits for some.
func (in *input) Read(to []byte) (int, error) {
	if err := in.fill(); err != nil {
		return 0, err
	}
	n := copy(to, in.buffer[in.start:in.end])
	in.start += n
	return n, nil
}

// ReadByte gives one byte.
func (in *input) ReadByte() (byte, error) {
	if err := in.fill(); err != nil {
		return 0, err
	}
	in.start++
	return in.buffer[in.start-1], nil
}

// finish reads the digest at the end of a pack and compares it. Bytes after it are refused where they are there already, and not waited for: a client
// that keeps its side open waits for the report.
func (in *input) finish() error {
	in.digest.Write(in.buffer[:in.start])
	copy(in.buffer, in.buffer[in.start:in.end])
	in.start, in.end = 0, in.end-in.start
	sum := in.digest.Sum(nil)
	var said [sha1.Size]byte
	if _, err := io.ReadFull(in, said[:]); err != nil {
		return errCut
	}
	if !bytes.Equal(sum, said[:]) {
		return wrong("its digest is not that of its bytes")
	}
	if in.start < in.end {
		return wrong("bytes stand after its end")
	}
	return nil
}
