package pack

import (
	"bytes"
	"crypto/sha1"
	"encoding/binary"
	"hash"
	"io"

	"github.com/klauspost/compress/zlib"

	"gitpoold/plumbing"
)

// Writer writes a pack whose entries are made elsewhere: its head, the entries, and the digest of all that.
type Writer struct {
	to     io.Writer
	digest hash.Hash
}

// NewWriter makes a writer over `to`. Begin is called first, and Finish last.
func NewWriter(to io.Writer) *Writer { return &Writer{to: to, digest: sha1.New()} }

// Begin writes the head of a pack of so many objects.
func (w *Writer) Begin(count int) error {
	return w.Entries(binary.BigEndian.AppendUint32([]byte("PACK\x00\x00\x00\x02"), uint32(count)))
}

// Entries writes entries.
func (w *Writer) Entries(entries []byte) error {
	w.digest.Write(entries)
	_, err := w.to.Write(entries)
	return err
}

// Finish writes the digest.
func (w *Writer) Finish() error {
	_, err := w.to.Write(w.digest.Sum(nil))
	return err
}

// WritePack writes the objects that are the push's own as a pack without deltas.
func (q *Quarantine) WritePack(to io.Writer) error {
	w := NewWriter(to)
	if err := w.Begin(len(q.own)); err != nil {
		return err
	}
	var entry bytes.Buffer
	deflater, err := zlib.NewWriterLevel(&entry, zlib.NoCompression)
	if err != nil {
		return err
	}
	for kind := plumbing.Commit; kind <= plumbing.Tag; kind++ {
		if err := q.Each(kind, func(at int) error { return q.writeEntry(w, at, &entry, deflater) }); err != nil {
			return err
		}
	}
	return w.Finish()
}

func (q *Quarantine) writeEntry(w *Writer, at int, entry *bytes.Buffer, deflater *zlib.Writer) error {
	contents, err := q.ContentsAt(at)
	if err != nil {
		return err
	}
	entry.Reset()
	entry.Write(entryHead(byte(q.KindAt(at)), len(contents)))
	deflater.Reset(entry)
	if _, err := deflater.Write(contents); err != nil {
		return err
	}
	if err := deflater.Close(); err != nil {
		return err
	}
	return w.Entries(entry.Bytes())
}

// entryHead is what stands before the bytes of an object: its kind and its size, four bits of it and then seven to a byte.
func entryHead(kind byte, size int) []byte {
	head := []byte{kind<<4 | byte(size&15)}
	for size >>= 4; size > 0; size >>= 7 {
		head[len(head)-1] |= 0x80
		head = append(head, byte(size&0x7f))
	}
	return head
}
