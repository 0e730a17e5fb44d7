package pktline

import (
	"bufio"
	"fmt"
	"io"
)

// Writer writes packets into a buffer. An error stays: every later call and Flush give it.
type Writer struct {
	out  *bufio.Writer
	band bool
	err  error
}

// NewWriter makes a writer over out.
func NewWriter(out io.Writer) *Writer {
	return &Writer{out: bufio.NewWriterSize(out, 1<<16)}
}

// Line writes a line, with a line end.
func (w *Writer) Line(format string, values ...any) {
	w.Text(fmt.Sprintf(format, values...) + "\n")
}

// Text writes a line as it stands.
func (w *Writer) Text(text string) {
	size := len(text)
	if w.band {
		size++
	}
	if size > LongestData {
		w.fail(fmt.Errorf("a line of %d bytes is too long to be sent", size))
		return
	}
	w.put(fmt.Sprintf("%04x", size+4))
	if w.band {
		w.put("\x01")
	}
	w.put(text)
}

// Band says whether all lines from here on are of the first band: sideband-all of gitprotocol-v2(5).
func (w *Writer) Band(isOn bool) { w.band = isOn }

// Refuse writes why a request is refused: on the error channel where all lines are in bands, as git does, else after ERR.
func (w *Writer) Refuse(why string) {
	if w.band {
		fmt.Fprint(w.Sideband(ErrorChannel, false), why)
		return
	}
	w.Line("ERR %s", why)
}

// FlushPacket ends a section or a message.
func (w *Writer) FlushPacket() { w.put("0000") }

// DelimPacket parts two sections.
func (w *Writer) DelimPacket() { w.put("0001") }

// Raw writes bytes that are no packet.
func (w *Writer) Raw(data []byte) (int, error) {
	if w.err == nil {
		_, w.err = w.out.Write(data)
	}
	return len(data), w.err
}

// Flush sends what has been written.
func (w *Writer) Flush() error {
	if w.err == nil {
		w.err = w.out.Flush()
	}
	return w.err
}

// Err is the first error.
func (w *Writer) Err() error { return w.err }

func (w *Writer) put(text string) {
	if w.err == nil {
		_, w.err = w.out.WriteString(text)
	}
}

func (w *Writer) fail(err error) {
	if w.err == nil {
		w.err = err
	}
}

// Channels of side-band-64k.
const (
	DataChannel     = 1
	ProgressChannel = 2
	ErrorChannel    = 3
)

// Sideband gives a channel of side-band-64k, or of side-band with its short lines.
func (w *Writer) Sideband(channel byte, isShort bool) io.Writer {
	most := LongestData - 1
	if isShort {
		most = 995
	}
	return sideband{w, channel, most}
}

type sideband struct {
	w       *Writer
	channel byte
	most    int
}

// Write cuts data into lines.
func (b sideband) Write(data []byte) (int, error) {
	for rest := data; len(rest) > 0 && b.w.err == nil; {
		part := rest
		if len(part) > b.most {
			part = part[:b.most]
		}
		rest = rest[len(part):]
		b.w.put(fmt.Sprintf("%04x%c", len(part)+5, b.channel))
		b.w.Raw(part)
	}
	return len(data), b.w.err
}

// Bare gives a writer of bytes that are in no packet.
func (w *Writer) Bare() io.Writer { return bare{w} }

type bare struct{ w *Writer }

func (b bare) Write(data []byte) (int, error) { return b.w.Raw(data) }
