package pktline

import (
	"bufio"
	"bytes"
	"fmt"
	"io"
	"strings"
	"testing"
)

func reader(text string, most int64) *Reader {
	return NewReader(bufio.NewReader(strings.NewReader(text)), most)
}

func TestPackets(t *testing.T) {
	r := reader("0009done\n0000000100020005a0004rest", 1000)
	for _, want := range []Packet{{Data, []byte("done")}, {Flush, nil}, {Delim, nil}, {ResponseEnd, nil}, {Data, []byte("a")}, {Data, nil}} {
		got, err := r.Next()
		if err != nil || got.Kind != want.Kind || !bytes.Equal(got.Text, want.Text) {
			t.Fatalf("%v, %v", got, err)
		}
	}
	if _, err := r.Next(); err != ErrMalformed {
		t.Fatal(err)
	}
}

func TestWhatIsNoPacket(t *testing.T) {
	for text, want := range map[string]error{
		"": io.EOF, "0": io.ErrUnexpectedEOF, "0009don": io.ErrUnexpectedEOF, "0005": io.ErrUnexpectedEOF, "0003": ErrMalformed,
		"zzzz": ErrMalformed, "fff1": ErrMalformed, "-001": ErrMalformed, "00 5a": ErrMalformed, "0050" + strings.Repeat("a", 76): ErrTooMuch,
	} {
		if _, err := reader(text, 79).Next(); err != want {
			t.Errorf("%q: %v", text, err)
		}
	}
}

// TestShortLinesCountWhatTheyTake has a request of lines of one byte: it may not make many times its own size of memory.
func TestShortLinesCountWhatTheyTake(t *testing.T) {
	r, lines := reader(strings.Repeat("0005a", 100), 64*10), 0
	for {
		_, err := r.Next()
		if err == ErrTooMuch {
			break
		}
		if err != nil {
			t.Fatal(err)
		}
		lines++
	}
	if lines != 10 {
		t.Fatalf("%d lines", lines)
	}
}

func TestWriter(t *testing.T) {
	var out bytes.Buffer
	w := NewWriter(&out)
	w.Line("a %d", 1)
	w.FlushPacket()
	w.DelimPacket()
	w.Band(true)
	w.Line("b")
	w.Band(false)
	_, _ = w.Sideband(ErrorChannel, false).Write([]byte("e"))
	_, _ = w.Bare().Write([]byte("x"))
	if err := w.Flush(); err != nil || out.String() != "0008a 1\n000000010007\x01b\n0006\x03ex" {
		t.Fatalf("%q, %v", out.String(), err)
	}
	w.Text(strings.Repeat("a", LongestData+1))
	if w.Flush() == nil {
		t.Fatal("a line was written that is too long")
	}
}

func TestSidebandsAreCut(t *testing.T) {
	for _, isShort := range []bool{false, true} {
		var out bytes.Buffer
		w := NewWriter(&out)
		data := bytes.Repeat([]byte("0123456789"), 20000)
		_, _ = w.Sideband(DataChannel, isShort).Write(data)
		w.FlushPacket()
		w.Flush()
		r := NewReader(bufio.NewReader(&out), 1<<30)
		var got []byte
		for {
			packet, err := r.Next()
			if err != nil {
				t.Fatal(err)
			}
			if packet.Kind == Flush {
				break
			}
			if packet.Text[0] != DataChannel || isShort && len(packet.Text) > 996 {
				t.Fatal("a packet of another form")
			}
			got = append(got, packet.Text[1:]...)
		}
		if !bytes.Equal(got, data) {
			t.Fatal("other data")
		}
	}
}

func TestShow(t *testing.T) {
	for text, want := range map[string]string{"a\x1b\n\xff": `a\x1b\n\xff`, strings.Repeat("a", 300): strings.Repeat("a", 200) + ".."} {
		if got := Show([]byte(text)); got != want {
			t.Errorf("%q", got)
		}
	}
}

func FuzzNext(f *testing.F) {
	f.Add([]byte("0009done\n0000000100020005a0004rest"))
	f.Add([]byte("fff0"))
	f.Fuzz(func(t *testing.T, text []byte) {
		r := NewReader(bufio.NewReader(bytes.NewReader(text)), 1<<20)
		for {
			packet, err := r.Next()
			if err != nil {
				return
			}
			if len(packet.Text) > LongestData {
				t.Fatal("too long")
			}
		}
	})
}

func TestLinesThatAreRefusedArePassedOver(t *testing.T) {
	long := strings.Repeat("x", 1000)
	r := readerOf(t, []string{"one", long, "two", long, long}, 200)
	for at, want := range []string{"one", "", "two", long[:skimmed], ""} {
		packet, err := r.Next()
		if string(packet.Text) != want || (err != nil) != (want == "") {
			t.Fatal(at, packet, err)
		}
		if at == 1 && (err != ErrTooMuch || !r.MayGoOn()) || at == 4 && err != ErrTooMuch {
			t.Fatal(at, err)
		}
		if at == 1 {
			r.Skim(1100)
		}
	}
}

func readerOf(t *testing.T, texts []string, most int64) *Reader {
	t.Helper()
	text := ""
	for _, it := range texts {
		text += fmt.Sprintf("%04x%s", len(it)+4, it)
	}
	return NewReader(bufio.NewReader(strings.NewReader(text)), most)
}
