package frames

import (
	"bufio"
	"bytes"
	"errors"
	"io"
	"reflect"
	"runtime"
	"strings"
	"testing"
	"testing/iotest"
)

func read(text []byte) (Step, error) {
	return ReadStep(bufio.NewReaderSize(iotest.OneByteReader(bytes.NewReader(text)), 16))
}

func TestStepsComeBack(t *testing.T) {
	steps := []Step{{Open, "a", nil}, {Feed, "acme/site", []byte("blob\n")}, {End, strings.Repeat("x", 65535), nil},
		{Ask, "", bytes.Repeat([]byte("y"), 3<<20)}, {Restart, "", nil}, {Missing, "t", []byte("\x00\x00\x00\x01" + strings.Repeat("x", 60))},
		{Missing, "t", make([]byte, 4)}, {Entries, "t", make([]byte, 8+3*20)}, {Entries, "t", make([]byte, 8)}}
	for _, step := range steps {
		text := step.AppendTo(nil)
		got, err := read(text)
		if err != nil || got.Kind != step.Kind || got.Tenant != step.Tenant || !bytes.Equal(got.Body, step.Body) || len(text) != step.Size() {
			t.Fatal(step.Kind, err)
		}
		parsed, whole := Parse(text)
		if !whole || parsed.Tenant != step.Tenant || !bytes.Equal(parsed.Body, step.Body) {
			t.Fatal(step.Kind, "parsed")
		}
	}
}

// TestWrongFramesAreRefused has the table of docs/FORMATS.md, "Frames".
func TestWrongFramesAreRefused(t *testing.T) {
	for text, want := range map[string]error{
		"":                                 io.EOF,
		"\x06":                             ErrWrong,
		"\x00":                             ErrWrong,
		"\x01\x00\x01t\x00\x00\x00\x01":    ErrWrong,
		"\x05\x00\x01":                     ErrWrong,
		"\x01\x00":                         ErrCut,
		"\x01\x00\x01":                     ErrCut,
		"\x02\x00\x01t\x01\x00\x00\x01":    ErrWrong,
		"\x02\x00\x01t\x00\x00\x00\x02x":   ErrCut,
		"\x02\x00\x01t\x01\x00\x00\x00xyz": ErrCut,
		"\x16\x00\x01t\x00\x00\x00\x03xyz": ErrWrong,
		"\x16\x00\x01t\x00\x00\x00\x05\x00\x00\x00\x00x":                                          ErrWrong,
		"\x16\x00\x01t\x00\x00\x00\x18\x00\x00\x00\x02" + strings.Repeat("x", 20):                 ErrWrong,
		"\x16\x00\x01t\x00\x00\x00\x18\xff\xff\xff\xff" + strings.Repeat("x", 20):                 ErrWrong,
		"\x17\x00\x01t\x00\x00\x00\x07\x00\x00\x00\x00\x00\x00\x00":                               ErrWrong,
		"\x17\x00\x01t\x00\x00\x00\x09\x00\x00\x00\x00\x00\x00\x00\x00x":                          ErrWrong,
		"\x17\x00\x01t\x00\x00\x00\x1c\x00\x00\x00\x00\x00\x00\x00\x00" + strings.Repeat("x", 19): ErrCut,
	} {
		if _, err := read([]byte(text)); !errors.Is(err, want) {
			t.Errorf("%q: %v, wanted %v", text, err, want)
		}
	}
}

func TestAnswersComeBack(t *testing.T) {
	for _, answer := range []Answer{{Ok, 0, []byte("reply")}, {Fault, 16, nil}, {Memory, 3, nil}, {Ok, 0, bytes.Repeat([]byte("z"), 5<<20)}} {
		got, err := ReadAnswer(bufio.NewReader(iotest.HalfReader(bytes.NewReader(answer.AppendTo(nil)))))
		if err != nil || got.Status != answer.Status || got.Value != answer.Value || !bytes.Equal(got.Reply, answer.Reply) {
			t.Fatal(answer.Status, err)
		}
	}
	for text, want := range map[string]error{"": io.EOF, "\x00": ErrCut, "\x03" + strings.Repeat("\x00", 16): ErrWrong,
		"\x00" + strings.Repeat("\xff", 16): ErrWrong, strings.Repeat("\x00", 16) + "\x01": ErrCut} {
		if _, err := ReadAnswer(bufio.NewReader(strings.NewReader(text))); !errors.Is(err, want) {
			t.Errorf("%q: %v, wanted %v", text, err, want)
		}
	}
}

// TestALengthAllocatesNothing has a frame that says 16 MiB and has nothing of it.
func TestALengthAllocatesNothing(t *testing.T) {
	text := []byte("\x02\x00\x01t\x01\x00\x00\x00")
	used := testing.Benchmark(func(b *testing.B) {
		for i := 0; i < b.N; i++ {
			_, _ = read(text)
		}
	}).AllocedBytesPerOp()
	if used > 2<<20 {
		t.Fatal(used)
	}
}

func FuzzReadStep(f *testing.F) {
	f.Add(Step{Feed, "acme/site", []byte("blob\n")}.AppendTo(nil))
	f.Add([]byte("\x01\x00"))
	f.Fuzz(func(t *testing.T, text []byte) {
		step, err := read(text)
		if err == nil && !bytes.HasPrefix(text, step.AppendTo(nil)) {
			t.Fatal("another frame")
		}
		parsed, whole := Parse(text)
		if whole && !reflect.DeepEqual(parsed.AppendTo(nil), text) {
			t.Fatal("parsed another frame")
		}
		_, _ = ReadAnswer(bufio.NewReader(bytes.NewReader(text)))
	})
}

// zeroes are bytes without an end.
type zeroes struct{}

func (zeroes) Read(into []byte) (int, error) { return len(into), nil }

// TestALargeAnswerIsReadInFewSteps has an answer of 64 megabytes: what is taken of the memory for it, one after another, is bounded.
func TestALargeAnswerIsReadInFewSteps(t *testing.T) {
	const size = 64 << 20
	head := Answer{Reply: make([]byte, size)}.head()
	var before, after runtime.MemStats
	runtime.ReadMemStats(&before)
	answer, err := ReadAnswer(bufio.NewReader(io.MultiReader(bytes.NewReader(head), zeroes{})))
	runtime.ReadMemStats(&after)
	if err != nil || len(answer.Reply) != size {
		t.Fatal(len(answer.Reply), err)
	}
	if taken := after.TotalAlloc - before.TotalAlloc; taken > 5*size/2 {
		t.Fatalf("%d bytes were taken", taken)
	}
}
