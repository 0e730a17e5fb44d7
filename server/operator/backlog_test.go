package operator

import (
	"bufio"
	"fmt"
	"net"
	"runtime"
	"strings"
	"testing"
	"time"

	"gitpoold/frames"
)

// held is how many bytes of memory are in use.
func held() uint64 {
	runtime.GC()
	var now runtime.MemStats
	runtime.ReadMemStats(&now)
	return now.HeapAlloc
}

// sends sends steps as fast as they are taken, until all are or the connection ends.
func sends(conn net.Conn, count int, step func(at int) frames.Step) {
	out := bufio.NewWriterSize(conn, 1<<16)
	for at := 0; at < count; at++ {
		if _, err := out.Write(step(at).AppendTo(nil)); err != nil {
			return
		}
	}
	out.Flush()
}

// TestAnswersAheadAreBounded has a client that sends many questions, or pieces of a stream, with long answers, and reads none for a while: the memory
// of the server stays within what is told, and then all answers come, in their order.
func TestAnswersAheadAreBounded(t *testing.T) {
	folder, server := opened(t, "")
	const count, size, most = 100, 1 << 18, 4 << 20
	server.most = most
	conn := dialed(t, folder)
	text := ""
	for at := 0; at < 2; at++ {
		text += fmt.Sprintf("blob\nmark :%d\ndata %d\n%s\n", at+1, size, strings.Repeat(string(rune('a'+at)), size))
	}
	text += "commit refs/heads/main\ncommitter a <a@b> 1 +0000\ndata 1\nx\nM 100644 :1 f0\nM 100644 :2 f1\n"
	answers := ask(t, conn, frames.Step{Kind: frames.Open, Tenant: "a"}, frames.Step{Kind: frames.Feed, Tenant: "a", Body: []byte(text)},
		frames.Step{Kind: frames.End, Tenant: "a"}, frames.Step{Kind: frames.Open, Tenant: "b"},
		frames.Step{Kind: frames.Feed, Tenant: "b", Body: []byte(text + "\n")})
	for _, it := range answers {
		if it.Status != frames.Ok {
			t.Fatal(it)
		}
	}
	for what, step := range map[string]func(at int) frames.Step{
		"questions": func(at int) frames.Step {
			return frames.Step{Kind: frames.Ask, Tenant: "a", Body: []byte(fmt.Sprint("cat main:f", at%2))}
		},
		"pieces": func(at int) frames.Step {
			return frames.Step{Kind: frames.Feed, Tenant: "b", Body: []byte(fmt.Sprintf("cat-blob :%d\n", at%2+1))}
		},
	} {
		before := held()
		go sends(conn, count, step)
		time.Sleep(time.Second)
		if more := held() - before; more > 4*most {
			t.Errorf("%s: the answers take %d MB", what, more>>20)
		}
		in := bufio.NewReader(conn)
		for at := 0; at < count; at++ {
			answer, err := frames.ReadAnswer(in)
			if err != nil || answer.Status != frames.Ok || len(answer.Reply) < size || answer.Reply[size/2] != byte('a'+at%2) {
				t.Fatalf("%s: answer %d: %v %d, %d bytes: %v", what, at, answer.Status, answer.Value, len(answer.Reply), err)
			}
		}
	}
}

// TestPiecesThatAreCutPrintObjects cuts the command that prints objects anywhere.
func TestPiecesThatAreCutPrintObjects(t *testing.T) {
	for text, prints := range map[string]bool{"x\ncat-blob :1\ny": true, "cat-blo\nb": false, "ccat-blob": true} {
		for first := 0; first <= len(text); first++ {
			for second := first; second <= len(text); second++ {
				var st stream
				for _, piece := range []string{text[:first], text[first:second], text[second:]} {
					st.takes([]byte(piece))
				}
				if st.printsObjects != prints {
					t.Fatalf("%q, cut at %d and %d: %v", text, first, second, st.printsObjects)
				}
			}
		}
	}
}
