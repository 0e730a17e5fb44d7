package httpd

import (
	"bufio"
	"fmt"
	"io"
	"net"
	"net/http"
	"strings"
	"testing"
	"time"
)

// said sends bytes, and gives the statuses of all answers up to the end of the connection; false where the server keeps it.
func said(t *testing.T, address, text string) (statuses []int, hasEnded bool) {
	t.Helper()
	c, err := net.Dial("tcp", address)
	if err != nil {
		t.Fatal(err)
	}
	defer c.Close()
	if _, err := io.WriteString(c, text); err != nil {
		t.Fatal(err)
	}
	from := bufio.NewReader(c)
	for {
		_ = c.SetReadDeadline(time.Now().Add(700 * time.Millisecond))
		answer, err := http.ReadResponse(from, nil)
		if err != nil {
			network, is := err.(net.Error)
			return statuses, !is || !network.Timeout()
		}
		_, _ = io.Copy(io.Discard, answer.Body)
		statuses = append(statuses, answer.StatusCode)
	}
}

// TestARequestSaysItsLengthOnce has heads that say it twice, in each order and behind other requests, and what is hidden behind their bodies.
func TestARequestSaysItsLengthOnce(t *testing.T) {
	address := servedFor(t, "5s")
	const hidden = "GET /healthz HTTP/1.1\r\nHost: a\r\n\r\n"
	post := func(head string) string { return "POST /healthz HTTP/1.1\r\nHost: a\r\n" + head + "\r\n" }
	chunked := "Transfer-Encoding: chunked\r\n"
	for _, it := range []struct {
		what, text string
		statuses   string
		hasEnded   bool
	}{
		{"a length", post("Content-Length: 5\r\n") + "12345" + hidden, "[200 200]", false},
		{"a length of nothing", post("Content-Length: 0\r\n") + hidden, "[200 200]", false},
		{"chunks", post(chunked) + "1\r\nx\r\n0\r\n\r\n" + hidden, "[200]", true},
		{"both", post("Content-Length: 5\r\n"+chunked) + "0\r\n\r\n" + hidden, "[400]", true},
		{"both, the other way round", post(chunked+"Content-Length: 5\r\n") + "0\r\n\r\n" + hidden, "[400]", true},
		{"both in other letters", post("content-LENGTH: 5\r\ntransfer-ENCODING: chunked\r\n") + "0\r\n\r\n" + hidden, "[400]", true},
		{"both with bare ends of lines", strings.ReplaceAll(post("Content-Length: 5\r\n"+chunked), "\r", "") + "0\r\n\r\n" + hidden, "[400]", true},
		{"both, and the length on a second line", post("Content-Length:\r\n 5\r\n"+chunked) + "0\r\n\r\n" + hidden, "[400]", true},
		{"a header over two lines", post("X: a\r\n b\r\nContent-Length: 0\r\n") + hidden, "[400]", true},
		{"two lengths", post("Content-Length: 5\r\nContent-Length: 6\r\n") + "12345" + hidden, "[400]", true},
		{"chunks before there were any", "POST /healthz HTTP/1.0\r\nHost: a\r\nConnection: keep-alive\r\n" + chunked + "\r\n" + hidden, "[400]", true},
		{"both in a body", post("Content-Length: 53\r\n") + "\r\n\r\nContent-Length: 5\r\n" + chunked + "\r\n" + hidden, "[200 200]", false},
	} {
		t.Run(it.what, func(t *testing.T) {
			t.Parallel()
			for before := 0; before < 2; before++ {
				statuses, hasEnded := said(t, address, strings.Repeat(post("Content-Length: 2\r\n")+"\r\n", before)+it.text)
				if len(statuses) > 0 && before == 1 && statuses[0] == 200 {
					statuses = statuses[1:]
				}
				if fmt.Sprint(statuses) != it.statuses || hasEnded != it.hasEnded {
					t.Errorf("%v, and not %s; it has ended: %v", statuses, it.statuses, hasEnded)
				}
			}
		})
	}
}

// TestHeadsAreSeenInParts gives a head a byte at a time.
func TestHeadsAreSeenInParts(t *testing.T) {
	reader, writer := net.Pipe()
	s := &seen{Conn: reader}
	go func() {
		for _, letter := range []byte("POST / HTTP/1.1\r\nContent-Length: 3\r\n\r\nabcPOST / HTTP/1.1\r\nContent-Length: 1\r\nTransfer-Encoding: x\r\n\r\n") {
			_, _ = writer.Write([]byte{letter})
		}
		writer.Close()
	}()
	if _, err := io.Copy(io.Discard, onlyReader{s}); err != nil || !s.doubtful.Load() {
		t.Fatalf("%v: %v", err, s.doubtful.Load())
	}
}

type onlyReader struct{ io.Reader }
