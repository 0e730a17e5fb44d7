package httpd

import (
	"bufio"
	"bytes"
	"io"
	"net/http"
	"regexp"
	"testing"
)

var (
	lengthLine    = regexp.MustCompile(`(?im)^content-length:`)
	codingLine    = regexp.MustCompile(`(?im)^transfer-encoding:`)
	continuedLine = regexp.MustCompile(`(?m)^[ \t]`)
)

// FuzzHeads reads requests one behind another as net/http does, and asks that the heads were seen where they are: each that says its length twice, and
// no other one.
func FuzzHeads(f *testing.F) {
	const post, chunked = "POST / HTTP/1.1\r\nHost: a\r\n", "Transfer-Encoding: chunked\r\n"
	for _, text := range []string{
		post + "Content-Length: 5\r\n\r\n12345" + post + chunked + "Content-Length: 5\r\n\r\n0\r\n\r\n",
		post + "Content-Length: 3\r\nContent-Length: 3\r\n\r\nabc" + post + "Content-Length:\r\n\r\n" + post + chunked + "\r\n0\r\n\r\n",
		"GET / HTTP/1.0\nTransfer-Encoding: chunked\nContent-Length: 1\n\nx", "GET / HTTP/1.0\nConnection: keep-alive\nTransfer-Encoding: x\n\n", post + "content-length : 5\r\n\r\n12345", post + "X: a\r\n b\r\n\r\n",
		post + "Content-Length: +5\r\n\r\n12345", post + "Content-Length: 05\r\n\r\n12345", post + "Content-Length: 1_0\r\n\r\n1234567890",
	} {
		f.Add([]byte(text))
	}
	f.Fuzz(func(t *testing.T, text []byte) {
		from := bytes.NewReader(text)
		buffered := bufio.NewReader(from)
		place := func() int { return len(text) - from.Len() - buffered.Buffered() }
		s, before := &seen{}, 0
		look := func() (part []byte) {
			part = text[before:place()]
			before = place()
			for rest := part; len(rest) > 0 && !s.head.over; {
				rest = s.look(rest)
			}
			return part
		}
		for {
			r, err := http.ReadRequest(buffered)
			if err != nil {
				return
			}
			head := look()
			isDoubtful := codingLine.Match(head) && (lengthLine.Match(head) || r.Proto != "HTTP/1.1") || continuedLine.Match(head)
			if s.doubtful.Load() != isDoubtful {
				t.Fatalf("%q is doubtful: %v", head, !isDoubtful)
			}
			if isDoubtful || len(r.TransferEncoding) > 0 || r.Close {
				// The connection ends.
				return
			}
			_, err = io.Copy(io.Discard, r.Body)
			if err != nil {
				return
			}
			if look(); s.head.over || s.head.body > 0 || len(s.head.line) > 0 {
				t.Fatalf("after %q: %+v", head, s.head)
			}
		}
	})
}
