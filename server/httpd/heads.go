package httpd

import (
	"bytes"
	"crypto/tls"
	"net"
	"net/http"
	"strconv"
	"strings"
	"sync/atomic"
)

// A request that says its length twice, by Content-Length and by Transfer-Encoding, may be one request to a front and two to the server behind it.
// net/http takes the second word and drops the first one unseen, so the heads are looked at before it reads them. After a body in chunks the
// connection ends, and nothing has to be known of where such a body does.

// seen is a connection whose heads are looked at as they come.
type seen struct {
	net.Conn
	isTLS bool
	// doubtful tells that a request said its length twice, or in a way that net/http does not heed; or has a header over two lines.
	doubtful atomic.Bool
	head     head
}

// head is what a request's head has said so far, and how much is left of the body before it. Where it is over, nothing more is looked at.
type head struct {
	line                                 []byte
	body, length                         int64
	hasLines, hasLength, isChunked, over bool
	// isOld is of a request of HTTP/1.0, which knows no chunks.
	isOld bool
}

// seenHeads gives connections whose heads are looked at.
type seenHeads struct{ net.Listener }

// Accept gives the next connection.
func (l seenHeads) Accept() (net.Conn, error) {
	c, err := l.Listener.Accept()
	if err != nil {
		return nil, err
	}
	_, isTLS := c.(*tls.Conn)
	return &seen{Conn: c, isTLS: isTLS}, nil
}

// Read reads, and looks at what has come.
func (s *seen) Read(into []byte) (int, error) {
	count, err := s.Conn.Read(into)
	for rest := into[:count]; len(rest) > 0 && !s.head.over; {
		rest = s.look(rest)
	}
	return count, err
}

// look takes what is left of a body, or bytes up to the end of a line of a head, and gives the rest.
func (s *seen) look(data []byte) (rest []byte) {
	h := &s.head
	if h.body > 0 {
		skipped := int64(len(data))
		skipped = min(skipped, h.body)
		h.body -= skipped
		return data[skipped:]
	}
	end := bytes.IndexByte(data, '\n')
	if end < 0 {
		end = len(data) - 1
	}
	h.line = append(h.line, data[:end+1]...)
	switch {
	case len(h.line) > 2*headBytes:
		// net/http refuses such a head, and closes the connection.
		h.over = true
	case data[end] == '\n':
		s.take(strings.TrimRight(string(h.line), "\r\n"))
		h.line = h.line[:0]
	}
	return data[end+1:]
}

// take takes a line of a head. What net/http refuses with the connection's end ends the looking.
func (s *seen) take(line string) {
	h := &s.head
	if line == "" {
		if h.hasLines {
			s.ended()
		}
		return
	}
	if line[0] == ' ' || line[0] == '\t' {
		s.doubt()
	}
	name, value, _ := strings.Cut(line, ":")
	switch {
	case !h.hasLines:
		h.hasLines, h.isOld = true, !strings.HasSuffix(line, "HTTP/1.1")
	case strings.EqualFold(name, "Transfer-Encoding"):
		h.isChunked = true
	case strings.EqualFold(name, "Content-Length"):
		h.hasLength = true
		h.setLength(strings.TrimSpace(value))
	}
}

func (h *head) setLength(value string) {
	length, err := strconv.ParseUint(value, 10, 63)
	h.length, h.over = int64(length), err != nil && value != ""
}

// ended is called at the end of a head.
func (s *seen) ended() {
	h := s.head
	if h.isChunked && (h.hasLength || h.isOld) {
		s.doubt()
	}
	s.head = head{line: h.line, body: h.length, over: h.isChunked}
}

func (s *seen) doubt() {
	s.doubtful.Store(true)
	s.head.over = true
}

// connectionOf gives the connection of a request, or nil.
func connectionOf(r *http.Request) *seen {
	c, _ := r.Context().Value(connection{}).(*seen)
	return c
}

// isTLS tells whether a request came by https.
func isTLS(r *http.Request) bool {
	c := connectionOf(r)
	return c != nil && c.isTLS
}

// frame says in the answer where the connection is to end after a request, and tells whether it is clear what belongs to the request.
func (e *exchange) frame() (isClear bool) {
	if len(e.r.TransferEncoding) > 0 {
		e.w.Header().Set("Connection", "close")
	}
	c := connectionOf(e.r)
	return c == nil || !c.doubtful.Load()
}
