package httpd

import (
	"context"
	"fmt"
	"io"
	"net"
	"net/http"
	"net/http/httptest"
	"path/filepath"
	"testing"
	"time"

	"gitpoold/access"
	"gitpoold/await"
	"gitpoold/gateway"
	"gitpoold/limits"
	"gitpoold/logs"
	"gitpoold/metrics"
)

// served gives the address of a server whose requests may take a second in all.
func served(t *testing.T) string { return servedFor(t, "1s") }

// servedFor gives the address of a server whose requests may take a time.
func servedFor(t *testing.T, request string) string {
	t.Helper()
	folder := t.TempDir()
	if err := limits.Set(filepath.Join(folder, "limits"), "request", request); err != nil {
		t.Fatal(err)
	}
	l, err := limits.Load(folder, t.Logf)
	if err != nil {
		t.Fatal(err)
	}
	listener, err := net.Listen("tcp", "127.0.0.1:0")
	if err != nil {
		t.Fatal(err)
	}
	ctx, stop := context.WithCancel(context.Background())
	t.Cleanup(stop)
	go func() {
		_ = Serve(ctx, listener, &gateway.Gateway{Limits: l, Log: logs.New(io.Discard, metrics.New())})
	}()
	return listener.Addr().String()
}

// TestARefusedRequestTakesNoLongerThanAnother sends the body of a request that is refused, a byte at a time and never silent for long.
func TestARefusedRequestTakesNoLongerThanAnother(t *testing.T) {
	c, err := net.Dial("tcp", served(t))
	if err != nil {
		t.Fatal(err)
	}
	defer c.Close()
	fmt.Fprintf(c, "POST /a/HEAD HTTP/1.1\r\nHost: a\r\nContent-Length: 100000\r\n\r\n")
	ended := make(chan struct{})
	go func() {
		_, _ = io.Copy(io.Discard, c)
		close(ended)
	}()
	late := time.After(await.Longest)
	for {
		select {
		case <-ended:
			return
		case <-late:
			t.Fatal("the connection is open still")
		case <-time.After(20 * time.Millisecond):
			_, _ = c.Write([]byte("x"))
		}
	}
}

// TestPasswordsThatWaitTooLong has no time for any password: pages and git are told to come again, and nobody that a password is wrong.
func TestPasswordsThatWaitTooLong(t *testing.T) {
	folder := t.TempDir()
	if err := access.SetPassword(folder, "alice", "correct horse"); err != nil {
		t.Fatal(err)
	}
	users, err := access.Load(folder, t.Logf)
	if err != nil {
		t.Fatal(err)
	}
	l, err := limits.Load(folder, t.Logf)
	if err != nil {
		t.Fatal(err)
	}
	users.Patience = -1
	s := &server{&gateway.Gateway{Limits: l, Access: users, Log: logs.New(io.Discard, metrics.New())}, nil}
	for _, path := range []string{"/acme/site", "/", "/acme/site.git/info/refs?service=git-upload-pack"} {
		w, r := httptest.NewRecorder(), httptest.NewRequest("GET", path, nil)
		r.SetBasicAuth("alice", "correct horse")
		s.ServeHTTP(w, r)
		if w.Code != http.StatusServiceUnavailable || w.Header().Get("Retry-After") != busyFor || w.Header().Get("WWW-Authenticate") != "" {
			t.Errorf("%s: %d %v", path, w.Code, w.Header())
		}
	}
}

// TestBrokenConnectionsLeaveNothing breaks 1,000 connections off in and after requests.
func TestBrokenConnectionsLeaveNothing(t *testing.T) {
	address := served(t)
	answer, err := http.Get("http://" + address + "/healthz")
	if err != nil {
		t.Fatal(err)
	}
	answer.Body.Close()
	http.DefaultClient.CloseIdleConnections()
	before := await.Goroutines()
	requests := []string{"", "GET /heal", "GET /healthz HTTP/1.1\r\nHost: a\r\n\r\n", "GET /healthz HTTP/1.1\r\nHost: a\r\n\r\nGET /healthz HTT",
		"POST /a/HEAD HTTP/1.1\r\nHost: a\r\nContent-Length: 100000\r\n\r\nhalf", "POST /a/HEAD HTTP/1.1\r\nHost: a\r\nTransfer-Encoding: chunked\r\n\r\n5\r\nab"}
	for at := 0; at < 1000; at++ {
		c, err := net.Dial("tcp", address)
		if err != nil {
			t.Fatal(err)
		}
		_, _ = io.WriteString(c, requests[at%len(requests)])
		c.Close()
	}
	await.NoMore(t, before)
}
