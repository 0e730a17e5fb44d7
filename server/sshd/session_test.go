package sshd

import (
	"io"
	"os"
	"path/filepath"
	"testing"

	"golang.org/x/crypto/ssh"

	"gitpoold/await"
	"gitpoold/gateway"
	"gitpoold/limits"
)

// full is a terminal whose client takes nothing until the connection is closed.
type full struct{ closed chan struct{} }

// Read has nothing.
func (f full) Read([]byte) (int, error) { return 0, io.EOF }

// Write waits.
func (f full) Write([]byte) (int, error) {
	<-f.closed
	return 0, io.EOF
}

type fullChannel struct {
	ssh.Channel
	full full
}

func (c fullChannel) Stderr() io.ReadWriter { return c.full }

type fullConn struct {
	ssh.Conn
	full full
}

func (c fullConn) Close() error {
	close(c.full.closed)
	return nil
}

// TestASentenceThatIsNotTaken has a client that takes nothing of what its terminal is told.
func TestASentenceThatIsNotTaken(t *testing.T) {
	folder := t.TempDir()
	must(t, os.WriteFile(filepath.Join(folder, "limits"), []byte("idle 100ms\n"), 0o600))
	bounds, err := limits.Load(folder, t.Logf)
	must(t, err)
	terminal := full{make(chan struct{})}
	s := &session{server: &server{Gateway: &gateway.Gateway{Limits: bounds}}, conn: &ssh.ServerConn{Conn: fullConn{full: terminal}},
		channel: fullChannel{full: terminal}}
	said := make(chan struct{})
	go func() {
		defer close(said)
		s.say("no")
	}()
	await.From(t, "the end of the sentence", said)
}
