package sshd

import (
	"time"

	"golang.org/x/crypto/ssh"

	"gitpoold/limits"
)

// A client that waits for its answer has nothing to send, so `idle` counts while the server waits for the client, and not while the client waits for
// the server: patient does that for what a session reads and writes. Whether the client is there at all, keepAlive asks.

// patient is the channel of a session. Its client has to send something within Idle when it is read, and to take something when it is written; else
// the connection ends.
type patient struct {
	ssh.Channel
	limits *limits.Limits
	stop   func()
}

// Read reads, within Idle.
func (p *patient) Read(into []byte) (int, error) {
	timer := time.AfterFunc(p.limits.Get().Idle, p.stop)
	defer timer.Stop()
	return p.Channel.Read(into)
}

// Write writes, within Idle.
func (p *patient) Write(data []byte) (int, error) {
	timer := time.AfterFunc(p.limits.Get().Idle, p.stop)
	defer timer.Stop()
	return p.Channel.Write(data)
}

// keepAlive asks a client again and again whether it is there, until `done` is closed. Each answer is a read of the connection, which has to come
// within Idle.
func (s *server) keepAlive(conn ssh.Conn, done <-chan struct{}) {
	for {
		select {
		case <-done:
			return
		case <-time.After(s.Limits.Get().Idle / 3):
		}
		if _, _, err := conn.SendRequest(aliveRequest, true, nil); err != nil {
			return
		}
	}
}
