package sshd

import (
	"strings"
	"sync/atomic"
	"testing"
	"time"

	"golang.org/x/crypto/ssh"

	"gitpoold/await"
)

// client is a connection of a user.
func (r *room) client(user string) *ssh.Client {
	r.t.Helper()
	client, err := ssh.Dial("tcp", r.address, &ssh.ClientConfig{User: user, Auth: []ssh.AuthMethod{ssh.PublicKeys(r.keys[user])},
		HostKeyCallback: ssh.InsecureIgnoreHostKey()})
	must(r.t, err)
	r.t.Cleanup(func() { client.Close() })
	return client
}

// stalled gives a count that has come so far, once it does not grow for a second, or is above a bound.
func stalled(t *testing.T, count *atomic.Int64, least, most int64) int64 {
	t.Helper()
	await.Until(t, "so many", func() bool { return count.Load() >= least })
	for before := int64(-1); ; time.Sleep(time.Second) {
		now := count.Load()
		if now == before || now > most {
			return now
		}
		before = now
	}
}

// TestWhatNobodyReadsIsBounded sends single bytes to a session that has no command: the library takes some 80 bytes of memory for each, and 2 MB of
// them.
func TestWhatNobodyReadsIsBounded(t *testing.T) {
	// So many fill what may be unread, and the buffers of the sockets.
	const least, most = 10_000, 400_000
	r := served(t, 1, "handshake 1m\n")
	client := r.client("alice")
	channel, requests, err := client.OpenChannel("session", nil)
	must(t, err)
	go ssh.DiscardRequests(requests)
	var sent atomic.Int64
	go func() {
		for err == nil {
			_, err = channel.Write([]byte("x"))
			sent.Add(1)
		}
	}()
	if count := stalled(t, &sent, least, most); count > most {
		t.Fatal(count, "packets are taken")
	}
	client.Close()
	// A client whose session is at work sends to another channel, and goes on.
	it := r.begin("alice", "import a")
	for count := 0; count < 40; count++ {
		if _, err := it.in.Write([]byte("#" + strings.Repeat("x", 1<<20) + "\n")[:1<<19]); err != nil {
			t.Fatal(err)
		}
		it.in.Write([]byte("\n"))
	}
	it.in.Close()
	if status := it.status(); status != 0 {
		t.Error(status, it.said.String())
	}
}

// TestSessionsOfAUser opens sessions without a command over many connections.
func TestSessionsOfAUser(t *testing.T) {
	r := served(t, 1, "requests-by-user 5\nhandshake 1m\n")
	for _, user := range []string{"alice", "bob"} {
		opened := 0
		for connection := 0; connection < 4; connection++ {
			client := r.client(user)
			for count := 0; count < mostSessions; count++ {
				if _, _, err := client.OpenChannel("session", nil); err == nil {
					opened++
				} else if !strings.Contains(err.Error(), "as many requests") {
					t.Fatal(err)
				}
			}
		}
		if opened != 15 {
			t.Error(user, "has", opened, "sessions")
		}
	}
}

// unreadOf is what is unread, while others may still write it.
func unreadOf(p *pace) int {
	p.mutex.Lock()
	defer p.mutex.Unlock()
	return p.unread
}

// let tells once more may come over a connection.
func let(p *pace) <-chan struct{} {
	told := make(chan struct{})
	go func() { p.awaitSessions(); close(told) }()
	return told
}

// TestSessionsThatWaitLetAllCome has sessions of which all wait, or one does not.
func TestSessionsThatWaitLetAllCome(t *testing.T) {
	p := newPace(swallowing{})
	p.open(2)
	one, other := &paced{pace: p}, &paced{pace: p}
	p.hasRead(-mostUnread - 2*mostUnreadOfSession)
	await.From(t, "what the library lets clients send", let(p))
	p.hasRead(-1)
	// Two who wait for the same session are one.
	p.wait(one, 1)
	p.wait(one, 1)
	late := let(p)
	select {
	case <-late:
		t.Error("more is taken although a session does not read")
	case <-time.After(50 * time.Millisecond):
	}
	p.wait(other, 1)
	await.From(t, "what all wait for", late)
	if unreadOf(p) != 0 {
		t.Error("all wait, and something is unread")
	}
	p.wait(other, -1)
	p.hasRead(-mostUnread - 2*mostUnreadOfSession - 1)
	p.Write(make([]byte, 64*answered))
	await.From(t, "the answer of who takes much", let(p))
}
