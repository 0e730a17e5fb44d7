package sshd

import (
	"io"
	"net"
	"sync"

	"golang.org/x/crypto/ssh"
)

// The library holds what clients have sent to channels that are not read, and each packet apart. So nothing more is read from the socket while much
// more has come than the sessions have read, unless all of them wait for what comes.
//
// While keys are exchanged, the library may queue what is written, without a bound, and Write returns at once: the client decides how long an
// exchange takes. So a channel's Write waits while the channels of its connection were given much more than the socket has taken, whatever the
// library does with it. What is closed ends the wait, so the time within which a client has to take something holds for it as well.

const (
	// mostAhead is how many bytes the channels of a connection may be given beyond what its socket has taken.
	mostAhead = 1 << 20
	// longestGiven is how much of a Write is given at once. All sessions of a connection that wait for their windows come to less than mostAhead.
	longestGiven = 32 << 10
	// mostUnread is how many bytes may come over the socket beyond what the sessions have read, for the connection and for each session: what the library
	// lets a client send is 2 MB each, and heads. It takes no more from a client that sends a byte in each packet, for which the library takes 80 times
	// as much memory.
	mostUnread          = 256 << 10
	mostUnreadOfSession = 2<<20 + 256<<10
	// What is written has its answers: a client that takes 64 bytes may send one that no session reads.
	answered = 64
)

// pace is a connection that counts how far its channels are ahead of it.
type pace struct {
	net.Conn
	mutex    sync.Mutex
	moved    *sync.Cond
	ahead    int
	isClosed bool

	// unread is how many bytes have come that no session has read. So many sessions are open, and so many of them wait for what comes.
	unread            int
	sessions, reading int
}

func newPace(conn net.Conn) *pace {
	p := &pace{Conn: conn}
	p.moved = sync.NewCond(&p.mutex)
	return p
}

// Read reads from the socket, once the sessions have read enough.
func (p *pace) Read(data []byte) (int, error) {
	p.awaitSessions()
	count, err := p.Conn.Read(data)
	p.hasRead(-count)
	return count, err
}

// awaitSessions waits while too much is unread. Where all sessions wait for what comes, the library has nothing for them.
func (p *pace) awaitSessions() {
	p.mutex.Lock()
	defer p.mutex.Unlock()
	for p.reading < p.sessions && p.unread > mostUnread+p.sessions*mostUnreadOfSession && !p.isClosed {
		p.moved.Wait()
	}
	if p.reading >= p.sessions {
		p.unread = 0
	}
}

// hasRead counts bytes that are no longer unread.
func (p *pace) hasRead(count int) {
	p.mutex.Lock()
	defer p.mutex.Unlock()
	if p.unread -= count; p.unread < 0 {
		p.unread = 0
	}
	p.moved.Broadcast()
}

// open counts sessions that begin, or end.
func (p *pace) open(count int) {
	p.mutex.Lock()
	defer p.mutex.Unlock()
	p.sessions += count
	p.moved.Broadcast()
}

// wait counts who waits for what comes to a channel, or no longer.
func (p *pace) wait(on *paced, count int) {
	p.mutex.Lock()
	defer p.mutex.Unlock()
	before := on.readers > 0
	on.readers += count
	switch after := on.readers > 0; {
	case after && !before:
		p.reading++
	case before && !after:
		p.reading--
	}
	p.moved.Broadcast()
}

// Write writes to the socket, and counts what it took.
func (p *pace) Write(data []byte) (int, error) {
	count, err := p.Conn.Write(data)
	p.take(count)
	p.hasRead(count / answered)
	return count, err
}

// Close closes the socket. No channel waits for it any more.
func (p *pace) Close() error {
	p.mutex.Lock()
	p.isClosed = true
	p.moved.Broadcast()
	p.mutex.Unlock()
	return p.Conn.Close()
}

// take counts bytes that are no longer ahead. Heads, padding and checksums are taken too: they are no credit for what comes later.
func (p *pace) take(count int) {
	p.mutex.Lock()
	defer p.mutex.Unlock()
	if p.ahead -= count; p.ahead < 0 {
		p.ahead = 0
	}
	p.moved.Broadcast()
}

// give waits until the socket has taken enough, and counts bytes that go to the library.
func (p *pace) give(count int) error {
	p.mutex.Lock()
	defer p.mutex.Unlock()
	for p.ahead >= mostAhead && !p.isClosed {
		p.moved.Wait()
	}
	if p.isClosed {
		return net.ErrClosed
	}
	p.ahead += count
	return nil
}

// write writes to a channel, a part after another.
func (p *pace) write(to io.Writer, data []byte) (written int, err error) {
	for written < len(data) && err == nil {
		part := data[written:]
		if len(part) > longestGiven {
			part = part[:longestGiven]
		}
		if err = p.give(len(part)); err != nil {
			return written, err
		}
		var count int
		count, err = to.Write(part)
		p.take(len(part) - count)
		written += count
	}
	return written, err
}

// paced is a channel of which each Write waits for the socket, and each Read lets more be read from it.
type paced struct {
	ssh.Channel
	pace    *pace
	readers int
}

// Read reads from the client.
func (c *paced) Read(data []byte) (int, error) {
	c.pace.wait(c, 1)
	defer c.pace.wait(c, -1)
	count, err := c.Channel.Read(data)
	c.pace.hasRead(count)
	return count, err
}

// Write writes to the client.
func (c *paced) Write(data []byte) (int, error) { return c.pace.write(c.Channel, data) }

// Stderr is the client's terminal.
func (c *paced) Stderr() io.ReadWriter { return &pacedTerminal{c.Channel.Stderr(), c.pace} }

type pacedTerminal struct {
	io.ReadWriter
	pace *pace
}

// Write writes to the client's terminal.
func (t *pacedTerminal) Write(data []byte) (int, error) { return t.pace.write(t.ReadWriter, data) }
