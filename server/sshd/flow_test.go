package sshd

import (
	"bytes"
	"io"
	"net"
	"sync/atomic"
	"testing"
	"time"

	"golang.org/x/crypto/ssh"

	"gitpoold/await"
)

// queueing is a channel of a library that takes all that it is given at once, and sends none of it.
type queueing struct {
	ssh.Channel
	queued atomic.Int64
}

// Write queues.
func (q *queueing) Write(data []byte) (int, error) {
	q.queued.Add(int64(len(data)))
	return len(data), nil
}

// Stderr queues too.
func (q *queueing) Stderr() io.ReadWriter {
	return struct {
		io.Reader
		io.Writer
	}{bytes.NewReader(nil), q}
}

// swallowing is a socket that takes all.
type swallowing struct{ net.Conn }

// Write takes.
func (swallowing) Write(data []byte) (int, error) { return len(data), nil }

// Close closes.
func (swallowing) Close() error { return nil }

// waits tells how much is queued, once that does not grow any more.
func (q *queueing) waits() int64 {
	for before := int64(-1); ; time.Sleep(20 * time.Millisecond) {
		now := q.queued.Load()
		if now == before {
			return now
		}
		before = now
	}
}

// TestAQueueInTheLibraryIsBounded writes to channels of a library that queues without a bound: to each channel and its terminal, from a goroutine each.
func TestAQueueInTheLibraryIsBounded(t *testing.T) {
	queue, socket := &queueing{}, newPace(swallowing{})
	const writers, each = 8, 4 << 20
	ended := make(chan error, 2*writers)
	for count := 0; count < writers; count++ {
		channel := &paced{Channel: queue, pace: socket}
		for _, to := range []io.Writer{channel, channel.Stderr()} {
			go func(to io.Writer) {
				_, err := to.Write(make([]byte, each))
				ended <- err
			}(to)
		}
	}
	await.Until(t, "a queue", func() bool { return queue.queued.Load() >= mostAhead })
	if queued := queue.waits(); queued > mostAhead+2*writers*longestGiven {
		t.Fatalf("%d bytes are queued", queued)
	}
	// What the socket takes lets as much follow, and no more: heads and padding give no credit.
	_, _ = socket.Write(make([]byte, 64<<20))
	await.Until(t, "what waits for a socket that has taken all", func() bool { return queue.queued.Load() >= 2*mostAhead })
	if queued := queue.waits(); queued > 2*(mostAhead+2*writers*longestGiven) {
		t.Fatalf("%d bytes are queued after the socket has taken some", queued)
	}
	must(t, socket.Close())
	for count := 0; count < 2*writers; count++ {
		if err := <-ended; err == nil {
			t.Fatal("a writer wrote all, and the socket took little of it")
		}
	}
}

// TestWhatAChannelDoesNotTakeIsNotAhead has channels that are closed.
func TestWhatAChannelDoesNotTakeIsNotAhead(t *testing.T) {
	socket := newPace(swallowing{})
	reader, writer := io.Pipe()
	reader.Close()
	for count := 0; count < 100; count++ {
		if _, err := socket.write(writer, make([]byte, longestGiven)); err != io.ErrClosedPipe {
			t.Fatal(err)
		}
	}
	if socket.ahead != 0 {
		t.Fatalf("%d bytes are ahead", socket.ahead)
	}
}
