package operator

import (
	"bytes"
	"context"
	"sync"

	"gitpoold/frames"
	"gitpoold/tenants"
)

// What is ahead of a client that sends steps and takes no answers stands in this file: it has bounds in bytes, whatever the answers are.

const (
	// mostUnread is how many bytes of answers may wait for a client before no further step is taken. A batch of questions has room for as many;
	// what does not fit in is asked again. So at most twice as many bytes wait, and one more answer.
	mostUnread = 32 << 20
	// mostFed is how many bytes of pieces may be with the child. What a piece prints is a few times as long as itself, unless the stream asks for
	// contents of objects; then one piece is with the child at a time.
	mostFed = 1 << 20
)

// contents is the command of a stream that prints the contents of an object.
var contents = []byte("cat-blob")

// unread counts the bytes of the answers that have come, and that the client has not taken.
type unread struct {
	mutex       sync.Mutex
	changed     *sync.Cond
	bytes, most int64
}

func newUnread(most int64) *unread {
	u := &unread{most: most}
	u.changed = sync.NewCond(&u.mutex)
	return u
}

func (u *unread) add(bytes int64) {
	u.mutex.Lock()
	defer u.mutex.Unlock()
	u.bytes += bytes
	u.changed.Broadcast()
}

// wait waits until the client has taken enough. A connection that ends takes what is left.
func (u *unread) wait() {
	u.mutex.Lock()
	defer u.mutex.Unlock()
	for u.bytes > u.most {
		u.changed.Wait()
	}
}

func bytesOf(answers []frames.Answer) (bytes int64) {
	for _, it := range answers {
		bytes += int64(len(it.Reply))
	}
	return bytes
}

// stream is one that a client has open, and what is known of what it asks for.
type stream struct {
	*tenants.FrameStream
	tail          []byte
	printsObjects bool
}

// takes notes a piece. A stream that has said `cat-blob` anywhere, or in two pieces, may print objects until it ends.
func (st *stream) takes(piece []byte) {
	if st.printsObjects {
		return
	}
	edge := piece
	if len(edge) > len(contents) {
		edge = edge[:len(contents)]
	}
	st.tail = append(st.tail, edge...)
	st.printsObjects = bytes.Contains(piece, contents) || bytes.Contains(st.tail, contents)
	if len(piece) > len(contents) {
		st.tail = append(st.tail[:0], piece[len(piece)-len(contents):]...)
	}
	if cut := len(st.tail) - len(contents); cut > 0 {
		st.tail = append(st.tail[:0], st.tail[cut:]...)
	}
}

// fed is a piece that is with the child.
type fed struct {
	bytes int
	wait  func(context.Context) (frames.Answer, error)
}

// settle waits until at most so many bytes of pieces are with the child, and so many pieces.
func (s *session) settle(ctx context.Context, bytes, pieces int) {
	for len(s.fed) > 0 && (s.fedBytes > bytes || len(s.fed) > pieces) {
		first := s.fed[0]
		s.fed = s.fed[1:]
		s.fedBytes -= first.bytes
		// Who writes the answer finds the error too.
		answer, _ := first.wait(ctx)
		s.unread.add(int64(len(answer.Reply)))
	}
}
