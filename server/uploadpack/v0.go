package uploadpack

import (
	"bufio"
	"context"
	"io"
	"strings"

	"gitpoold/packcache"
	"gitpoold/pktline"
	"gitpoold/plumbing"
)

// Server has what an operator may set.
type Server struct {
	// MaySend is asked before each part of a pack. An error of it ends the pack and is told; nil means no such question.
	MaySend func() error
	// Lines counts the bytes of lines while a request has them; nil counts nothing.
	Lines pktline.Budget
	// Memory gives what counts the lists, the commits and the large objects that a fetch holds; nil counts nothing.
	Memory func() Memory
	// Packs keeps packs of whole clones; nil keeps none.
	Packs *packcache.Cache
}

// Memory counts what one fetch holds, until it is freed.
type Memory interface {
	plumbing.Memory
	Free()
}

// counted gives the context of a fetch that begins, and the call that counts what it holds no more.
func (s Server) counted(ctx context.Context) (context.Context, func()) {
	if s.Memory == nil {
		return ctx, func() {}
	}
	memory := s.Memory()
	return plumbing.Counted(ctx, memory), memory.Free
}

// mostLines is how many bytes of lines one request may have: in protocols 0 and 1 a session is one request, in protocol 2 each command is one.
const mostLines = 32 << 20

// Serve answers a client after Advertise: over http one request, else up to the end of the session. An error was told to the
// client where its protocol has room for that.
func (s Server) Serve(ctx context.Context, t Repository, in *bufio.Reader, out *pktline.Writer, version int, isStateless bool) error {
	reader := pktline.NewReader(in, mostLines)
	reader.Charge(s.Lines)
	if version == 2 {
		return s.serveSecond(ctx, t, reader, out, isStateless)
	}
	q, err := readFirst(reader)
	if err != nil {
		return say(out, err)
	}
	if len(q.wants) == 0 {
		return nil
	}
	ctx, free := s.counted(ctx)
	defer free()
	f, err := s.begin(ctx, t, q, out)
	if err != nil {
		return say(out, err)
	}
	return f.serveFirst(ctx, reader, isStateless)
}

// readFirst reads the wants of protocols 0 and 1, up to their flush. No want at all means that the client has what it wants.
func readFirst(reader *pktline.Reader) (*request, error) {
	q := newRequest()
	for {
		packet, err := reader.Next()
		if err == io.EOF && len(q.wants) == 0 || err == nil && packet.Kind == pktline.Flush {
			return q, nil
		}
		if err != nil {
			return nil, err
		}
		if packet.Kind != pktline.Data || strings.HasPrefix(string(packet.Text), "have ") {
			return nil, refused("upload-pack: protocol error, expected to get object ID, not `%s`", pktline.Show(packet.Text))
		}
		if err := q.argument(string(packet.Text)); err != nil {
			return nil, err
		}
	}
}

func (f *fetch) serveFirst(ctx context.Context, reader *pktline.Reader, isStateless bool) error {
	if f.deepening.IsSet() {
		if err := f.bound(ctx); err != nil {
			return say(f.out, err)
		}
		f.out.FlushPacket()
		if err := f.out.Flush(); err != nil {
			return err
		}
	}
	n := negotiation{fetch: f, seen: map[plumbing.Name]bool{},
		isDetailed: f.can["multi_ack_detailed"], isMulti: f.can["multi_ack_detailed"] || f.can["multi_ack"]}
	goesOn, err := n.run(ctx, reader, isStateless)
	if err != nil {
		return say(f.out, err)
	}
	if !goesOn {
		return f.out.Flush()
	}
	isShort := !f.can["side-band-64k"]
	return f.send(ctx, !isShort || f.can["side-band"], isShort)
}

// negotiation is the part of protocols 0 and 1 in which the client tells what it has: gitprotocol-pack(5), "Packfile Negotiation".
type negotiation struct {
	*fetch
	isDetailed, isMulti bool
	last                plumbing.Name
	seen                map[plumbing.Name]bool // what the client has and the tenant too, with what its tags lead to
	hasCommon           bool                   // in all
	gotCommon, gotOther bool                   // since the last flush
	askedAt             int                    // how many names were common when it was last asked whether these are enough
	sentReady           bool
}

// run tells whether the pack is to follow.
func (n *negotiation) run(ctx context.Context, reader *pktline.Reader, isStateless bool) (bool, error) {
	for {
		packet, err := reader.Next()
		if err == io.EOF {
			return false, nil
		}
		if err != nil {
			return false, err
		}
		if packet.Kind == pktline.Data && string(packet.Text) != "done" {
			if err := n.have(string(packet.Text)); err != nil {
				return false, err
			}
			continue
		}
		if err := n.take(ctx); err != nil {
			return false, err
		}
		if packet.Kind == pktline.Data {
			n.done()
			return true, nil
		}
		isLast, err := n.flush(ctx)
		if err != nil || isLast || isStateless {
			return isLast, err
		}
	}
}

// have notes a name that the client has. Names are asked of the tenant together.
func (n *negotiation) have(line string) error {
	if !strings.HasPrefix(line, "have ") {
		return refused("git upload-pack: expected SHA1 list, got '%s'", pktline.Show([]byte(line)))
	}
	return n.argument(line)
}

// take answers the names since the last flush, each once.
func (n *negotiation) take(ctx context.Context) error {
	names := distinct(n.haves)
	n.haves = nil
	has, err := n.t.Has(ctx, names)
	if err != nil {
		return err
	}
	var found []plumbing.Name
	for at, name := range names {
		if !has[at] {
			n.gotOther = true
			continue
		}
		found = append(found, name)
		n.acknowledge(name)
	}
	commits, err := follow(ctx, n.t, found, n.seen)
	n.common = append(n.common, commits...)
	return err
}

func (n *negotiation) acknowledge(name plumbing.Name) {
	isFirst := !n.hasCommon
	n.last, n.hasCommon, n.gotCommon = name, true, true
	switch {
	case n.isDetailed:
		n.out.Line("ACK %v common", name)
	case n.isMulti:
		n.out.Line("ACK %v continue", name)
	case isFirst:
		n.out.Line("ACK %v", name)
	}
}

// flush answers the end of a round, and tells whether the pack follows at once.
func (n *negotiation) flush(ctx context.Context) (isLast bool, err error) {
	if n.isDetailed && (n.gotCommon || n.gotOther) && !n.sentReady && n.isWorthAsking() {
		n.askedAt = len(n.common)
		if n.sentReady, err = n.isReady(ctx); err != nil {
			return false, err
		}
		if n.sentReady {
			n.out.Line("ACK %v ready", n.last)
		}
	}
	if !n.hasCommon || n.isMulti {
		n.out.Line("NAK")
	}
	if n.can["no-done"] && n.sentReady {
		n.out.Line("ACK %v", n.last)
		return true, n.out.Err()
	}
	n.gotCommon, n.gotOther = false, false
	return false, n.out.Flush()
}

// isWorthAsking tells whether so much has become common since the last time that it may be enough now. The question takes as long as there is
// much in common, so a client that adds a name in each round would make it a square.
func (n *negotiation) isWorthAsking() bool {
	return len(n.common) > n.askedAt+n.askedAt/8
}

// done answers the end of the negotiation.
func (n *negotiation) done() {
	switch {
	case n.hasCommon && n.isMulti:
		n.out.Line("ACK %v", n.last)
	case !n.hasCommon:
		n.out.Line("NAK")
	}
}
