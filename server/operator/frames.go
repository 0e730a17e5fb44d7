package operator

import (
	"bufio"
	"bytes"
	"context"
	"net"
	"time"

	"gitpoold/child"
	"gitpoold/frames"
	"gitpoold/tenants"
)

const (
	// mostAhead is how many answers, or batches of them, may wait for one connection.
	mostAhead = 256
	// mostTogether is how many questions go to the child as one batch, where they came together.
	mostTogether = 64
	// openPatience is how long an Open waits for a push of the same tenant.
	openPatience = 5 * time.Second
)

// session is a connection that speaks frames.
type session struct {
	server  *Server
	conn    net.Conn
	in      *bufio.Reader
	streams map[string]*stream
	answers chan func(context.Context) ([]frames.Answer, error)

	// unread are the bytes of answers that wait for the client, and `fed` the pieces that are with the child.
	unread   *unread
	fed      []fed
	fedBytes int
}

// speakFrames answers frames as `gitpool host` does, until the client ends between frames, a frame is wrong, or the client is silent
// for too long with a stream open. Streams that are open then are given up. A Restart and an Abandon reach the streams of this connection
// alone.
func (d *Server) speakFrames(ctx context.Context, conn net.Conn, in *bufio.Reader) {
	ctx, stop := context.WithCancel(ctx)
	defer stop()
	s := &session{server: d, conn: conn, in: in, streams: map[string]*stream{}, unread: newUnread(d.most),
		answers: make(chan func(context.Context) ([]frames.Answer, error), mostAhead)}
	written := make(chan struct{})
	go func() {
		defer close(written)
		s.write(ctx)
	}()
	s.read(ctx)
	for _, stream := range s.streams {
		stream.GiveUp()
	}
	close(s.answers)
	<-written
}

// read takes frames until there is no more to take.
func (s *session) read(ctx context.Context) {
	for {
		if s.await() != nil {
			return
		}
		step, err := frames.ReadStep(s.in)
		if err != nil || !s.take(ctx, step) {
			return
		}
	}
}

// await waits for the next frame, and bounds the time until it is there: with a stream open FrameIdle in all; else a client may be silent for as
// long as it likes, and a frame that it has begun has to come within Idle.
func (s *session) await() error {
	values := s.server.gateway.Limits.Get()
	if len(s.streams) > 0 {
		return s.conn.SetReadDeadline(time.Now().Add(values.FrameIdle))
	}
	if err := s.conn.SetReadDeadline(time.Time{}); err != nil {
		return err
	}
	if _, err := s.in.Peek(1); err != nil {
		return err
	}
	return s.conn.SetReadDeadline(time.Now().Add(values.Idle))
}

// take passes a step on, and tells whether the connection goes on.
func (s *session) take(ctx context.Context, step frames.Step) bool {
	switch step.Kind {
	case frames.Ask, frames.Sizes, frames.Missing, frames.Entries:
		return s.ask(ctx, step)
	case frames.Open:
		return s.open(ctx, step.Tenant)
	case frames.Feed:
		return s.feed(ctx, step)
	case frames.End:
		return s.end(ctx, step.Tenant)
	case frames.Abandon:
		return s.abandon(step.Tenant)
	case frames.Restart:
		return s.restart()
	}
	return s.operate(ctx, step)
}

func (s *session) restart() bool {
	for tenant, stream := range s.streams {
		stream.GiveUp()
		delete(s.streams, tenant)
	}
	return s.tell(frames.Answer{})
}

func (s *session) abandon(name string) bool {
	stream := s.streams[name]
	if stream == nil {
		return s.withoutStream(name)
	}
	stream.GiveUp()
	delete(s.streams, name)
	return s.tell(frames.Answer{})
}

// operate carries out a request of the operator. Where a save fails, it is answered by 68, and the server goes on.
func (s *session) operate(ctx context.Context, step frames.Step) bool {
	var err error
	switch step.Kind {
	case frames.Save:
		if len(step.Body) > 0 && !bytes.Equal(step.Body, frames.AsOpened) {
			return false
		}
		if s.server.store.Save(ctx) != nil {
			return s.refuse(68)
		}
	case frames.Remove:
		err = s.server.removeTenant(ctx, step.Tenant)
	case frames.Compact:
		err = s.server.compactTenant(ctx, step.Tenant)
	case frames.Copy:
		err = s.server.copyTenant(ctx, step.Tenant, string(step.Body))
	}
	switch {
	case tenants.ErrorNumber(err) == 90:
		return s.tell(frames.Answer{Status: frames.Memory})
	case err != nil:
		return s.fail(err)
	}
	return s.tell(frames.Answer{})
}

// ask asks a question, and those of the same tenant that came together with it. It waits for the answers, and asks those again for which there was
// no room.
func (s *session) ask(ctx context.Context, first frames.Step) bool {
	batch := []frames.Step{first}
	for len(batch) < mostTogether && s.hasWholeAsk(first.Tenant) {
		next, err := frames.ReadStep(s.in)
		if err != nil {
			return false
		}
		batch = append(batch, next)
	}
	s.settle(ctx, 0, 0)
	for len(batch) > 0 {
		s.unread.wait()
		wait, err := s.server.gateway.Pool.Pass(child.InRoom(ctx, s.server.most), batch)
		if err != nil {
			return false
		}
		answers, err := wait(ctx)
		if err != nil || len(answers) == 0 {
			return false
		}
		s.tell(answers...)
		batch = batch[len(answers):]
	}
	return true
}

// hasWholeAsk tells whether a whole Ask of a tenant has come already.
func (s *session) hasWholeAsk(tenant string) bool {
	if s.in.Buffered() < 7 {
		return false
	}
	head, _ := s.in.Peek(3)
	name := 3 + int(head[1])<<8 + int(head[2])
	if frames.Kind(head[0]) != frames.Ask || s.in.Buffered() < name+4 {
		return false
	}
	head, _ = s.in.Peek(name + 4)
	size := int(head[name])<<24 | int(head[name+1])<<16 | int(head[name+2])<<8 | int(head[name+3])
	return s.in.Buffered() >= name+4+size && string(head[3:name]) == tenant
}

func (s *session) open(ctx context.Context, name string) bool {
	if s.streams[name] != nil {
		return s.refuse(31)
	}
	tenant, err := s.server.gateway.Pool.Tenant(name)
	if err != nil {
		return s.fail(err)
	}
	patient, stop := context.WithTimeout(ctx, openPatience)
	defer stop()
	opened, err := tenant.OpenFrames(patient)
	if err != nil {
		return s.fail(err)
	}
	s.streams[name] = &stream{FrameStream: opened}
	return s.tell(frames.Answer{})
}

func (s *session) feed(ctx context.Context, step frames.Step) bool {
	stream := s.streams[step.Tenant]
	if stream == nil {
		return s.withoutStream(step.Tenant)
	}
	stream.takes(step.Body)
	if stream.printsObjects {
		s.settle(ctx, 0, 0)
	} else {
		s.settle(ctx, mostFed-len(step.Body), mostAhead)
	}
	s.unread.wait()
	wait, err := stream.Feed(ctx, step.Body)
	if err != nil {
		return s.fail(err)
	}
	s.fed, s.fedBytes = append(s.fed, fed{len(step.Body), wait}), s.fedBytes+len(step.Body)
	s.answers <- func(ctx context.Context) ([]frames.Answer, error) {
		answer, err := wait(ctx)
		if answer.Status == frames.Memory {
			s.server.store.WantSave()
		}
		return []frames.Answer{answer}, err
	}
	return true
}

func (s *session) end(ctx context.Context, name string) bool {
	stream := s.streams[name]
	if stream == nil {
		return s.withoutStream(name)
	}
	answer, err := stream.End(ctx)
	if err != nil && tenants.ErrorNumber(err) > 0 {
		return s.fail(err)
	}
	if err != nil {
		return false
	}
	delete(s.streams, name)
	return s.tell(answer)
}

// withoutStream answers a step that needs a stream, as the service does: a bad name comes first.
func (s *session) withoutStream(name string) bool {
	if !tenants.ValidName(name) {
		return s.refuse(32)
	}
	return s.refuse(30)
}

func (s *session) fail(err error) bool {
	number := tenants.ErrorNumber(err)
	if number == 0 {
		s.server.gateway.Log.Printf("a client of frames is closed: %v", err)
		return false
	}
	return s.refuse(number)
}

func (s *session) refuse(number int) bool {
	return s.tell(frames.Answer{Status: frames.Fault, Value: uint64(number)})
}

func (s *session) tell(answers ...frames.Answer) bool {
	s.unread.add(bytesOf(answers))
	s.answers <- func(context.Context) ([]frames.Answer, error) { return answers, nil }
	return true
}

// write writes answers in order. Where one does not come, or the client takes nothing, the connection is closed.
func (s *session) write(ctx context.Context) {
	out := bufio.NewWriterSize(s.conn, 1<<16)
	failed := false
	for wait := range s.answers {
		answers, err := wait(ctx)
		for i := 0; i < len(answers) && err == nil && !failed; i++ {
			_, err = answers[i].WriteTo(out)
		}
		if err == nil && !failed && len(s.answers) == 0 {
			err = out.Flush()
		}
		s.unread.add(-bytesOf(answers))
		if err != nil && !failed {
			failed = true
			s.conn.Close()
		}
	}
	_ = out.Flush()
}
