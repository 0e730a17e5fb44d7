package sshd

import (
	"context"
	"fmt"
	"io"
	"strings"
	"sync/atomic"
	"time"

	"gitpoold/access"
	"gitpoold/child"
	"gitpoold/dailyquota"
	"gitpoold/idempotency"
	"gitpoold/limits"
	"gitpoold/logs"
	"gitpoold/services"
	"gitpoold/store"
	"gitpoold/streams"
	"gitpoold/tenants"
)

// verb is a command of a client without a protocol of Git.
type verb struct{ name, tenant, query, token string }

// The verbs, as `gitpool` names what does the same over a pool file.
const (
	importVerb = "import"
	askVerb    = "ask"
	framesVerb = "frames"
)

// longestVerb is how long such a command may be: a query has at most 8,192 bytes, and a quote in it takes four.
const longestVerb = 40_000

// parseVerb reads `import TENANT [--token WORD]`, `ask TENANT QUERY` or `frames TENANT`, with `gitpool` before it or without. A query is the rest
// of the command as it is, or one word in single quotes.
func parseVerb(command string) (v verb, ok bool) {
	if len(command) > longestVerb {
		return v, false
	}
	name, rest, _ := strings.Cut(strings.TrimPrefix(command, "gitpool "), " ")
	v.name = name
	switch name {
	case askVerb:
		v.tenant, v.query, ok = strings.Cut(rest, " ")
		if strings.HasPrefix(v.query, "'") && ok {
			v.query, ok = unquote(v.query)
		}
		return v, ok
	case importVerb, framesVerb:
		return v, v.takeWords(strings.Fields(rest))
	}
	return v, false
}

// takeWords takes what follows the name of an import or of frames.
func (v *verb) takeWords(words []string) bool {
	for at := 0; at < len(words); at++ {
		word := words[at]
		if v.name == importVerb && word == "--token" && at+1 < len(words) {
			at++
			word = "--token=" + words[at]
		}
		token := strings.TrimPrefix(word, "--token=")
		switch {
		case token != word && v.name == importVerb && v.token == "" && idempotency.ValidToken(token):
			v.token = token
		case token == word && v.tenant == "":
			v.tenant = word
		default:
			return false
		}
	}
	return v.tenant != ""
}

func (v verb) right() access.Right {
	if v.name == importVerb {
		return access.Write
	}
	return access.Read
}

// runVerb carries out a verb, and gives its status.
func (s *session) runVerb(ctx context.Context, v verb) uint32 {
	if idle, is := s.channel.(*patient); is {
		// A stream may pause for longer than `idle`, while its client says that it is there.
		s.channel = idle.Channel
	}
	t, meter, leave, err := s.enter(v.tenant, v.right())
	if err != nil {
		return s.tellFault(err)
	}
	defer leave()
	if v.name != framesVerb {
		var stop func()
		ctx, stop = context.WithTimeout(ctx, s.Limits.Get().Request)
		defer stop()
	}
	record := &logs.Request{User: s.user, Tenant: t.Name(), What: v.name}
	in := &received{from: s.channel, meter: meter}
	err = s.timed(ctx, record, v.right(), func(error) {}, func(ctx context.Context) error {
		return reason(ctx, v.carryOut(child.Charging(ctx, meter.AddChild), s.streams(t, in, record)))
	})
	record.In = in.count.Load()
	if err != nil {
		record.Status = int(s.tellFault(err))
	}
	s.Log.Request(*record)
	return uint32(record.Status)
}

// errLate is the refusal of a session that took too long.
const errLate = limits.Passed("the session took longer than `request` says")

// reason gives why something failed whose context has ended.
func reason(ctx context.Context, err error) error {
	switch {
	case err == nil || ctx.Err() == nil:
		return err
	case ctx.Err() == context.DeadlineExceeded:
		return errLate
	}
	return store.ErrClosed
}

func (v verb) carryOut(ctx context.Context, u streams.Use) error {
	switch v.name {
	case importVerb:
		return u.Import(ctx, v.token)
	case askVerb:
		return u.Ask(ctx, v.query)
	}
	return u.Frames(ctx)
}

func (s *session) streams(t tenants.Tenant, in *received, record *logs.Request) streams.Use {
	cut := func() { s.conn.Close() }
	out := inParts{services.Counting{To: s.channel, Count: &record.Out, Meter: in.meter}, s.Limits.Get().Idle, cut}
	return streams.Use{Gateway: s.Gateway, User: s.user, Address: s.address, Tenant: t, Meter: in.meter, In: in, Out: out, Tell: s.tell,
		IsThere: s.isThere, Cut: cut, Stopping: s.stopping, IsLetIn: s.isLetIn}
}

// errGone is the refusal of a user whose key or password was taken back, or replaced, while the session lasts.
const errGone = limits.Passed("the key or the password that let you in is no longer valid; log in again")

// isLetIn asks again whether the user would be let in by the same key or password.
func (s *session) isLetIn() error {
	if !s.isStill() {
		return errGone
	}
	return nil
}

// received counts what comes, which is read in the background, and may be after the session.
type received struct {
	from  io.Reader
	meter *dailyquota.Meter
	count atomic.Int64
}

// Read reads and counts.
func (r *received) Read(into []byte) (int, error) {
	count, err := r.from.Read(into)
	r.count.Add(int64(count))
	r.meter.Add(count)
	return count, err
}

// tell writes a sentence to the user's terminal.
func (s *session) tell(sentence string) {
	fmt.Fprintf(s.terminal(), "gitpoold: %s\n", sentence)
}

// tellFault tells an error as the program does, after a sentence, and gives its status.
func (s *session) tellFault(err error) uint32 {
	s.tell(fmt.Sprintf("%s\ngitpool: fault %d", streams.Sentence(err), streams.NumberOf(err)))
	return uint32(statusOf(err))
}

// statusOf gives the status with which the program ends for the same fault.
func statusOf(err error) int {
	switch streams.NumberOf(err) {
	case 68:
		return away
	case 90:
		return memory
	}
	return failed
}

// isThere asks a client that has ended its side whether it is there: an answer of any kind comes from one that is. Without this, a connection that
// broke off looks like the end of what came over it.
func (s *session) isThere(ctx context.Context) bool {
	answered := make(chan error, 1)
	go func() {
		_, err := s.channel.SendRequest(aliveRequest, true, nil)
		answered <- err
	}()
	select {
	case err := <-answered:
		return err == nil
	case <-time.After(s.Limits.Get().Idle):
	case <-ctx.Done():
	}
	return false
}

// aliveRequest is what OpenSSH asks whether its peer is there by. Whoever does not know it says so, and is there.
const aliveRequest = "keepalive@openssh.com"

// inParts writes to a client that has to take each part within a time; else the connection is cut.
type inParts struct {
	to     io.Writer
	within time.Duration
	cut    func()
}

// longestPart is how much a client has to take within the time.
const longestPart = 64 << 10

// Write writes all bytes, a part after another.
func (p inParts) Write(data []byte) (written int, err error) {
	for written < len(data) && err == nil {
		part := data[written:]
		if len(part) > longestPart {
			part = part[:longestPart]
		}
		timer := time.AfterFunc(p.within, p.cut)
		var count int
		count, err = p.to.Write(part)
		timer.Stop()
		written += count
	}
	return written, err
}
