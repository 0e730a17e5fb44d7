package sshd

import (
	"context"
	"encoding/binary"
	"fmt"
	"io"
	"strings"
	"sync/atomic"
	"time"

	"golang.org/x/crypto/ssh"

	"gitpoold/access"
	"gitpoold/dailyquota"
	"gitpoold/logs"
	"gitpoold/pktline"
	"gitpoold/services"
	"gitpoold/tenants"
	"gitpoold/uploadpack"
)

// session is one command of a connection.
type session struct {
	*server
	conn          *ssh.ServerConn
	channel       ssh.Channel
	user, address string
	protocol      string
}

// The statuses with which a command ends.
const (
	ended  = 0
	failed = 1
	usage  = 2
	away   = 4
	memory = 5
)

// serve takes requests up to the one for a command, and carries it out. It tells whether the connection is to end too, as soon as no session of it is
// at work: a client that has not said in time what it wants may not heed that its channel is closed, and one that is no longer let in by what it
// showed, at the end of its command or before, has to show something else.
func (s *session) serve(ctx context.Context, requests <-chan *ssh.Request) (ends bool) {
	defer s.channel.Close()
	late := time.NewTimer(s.Limits.Get().Handshake)
	defer late.Stop()
	for {
		select {
		case <-late.C:
			go ssh.DiscardRequests(requests)
			return true
		case request, isOpen := <-requests:
			switch {
			case !isOpen:
				return false
			case request.Type == "exec" || request.Type == "shell":
				// Requests that nobody takes hold up all that comes over the connection, and its end.
				go ssh.DiscardRequests(requests)
				return s.carryOut(ctx, request)
			}
			reply(request, request.Type == "env" && s.setEnvironment(request.Payload))
		}
	}
}

// carryOut carries out a command, or greets a user who wants a shell, and sends the status.
func (s *session) carryOut(ctx context.Context, request *ssh.Request) (ends bool) {
	isStill := s.isStill()
	reply(request, true)
	status := uint32(failed)
	switch {
	case !isStill:
		s.say("the key or the password of this connection is no longer valid; connect again")
	case request.Type == "shell":
		fmt.Fprintf(s.terminal(), "Hello %s. This server speaks git, takes import, ask, frames and account, and has no shell.\r\n", s.user)
	default:
		status = s.run(ctx, request.Payload)
	}
	s.exit(status)
	if status != ended && request.Type != "shell" {
		s.awaitEnd()
	}
	return !s.isStill()
}

// isStill tells whether what let the user in is the user's still.
func (s *session) isStill() bool {
	shown := s.conn.Permissions.Extensions
	return s.Access.IsStill(s.user, shown[keyKey], shown[hashKey])
}

func reply(request *ssh.Request, ok bool) {
	if request.WantReply {
		_ = request.Reply(ok, nil)
	}
}

// setEnvironment takes GIT_PROTOCOL and no other variable.
func (s *session) setEnvironment(payload []byte) bool {
	var variable struct{ Name, Value string }
	if ssh.Unmarshal(payload, &variable) != nil || variable.Name != "GIT_PROTOCOL" {
		return false
	}
	s.protocol = variable.Value
	return true
}

func (s *session) exit(status uint32) {
	var payload [4]byte
	binary.BigEndian.PutUint32(payload[:], status)
	_, _ = s.channel.SendRequest("exit-status", false, payload[:])
}

// quiet is how long a client may send nothing before it is taken for one that waits for the end of the session.
var quiet = time.Second

// awaitEnd reads on until the client ends its side, or has sent nothing for a second; within Idle in all. A git that writes to an ssh that has gone dies
// of SIGPIPE before it shows what the server said. What comes then is dropped, and does not count: the connection ends as one without sessions.
func (s *session) awaitEnd() {
	_ = s.channel.CloseWrite()
	from := s.channel
	if idle, is := from.(*patient); is {
		from = idle.Channel
	}
	over := make(chan struct{})
	defer close(over)
	late := time.NewTimer(s.Limits.Get().Idle)
	defer late.Stop()
	for come := reads(from, over); ; {
		select {
		case _, isOpen := <-come:
			if !isOpen {
				return
			}
		case <-time.After(quiet):
			return
		case <-late.C:
			return
		}
	}
}

// reads tells of each part that comes from a client, which is dropped. It is closed when the client ends its side.
func reads(from io.Reader, over <-chan struct{}) <-chan struct{} {
	come := make(chan struct{})
	go func() {
		defer close(come)
		part := make([]byte, 32<<10)
		for {
			if _, err := from.Read(part); err != nil {
				return
			}
			select {
			case come <- struct{}{}:
			case <-over:
				return
			}
		}
	}()
	return come
}

// terminal is where the user sees sentences. The client has to take each within the time that it may take nothing.
func (s *session) terminal() io.Writer {
	return inParts{s.channel.Stderr(), s.Limits.Get().Idle, func() { s.conn.Close() }}
}

// say writes a sentence to the user's terminal.
func (s *session) say(why string) uint32 {
	fmt.Fprintf(s.terminal(), "gitpoold: %s\r\n", why)
	return failed
}

// words says which commands there are.
const words = "this server takes git-upload-pack and git-receive-pack with one path in quotes; import TENANT [--token WORD]; ask TENANT QUERY;" +
	" frames TENANT; and account; and no other command"

// run carries out a command, and gives the status with which it ends.
func (s *session) run(ctx context.Context, payload []byte) uint32 {
	var exec struct{ Command string }
	if ssh.Unmarshal(payload, &exec) != nil {
		return usage
	}
	if words, ok := parseAccount(exec.Command); ok {
		return s.runAccount(ctx, words)
	}
	if it, ok := parseVerb(exec.Command); ok {
		return s.runVerb(ctx, it)
	}
	if words, ok := parseLFS(exec.Command); ok {
		return s.runLFS(words)
	}
	service, path, ok := parseCommand(exec.Command)
	if !ok {
		s.say(words)
		return usage
	}
	t, meter, leave, err := s.enter(tenantOf(path), services.Right(service))
	if err != nil {
		return s.say(err.Error())
	}
	defer leave()
	ctx, stop := context.WithTimeout(ctx, s.Limits.Get().Request)
	defer stop()
	record := &logs.Request{User: s.user, Tenant: t.Name(), What: service}
	// Whoever waits for the client cannot tell it.
	blocked := func(why error) { go s.say(why.Error()) }
	if err := s.timed(ctx, record, services.Right(service), blocked, func(ctx context.Context) error {
		return s.service(ctx, s.use(service, t, meter, record))
	}); err != nil {
		record.Status = failed
	}
	s.Log.Request(*record)
	return uint32(record.Status)
}

// enter lets the user in to a tenant, and gives what counts the session and the call that counts it no more.
func (s *session) enter(tenant string, right access.Right) (t tenants.Tenant, meter *dailyquota.Meter, leave func(), err error) {
	leave, err = s.Limits.Enter(s.user, s.address)
	if err != nil {
		return t, nil, nil, err
	}
	meter = s.Daily.Meter(s.user, s.address)
	if err = meter.Err(); err == nil {
		t, err = s.Open(s.user, tenant, right)
	}
	if err != nil {
		leave()
	}
	return t, meter, leave, err
}

// timed carries out what a record tells of. The session is cut off where the context ends before, and where the operator blocks the user or the
// tenant: `blocked` is told then, and it is the error.
func (s *session) timed(ctx context.Context, record *logs.Request, right access.Right, blocked func(error), do func(context.Context) error) error {
	var refusal atomic.Value
	ctx, stop := s.Watch(ctx, s.user, record.Tenant, right, func(why error) {
		refusal.Store(why)
		blocked(why)
	})
	defer stop()
	finished := make(chan struct{})
	defer close(finished)
	go func() {
		select {
		case <-ctx.Done():
			s.cut(finished)
		case <-finished:
		}
	}()
	record.Protocol, record.Address = "ssh", s.address
	began := time.Now()
	err := do(ctx)
	if why, is := refusal.Load().(error); is {
		err = why
	}
	record.Took, record.Err = time.Since(began), err
	return err
}

// grace is how long a session that is cut off has to tell why.
const grace = 300 * time.Millisecond

// cut ends a session, and its connection where the client does not let the session end.
func (s *session) cut(finished <-chan struct{}) {
	for _, end := range []func() error{s.channel.Close, s.conn.Close} {
		select {
		case <-finished:
			return
		case <-time.After(grace):
			_ = end()
		}
	}
}

func (s *session) use(service string, t tenants.Tenant, meter *dailyquota.Meter, record *logs.Request) services.Use {
	return services.Use{Gateway: s.Gateway, Service: service, Version: services.Version(s.protocol), User: s.user, Address: s.address, Tenant: t,
		Meter: meter, In: services.Counting{From: s.channel, Count: &record.In, Meter: meter},
		Out: pktline.NewWriter(services.Counting{To: s.channel, Count: &record.Out, Meter: meter})}
}

func (s *session) service(ctx context.Context, use services.Use) error {
	if err := use.Advertise(ctx); err != nil {
		s.say(uploadpack.Sentence(err))
		return err
	}
	return use.Serve(ctx, false)
}

// tenantOf gives the tenant that a path names: /acme/site.git is acme/site.
func tenantOf(path string) string {
	return strings.TrimSuffix(strings.TrimSuffix(strings.TrimPrefix(path, "/"), "/"), ".git")
}

// parseCommand reads a command as git writes it: git-upload-pack, or git upload-pack, and a path between single quotes, where \'
// and \! stand outside of them. Nothing else is taken, not even what a shell would take.
func parseCommand(command string) (service, path string, ok bool) {
	const longest = 1024
	for _, service := range []string{services.UploadPack, services.ReceivePack} {
		for _, front := range []string{service + " ", "git " + strings.TrimPrefix(service, "git-") + " "} {
			if strings.HasPrefix(command, front) && len(command) <= longest {
				path, ok = unquote(command[len(front):])
				return service, path, ok
			}
		}
	}
	return "", "", false
}

// unquote reads one word: parts between single quotes, and between them \' and \!. A word of plain letters needs no quotes.
func unquote(text string) (word string, ok bool) {
	if !strings.HasPrefix(text, "'") {
		return text, text != "" && strings.Trim(text, plain) == ""
	}
	for strings.HasPrefix(text, "'") {
		part, rest, found := strings.Cut(text[1:], "'")
		if !found {
			return "", false
		}
		word, text = word+part, rest
		if len(text) > 2 && text[0] == '\\' && (text[1] == '\'' || text[1] == '!') && text[2] == '\'' {
			word, text = word+text[1:2], text[2:]
		}
	}
	return word, text == ""
}

const plain = "abcdefghijklmnopqrstuvwxyzABCDEFGHIJKLMNOPQRSTUVWXYZ0123456789_-./"
