package receivepack

import (
	"bufio"
	"context"
	"errors"
	"fmt"
	"io"
	"strings"
	"sync"

	"gitpoold/fsck"
	"gitpoold/objects"
	"gitpoold/pack"
	"gitpoold/pktline"
	"gitpoold/plumbing"
	"gitpoold/protect"
	"gitpoold/tenants"
	"gitpoold/uploadpack"
)

// Server has what an operator may set.
type Server struct {
	Folder string // for temporary files
	Limits pack.Limits
	Rules  fsck.Rules // which objects are refused that could be kept
	// Lines counts the bytes of refs and options while a push has them; nil counts nothing.
	Lines pktline.Budget
	// EndsItself tells that the request ends whatever the client is told: over http, where the answer comes after the request. Else the client may
	// keep its side open until it has read the report.
	EndsItself bool
	// Protects says why a ref may not change so, or nothing; it may be nil.
	Protects func(protect.Change) (why string, err error)
	// Judge lets hooks say of each change of a push, which has come whole, why it may not be made, or nothing; it may be nil.
	Judge func(context.Context, Pushed) (reasons []string, err error)
	// Lasts is told what a push has changed once that lasts, before another push of the tenant begins; it may be nil.
	Lasts func(Result)
}

// Result is what a push changed, and the options that it was given. Failed is why all of its refs were refused after its objects were read, where
// the client was told a sentence about it.
type Result struct {
	Changes []Change
	Options []string
	Failed  error
}

// Serve answers one push after Advertise. Changes of the result are durable. An error was told to the client where its protocol
// has room for that; refs that were refused are no error.
func (s Server) Serve(ctx context.Context, t tenants.Tenant, in *bufio.Reader, out *pktline.Writer) (Result, error) {
	reader := pktline.NewReader(in, mostLines)
	reader.Charge(s.Lines)
	q, err := readRequest(reader)
	if errors.Is(err, errHungUp) {
		return Result{}, err
	}
	if err == nil && !q.mayReport() {
		err = q.refusal
	}
	if err != nil {
		out.Line("ERR %s", sentence(err))
		out.Flush()
		return Result{}, err
	}
	if len(q.changes) == 0 && q.refusal == nil {
		return Result{}, nil
	}
	p := newPush(s, t, q)
	p.out = out
	whole := q.refusal
	if whole == nil {
		whole = p.carryOut(ctx, in)
	}
	if whole != nil && q.hasPack && !p.isRead && s.EndsItself {
		_, _ = io.CopyN(io.Discard, in, mostDrained)
	}
	failed := p.report(whole)
	result := Result{Changes: p.good(), Options: q.options, Failed: p.failed}
	if whole != nil {
		result.Changes = nil
	} else {
		whole = failed
	}
	return result, whole
}

// mayReport tells whether the client takes a report of the push.
func (q *request) mayReport() bool { return q.can["report-status"] || q.can["report-status-v2"] }

// mostDrained is how much of a refused push is read, so that a client that is still sending comes to read the report.
const mostDrained = 64 << 20

// push is one push on its way.
type push struct {
	Server
	*request
	t     tenants.Tenant
	out   *pktline.Writer
	own   *pack.Quarantine
	heads map[plumbing.Name]plumbing.Head // of the commits in the pack
	tags  map[plumbing.Name]*objects.Tag  // in the pack, or held by a ref of this push; without their taggers and messages
	kinds map[plumbing.Name]plumbing.Kind // of what refs are to hold
	unfit []string                        // why a change is refused whatever the refs are, at its place among the changes, or nothing
	bad   []string                        // why it is refused
	standing
	head string // what HEAD is to name, or nothing

	saying sync.Mutex // is held by who writes to the client while the push waits
	isRead bool       // whether the pack has been read to its end
	hint   string     // what a user can do
	failed error      // why all refs were refused
}

func newPush(s Server, t tenants.Tenant, q *request) *push {
	count := len(q.changes)
	return &push{Server: s, request: q, t: t, unfit: make([]string, count), bad: make([]string, count)}
}

// carryOut reads the pack, judges all of it, and feeds it. The error is about the push as a whole.
func (p *push) carryOut(ctx context.Context, in io.Reader) error {
	limits, err := p.limits()
	if err != nil {
		return err
	}
	if p.own, err = pack.NewQuarantine(p.Folder, p.t, limits); err != nil {
		return err
	}
	defer p.own.Close()
	if p.hasPack {
		if err := p.own.Read(ctx, in); err != nil {
			return err
		}
		p.isRead = true
	}
	defer p.keepAlive()()
	if err := p.examine(ctx); err != nil {
		return err
	}
	if err := p.askHooks(ctx); err != nil {
		return err
	}
	err = p.attempt(ctx)
	if errors.As(err, new(*objects.Refusal)) {
		if err = p.blame(ctx); err == nil {
			err = p.attempt(ctx)
		}
	}
	if err != nil && !errors.Is(err, errNothing) {
		p.refuseAll(sentence(err))
		p.failed = err
	}
	return nil
}

// attempt changes the refs that may change, or none.
func (p *push) attempt(ctx context.Context) error {
	return p.t.Push(ctx, func(refs tenants.Refs) error { return p.judge(ctx, refs) }, func(s *tenants.Stream) error {
		s.WhenItLasts(p.tell)
		return p.feed(ctx, s)
	})
}

func (p *push) tell() {
	if p.Lasts != nil {
		p.Lasts(Result{Changes: p.good(), Options: p.options})
	}
}

// limits gives what the pack may have: a tenant with a quota takes no more than it has room for.
func (p *push) limits() (pack.Limits, error) {
	limits := p.Limits
	room, err := p.t.Room()
	if err == nil && room < limits.Bytes {
		limits.Bytes = room
	}
	return limits, err
}

func (p *push) refuseAll(why string) {
	for at := range p.bad {
		if p.bad[at] == "" {
			p.bad[at] = why
		}
	}
}

// good gives the changes that are made.
func (p *push) good() (changes []Change) {
	for at, change := range p.changes {
		if p.bad[at] == "" {
			changes = append(changes, change)
		}
	}
	return changes
}

// report tells what became of each ref: gitprotocol-pack(5), "Reporting Errors".
func (p *push) report(whole error) error {
	hasBands, out := p.can["side-band-64k"], p.out
	if hasBands {
		_, _ = io.WriteString(out.Sideband(pktline.ProgressChannel, false), p.remarks(whole))
	}
	if p.mayReport() {
		if hasBands {
			p.status(out.Sideband(pktline.DataChannel, false), whole)
		} else {
			p.status(out.Bare(), whole)
		}
	}
	if hasBands {
		out.FlushPacket()
	}
	return out.Flush()
}

// mostRemarks is of how many refs the reason stands on the band of progress too.
const mostRemarks = 16

// remarks are what stands on the band of progress: what a user can do, and before it the reasons where the client may not show those of the report.
// git, which asks for the second form of reports, shows them; libgit2 drops them.
func (p *push) remarks(whole error) string {
	var text strings.Builder
	if !p.can["report-status-v2"] {
		p.complain(&text, whole)
	}
	if wayOut := wayOutOf(whole); wayOut != "" {
		fmt.Fprintf(&text, "%s\n", wayOut)
	}
	if p.hint != "" && whole == nil {
		fmt.Fprintf(&text, "%s\n", p.hint)
	}
	return text.String()
}

func (p *push) complain(text *strings.Builder, whole error) {
	if whole != nil {
		fmt.Fprintf(text, "error: %s\n", sentence(whole))
		return
	}
	told := 0
	for at, change := range p.changes {
		if p.bad[at] == "" {
			continue
		}
		if told++; told > mostRemarks {
			fmt.Fprintf(text, "error: further refs are refused\n")
			return
		}
		fmt.Fprintf(text, "error: %s: %s\n", strings.ToValidUTF8(brief(change.Ref), "?"), p.bad[at])
	}
}

// status writes the report, of which no more than a packet is held: it may have as many bytes as the lines of the push.
func (p *push) status(to io.Writer, whole error) {
	lines := pktline.NewWriter(to)
	tell := func(line string) { lines.Text(fitting(line) + "\n") }
	if whole == nil {
		tell("unpack ok")
	} else {
		tell("unpack " + sentence(whole))
	}
	for at, change := range p.changes {
		switch {
		case whole != nil:
			tell("ng " + change.Ref + " unpacker error")
		case p.bad[at] != "":
			tell("ng " + change.Ref + " " + p.bad[at])
		default:
			tell("ok " + change.Ref)
		}
	}
	lines.FlushPacket()
	lines.Flush()
}

// fitting cuts a line to what fits into a packet. The line that named a ref had two names of objects too, so what is cut is the reason.
func fitting(line string) string {
	const most = pktline.LongestData - 1
	if len(line) > most {
		return line[:most]
	}
	return line
}

func wayOutOf(err error) string {
	var refusal *objects.Refusal
	if errors.As(err, &refusal) {
		return refusal.WayOut
	}
	return ""
}

// sentence gives an error as one line for a client.
func sentence(err error) string {
	var refusal *objects.Refusal
	if errors.As(err, &refusal) || errors.As(err, new(pack.Refused)) {
		return strings.ReplaceAll(err.Error(), "\n", " ")
	}
	return uploadpack.Sentence(err)
}
