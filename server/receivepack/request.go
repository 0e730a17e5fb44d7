// Package receivepack answers pushes: git-receive-pack(1) with gitprotocol-pack(5). A push becomes one stream of git-fast-import(1),
// whose refs change together or not at all.
package receivepack

import (
	"context"
	"errors"
	"fmt"
	"io"
	"strings"

	"gitpoold/objects"
	"gitpoold/pktline"
	"gitpoold/plumbing"
	"gitpoold/tenants"
	"gitpoold/uploadpack"
)

const capabilities = "report-status report-status-v2 delete-refs side-band-64k quiet atomic ofs-delta push-options object-format=sha1 " +
	uploadpack.Agent

// Advertise writes the refs and what a push may ask for. Protocol 2 has no pushes, so git takes protocol 0 for them.
func Advertise(ctx context.Context, t tenants.Tenant, out *pktline.Writer, version int) error {
	refs, _, err := t.Refs(ctx)
	if err != nil {
		return err
	}
	if version == 1 {
		out.Line("version 1")
	}
	uploadpack.AdvertiseRefs(out, refs, capabilities)
	return out.Flush()
}

// Change is what one ref is to become. Old is what the client believes it to be; a zero name is no object.
type Change struct {
	Ref      string
	Old, New plumbing.Name
}

// Limits of a request beside its pack.
const (
	mostChanges = objects.MostRefs
	mostOptions = 1_024
	mostLines   = 32 << 20
)

// request is a push without its pack. Where it is refused, it has what came before the refusal.
type request struct {
	changes []Change
	can     map[string]bool
	options []string
	// hasPack tells whether a pack follows: it does unless all refs go.
	hasPack bool
	refusal error
}

func refused(format string, values ...any) error {
	return uploadpack.Refused{Why: fmt.Sprintf(format, values...)}
}

// readRequest reads up to the pack. It has no changes where the client asks for none, and is errHungUp where the client ends the session instead.
// What refuses the push is kept, and the rest of the request is read: a client that is still sending would not come to read a report.
func readRequest(reader *pktline.Reader) (*request, error) {
	q := &request{can: map[string]bool{}}
	err := q.each(reader, q.line)
	if err == io.EOF && len(q.changes) == 0 && q.refusal == nil {
		return q, errHungUp
	}
	if err == nil && q.can["push-options"] && len(q.changes) > 0 {
		err = q.each(reader, q.option)
	}
	if q.refusal != nil {
		return q, nil
	}
	return q, cut(err)
}

// each takes lines up to a flush. From a refusal on it passes over them.
func (q *request) each(reader *pktline.Reader, take func(line string) error) error {
	for {
		packet, err := reader.Next()
		switch {
		case err != nil && (q.refusal != nil || !reader.MayGoOn()):
			return err
		case err == nil && packet.Kind == pktline.Flush:
			return nil
		case err == nil && packet.Kind != pktline.Data:
			return pktline.ErrMalformed
		case err == nil && q.refusal != nil:
			q.skim(string(packet.Text))
			continue
		case err == nil:
			err = take(string(packet.Text))
		}
		if q.refusal = err; err != nil {
			q.skim(string(packet.Text))
			reader.Skim(mostDrained)
		}
	}
}

// skim looks at a line of a push that is refused for whether a pack follows.
func (q *request) skim(line string) {
	if parts := strings.SplitN(line, " ", 3); len(parts) == 3 {
		new, isNew := plumbing.ParseName(parts[1])
		q.hasPack = q.hasPack || isNew && !new.IsZero()
	}
}

// errHungUp says that a client ended the session without a request, not even an empty one. Nobody is there to be told, but the status tells it: a git
// that finds no ref to push ends so, and fails by that status, as with git's own server.
var errHungUp = errors.New("the client hung up without a request")

func cut(err error) error {
	if err == io.EOF || err == io.ErrUnexpectedEOF {
		return refused("the push is cut off")
	}
	return err
}

// line takes one line: a change of a ref, the first with capabilities, or a commit that the client has without its parents, which
// needs no note, for a parent that is nowhere is found later.
func (q *request) line(line string) error {
	line, words, hasWords := strings.Cut(line, "\x00")
	if hasWords && len(q.changes) == 0 {
		if err := uploadpack.TakeCapabilities(words, q.can); err != nil {
			return err
		}
	}
	if strings.HasPrefix(line, "shallow ") {
		return nil
	}
	if strings.HasPrefix(line, "push-cert") {
		return refused("signed pushes are not served here")
	}
	parts := strings.SplitN(strings.TrimSuffix(line, "\n"), " ", 3)
	if len(parts) < 3 {
		return refused("a push has a malformed line: %s", pktline.Show([]byte(line)))
	}
	old, isOld := plumbing.ParseName(parts[0])
	new, isNew := plumbing.ParseName(parts[1])
	if !isOld || !isNew {
		return refused("a push has a malformed line: %s", pktline.Show([]byte(line)))
	}
	if len(q.changes) == mostChanges {
		return refused("a push changes more than %d refs, as many as a tenant may have", mostChanges)
	}
	q.changes = append(q.changes, Change{parts[2], old, new})
	q.hasPack = q.hasPack || !new.IsZero()
	return nil
}

// option takes one line after those of the changes.
func (q *request) option(line string) error {
	if len(q.options) == mostOptions {
		return refused("a push has more than %d options", mostOptions)
	}
	q.options = append(q.options, line)
	return nil
}

var errNothing = errors.New("no ref of the push may change")
