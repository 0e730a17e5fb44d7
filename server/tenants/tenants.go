// Package tenants has the repositories of all tenants of one pool: their refs, objects and answers, and pushes to them.
//
// Each call is about one tenant, and no call tells anything of another. Calls of any tenants run side by side. A push takes the
// tenant's lock, so pushes to one tenant come one after another, and those to several tenants do not wait for each other.
//
// Errors of which IsSentence is true have a text for a user's terminal: it names no path and no other tenant.
package tenants

import (
	"bytes"
	"context"
	"regexp"
	"strings"

	"gitpoold/child"
	"gitpoold/faults"
	"gitpoold/frames"
	"gitpoold/idempotency"
	"gitpoold/plumbing"
	"gitpoold/store"
)

// Keeper keeps what tenants have: one store, or several of which each tenant is in one.
type Keeper interface {
	Ask(ctx context.Context, class child.Class, steps ...frames.Step) (store.Answers, error)
	Begin(ctx context.Context, tenant string, form store.Form) (*store.Stream, error)
	Kept(tenant, token string) (idempotency.Answer, bool)
	Bytes(tenant string) int64
	AtMost(tenant string) int64
	Recount(ctx context.Context, tenant string) error
	Usages() []store.Usage
}

// Pool has all tenants.
type Pool struct {
	store    Keeper
	locks    locks
	usage    *usage
	owners   Owners
	listings listings
	refs     refLists
}

// New gives the tenants of a keeper. `quota` gives the bytes that a tenant may have, 0 for no limit.
func New(s Keeper, quota func(tenant string) int64) *Pool {
	return &Pool{store: s, usage: &usage{quota: quota, store: s}}
}

// Tenant is one tenant of a pool.
type Tenant struct {
	pool *Pool
	name string
	// user is who pushes; empty for the operator.
	user string
}

var tenantName = regexp.MustCompile(`^[A-Za-z0-9_][A-Za-z0-9_-]*(/[A-Za-z0-9_][A-Za-z0-9_-]*)*$`)

// longestName is the most bytes that the name of a tenant may have.
const longestName = 64

// ValidName tells whether a tenant may have this name.
func ValidName(name string) bool { return len(name) <= longestName && tenantName.MatchString(name) }

// Tenant gives the tenant of a name; one that was never seen is an empty repository. A bad name is refused under 32.
func (p *Pool) Tenant(name string) (Tenant, error) {
	if !ValidName(name) {
		return Tenant{}, faults.Fault(32)
	}
	return Tenant{pool: p, name: name}, nil
}

// Name is the tenant's name.
func (t Tenant) Name() string { return t.name }

// Ref is a ref and the object that it holds.
type Ref struct {
	Name   string
	Target plumbing.Name
}

// begin sends questions in one batch, and gives the call that waits for their answers.
func (t Tenant) begin(ctx context.Context, class child.Class, queries []string) func() ([]frames.Answer, error) {
	steps := make([]frames.Step, len(queries))
	for i, query := range queries {
		steps[i] = frames.Step{Kind: frames.Ask, Tenant: t.name, Body: []byte(query)}
	}
	return t.send(ctx, class, steps...)
}

// send sends steps in one batch, and gives the call that waits for their answers.
func (t Tenant) send(ctx context.Context, class child.Class, steps ...frames.Step) func() ([]frames.Answer, error) {
	if len(steps) == 0 {
		return func() ([]frames.Answer, error) { return nil, nil }
	}
	batch, err := t.pool.store.Ask(ctx, class, steps...)
	return func() ([]frames.Answer, error) {
		if err != nil {
			return nil, err
		}
		return batch.Wait(ctx)
	}
}

// checked gives the reply of a step that went well, or its fault.
func checked(answer frames.Answer) ([]byte, error) {
	switch {
	case answer.Status == frames.Memory:
		return nil, faults.Fault(90)
	case answer.Status == frames.Fault && answer.Value == 16:
		return nil, plumbing.ErrMissing
	case answer.Status == frames.Fault:
		return nil, faults.Fault(answer.Value)
	}
	return answer.Reply, nil
}

// Ask gives the answer to one query, in the words of the man page. Its error may be a Fault, or ErrMissing where the query names
// nothing.
func (t Tenant) Ask(ctx context.Context, query string) ([]byte, error) {
	answers, err := t.begin(ctx, child.Short, []string{query})()
	if err != nil {
		return nil, err
	}
	return checked(answers[0])
}

// AskAll gives the answers to many queries, in their order; each has its own error.
func (t Tenant) AskAll(ctx context.Context, queries []string) (replies [][]byte, errs []error, err error) {
	answers, err := t.begin(ctx, child.Short, queries)()
	for _, answer := range answers {
		reply, err := checked(answer)
		replies, errs = append(replies, reply), append(errs, err)
	}
	return replies, errs, err
}

// Refs gives all refs in the order of their bytes, and the ref that HEAD names, which may hold nothing. Requests share the list, and nobody may change
// it.
func (t Tenant) Refs(ctx context.Context) (refs []Ref, head string, err error) {
	replies, errs, err := t.AskAll(ctx, []string{"refs", "head"})
	if err == nil {
		err = errs[0]
	}
	if err == nil {
		err = errs[1]
	}
	if err != nil {
		return nil, "", err
	}
	refs, err = t.pool.refs.share(ctx, t.name, replies[0])
	return refs, strings.TrimSuffix(string(replies[1]), "\n"), err
}

// Log gives the commits of a range of gitrevisions(7), such as `main` or `A..B`, from new to old by the committer's time; so a parent
// may come before its child. It is Fault 25 where their messages have first lines of more than longestLog bytes in all.
func (t Tenant) Log(ctx context.Context, revisions string) ([]plumbing.Name, error) {
	answers, err := t.begin(child.Longest(ctx, longestLog), child.Bulk, []string{"log " + revisions})()
	if err != nil {
		return nil, err
	}
	text, err := checked(answers[0])
	if err != nil {
		return nil, err
	}
	var names []plumbing.Name
	for len(text) > 0 {
		line, rest, _ := bytes.Cut(text, []byte("\n"))
		name, ok := plumbing.ParseName(string(line[:min(len(line), digits)]))
		if !ok {
			return nil, errAnswer
		}
		names, text = append(names, name), rest
	}
	return names, nil
}

// longestLog is the longest answer to a `log` that is taken, that of some 100,000 commits.
const longestLog = 8 << 20

// digits is how many digits the name of an object has.
const digits = 40
