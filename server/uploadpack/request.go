package uploadpack

import (
	"context"
	"errors"
	"fmt"
	"strconv"
	"strings"
	"syscall"

	"gitpoold/packcache"
	"gitpoold/pktline"
	"gitpoold/plumbing"
	"gitpoold/tenants"
	"gitpoold/walk"
)

// request is what a client asks of one fetch, in either protocol.
type request struct {
	wants, haves []plumbing.Name
	shallow      []plumbing.Name
	deepening    walk.Deepening
	notRefs      []string
	filter       walk.Filter
	can          map[string]bool
}

func newRequest() *request { return &request{filter: walk.All, can: map[string]bool{}} }

// Refused is what a client did wrong, in a sentence for its user.
type Refused struct{ Why string }

func (r Refused) Error() string { return r.Why }

func refused(format string, values ...any) error { return Refused{fmt.Sprintf(format, values...)} }

// argument takes one line of a request. Both protocols have these.
func (q *request) argument(line string) error {
	word, value, _ := strings.Cut(line, " ")
	switch word {
	case "want", "have", "shallow":
		return q.name(word, value)
	case "deepen", "deepen-since":
		return q.number(word, value)
	case "deepen-not":
		q.notRefs = append(q.notRefs, value)
	case "filter":
		filter, err := walk.ParseFilter(value)
		if err != nil {
			return Refused{err.Error()}
		}
		q.filter = filter
	default:
		return refused("upload-pack: `%s` is not served", pktline.Show([]byte(line)))
	}
	return nil
}

func (q *request) name(word, value string) error {
	digits, capabilities, _ := strings.Cut(value, " ")
	name, ok := plumbing.ParseName(digits)
	if !ok {
		return refused("upload-pack: malformed %s line", word)
	}
	switch word {
	case "want":
		q.wants = append(q.wants, name)
		return TakeCapabilities(capabilities, q.can)
	case "have":
		q.haves = append(q.haves, name)
	default:
		q.shallow = append(q.shallow, name)
	}
	return nil
}

// mostCapabilities is more than there are.
const mostCapabilities = 64

// TakeCapabilities notes the capabilities that a client asks for.
func TakeCapabilities(words string, into map[string]bool) error {
	for _, word := range strings.Fields(words) {
		if len(into) == mostCapabilities {
			return refused("a request asks for more than %d capabilities", mostCapabilities)
		}
		if format := strings.TrimPrefix(word, "object-format="); format != word && format != "sha1" {
			return refused("this server has objects of sha1 alone, and no %s", pktline.Show([]byte(format)))
		}
		into[word] = true
	}
	return nil
}

func (q *request) number(word, value string) error {
	number, err := strconv.ParseInt(value, 10, 64)
	if err != nil || number <= 0 || word == "deepen" && number > walk.Infinite {
		return refused("upload-pack: malformed %s line", word)
	}
	if word == "deepen" {
		q.deepening.Depth = int(number)
	} else {
		q.deepening.Since = number
	}
	return nil
}

// check asks that all that is wanted is the tenant's, and leaves out what else the client names and the tenant has not.
func (q *request) check(ctx context.Context, t Repository) error {
	q.wants = distinct(q.wants)
	has, err := t.Has(ctx, q.wants)
	if err != nil {
		return err
	}
	for at, want := range q.wants {
		if !has[at] {
			return refused("upload-pack: not our ref %v", want)
		}
	}
	q.deepening.IsRelative = q.can["deepen-relative"]
	if q.deepening.Depth > 0 && (q.deepening.Since > 0 || len(q.notRefs) > 0) {
		return Refused{"git upload-pack: deepen and deepen-since (or deepen-not) cannot be used together"}
	}
	if q.shallow, err = commitsOf(ctx, t, distinct(q.shallow)); err != nil {
		return err
	}
	return q.expand(ctx, t)
}

func distinct(names []plumbing.Name) []plumbing.Name {
	return plumbing.Unseen(names, map[plumbing.Name]bool{})
}

// commitsOf gives the commits that names lead to, each once: what the tenant has not, and trees and blobs, are left out.
func commitsOf(ctx context.Context, t Repository, names []plumbing.Name) ([]plumbing.Name, error) {
	return follow(ctx, t, names, map[plumbing.Name]bool{})
}

// follow gives those that were not seen of the commits that names lead to, and marks what it comes to as seen. Tags alone are read.
func follow(ctx context.Context, t Repository, names []plumbing.Name, seen map[plumbing.Name]bool) (commits []plumbing.Name, err error) {
	for names = plumbing.Unseen(names, seen); len(names) > 0; {
		tags, others, err := t.Tags(ctx, names)
		if err != nil {
			return nil, err
		}
		found, _, err := t.Commits(ctx, others)
		if err != nil {
			return nil, err
		}
		commits = append(commits, found...)
		var after []plumbing.Name
		err = t.Objects(ctx, tags, func(o plumbing.Object) error {
			if target, is := tagged(o); is {
				after = append(after, target)
			}
			return nil
		})
		if err != nil {
			return nil, err
		}
		names = plumbing.Unseen(after, seen)
	}
	return commits, nil
}

func held(ctx context.Context, t Repository, names []plumbing.Name) (found []plumbing.Name, err error) {
	if len(names) == 0 {
		return nil, nil
	}
	has, err := t.Has(ctx, names)
	if err != nil {
		return nil, err
	}
	for at, name := range names {
		if has[at] {
			found = append(found, name)
		}
	}
	return found, nil
}

// expand finds the commits of deepen-not, which names refs as a user would.
func (q *request) expand(ctx context.Context, t Repository) error {
	if len(q.notRefs) == 0 {
		return nil
	}
	refs, _, err := t.Refs(ctx)
	if err != nil {
		return err
	}
	byName := make(map[string]plumbing.Name, len(refs))
	for _, ref := range refs {
		byName[ref.Name] = ref.Target
	}
	var targets []plumbing.Name
	for _, name := range q.notRefs {
		target, isOne := named(byName, name)
		if !isOne {
			return refused("git upload-pack: ambiguous deepen-not: %s", pktline.Show([]byte(name)))
		}
		targets = append(targets, target)
	}
	q.deepening.Not, err = commitsOf(ctx, t, distinct(targets))
	return err
}

// named finds the one ref that a user calls so.
func named(refs map[string]plumbing.Name, name string) (target plumbing.Name, isOne bool) {
	count := 0
	for _, front := range []string{"", "refs/", plumbing.Tags, plumbing.Branches, "refs/remotes/"} {
		if found, is := refs[front+name]; is {
			target, count = found, count+1
		}
	}
	return target, count == 1
}

// say tells the client why it is refused, where its protocol has room for that, and gives the error back.
func say(out *pktline.Writer, err error) error {
	out.Refuse(Sentence(err))
	out.Flush()
	return err
}

// Sentence gives an error as one line for a client. What is no refusal is told without its details, which are for the log.
func Sentence(err error) string {
	var refusal Refused
	switch {
	case errors.As(err, &refusal):
		return refusal.Why
	case errors.Is(err, packcache.ErrDamaged), errors.Is(err, packcache.ErrGone):
		return err.Error()
	case tenants.IsSentence(err):
		return err.Error()
	case errors.Is(err, syscall.ENOSPC), errors.Is(err, syscall.EDQUOT), errors.Is(err, syscall.EFBIG):
		return "the server's disk is full"
	case errors.Is(err, walk.ErrNothingSelected), errors.Is(err, pktline.ErrTooMuch), errors.Is(err, pktline.ErrMalformed):
		return err.Error()
	case errors.Is(err, context.DeadlineExceeded):
		return "the request took longer than this server gives"
	}
	return "the server could not answer; its log says why"
}
