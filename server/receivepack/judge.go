package receivepack

import (
	"context"
	"sort"
	"strings"

	"gitpoold/plumbing"
	"gitpoold/tenants"
)

// standing is what refs are while a push is judged: what they were, and what the changes before have made of them.
type standing struct {
	was   tenants.Refs
	moved map[string]plumbing.Name
	made  []string // names of refs that the push may make, in order
}

func (s *standing) begin(was tenants.Refs, changes []Change) {
	s.was, s.moved, s.made = was, map[string]plumbing.Name{}, nil
	for _, change := range changes {
		if !change.New.IsZero() {
			s.made = append(s.made, change.Ref)
		}
	}
	sort.Strings(s.made)
}

// now gives what a ref holds after the changes so far.
func (s *standing) now(ref string) plumbing.Name {
	if target, is := s.moved[ref]; is {
		return target
	}
	return s.was.Target(ref)
}

// beside gives a ref above or below a name, beside which git could not have it, or nothing. No other ref is looked at: a tenant may have many
// long ones.
func (s *standing) beside(ref string) string {
	for at := range ref {
		if ref[at] == '/' && !s.now(ref[:at]).IsZero() {
			return ref[:at]
		}
	}
	for _, below := range s.was.Below(ref) {
		if !s.now(below.Name).IsZero() {
			return below.Name
		}
	}
	front := ref + "/"
	for at := sort.SearchStrings(s.made, front); at < len(s.made) && strings.HasPrefix(s.made[at], front); at++ {
		if !s.now(s.made[at]).IsZero() {
			return s.made[at]
		}
	}
	return ""
}

// judge decides under the tenant's lock which refs may change: one after another, as git does, each with what those before have left. It gives
// errNothing where none may.
func (p *push) judge(ctx context.Context, refs tenants.Refs) error {
	head, err := p.t.Head(ctx)
	if err != nil {
		return err
	}
	p.begin(refs, p.changes)
	copy(p.bad, p.unfit)
	for at, change := range p.changes {
		if p.bad[at] == "" {
			p.bad[at] = p.hindrance(change, head)
		}
		if p.bad[at] == "" {
			p.moved[change.Ref] = change.New
		}
	}
	if p.can["atomic"] && len(p.good()) < len(p.changes) {
		p.refuseAll("atomic push failed")
	}
	if len(p.good()) == 0 {
		return errNothing
	}
	p.head = p.headAfter(head)
	return nil
}

// hindrance says why a ref may not change, or nothing.
func (p *push) hindrance(change Change, head string) string {
	_, isSecond := p.moved[change.Ref]
	isMade, isGone := change.Old.IsZero(), change.New.IsZero()
	switch {
	case isSecond && p.can["atomic"]:
		return "the push changes " + brief(change.Ref) + " twice"
	case p.now(change.Ref) != change.Old:
		return "fetch first"
	case isGone && !isMade && change.Ref == head:
		p.hint = "HEAD names " + head + ", so a clone would check out nothing without it. A stream lets HEAD name another branch:\n" +
			"  echo option gitpool head refs/heads/OTHER | ssh USER@HOST import " + p.t.Name()
		return "deletion of the current branch prohibited"
	case isMade && !isGone:
		if other := p.beside(change.Ref); other != "" {
			return other + " is a ref, and git cannot have both"
		}
	}
	return ""
}

// brief gives the name of a ref, or the front of one that is longer than any ref may be.
func brief(ref string) string {
	const most = 1024
	if len(ref) > most {
		return ref[:100] + ".."
	}
	return ref
}

// headAfter gives what HEAD is to name where it would name nothing: master if it is pushed, else the first branch that is.
func (p *push) headAfter(head string) (after string) {
	if !p.now(head).IsZero() {
		return ""
	}
	for _, change := range p.good() {
		if !strings.HasPrefix(change.Ref, plumbing.Branches) || p.now(change.Ref).IsZero() {
			continue
		}
		if change.Ref == plumbing.Branches+"master" {
			return change.Ref
		}
		if after == "" || change.Ref < after {
			after = change.Ref
		}
	}
	return after
}
