package browse

import (
	"context"

	"gitpoold/plumbing"
)

// Query says which commits of a history Log gives.
type Query struct {
	From []plumbing.Name
	Path string  // those alone that changed what is there
	Text Pattern // those alone whose message has it
	Most int     // so many at most
	Bounds
}

// Log gives commits that some commits reach, from new to old by the committer's time, and those with which the next page begins. Of a path it
// gives the commits that git-log(1) gives. Where clocks went backwards, a later page may show a commit again.
func Log(ctx context.Context, s Source, q Query) (commits []*Commit, next []plumbing.Name, err error) {
	p := newPast(s, q.Bounds, q.Path)
	from, err := p.load(ctx, q.From)
	if err != nil {
		return nil, nil, err
	}
	seen := map[plumbing.Name]bool{}
	p.pushUnseen(seen, from)
	for p.queue.Len() > 0 && len(commits) < q.Most && !p.isSpent() {
		c := p.pop()
		parents, err := p.load(ctx, c.Parents)
		if err != nil {
			return nil, nil, err
		}
		follow, isChange, err := p.simplified(ctx, c, parents)
		if err != nil {
			return nil, nil, err
		}
		if p.pushUnseen(seen, follow); isChange && q.Text.IsIn(c.Subject, c.Body) {
			commits = append(commits, c)
		}
	}
	for p.queue.Len() > 0 {
		next = append(next, p.pop().Name)
	}
	return commits, next, nil
}

func (p *past) pushUnseen(seen map[plumbing.Name]bool, commits []*Commit) {
	for _, c := range commits {
		if !seen[c.Name] {
			seen[c.Name] = true
			p.push(c)
		}
	}
}

// simplified gives the parents to which a history of a path goes on, and whether the commit has changed the path: a commit that has there what a
// parent has is no change, and the history goes on to that parent alone.
func (p *past) simplified(ctx context.Context, c *Commit, parents []*Commit) (follow []*Commit, isChange bool, err error) {
	if p.path == "" {
		return parents, true, nil
	}
	own, err := p.at(ctx, c, p.path)
	if err != nil {
		return nil, false, err
	}
	for at, parent := range parents {
		it, err := p.at(ctx, parent, p.path)
		if err != nil || it == own {
			return parents[at : at+1], false, err
		}
	}
	return parents, len(parents) > 0 || !own.Name.IsZero(), nil
}
