package receivepack

import (
	"context"
	"errors"

	"gitpoold/plumbing"
	"gitpoold/protect"
)

// protects gives a *Refusal where the operator protects a ref from this change. What the ref was is what the client says: where that is not so, the
// change is refused later.
func (p *push) protects(ctx context.Context, change Change) error {
	why, err := p.Protects(protect.Change{Ref: change.Ref, IsMade: change.Old.IsZero(), IsGone: change.New.IsZero(),
		IsForced: func() (bool, error) { return p.isForced(ctx, change) }})
	if why != "" && err == nil {
		err = refusal(why)
	}
	return err
}

// isForced tells whether the new commit of a ref does not reach the old one.
func (p *push) isForced(ctx context.Context, change Change) (bool, error) {
	edge, isReached := p.edgeOf(change.New, change.Old)
	if isReached || len(edge) == 0 {
		return !isReached, nil
	}
	reaches, err := p.t.Reaches(ctx, edge, change.Old)
	if errors.Is(err, plumbing.ErrMissing) {
		// The ref cannot hold it now, and might when the refs are asked again.
		return true, nil
	}
	return !reaches, err
}

// edgeOf walks from a commit through those of the pack, and gives the parents that the pack has not; or tells that another commit is among all these.
func (p *push) edgeOf(from, wanted plumbing.Name) (edge []plumbing.Name, isReached bool) {
	seen, rest := map[plumbing.Name]bool{from: true}, []plumbing.Name{from}
	for len(rest) > 0 {
		at := rest[len(rest)-1]
		rest = rest[:len(rest)-1]
		if at == wanted {
			return nil, true
		}
		head, isOwn := p.heads[at]
		if !isOwn {
			edge = append(edge, at)
			continue
		}
		for _, parent := range head.Parents {
			if !seen[parent] {
				seen[parent] = true
				rest = append(rest, parent)
			}
		}
	}
	return edge, false
}
