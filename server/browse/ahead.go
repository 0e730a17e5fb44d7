package browse

import (
	"context"
	"sort"

	"gitpoold/plumbing"
	"gitpoold/walk"
)

// Divergence is what a commit has beside another one.
type Divergence struct {
	// Ahead are the commits that the other has not, from new to old.
	Ahead []plumbing.Name
	// Base is the merge base of both, or zeros where they have no commit in common.
	Base plumbing.Name
}

// mostBases is how many commits are tried as a merge base.
const mostBases = 16

// Diverged compares the histories of two commits. It is ErrTooMuch where it would hold more than so many bytes of commits.
func Diverged(ctx context.Context, s Source, of, from plumbing.Name, bytes int64) (d Divergence, err error) {
	ctx = plumbing.Counted(ctx, &held{bytes})
	ahead, edges, err := walk.NewHistory(s).Paint(ctx, []plumbing.Name{of}, []plumbing.Name{from})
	if err != nil {
		return d, err
	}
	if d.Ahead = ahead; len(ahead) == 0 {
		return Divergence{Base: of}, nil
	}
	d.Base, err = best(ctx, s, edges)
	return d, err
}

// best gives the newest of some commits that none of the others reaches.
func best(ctx context.Context, s Source, edges []plumbing.Name) (found plumbing.Name, err error) {
	var commits []*Commit
	err = s.Objects(ctx, edges, func(o plumbing.Object) error {
		c, err := ReadCommit(o)
		commits = append(commits, c)
		return err
	})
	if err != nil || len(commits) == 0 {
		return found, err
	}
	sort.Slice(commits, func(i, k int) bool { return queue(commits).Less(i, k) })
	for at, c := range commits {
		if at == mostBases {
			break
		}
		var others []plumbing.Name
		for _, it := range edges {
			if it != c.Name {
				others = append(others, it)
			}
		}
		if len(others) == 0 {
			return c.Name, nil
		}
		unreached, err := s.Missing(ctx, []plumbing.Name{c.Name}, others)
		if err != nil || unreached.Len() > 0 {
			return c.Name, err
		}
	}
	return commits[0].Name, nil
}

// held counts the memory of a comparison.
type held struct{ left int64 }

// Hold counts bytes.
func (h *held) Hold(bytes int64) error {
	if h.left -= bytes; h.left < 0 {
		return ErrTooMuch
	}
	return nil
}

// Share counts bytes.
func (h *held) Share(_ any, bytes int64) error { return h.Hold(bytes) }

// Take counts nothing: what it is asked for is given back soon.
func (h *held) Take(context.Context, int64) (func(), error) { return func() {}, nil }

// TryTake counts nothing either.
func (h *held) TryTake(int64) func() { return func() {} }
