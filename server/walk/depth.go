package walk

import (
	"context"
	"errors"

	"gitpoold/plumbing"
)

// Infinite is the depth of `git fetch --unshallow`.
const Infinite = 0x7fffffff

// Deepening says where a history is to end. At most one of the fields is set.
type Deepening struct {
	Depth      int             // generations from the wants, or beyond the client's own edge
	IsRelative bool            // counted from the client's own edge
	Since      int64           // no commit before this time
	Not        []plumbing.Name // nothing that these commits reach
}

// IsSet tells whether a client asked for any of it.
func (d Deepening) IsSet() bool { return d.Depth > 0 || d.Since > 0 || len(d.Not) > 0 }

// Boundary is where a history ends for a client: commits whose parents it is not to have, and those of its own whose parents it
// gets.
type Boundary struct {
	Shallow, Unshallow []plumbing.Name
}

// ErrNothingSelected says that a client asked for a history that has no commit.
var ErrNothingSelected = errors.New("no commits selected for shallow requests")

// Bound finds the boundary for a client that has the commits `was` without their parents. Its names are commits of the tenant.
func (h *History) Bound(ctx context.Context, d Deepening, wants, was []plumbing.Name) (Boundary, error) {
	shallow, deep, err := h.bound(ctx, d, wants, was)
	if err != nil {
		return Boundary{}, err
	}
	isClients := map[plumbing.Name]bool{}
	for _, name := range was {
		isClients[name] = true
	}
	var b Boundary
	for _, name := range shallow {
		if !isClients[name] && !deep[name] {
			b.Shallow = append(b.Shallow, name)
		}
	}
	for _, name := range was {
		if deep[name] {
			b.Unshallow = append(b.Unshallow, name)
		}
	}
	return b, nil
}

// bound gives the commits at which the history ends, in order, and those whose parents belong to it.
func (h *History) bound(ctx context.Context, d Deepening, wants, was []plumbing.Name) ([]plumbing.Name, map[plumbing.Name]bool, error) {
	switch {
	case d.Depth >= Infinite:
		deep := map[plumbing.Name]bool{}
		plumbing.Unseen(was, deep)
		return nil, deep, nil
	case d.Depth > 0 && d.IsRelative:
		reached, err := h.reachedOf(ctx, wants, was)
		if err != nil {
			return nil, nil, err
		}
		return h.atDepth(ctx, reached, d.Depth+1)
	case d.Depth > 0:
		return h.atDepth(ctx, wants, d.Depth)
	}
	return h.selected(ctx, d, wants)
}

// atDepth goes from the heads down, a generation at a time.
func (h *History) atDepth(ctx context.Context, heads []plumbing.Name, most int) ([]plumbing.Name, map[plumbing.Name]bool, error) {
	seen, deep := map[plumbing.Name]bool{}, map[plumbing.Name]bool{}
	wave := plumbing.Unseen(heads, seen)
	for depth := 1; len(wave) > 0; depth++ {
		if err := h.Load(ctx, wave); err != nil {
			return nil, nil, err
		}
		if depth == most {
			return wave, deep, nil
		}
		var after []plumbing.Name
		for _, name := range wave {
			deep[name] = true
			after = append(after, plumbing.Unseen(h.commits[name].Parents, seen)...)
		}
		wave = after
	}
	return nil, deep, nil
}

// reachedOf gives those of the client's own edge that the wants reach.
func (h *History) reachedOf(ctx context.Context, wants, was []plumbing.Name) (reached []plumbing.Name, err error) {
	isClients, seen := map[plumbing.Name]bool{}, map[plumbing.Name]bool{}
	plumbing.Unseen(was, isClients)
	for wave := plumbing.Unseen(wants, seen); len(wave) > 0 && err == nil; {
		var after []plumbing.Name
		err = h.Load(ctx, wave)
		for _, name := range wave {
			if isClients[name] {
				reached = append(reached, name)
			}
			if err == nil {
				after = append(after, plumbing.Unseen(h.commits[name].Parents, seen)...)
			}
		}
		wave = after
	}
	return reached, err
}

// selected ends a history at a time, or at what other commits reach.
func (h *History) selected(ctx context.Context, d Deepening, wants []plumbing.Name) ([]plumbing.Name, map[plumbing.Name]bool, error) {
	out := map[plumbing.Name]bool{}
	if err := h.each(ctx, d.Not, out, func(plumbing.Name) bool { return true }); err != nil {
		return nil, nil, err
	}
	var order []plumbing.Name
	in := map[plumbing.Name]bool{}
	err := h.each(ctx, wants, map[plumbing.Name]bool{}, func(name plumbing.Name) bool {
		if out[name] || h.commits[name].Time < d.Since {
			return false
		}
		in[name] = true
		order = append(order, name)
		return true
	})
	if err == nil && len(order) == 0 {
		err = ErrNothingSelected
	}
	if err != nil {
		return nil, nil, err
	}
	ends := h.ends(order, in)
	for _, name := range ends {
		delete(in, name)
	}
	return ends, in, nil
}

// ends gives the commits that have a parent outside of a set.
func (h *History) ends(order []plumbing.Name, in map[plumbing.Name]bool) (ends []plumbing.Name) {
	for _, name := range order {
		for _, parent := range h.commits[name].Parents {
			if !in[parent] {
				ends = append(ends, name)
				break
			}
		}
	}
	return ends
}

// each calls use with all commits that some reach; from one for which it gives false the walk does not go on.
func (h *History) each(ctx context.Context, from []plumbing.Name, seen map[plumbing.Name]bool, use func(plumbing.Name) bool) error {
	for wave := plumbing.Unseen(from, seen); len(wave) > 0; {
		if err := h.Load(ctx, wave); err != nil {
			return err
		}
		var after []plumbing.Name
		for _, name := range wave {
			if use(name) {
				after = append(after, plumbing.Unseen(h.commits[name].Parents, seen)...)
			}
		}
		wave = after
	}
	return nil
}
