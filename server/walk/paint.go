package walk

import (
	"container/heap"
	"context"

	"gitpoold/plumbing"
)

// frontier is a queue of commits, the newest first.
type frontier struct {
	h     *History
	names []plumbing.Name
}

func (f frontier) Len() int { return len(f.names) }
func (f frontier) Less(i, j int) bool {
	return f.h.commits[f.names[i]].Time > f.h.commits[f.names[j]].Time
}
func (f frontier) Swap(i, j int)  { f.names[i], f.names[j] = f.names[j], f.names[i] }
func (f *frontier) Push(name any) { f.names = append(f.names, name.(plumbing.Name)) }
func (f *frontier) Pop() any {
	last := f.names[len(f.names)-1]
	f.names = f.names[:len(f.names)-1]
	return last
}

// painting walks from wanted commits and from those that the client has, by time, until nothing is left that is wanted alone.
type painting struct {
	*History
	queue  frontier
	wanted int // commits of the queue that are not known
	order  []plumbing.Name
}

// batch is how many commits are taken from the queue at once, so that their parents are asked for together.
const batch = 16

// Paint gives the commits that the wants reach and the haves do not, from new to old, and the known commits at their edge. All
// names have to be commits of the tenant.
func (h *History) Paint(ctx context.Context, wants, haves []plumbing.Name) (order, edges []plumbing.Name, err error) {
	h.common = haves
	p := &painting{History: h, queue: frontier{h: h}}
	if err := p.enter(ctx, haves, known); err != nil {
		return nil, nil, err
	}
	if err := p.enter(ctx, wants, 0); err != nil {
		return nil, nil, err
	}
	for p.wanted > 0 {
		if err := p.step(ctx); err != nil {
			return nil, nil, err
		}
	}
	order, edges = p.result()
	return order, edges, nil
}

// enter puts commits into the queue. Those that the client has make known what they reach.
func (p *painting) enter(ctx context.Context, names []plumbing.Name, as flags) error {
	if err := p.Load(ctx, names); err != nil {
		return err
	}
	for _, name := range names {
		c := p.commits[name]
		if as&known != 0 {
			p.makeKnown(name)
		}
		if c.flags&queued == 0 {
			c.flags |= queued
			heap.Push(&p.queue, name)
			if c.flags&known == 0 {
				p.wanted++
			}
		}
	}
	return nil
}

// makeKnown marks a commit and what it reaches among the commits that were read.
func (p *painting) makeKnown(name plumbing.Name) {
	stack := []plumbing.Name{name}
	for len(stack) > 0 {
		top := stack[len(stack)-1]
		stack = stack[:len(stack)-1]
		c := p.commits[top]
		if c == nil || c.flags&known != 0 {
			continue
		}
		if c.flags&(queued|sent) == queued {
			p.wanted--
		}
		c.flags |= known
		stack = append(stack, p.parents(top)...)
	}
}

// step takes the newest commits, and goes on to their parents.
func (p *painting) step(ctx context.Context) error {
	var hasKnown, hasNot []plumbing.Name
	for count := 0; count < batch && p.queue.Len() > 0; count++ {
		name := heap.Pop(&p.queue).(plumbing.Name)
		c := p.commits[name]
		if c.flags&known != 0 {
			hasKnown = append(hasKnown, p.parents(name)...)
			continue
		}
		p.wanted--
		c.flags |= sent
		p.order = append(p.order, name)
		hasNot = append(hasNot, p.parents(name)...)
	}
	if err := p.Load(ctx, append(append([]plumbing.Name{}, hasNot...), hasKnown...)); err != nil {
		return err
	}
	if err := p.enter(ctx, hasKnown, known); err != nil {
		return err
	}
	return p.enter(ctx, hasNot, 0)
}

// result leaves out what turned out to be known after it was taken.
func (p *painting) result() (order, edges []plumbing.Name) {
	isEdge := map[plumbing.Name]bool{}
	for _, name := range p.order {
		if p.commits[name].flags&known != 0 {
			continue
		}
		order = append(order, name)
		for _, parent := range p.parents(name) {
			if c := p.commits[parent]; c != nil && c.flags&known != 0 && !isEdge[parent] {
				isEdge[parent] = true
				edges = append(edges, parent)
			}
		}
	}
	return order, edges
}

// ReachesAny tells whether each of the wants reaches one of the haves, in a history that goes back no further than the oldest have.
// A walk that takes too long gives false, and the client goes on to tell what it has.
func (h *History) ReachesAny(ctx context.Context, wants, haves []plumbing.Name) (bool, error) {
	if err := h.Load(ctx, append(append([]plumbing.Name{}, haves...), wants...)); err != nil {
		return false, err
	}
	isHave, oldest := map[plumbing.Name]bool{}, h.commits[haves[0]].Time
	for _, have := range haves {
		isHave[have] = true
		oldest = min(oldest, h.commits[have].Time)
	}
	h.common = haves
	for _, want := range wants {
		found, err := h.reaches(ctx, want, isHave, oldest)
		if err != nil || !found {
			return false, err
		}
	}
	return true, nil
}

// A walk takes too long where it comes to so many commits for one want, or for all.
const (
	mostTried      = 50_000
	mostTriedInAll = 1_000_000
)

// reaches tells whether a want reaches a have. The commits on the way that it found count as haves from then on, so that the next want need
// not go that way to its end.
func (h *History) reaches(ctx context.Context, want plumbing.Name, isHave map[plumbing.Name]bool, oldest int64) (bool, error) {
	from := map[plumbing.Name]plumbing.Name{want: want}
	wave := []plumbing.Name{want}
	for len(wave) > 0 && len(from) < mostTried && h.tried < mostTriedInAll {
		if err := h.Load(ctx, wave); err != nil {
			return false, err
		}
		h.tried += len(wave)
		var after []plumbing.Name
		for _, name := range wave {
			if isHave[name] {
				markWay(isHave, from, name)
				return true, nil
			}
			if h.commits[name].Time >= oldest {
				after = append(after, h.ahead(name, from)...)
			}
		}
		wave = after
	}
	return false, nil
}

// ahead gives the parents of a commit that the walk has not come to, and notes that it comes to them from there.
func (h *History) ahead(name plumbing.Name, from map[plumbing.Name]plumbing.Name) (fresh []plumbing.Name) {
	for _, parent := range h.parents(name) {
		if _, isSeen := from[parent]; !isSeen {
			from[parent] = name
			fresh = append(fresh, parent)
		}
	}
	return fresh
}

// markWay marks the commits on the way to one.
func markWay(marked map[plumbing.Name]bool, from map[plumbing.Name]plumbing.Name, to plumbing.Name) {
	for from[to] != to {
		to = from[to]
		marked[to] = true
	}
}
