package browse

import (
	"bytes"
	"container/heap"
	"context"
	"fmt"
	"strings"

	"gitpoold/plumbing"
)

// mostAhead is how many commits a walk reads at once ahead of where it is.
const mostAhead = 64

// past is a walk from commits to their parents, from new to old by the committer's time. It reads commits in batches, with what they
// have at a path.
type past struct {
	*metered
	path    string
	finders map[string]*finder
	read    map[plumbing.Name]*Commit
	ahead   int
	coming  []plumbing.Entry // what the commits that were read have at the path, without what the walk has passed
	queue   queue
	queued  map[plumbing.Name]bool
}

func newPast(s Source, b Bounds, path string) *past {
	return &past{metered: b.of(s), path: path, finders: map[string]*finder{}, read: map[plumbing.Name]*Commit{}, queued: map[plumbing.Name]bool{}}
}

// load gives commits in the order of their names, and reads those that were not read yet.
func (p *past) load(ctx context.Context, names []plumbing.Name) ([]*Commit, error) {
	if unread := fresh(names, p.read); len(unread) > 0 {
		ahead, err := p.firstParents(ctx, unread)
		if err != nil {
			return nil, err
		}
		if err := p.readAll(ctx, fresh(append(unread, ahead...), p.read)); err != nil {
			return nil, err
		}
	}
	commits := make([]*Commit, len(names))
	for at, name := range names {
		if commits[at] = p.read[name]; commits[at] == nil {
			return nil, plumbing.ErrMissing
		}
	}
	return commits, nil
}

// firstParents gives the first parents of commits, their first parents and so on: the further a walk has come, the more.
func (p *past) firstParents(ctx context.Context, of []plumbing.Name) ([]plumbing.Name, error) {
	var expressions []string
	for _, name := range of {
		for back := 1; back <= p.ahead/len(of); back++ {
			expressions = append(expressions, fmt.Sprintf("%v~%d", name, back))
		}
	}
	if p.ahead = 4*p.ahead + 4; p.ahead > mostAhead {
		p.ahead = mostAhead
	}
	if len(expressions) == 0 {
		return nil, nil
	}
	return Names(ctx, p.Source, expressions...)
}

func (p *past) readAll(ctx context.Context, names []plumbing.Name) error {
	var trees []plumbing.Name
	err := p.Objects(ctx, names, func(o plumbing.Object) error {
		c, err := ReadCommit(o)
		if err == nil {
			c.trim()
			p.read[o.Name], trees = c, append(trees, c.Tree)
		}
		return err
	})
	if err != nil {
		return err
	}
	f := p.finder(p.path)
	err = f.find(ctx, p, trees)
	for _, tree := range trees {
		if it := f.at(tree); len(p.coming) == 0 || it != p.coming[len(p.coming)-1] {
			p.coming = append(p.coming, it)
		}
	}
	return err
}

// mostOfText is how many bytes of a message, and of a name, a walk keeps of each commit.
const mostOfText = 4 << 10

// trim drops what no list of commits shows, so that many commits take little memory.
func (c *Commit) trim() {
	c.Further = nil
	for _, it := range []*string{&c.Subject, &c.Body, &c.Author.Name, &c.Author.Email, &c.Committer.Name, &c.Committer.Email} {
		if len(*it) > mostOfText {
			*it = strings.Clone((*it)[:mostOfText])
		}
	}
}

func (p *past) finder(path string) *finder {
	if p.finders[path] == nil {
		p.finders[path] = newFinder(path)
	}
	return p.finders[path]
}

// at gives what a commit has at a path.
func (p *past) at(ctx context.Context, c *Commit, path string) (plumbing.Entry, error) {
	f := p.finder(path)
	err := f.find(ctx, p, []plumbing.Name{c.Tree})
	return f.at(c.Tree), err
}

// push puts commits into the queue, unless they wait there.
func (p *past) push(commits ...*Commit) {
	for _, c := range commits {
		if !p.queued[c.Name] {
			p.queued[c.Name] = true
			heap.Push(&p.queue, c)
		}
	}
}

// pop takes the newest commit that waits. It may come to wait again.
func (p *past) pop() *Commit {
	c := heap.Pop(&p.queue).(*Commit)
	delete(p.queued, c.Name)
	return c
}

// queue has commits that wait, the newest on top.
type queue []*Commit

// Len, Less, Swap, Push and Pop make a heap.
func (q queue) Len() int { return len(q) }

// Less puts later commits first, and those of one second in the order of their names.
func (q queue) Less(i, k int) bool {
	a, b := q[i], q[k]
	if !a.Committer.When.Equal(b.Committer.When) {
		return a.Committer.When.After(b.Committer.When)
	}
	return bytes.Compare(a.Name[:], b.Name[:]) < 0
}

// Swap swaps two commits.
func (q queue) Swap(i, k int) { q[i], q[k] = q[k], q[i] }

// Push adds a commit.
func (q *queue) Push(it any) { *q = append(*q, it.(*Commit)) }

// Pop takes the last one.
func (q *queue) Pop() any {
	last := len(*q) - 1
	it := (*q)[last]
	*q = (*q)[:last]
	return it
}
