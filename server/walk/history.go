// Package walk finds the objects that a fetch has to send: what the wanted objects reach and the client has not.
//
// A tenant tells what is missing where histories are whole. Where they end before their roots, commits are walked here, many at once. What is
// sent may then be more than what the client lacks, never less.
package walk

import (
	"context"
	"errors"
	"fmt"

	"gitpoold/faults"
	"gitpoold/plumbing"
)

// Source is what a walk asks: a tenant.
type Source interface {
	Objects(context.Context, []plumbing.Name, func(plumbing.Object) error) error
	Tags(context.Context, []plumbing.Name) (tags, others []plumbing.Name, err error)
	Commits(context.Context, []plumbing.Name) (commits, others []plumbing.Name, err error)
	Log(context.Context, string) ([]plumbing.Name, error)
	Missing(ctx context.Context, wants, haves []plumbing.Name) (plumbing.Listing, error)
}

// commit is a commit that has been read.
type commit struct {
	plumbing.Head
	size  uint64
	flags flags
}

type flags uint8

const (
	queued flags = 1 << iota
	known
	sent
)

// History has the commits of one tenant that were read for one request.
type History struct {
	source  Source
	commits map[plumbing.Name]*commit
	cuts    map[plumbing.Name]bool
	common  []plumbing.Name
	rounds  int
	part    int   // of parts, how many were too long
	tried   int   // commits that walks for ReachesAny came to
	paid    int64 // bytes that are counted already, for commits that come
}

const (
	// commitBytes is what is counted for each commit that was read, beside the names of its parents: a walk has it in lists and sets of its own too.
	commitBytes = 256
	// countedAtOnce is how many bytes are counted at once, ahead of the commits: a walk reads them one by one, and to count asks for the limits.
	countedAtOnce = 32 * commitBytes
	// nameBytes is what is counted for each name in a set.
	nameBytes = 64
)

// A walk goes to parents one round of questions after another. After so many rounds it asks for the rest of a history at once: in a
// history that ends at a depth, later.
const (
	patience     = 64
	longPatience = 1024
)

// NewHistory makes an empty one.
func NewHistory(source Source) *History {
	return &History{source: source, commits: map[plumbing.Name]*commit{}, cuts: map[plumbing.Name]bool{}}
}

// Cut makes commits count as if they had no parents, as those of a shallow repository.
func (h *History) Cut(names []plumbing.Name) {
	for _, name := range names {
		h.cuts[name] = true
	}
}

// parents gives the parents of a commit that was read, as far as they count.
func (h *History) parents(name plumbing.Name) []plumbing.Name {
	if h.cuts[name] {
		return nil
	}
	return h.commits[name].Parents
}

// Load reads those of these commits that were not read yet.
func (h *History) Load(ctx context.Context, names []plumbing.Name) error {
	unread := h.unread(names)
	if len(unread) == 0 {
		return nil
	}
	h.rounds++
	if h.rounds > patience && (len(h.cuts) == 0 || h.rounds > longPatience) {
		h.rounds = 0
		if err := h.loadRest(ctx, unread[0]); err != nil {
			return err
		}
		unread = h.unread(unread)
	}
	return h.read(ctx, unread)
}

func (h *History) unread(names []plumbing.Name) (unread []plumbing.Name) {
	taken := map[plumbing.Name]bool{}
	for _, name := range names {
		if h.commits[name] == nil && !taken[name] {
			taken[name] = true
			unread = append(unread, name)
		}
	}
	return unread
}

// parts are how many commits back a part of a history goes that is asked for at once, where one reply for all of it would be too long. The 0 is all.
var parts = []int{0, 32768, 2048, 128}

// loadRest reads all commits that one reaches and the client has not, as far as one of its commits tells; or the newest of them, where all are too many.
// Where the messages of a few have long first lines, it reads none.
func (h *History) loadRest(ctx context.Context, from plumbing.Name) error {
	for ; h.part < len(parts); h.part++ {
		names, err := h.source.Log(ctx, h.revisions(from, parts[h.part]))
		switch {
		case err == nil:
			return h.read(ctx, h.unread(names))
		case !errors.Is(err, faults.Fault(25)) && !(parts[h.part] > 0 && errors.Is(err, plumbing.ErrMissing)):
			return err
		}
	}
	return nil
}

// revisions is the range of what is asked for at once.
func (h *History) revisions(from plumbing.Name, back int) string {
	switch {
	case back > 0:
		return fmt.Sprintf("%v~%d..%[1]v", from, back)
	case len(h.common) > 0:
		return h.common[0].String() + ".." + from.String()
	}
	return from.String()
}

func (h *History) read(ctx context.Context, names []plumbing.Name) error {
	return h.source.Objects(ctx, names, func(o plumbing.Object) error {
		if o.Kind != plumbing.Commit {
			return fmt.Errorf("object %v is a %v where a commit has to be", o.Name, o.Kind)
		}
		head := plumbing.ReadHead(o.Contents)
		h.commits[o.Name] = &commit{Head: head, size: uint64(len(o.Contents))}
		return h.count(ctx, commitBytes+int64(len(o.Name)*len(head.Parents)))
	})
}

// count counts bytes of commits.
func (h *History) count(ctx context.Context, bytes int64) error {
	if h.paid >= bytes {
		h.paid -= bytes
		return nil
	}
	if err := plumbing.Hold(ctx, bytes-h.paid+countedAtOnce); err != nil {
		return err
	}
	h.paid = countedAtOnce
	return nil
}

// trees gives the trees of commits that were read, once each.
func (h *History) trees(names []plumbing.Name) (trees []plumbing.Name) {
	seen := map[plumbing.Name]bool{}
	for _, name := range names {
		trees = append(trees, plumbing.Unseen([]plumbing.Name{h.commits[name].Tree}, seen)...)
	}
	return trees
}
