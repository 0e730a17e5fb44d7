package browse

import (
	"context"
	"sort"

	"gitpoold/linediff"
	"gitpoold/plumbing"
)

// Blamed says which commit brought a line: Commit is nil where the walk came to its bounds before it came to that commit. Path is that of the
// file there, and Line the number of the line there, from 1.
type Blamed struct {
	Commit *Commit
	Path   string
	Line   int
}

// mostBlamed is how many bytes a version of a file may have whose lines are followed.
const mostBlamed = 4 << 20

// Blame tells of each line of a file which commit brought it, as git-blame(1) does. Lines of a file that was renamed without a change are
// followed. A bound that it comes to leaves commits out, and is no error.
func Blame(ctx context.Context, s Source, of *Commit, path string, b Bounds) ([]Blamed, error) {
	w := &blame{past: newPast(s, b, path), suspects: map[plumbing.Name][]*suspect{}}
	w.texts = versions[[]string]{past: w.past, make: linesOf}
	it, err := w.at(ctx, of, path)
	if err != nil {
		return nil, err
	}
	lines, err := w.lines(ctx, it)
	if err != nil {
		return nil, err
	}
	w.found = make([]Blamed, len(lines))
	w.suspect(of, path, it, []span{{0, 0, len(lines)}})
	for w.queue.Len() > 0 && !w.isSpent() {
		if err := w.step(ctx, w.pop()); err != nil {
			return nil, err
		}
	}
	return w.found, nil
}

// span is a run of lines: where it begins in a version of the file and in the one that is asked about, from 0.
type span struct{ at, last, count int }

// suspect is a file of a commit, with lines that it or an older commit brought.
type suspect struct {
	path  string
	file  plumbing.Entry
	spans []span
}

type blame struct {
	*past
	found    []Blamed
	suspects map[plumbing.Name][]*suspect // of commits that wait
	texts    versions[[]string]
}

// suspect lets lines wait for a commit.
func (w *blame) suspect(c *Commit, path string, file plumbing.Entry, spans []span) {
	w.push(c)
	for _, it := range w.suspects[c.Name] {
		if it.path == path {
			it.spans = append(it.spans, spans...)
			sort.Slice(it.spans, func(i, k int) bool { return it.spans[i].at < it.spans[k].at })
			return
		}
	}
	w.suspects[c.Name] = append(w.suspects[c.Name], &suspect{path, file, spans})
}

// step lets the parents of a commit have the lines that they have too. The commit has brought the others.
func (w *blame) step(ctx context.Context, c *Commit) error {
	waiting := w.suspects[c.Name]
	delete(w.suspects, c.Name)
	parents, err := w.load(ctx, c.Parents)
	if err != nil {
		return err
	}
	for _, it := range waiting {
		if err := w.pass(ctx, c, it, parents); err != nil {
			return err
		}
		for _, left := range it.spans {
			for n := 0; n < left.count; n++ {
				w.found[left.last+n] = Blamed{c, it.path, left.at + n + 1}
			}
		}
	}
	return nil
}

// pass passes lines of a file to the parents: all to one that has the same file.
func (w *blame) pass(ctx context.Context, c *Commit, it *suspect, parents []*Commit) error {
	origins := make([]plumbing.Entry, len(parents)) // with their whole paths
	for at, parent := range parents {
		found, err := w.origin(ctx, c, parent, it)
		if err != nil {
			return err
		}
		if found.Name == it.file.Name {
			w.suspect(parent, found.Path, found, it.spans)
			it.spans = nil
			return nil
		}
		origins[at] = found
	}
	for at, parent := range parents {
		if !origins[at].IsBlob() || len(it.spans) == 0 {
			continue
		}
		kept, left, err := w.compared(ctx, it, origins[at])
		if err != nil {
			return err
		}
		if it.spans = left; len(kept) > 0 {
			w.suspect(parent, origins[at].Path, origins[at], kept)
		}
	}
	return nil
}

// origin gives the file that a parent has at the path, or that the commit has renamed to it.
func (w *blame) origin(ctx context.Context, c, parent *Commit, it *suspect) (plumbing.Entry, error) {
	found, err := w.at(ctx, parent, it.path)
	if found.Path = it.path; err != nil || !found.Name.IsZero() {
		return found, err
	}
	changes, _, err := Changes(ctx, w, parent.Tree, c.Tree)
	for _, change := range changes {
		if change.New.Path == it.path {
			return change.Old, err
		}
	}
	return plumbing.Entry{}, err
}

// compared parts lines of a file into those that an older version has too, at their places there, and the others.
func (w *blame) compared(ctx context.Context, it *suspect, older plumbing.Entry) (kept, left []span, err error) {
	old, err := w.lines(ctx, older)
	if err != nil {
		return nil, nil, err
	}
	new, err := w.lines(ctx, it.file)
	if err != nil {
		return nil, nil, err
	}
	kept, left = part(it.spans, linediff.Changes(old, new))
	return kept, left, nil
}

// part parts spans of a new text, in their order, by its changes.
func part(spans []span, changes []linediff.Change) (kept, left []span) {
	moved := 0
	for _, it := range spans {
		for it.count > 0 {
			for len(changes) > 0 && changes[0].NewTo <= it.at {
				moved = changes[0].OldTo - changes[0].NewTo
				changes = changes[1:]
			}
			switch {
			case len(changes) == 0:
				kept = append(kept, it.cut(it.count, moved))
			case it.at < changes[0].NewFrom:
				kept = append(kept, it.cut(changes[0].NewFrom-it.at, moved))
			default:
				left = append(left, it.cut(changes[0].NewTo-it.at, 0))
			}
		}
	}
	return kept, left
}

// cut takes so many lines from the front of a span, as they stand in another text.
func (s *span) cut(count, moved int) span {
	count = min(count, s.count)
	front := span{s.at + moved, s.last, count}
	s.at, s.last, s.count = s.at+count, s.last+count, s.count-count
	return front
}

// lines gives the lines of a file; one that is large has none.
func (w *blame) lines(ctx context.Context, it plumbing.Entry) ([]string, error) {
	if !it.IsBlob() {
		return nil, nil
	}
	return w.texts.of(ctx, it)
}

func linesOf(o plumbing.Object) ([]string, error) {
	if len(o.Contents) > mostBlamed {
		return nil, nil
	}
	return linediff.Lines(string(o.Contents)), nil
}
