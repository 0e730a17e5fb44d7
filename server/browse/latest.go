package browse

import (
	"context"

	"gitpoold/plumbing"
)

// Latest gives, for entries of a directory of a commit, the commit that changed each last, as a log of one commit for each path does. What it
// has not found within its bounds is not there.
func Latest(ctx context.Context, s Source, of *Commit, path string, names []string, b Bounds) (map[string]*Commit, error) {
	l := &latest{past: newPast(s, b, path), open: map[plumbing.Name][]string{of.Name: names}, found: map[string]*Commit{}}
	l.folders = versions[map[string]plumbing.Entry]{past: l.past, make: entriesOf}
	l.push(of)
	for l.queue.Len() > 0 && !l.isSpent() {
		if err := l.step(ctx, l.pop()); err != nil {
			return nil, err
		}
	}
	return l.found, nil
}

type latest struct {
	*past
	open    map[plumbing.Name][]string // of commits that wait, the entries that were changed there or before
	found   map[string]*Commit
	folders versions[map[string]plumbing.Entry]
}

// step lets the parents of a commit have the entries that they have in the same way. It has changed the others.
func (l *latest) step(ctx context.Context, c *Commit) error {
	left := l.open[c.Name]
	delete(l.open, c.Name)
	parents, err := l.load(ctx, c.Parents)
	if err != nil {
		return err
	}
	for _, parent := range parents {
		same, changed, err := l.parted(ctx, c, parent, left)
		if err != nil {
			return err
		}
		if left = changed; len(same) > 0 {
			l.open[parent.Name] = append(l.open[parent.Name], same...)
			l.push(parent)
		}
	}
	for _, name := range left {
		l.found[name] = c
	}
	return nil
}

// parted tells which entries of a commit its parent has in the same way.
func (l *latest) parted(ctx context.Context, c, parent *Commit, names []string) (same, changed []string, err error) {
	own, err := l.at(ctx, c, l.path)
	if err != nil || len(names) == 0 {
		return nil, nil, err
	}
	theirs, err := l.at(ctx, parent, l.path)
	if err != nil || own.Name == theirs.Name {
		return names, nil, err
	}
	mine, err := l.entries(ctx, own)
	if err != nil {
		return nil, nil, err
	}
	others, err := l.entries(ctx, theirs)
	for _, name := range names {
		if mine[name] == others[name] {
			same = append(same, name)
		} else {
			changed = append(changed, name)
		}
	}
	return same, changed, err
}

// entries gives what a directory has.
func (l *latest) entries(ctx context.Context, it plumbing.Entry) (map[string]plumbing.Entry, error) {
	if !it.IsTree() {
		return nil, nil
	}
	return l.folders.of(ctx, it)
}

func entriesOf(o plumbing.Object) (map[string]plumbing.Entry, error) {
	all, err := Entries(o)
	entries := make(map[string]plumbing.Entry, len(all))
	for _, entry := range all {
		entries[entry.Path] = entry
	}
	return entries, err
}
