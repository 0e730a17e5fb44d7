package browse

import (
	"context"
	"errors"
	"sort"

	"gitpoold/plumbing"
)

// Change is a file that differs between two trees. Old or New has no name where the file is not in that tree; a renamed file has two
// paths and one content.
type Change struct{ Old, New plumbing.Entry }

// Path is where the file is, or was.
func (c Change) Path() string {
	if c.New.Name.IsZero() {
		return c.Old.Path
	}
	return c.New.Path
}

// Most that a comparison reads and finds.
const (
	mostTrees   = 4000
	mostEntries = 500000
	mostChanges = 2000
)

// Changes compares two trees; zeros are the empty one. The changes come in the order of their paths. Where it has come to its bound,
// isWhole is false, and what it found so far is given.
func Changes(ctx context.Context, s Source, old, new plumbing.Name) (changes []Change, isWhole bool, err error) {
	c := &comparison{source: s}
	for wave := []pair{{"", old, new}}; len(wave) > 0; {
		if wave, err = c.level(ctx, wave); err != nil {
			return nil, false, err
		}
	}
	if !c.isCut {
		c.rename()
	}
	sort.Slice(c.changes, func(i, k int) bool { return c.changes[i].Path() < c.changes[k].Path() })
	return c.changes, !c.isCut, nil
}

// pair is two trees that stand at one path.
type pair struct {
	path     string
	old, new plumbing.Name
}

type comparison struct {
	source  Source
	changes []Change
	trees   int
	entries int
	isCut   bool
}

// level compares the pairs of one level, and gives those of the next.
func (c *comparison) level(ctx context.Context, wave []pair) (after []pair, err error) {
	if room := (mostTrees - c.trees) / 2; len(wave) > room {
		wave, c.isCut = wave[:room], true
	}
	trees, err := c.read(ctx, wave)
	if errors.Is(err, errCut) {
		c.isCut = true
		return nil, nil
	}
	if err != nil {
		return nil, err
	}
	for _, it := range wave {
		if c.entries += len(trees[it.old]) + len(trees[it.new]); c.entries > mostEntries {
			c.isCut = true
			return nil, nil
		}
		olds, news := differing(trees[it.old], trees[it.new])
		unmet := make(map[string]plumbing.Entry, len(news))
		for _, entry := range news {
			unmet[entry.Path] = entry
		}
		for _, entry := range olds {
			after = c.compare(after, it.path, entry, unmet[entry.Path])
			delete(unmet, entry.Path)
		}
		for _, entry := range news {
			if _, isNew := unmet[entry.Path]; isNew {
				after = c.compare(after, it.path, plumbing.Entry{}, entry)
			}
		}
	}
	return after, nil
}

// differing leaves out the entries at the beginnings and at the ends of two trees that are the same.
func differing(olds, news []plumbing.Entry) (left, right []plumbing.Entry) {
	for len(olds) > 0 && len(news) > 0 && olds[0] == news[0] {
		olds, news = olds[1:], news[1:]
	}
	for len(olds) > 0 && len(news) > 0 && olds[len(olds)-1] == news[len(news)-1] {
		olds, news = olds[:len(olds)-1], news[:len(news)-1]
	}
	return olds, news
}

// read reads the trees of a level, each once.
func (c *comparison) read(ctx context.Context, wave []pair) (map[plumbing.Name][]plumbing.Entry, error) {
	trees := map[plumbing.Name][]plumbing.Entry{}
	var names []plumbing.Name
	for _, it := range wave {
		names = append(names, it.old, it.new)
	}
	names = fresh(names, trees)
	c.trees += len(names)
	read := 0
	return trees, c.source.Objects(ctx, names, func(o plumbing.Object) (err error) {
		trees[o.Name], err = Entries(o)
		if read += len(trees[o.Name]); read > mostEntries {
			return errCut
		}
		return err
	})
}

var errCut = errors.New("the trees have more entries than are compared")

// compare compares what two trees have under one name: directories are compared later, anything else is a change.
func (c *comparison) compare(after []pair, folder string, old, new plumbing.Entry) []pair {
	if old.Mode == new.Mode && old.Name == new.Name {
		return after
	}
	path := folder + old.Path
	if old.Path == "" {
		path = folder + new.Path
	}
	below := pair{path: path + "/"}
	change := Change{}
	for _, it := range []struct {
		from plumbing.Entry
		tree *plumbing.Name
		file *plumbing.Entry
	}{{old, &below.old, &change.Old}, {new, &below.new, &change.New}} {
		switch {
		case it.from.IsTree():
			*it.tree = it.from.Name
		case !it.from.Name.IsZero():
			*it.file = plumbing.Entry{Mode: it.from.Mode, Path: path, Name: it.from.Name}
		}
	}
	if below.old != below.new {
		after = append(after, below)
	}
	switch {
	case change == Change{}:
	case len(c.changes) >= mostChanges:
		c.isCut = true
	default:
		c.changes = append(c.changes, change)
	}
	return after
}

// rename makes one change of two where a file went and one with the same content came.
func (c *comparison) rename() {
	gone := map[plumbing.Name][]int{}
	for at, it := range c.changes {
		if it.New.Name.IsZero() {
			gone[it.Old.Name] = append(gone[it.Old.Name], at)
		}
	}
	isTaken := map[int]bool{}
	for at, it := range c.changes {
		if from := gone[it.New.Name]; it.Old.Name.IsZero() && len(from) > 0 {
			c.changes[at].Old = c.changes[from[0]].Old
			isTaken[from[0]] = true
			gone[it.New.Name] = from[1:]
		}
	}
	var left []Change
	for at, it := range c.changes {
		if !isTaken[at] {
			left = append(left, it)
		}
	}
	c.changes = left
}
