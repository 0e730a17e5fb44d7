package browse

import (
	"context"
	"strings"

	"gitpoold/plumbing"
)

// finder finds what trees have at a path, many at once, and reads each tree once.
type finder struct {
	parts []string
	have  []map[plumbing.Name]plumbing.Entry // of each part, what the trees have there that were read for it
}

func newFinder(path string) *finder {
	f := &finder{}
	if path != "" {
		f.parts = strings.Split(path, "/")
	}
	for range f.parts {
		f.have = append(f.have, map[plumbing.Name]plumbing.Entry{})
	}
	return f
}

// find reads what `at` needs of these trees, a level at a time.
func (f *finder) find(ctx context.Context, s Source, trees []plumbing.Name) error {
	for depth, part := range f.parts {
		have := f.have[depth]
		err := s.Objects(ctx, fresh(trees, have), func(o plumbing.Object) error {
			have[o.Name] = entryOf(o, part)
			return nil
		})
		if err != nil {
			return err
		}
		var below []plumbing.Name
		for _, tree := range trees {
			if it := have[tree]; it.IsTree() {
				below = append(below, it.Name)
			}
		}
		trees = below
	}
	return nil
}

// at gives what a tree has at the path: an entry whose name is zeros where there is nothing.
func (f *finder) at(tree plumbing.Name) plumbing.Entry {
	it := plumbing.Entry{Mode: plumbing.ModeTree, Name: tree}
	for _, have := range f.have {
		if !it.IsTree() {
			return plumbing.Entry{}
		}
		it = have[it.Name]
	}
	return it
}

// entryOf gives the entry of a tree that has this name.
func entryOf(o plumbing.Object, name string) plumbing.Entry {
	for rest := string(o.Contents); o.Kind == plumbing.Tree; {
		it, after, ok := plumbing.NextEntry(rest)
		if !ok {
			break
		}
		if it.Path == name {
			return it
		}
		rest = after
	}
	return plumbing.Entry{}
}

// fresh gives those of some names that a map has not, each once, without zeros.
func fresh[T any](names []plumbing.Name, have map[plumbing.Name]T) (left []plumbing.Name) {
	isTaken := map[plumbing.Name]bool{{}: true}
	for _, name := range names {
		if _, has := have[name]; !has && !isTaken[name] {
			isTaken[name] = true
			left = append(left, name)
		}
	}
	return left
}
