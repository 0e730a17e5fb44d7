package receivepack

import (
	"context"
	"errors"
	"strings"

	"gitpoold/objects"
	"gitpoold/plumbing"
)

// changeRoot tells the changes between two trees.
func (f *feeding) changeRoot(ctx context.Context, old, new, of plumbing.Name) error {
	if new == plumbing.EmptyTree && old != new {
		f.put("deleteall\n")
		return nil
	}
	if _, isOwn := f.own.Kind(new); !isOwn && new != plumbing.EmptyTree {
		f.note(new, "commit "+of.String()[:12]+" has the tree")
	}
	return f.change(ctx, old, new, "")
}

// change tells the changes between two trees at a path. What goes comes before what comes, for a file may stand where a directory was.
func (f *feeding) change(ctx context.Context, old, new plumbing.Name, under string) error {
	if old == new {
		return nil
	}
	before, err := f.tree(ctx, old, under)
	if err != nil {
		return err
	}
	after, err := f.tree(ctx, new, under)
	if err != nil {
		return err
	}
	f.remove(before, after, under)
	return f.add(ctx, before, after, under)
}

// remove tells which entries go, or are of another kind than before.
func (f *feeding) remove(before, after, under string) {
	_ = pair(before, after, func(old, new *plumbing.Entry) error {
		if new == nil {
			path := join(under, old.Path)
			f.count(path)
			f.put("D ", objects.Quote(path), "\n")
		}
		return nil
	})
}

func (f *feeding) add(ctx context.Context, before, after, under string) error {
	return pair(before, after, func(old, new *plumbing.Entry) error {
		if f.err != nil {
			return f.err
		}
		if new == nil {
			return nil
		}
		path := join(under, new.Path)
		if err := objects.CheckPath(path); err != nil {
			return err
		}
		if f.count(path); f.err != nil {
			return f.err
		}
		if new.IsTree() {
			return f.addTree(ctx, old, new, path)
		}
		return f.addFile(new, path)
	})
}

// count counts the line of a path that is told. Commits may tell the same trees again and again.
func (f *feeding) count(path string) {
	if f.unfolded += pathCost + int64(len(path)); f.err == nil && f.unfolded > f.mostUnfolded() {
		f.err = errUnfolds
	}
}

// addTree tells what a directory has. One that the pack has not is the tenant's, and is told by its name.
func (f *feeding) addTree(ctx context.Context, old, new *plumbing.Entry, path string) error {
	at, isOwn := f.own.Find(new.Name)
	if !isOwn {
		f.note(new.Name, "the path "+shown(path)+" has the tree")
		f.put("M 040000 ", new.Name.String(), " ", objects.Quote(path), "\n")
		return nil
	} else if kind := f.own.KindAt(at); kind != plumbing.Tree {
		return refusal("the path " + shown(path) + " is a directory, and its object is a " + kind.String())
	}
	base := plumbing.EmptyTree
	if old != nil {
		base = old.Name
	}
	return f.change(ctx, base, new.Name, path)
}

func (f *feeding) addFile(new *plumbing.Entry, path string) error {
	at, isOwn := f.own.Find(new.Name)
	if isOwn && f.own.KindAt(at) != plumbing.Blob && !new.IsGitlink() {
		return refusal("the path " + shown(path) + " is a file, and its object is a " + f.own.KindAt(at).String())
	}
	if !isOwn && !new.IsGitlink() {
		f.note(new.Name, "the path "+shown(path)+" has the blob")
	}
	if !isOwn || new.IsGitlink() || f.told[at] {
		f.put("M ", new.Mode, " ", new.Name.String(), " ", objects.Quote(path), "\n")
		return nil
	}
	f.told[at] = true
	contents, err := f.own.ContentsAt(at)
	if err != nil {
		return err
	}
	f.put("M ", new.Mode, " inline ", objects.Quote(path), "\n")
	f.data(contents)
	return nil
}

func shown(path string) string { return "`" + strings.ToValidUTF8(path, "?") + "`" }

func join(under, path string) string {
	if under == "" {
		return path
	}
	return under + "/" + path
}

// pair goes through two trees side by side, and leaves out entries that both have. use gets the entries of one name and kind together,
// and nil for one that is missing.
func pair(before, after string, use func(old, new *plumbing.Entry) error) error {
	for len(before)+len(after) > 0 {
		if size := sharedEntry(before, after); size > 0 {
			before, after = before[size:], after[size:]
			continue
		}
		old, restOld, hasOld := plumbing.NextEntry(before)
		new, restNew, hasNew := plumbing.NextEntry(after)
		if !hasOld && !hasNew {
			return nil
		}
		order := orderOf(old, new, hasOld, hasNew)
		var one, other *plumbing.Entry
		if order <= 0 {
			one, before = &old, restOld
		}
		if order >= 0 {
			other, after = &new, restNew
		}
		if err := use(one, other); err != nil {
			return err
		}
	}
	return nil
}

// sharedEntry gives the bytes of the first entry where two trees begin with the same one, else 0.
func sharedEntry(before, after string) int {
	size := strings.IndexByte(before, 0) + 1 + len(plumbing.Name{})
	if size > len(before) || size > len(after) || size == len(plumbing.Name{}) || before[:size] != after[:size] {
		return 0
	}
	return size
}

// orderOf tells which of two entries comes first; one that is missing comes last.
func orderOf(old, new plumbing.Entry, hasOld, hasNew bool) int {
	switch {
	case !hasNew:
		return -1
	case !hasOld:
		return 1
	}
	return plumbing.CompareKeys(old, new)
}

// treeCache has trees that were read last and would take a while to be read again: the tree of one commit is the base of the next.
type treeCache struct {
	young, old map[plumbing.Name]string
	size       int
}

const (
	mostCached = 8 << 20
	// cachedFrom is the size of trees of the pack from which on they are cached. Smaller ones are read from the pack's spool, which has
	// what was read last in memory.
	cachedFrom = 1 << 14
)

func (c *treeCache) get(name plumbing.Name) (string, bool) {
	if contents, is := c.young[name]; is {
		return contents, true
	}
	contents, is := c.old[name]
	return contents, is
}

func (c *treeCache) put(name plumbing.Name, contents string) {
	if c.size += len(contents); c.young == nil || c.size > mostCached {
		c.old, c.young, c.size = c.young, map[plumbing.Name]string{}, len(contents)
	}
	c.young[name] = contents
}

// tree gives the bytes of a tree of the pack or of the tenant.
func (f *feeding) tree(ctx context.Context, name plumbing.Name, path string) (string, error) {
	if name == plumbing.EmptyTree {
		return "", nil
	}
	at, isOwn := f.own.Find(name)
	if isOwn && f.own.KindAt(at) == plumbing.Tree && f.own.SizeAt(at) < cachedFrom {
		contents, err := f.own.ContentsAt(at)
		return string(contents), err
	}
	if contents, is := f.trees.get(name); is {
		return contents, nil
	}
	o, err := f.own.Object(ctx, name)
	if errors.Is(err, plumbing.ErrMissing) {
		f.note(name, "the path "+shown(path)+" has the tree")
		return "", err
	}
	if err != nil {
		return "", err
	}
	if o.Kind != plumbing.Tree {
		return "", refusal("the path " + shown(path) + " is a directory, and its object is a " + o.Kind.String())
	}
	contents := string(o.Contents)
	f.trees.put(name, contents)
	return contents, nil
}
