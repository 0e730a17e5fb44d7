package receivepack

import (
	"context"
	"errors"
	"fmt"
	"maps"
	"slices"
	"strconv"

	"gitpoold/objects"
	"gitpoold/plumbing"
	"gitpoold/tenants"
)

// feeding is the stream of a push, and what it has told so far.
type feeding struct {
	*push
	to      sink
	scratch string
	told    []bool                   // of the entries of the pack: the blobs that were told
	outside map[plumbing.Name]string // objects that the pack has not, and what names them
	trees   treeCache
	err     error
	// unfolded are the bytes of the lines of paths so far.
	unfolded int64
	// lacking are objects of which it is known that the tenant has not them, and lacks says which of them was named.
	lacking map[plumbing.Name]bool
	lacks   string
}

func (p *push) feeding(to sink) *feeding {
	return &feeding{push: p, to: to, scratch: p.scratchRef(), told: make([]bool, p.own.Len()), outside: map[plumbing.Name]string{}}
}

// feed tells the stream: commits with what changed since their first parents, then tags, then refs.
func (p *push) feed(ctx context.Context, to *tenants.Stream) error {
	f := p.feeding(to)
	err := f.all(ctx)
	// An object that is missing is told by its name and place, and not by the number of a fault.
	if missing := f.missing(ctx); missing != nil && (err == nil || tenants.IsSentence(err)) {
		return missing
	}
	return err
}

func (f *feeding) all(ctx context.Context) error {
	if f.head != "" {
		f.put("option gitpool head ", f.head, "\n")
	}
	order, tags, err := f.reached()
	if err != nil {
		return err
	}
	for _, name := range order {
		if err := f.commit(ctx, name); err != nil {
			return err
		}
	}
	for _, name := range tags {
		if err := f.tag(ctx, name); err != nil {
			return err
		}
	}
	if len(order) > 0 {
		f.put(resetCommand(f.scratch, plumbing.Name{}))
	}
	return f.setRefs(ctx, tags)
}

// put appends to the stream. An error stays, and expect gives it.
func (f *feeding) put(parts ...string) {
	for _, part := range parts {
		if f.err == nil {
			_, f.err = f.to.WriteString(part)
		}
	}
}

func (f *feeding) data(contents []byte) {
	f.put("data ", strconv.Itoa(len(contents)), "\n")
	if f.err == nil {
		_, f.err = f.to.Write(contents)
	}
	f.put("\n")
}

// expect asks for the name that mark 1 stands for, which has to be this one.
func (f *feeding) expect(name plumbing.Name) error {
	if f.err == nil {
		f.err = f.to.Expect(":1", name)
	}
	return f.err
}

// scratchRef gives a name that no ref has, for the branch that commits are made on.
func (p *push) scratchRef() string {
	name := "refs/gitpool/push"
	for !p.now(name).IsZero() || !p.was.Target(name).IsZero() {
		name += "-"
	}
	return name
}

// reached gives the commits of the pack that the changed refs reach, parents first, and the tags, each after what it is of.
func (f *feeding) reached() (order, tags []plumbing.Name, err error) {
	w := topology{heads: f.heads, state: map[plumbing.Name]int8{}}
	for _, change := range f.good() {
		tip := change.New
		var chain []plumbing.Name
		for f.tags[tip] != nil && w.state[tip] == 0 {
			w.state[tip] = left
			chain = append(chain, tip)
			tip = f.tags[tip].Target
		}
		for at := len(chain) - 1; at >= 0; at-- {
			tags = append(tags, chain[at])
		}
		w.from(tip)
	}
	return w.order, tags, nil
}

// topology sorts commits, parents first.
type topology struct {
	heads map[plumbing.Name]plumbing.Head
	state map[plumbing.Name]int8
	order []plumbing.Name
}

const (
	entered = 1
	left    = 2
)

func (w *topology) from(tip plumbing.Name) {
	stack := []plumbing.Name{tip}
	for len(stack) > 0 {
		top := stack[len(stack)-1]
		head, isOwn := w.heads[top]
		if !isOwn || w.state[top] != 0 {
			stack = stack[:len(stack)-1]
			w.leave(top)
			continue
		}
		w.state[top] = entered
		for _, parent := range head.Parents {
			if w.state[parent] == 0 {
				stack = append(stack, parent)
			}
		}
	}
}

func (w *topology) leave(name plumbing.Name) {
	if w.state[name] == entered {
		w.state[name] = left
		w.order = append(w.order, name)
	}
}

// commit tells one commit and asks for its name.
func (f *feeding) commit(ctx context.Context, name plumbing.Name) error {
	o, err := f.own.Object(ctx, name)
	if err != nil {
		return err
	}
	c, err := objects.ReadCommit(name, o.Contents)
	if err != nil {
		return err
	}
	base, err := f.baseOf(ctx, name, c)
	if err != nil {
		return err
	}
	if len(c.Parents) == 0 {
		f.put("reset ", f.scratch, "\n\n")
	}
	f.put("commit ", f.scratch, "\nmark :1\n")
	for _, line := range c.Lines {
		f.put(string(line), "\n")
	}
	f.data(c.Message)
	for at, parent := range c.Parents {
		f.put([2]string{"from ", "merge "}[min(at, 1)], parent.String(), "\n")
	}
	if err := f.changeRoot(ctx, base, c.Tree, name); err != nil {
		return err
	}
	f.put("\n")
	return f.expect(name)
}

// baseOf gives the tree of the first parent, or the empty tree. All parents have to be in the pack or the tenant's.
func (f *feeding) baseOf(ctx context.Context, name plumbing.Name, c *objects.Commit) (plumbing.Name, error) {
	base := plumbing.EmptyTree
	for at, parent := range c.Parents {
		head, isOwn := f.heads[parent]
		if !isOwn && at > 0 {
			f.note(parent, "commit "+name.String()[:12]+" has the parent")
			continue
		}
		if !isOwn {
			o, err := f.t.Object(ctx, parent)
			if errors.Is(err, plumbing.ErrMissing) {
				f.note(parent, "commit "+name.String()[:12]+" has the parent")
				return base, err
			}
			if err != nil {
				return base, err
			}
			head = plumbing.ReadHead(o.Contents)
		}
		if at == 0 {
			base = head.Tree
		}
	}
	return base, nil
}

// note remembers that the pack has not an object, and what names it.
func (f *feeding) note(name plumbing.Name, what string) {
	if f.outside[name] == "" {
		f.outside[name] = what
	}
	if f.lacking[name] && f.lacks == "" {
		f.lacks = notHere(what, name)
	}
}

func notHere(what string, name plumbing.Name) string {
	return what + " " + name.String() + ", which is not here: push from a repository that is whole and not shallow"
}

// missing gives a *Refusal where an object that the pack has not is not the tenant's either.
func (f *feeding) missing(ctx context.Context) error {
	gone, err := f.gone(ctx)
	for name := range gone {
		return refusal(notHere(f.outside[name], name))
	}
	return err
}

// gone finds which objects that the pack has not the tenant has not either.
func (f *feeding) gone(ctx context.Context) (map[plumbing.Name]bool, error) {
	names := slices.Collect(maps.Keys(f.outside))
	has, err := f.t.Has(ctx, names)
	gone := map[plumbing.Name]bool{}
	for at, name := range names {
		if err == nil && !has[at] {
			gone[name] = true
		}
	}
	return gone, err
}

// tag tells an annotated tag and asks for its name. A blob that it is of is told before it.
func (f *feeding) tag(ctx context.Context, name plumbing.Name) error {
	tag := f.tags[name]
	at, isOwn := f.own.Find(tag.Target)
	if !isOwn {
		f.note(tag.Target, "tag "+name.String()[:12]+" is of")
	} else if kind := f.own.KindAt(at); kind.String() != tag.Kind {
		return refusal("tag " + name.String()[:12] + " says that it is of a " + tag.Kind + ", and it is of a " + kind.String())
	} else if kind == plumbing.Blob {
		if err := f.blob(at); err != nil {
			return err
		}
	}
	command, err := f.tagCommand(ctx, name, "mark :1\n")
	if err != nil {
		return err
	}
	f.put(command)
	return f.expect(name)
}

// tagCommand reads a tag and gives the command that makes it, with the line of its mark, if any.
func (f *feeding) tagCommand(ctx context.Context, name plumbing.Name, mark string) (string, error) {
	o, err := f.own.Object(ctx, name)
	if err != nil {
		return "", err
	}
	tag, err := objects.ReadTag(name, o.Contents)
	if err != nil {
		return "", err
	}
	return tagCommand(tag, mark), nil
}

// tagCommand gives the command that makes a tag, with the line of its mark, if any.
func tagCommand(tag *objects.Tag, mark string) string {
	tagger := ""
	if tag.Tagger != nil {
		tagger = string(tag.Tagger) + "\n"
	}
	return fmt.Sprintf("tag %s\n%sfrom %v\n%sdata %d\n%s\n", tag.Name, mark, tag.Target, tagger, len(tag.Message), tag.Message)
}

func (f *feeding) blob(at int) error {
	if f.told[at] {
		return nil
	}
	f.told[at] = true
	contents, err := f.own.ContentsAt(at)
	if err != nil {
		return err
	}
	f.put("blob\n")
	f.data(contents)
	return nil
}

// setRefs tells the refs. A tag sets its own ref at the next checkpoint, whatever came since; so what takes it back comes after one,
// with the last piece.
func (f *feeding) setRefs(ctx context.Context, tags []plumbing.Name) error {
	restored := f.restored(tags)
	for _, change := range f.good() {
		if _, is := restored[change.Ref]; !is && f.now(change.Ref) == change.New && f.kinds[change.New] != plumbing.Tag {
			f.put(resetCommand(change.Ref, change.New))
		}
	}
	if len(restored) == 0 {
		return f.err
	}
	last := "checkpoint\n"
	for ref, target := range restored {
		command, err := f.restoring(ctx, ref, target)
		if err != nil {
			return err
		}
		last += command
	}
	f.to.Last(last)
	return f.err
}

// restored gives the refs that a told tag sets to something else than they are to hold, and what that is.
func (f *feeding) restored(tags []plumbing.Name) map[string]plumbing.Name {
	restored := map[string]plumbing.Name{}
	for _, name := range tags {
		ref := plumbing.Tags + f.tags[name].Name
		if target := f.now(ref); target != name {
			restored[ref] = target
		}
	}
	return restored
}

// restoring gives the command that lets a ref hold what it is to hold.
func (f *feeding) restoring(ctx context.Context, ref string, target plumbing.Name) (string, error) {
	if target.IsZero() {
		return resetCommand(ref, target), nil
	}
	o, err := f.own.Object(ctx, target)
	if err != nil || o.Kind != plumbing.Tag {
		return resetCommand(ref, target), err
	}
	return f.tagCommand(ctx, target, "")
}

func resetCommand(ref string, target plumbing.Name) string {
	return "reset " + ref + "\nfrom " + target.String() + "\n\n"
}
