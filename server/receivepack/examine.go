package receivepack

import (
	"context"
	"errors"
	"strings"

	"gitpoold/fsck"
	"gitpoold/objects"
	"gitpoold/plumbing"
)

func refusal(why string) error { return &objects.Refusal{Why: why} }

// examine judges each object of the pack, and what refs are to hold: what does not depend on the refs as they are.
func (p *push) examine(ctx context.Context) error {
	p.heads = map[plumbing.Name]plumbing.Head{}
	p.tags = map[plumbing.Name]*objects.Tag{}
	for _, step := range []func(context.Context) error{p.examineBlobs, p.examineCommits, p.examineTags, p.examineTrees} {
		if err := step(ctx); err != nil {
			return err
		}
	}
	return p.examineRefs(ctx)
}

func (p *push) each(ctx context.Context, kind plumbing.Kind, use func(at int, o plumbing.Object) error) error {
	err := p.own.Each(kind, func(at int) error {
		o, err := p.own.ObjectAt(at)
		if err == nil {
			err = use(at, o)
		}
		return err
	})
	if err != nil {
		return err
	}
	return ctx.Err()
}

func (p *push) examineBlobs(context.Context) error {
	return p.own.Each(plumbing.Blob, func(at int) error {
		if p.own.SizeAt(at) > objects.LongestData {
			return objects.TooLong("blob", p.own.NameAt(at))
		}
		return nil
	})
}

func (p *push) examineCommits(ctx context.Context) error {
	return p.each(ctx, plumbing.Commit, func(_ int, o plumbing.Object) error {
		c, err := objects.ReadCommit(o.Name, o.Contents)
		if err == nil {
			err = objects.Judged(o.Name, p.Rules.Commit(o.Contents))
		}
		if err == nil {
			p.heads[o.Name] = c.Head
		}
		return err
	})
}

func (p *push) examineTags(ctx context.Context) error {
	return p.each(ctx, plumbing.Tag, func(_ int, o plumbing.Object) error {
		tag, err := objects.ReadTag(o.Name, o.Contents)
		if err == nil {
			err = objects.Judged(o.Name, p.Rules.Tag(o.Contents, objects.IsRefName))
		}
		if err == nil {
			p.tags[o.Name] = nameplate(tag)
		}
		return err
	})
}

// nameplate is what a push keeps of a tag until it is told: a pack may have as many bytes of tags as of anything.
func nameplate(tag *objects.Tag) *objects.Tag {
	return &objects.Tag{Target: tag.Target, Kind: tag.Kind, Name: tag.Name}
}

func (p *push) examineTrees(ctx context.Context) error {
	special := map[plumbing.Name]fsck.Special{}
	below := make([]unfolded, p.own.Len())
	err := p.each(ctx, plumbing.Tree, func(at int, o plumbing.Object) error {
		facts, err := objects.ExamineTree(o.Name, o.Contents)
		if err == nil {
			err = objects.Judged(o.Name, p.Rules.Tree(o.Contents, func(blob plumbing.Name, what fsck.Special) { special[blob] |= what }))
		}
		if !facts.HasTrees {
			below[at] = unfoldedFiles(facts.Entries, len(o.Contents))
		}
		return err
	})
	if err == nil {
		err = p.countFiles(below)
	}
	if err != nil {
		return err
	}
	return p.examineSpecial(ctx, special)
}

// examineSpecial judges the blobs that git reads by itself.
func (p *push) examineSpecial(ctx context.Context, special map[plumbing.Name]fsck.Special) error {
	for name, what := range special {
		o, err := p.own.Object(ctx, name)
		if errors.Is(err, plumbing.ErrMissing) {
			continue
		}
		if err == nil {
			err = objects.Judged(o.Name, p.Rules.Special(o, what))
		}
		if err != nil {
			return err
		}
	}
	return nil
}

// examineRefs judges the names of the refs and the kinds of what they are to hold. One that is refused holds up no other.
func (p *push) examineRefs(ctx context.Context) error {
	p.kinds = map[plumbing.Name]plumbing.Kind{}
	for at, change := range p.changes {
		err := checkRef(change)
		if err == nil && !change.New.IsZero() {
			err = p.examineTarget(ctx, change)
		}
		if err == nil && p.Protects != nil {
			err = p.protects(ctx, change)
		}
		var refused *objects.Refusal
		if errors.As(err, &refused) {
			p.unfit[at] = refused.Why
		} else if err != nil {
			return err
		}
	}
	return nil
}

// checkRef gives a *Refusal where git would have no ref of this name. One that stands right below refs/ may go: a stream can bring it.
func checkRef(change Change) error {
	err := objects.CheckRef(change.Ref)
	if err == nil && strings.Count(change.Ref, "/") == 1 && !change.New.IsZero() {
		err = refusal(change.Ref + " is no name for a ref: git takes none that stands right below refs/")
	}
	return err
}

func (p *push) examineTarget(ctx context.Context, change Change) error {
	o, err := p.own.Object(ctx, change.New)
	if errors.Is(err, plumbing.ErrMissing) {
		return refusal("the push has not " + change.New.String() + ", and neither has the repository")
	}
	if err != nil {
		return err
	}
	p.kinds[o.Name] = o.Kind
	switch o.Kind {
	case plumbing.Commit:
		return nil
	case plumbing.Tag:
		return p.examineTagRef(change, o)
	}
	return refusal("a ref of gitpool holds a commit or an annotated tag, and no " + o.Kind.String())
}

func (p *push) examineTagRef(change Change, o plumbing.Object) error {
	tag, err := objects.ReadTag(o.Name, o.Contents)
	if err != nil {
		return err
	}
	if own := plumbing.Tags + tag.Name; own != change.Ref {
		return refusal("an annotated tag is kept under its own name alone, " + strings.ToValidUTF8(own, "?"))
	}
	p.tags[o.Name] = nameplate(tag)
	return nil
}
