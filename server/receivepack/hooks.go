package receivepack

import (
	"context"
	"errors"
	"io"

	"gitpoold/pktline"
	"gitpoold/tenants"
)

// Pushed is a push that has come whole, and has changed nothing yet.
type Pushed struct {
	Changes []Change
	Options []string
	// Refs are those of the tenant, and Head is what HEAD names.
	Refs []tenants.Ref
	Head string
	// Objects writes the objects of the push as a pack; nil where it has none.
	Objects func(io.Writer) error
	// Say shows the client's user a text, if the client takes it.
	Say func(text []byte)
}

// askHooks lets hooks judge the changes that may be made as the refs are now. What they refuse is not tried. Nobody waits for the tenant meanwhile.
func (p *push) askHooks(ctx context.Context) error {
	if p.Judge == nil {
		return nil
	}
	refs, head, err := p.t.Refs(ctx)
	if err == nil {
		err = p.judge(ctx, refs)
	}
	if errors.Is(err, errNothing) {
		// It is judged again when the refs cannot move.
		return nil
	}
	if err != nil {
		return err
	}
	pushed := Pushed{Changes: p.good(), Options: p.options, Refs: refs, Head: head, Say: p.say}
	if p.own.Len() > 0 {
		pushed.Objects = p.own.WritePack
	}
	reasons, err := p.Judge(ctx, pushed)
	for at, next := 0, 0; at < len(p.bad) && err == nil; at++ {
		if p.bad[at] == "" {
			p.unfit[at] = reasons[next]
			next++
		}
	}
	return err
}

// say writes to the band of progress, where the client has one.
func (p *push) say(text []byte) {
	if p.can["side-band-64k"] {
		p.write(func() { _, _ = p.out.Sideband(pktline.ProgressChannel, false).Write(text) })
	}
}
