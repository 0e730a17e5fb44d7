package browse

import (
	"context"
	"errors"

	"gitpoold/plumbing"
)

// Most objects that are read together, and most bytes of them that are kept twice.
const (
	mostTogether = 32
	mostKept     = 1 << 20
)

// versions keeps what was made of objects at the path of a walk: of those that were read last, and of those before.
type versions[T any] struct {
	*past
	make         func(plumbing.Object) (T, error)
	kept, before map[plumbing.Name]T
	left         int // bytes
}

// of gives what is made of an entry. It reads those with it to which the walk comes next.
func (v *versions[T]) of(ctx context.Context, it plumbing.Entry) (made T, err error) {
	for _, kept := range []map[plumbing.Name]T{v.kept, v.before} {
		if made, has := kept[it.Name]; has {
			return made, nil
		}
	}
	if v.left <= 0 {
		v.kept, v.before, v.left = map[plumbing.Name]T{}, v.kept, mostKept
	}
	err = v.Objects(ctx, fresh(v.from(it), v.kept), func(o plumbing.Object) (err error) {
		if v.kept[o.Name], err = v.make(o); err != nil {
			return err
		}
		if v.left -= len(o.Contents); v.left <= 0 {
			return errSpent
		}
		return nil
	})
	if errors.Is(err, errSpent) {
		err = nil
	}
	return v.kept[it.Name], err
}

// from gives the name of an entry, and of those of its format that come after it.
func (p *past) from(it plumbing.Entry) []plumbing.Name {
	names := []plumbing.Name{it.Name}
	for at, found := range p.coming {
		if found.Name != it.Name {
			continue
		}
		p.coming = p.coming[at:]
		for _, next := range p.coming[:min(mostTogether, len(p.coming))] {
			if next.Format() == it.Format() {
				names = append(names, next.Name)
			}
		}
		break
	}
	return names
}
