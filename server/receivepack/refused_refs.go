package receivepack

import (
	"context"
	"errors"

	"gitpoold/objects"
	"gitpoold/plumbing"
)

// sink takes a stream: that of a tenant, or nowhere.
type sink interface {
	Write(text []byte) (int, error)
	WriteString(text string) (int, error)
	Expect(mark string, name plumbing.Name) error
	Last(commands string)
}

// nowhere is where a stream goes that nobody reads: what matters is what it names.
type nowhere struct{}

func (nowhere) Write(text []byte) (int, error)       { return len(text), nil }
func (nowhere) WriteString(text string) (int, error) { return len(text), nil }
func (nowhere) Expect(string, plumbing.Name) error   { return nil }
func (nowhere) Last(string)                          {}

// blame finds which refs reach what a tenant cannot have: after a push was refused for it, these refs are refused, and no other is.
func (p *push) blame(ctx context.Context) error {
	f := p.feeding(nowhere{})
	order, tags, err := f.reached()
	if err != nil {
		return err
	}
	if _, err = f.faults(ctx, order, tags); err != nil {
		return err
	}
	gone, err := f.gone(ctx)
	if err != nil {
		return err
	}
	f = p.feeding(nowhere{})
	f.lacking = gone
	faults, err := f.faults(ctx, order, tags)
	for at, change := range p.changes {
		if why := faults[change.New]; why != "" && p.unfit[at] == "" {
			p.unfit[at] = why
		}
	}
	return err
}

// faults tells commits and tags, parents and targets first, and says of each that cannot be kept why.
func (f *feeding) faults(ctx context.Context, order, tags []plumbing.Name) (map[plumbing.Name]string, error) {
	faults := map[plumbing.Name]string{}
	note := func(name plumbing.Name, tell func(context.Context, plumbing.Name) error, of ...plumbing.Name) error {
		why, err := f.fault(ctx, name, tell)
		for _, it := range of {
			if why == "" {
				why = faults[it]
			}
		}
		if why != "" {
			faults[name] = why
		}
		return err
	}
	for _, name := range order {
		if err := note(name, f.commit, f.heads[name].Parents...); err != nil {
			return nil, err
		}
	}
	for _, name := range tags {
		if err := note(name, f.tag, f.tags[name].Target); err != nil {
			return nil, err
		}
	}
	return faults, nil
}

// fault tells one object, and says why it cannot be kept, or nothing. The error is another one.
func (f *feeding) fault(ctx context.Context, name plumbing.Name, tell func(context.Context, plumbing.Name) error) (why string, err error) {
	f.lacks, f.err = "", ctx.Err()
	err = tell(ctx, name)
	var refused *objects.Refusal
	switch {
	case f.lacks != "":
		return f.lacks, nil
	case errors.As(err, &refused):
		return refused.Why, nil
	case errors.Is(err, plumbing.ErrMissing):
		return "", nil
	}
	return "", err
}
