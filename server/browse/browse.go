// Package browse reads what pages show of a tenant: commits and tags as people see them, a history a page at a time, trees, what
// differs between two trees, and archives. Each call has a bound on how much it asks for.
package browse

import (
	"bytes"
	"context"
	"errors"
	"fmt"

	"gitpoold/faults"
	"gitpoold/plumbing"
	"gitpoold/walk"
)

// Source is what is asked: a tenant.
type Source interface {
	walk.Source
	AskAll(context.Context, []string) ([][]byte, []error, error)
}

// ErrKind says that an object is of another kind than is shown there.
var ErrKind = errors.New("this is an object of another kind")

// Names asks which objects expressions of gitrevisions(7) name. Where one names nothing, its name is zeros.
func Names(ctx context.Context, s Source, expressions ...string) ([]plumbing.Name, error) {
	queries := make([]string, len(expressions))
	for at, it := range expressions {
		queries[at] = "rev-parse " + it
	}
	replies, errs, err := s.AskAll(ctx, queries)
	if err != nil {
		return nil, err
	}
	names := make([]plumbing.Name, len(replies))
	for at, reply := range replies {
		var fault faults.Fault
		switch {
		case errs[at] == nil && len(reply) > 0:
			names[at], _ = plumbing.ParseName(string(reply[:len(reply)-1]))
		case errs[at] != nil && !errors.Is(errs[at], plumbing.ErrMissing) && (!errors.As(errs[at], &fault) || fault == outOfMemory):
			return nil, errs[at]
		}
	}
	return names, nil
}

const outOfMemory = 90

// Object gives one object, or plumbing.ErrMissing.
func Object(ctx context.Context, s Source, name plumbing.Name) (found plumbing.Object, err error) {
	if name.IsZero() {
		return found, plumbing.ErrMissing
	}
	err = s.Objects(ctx, []plumbing.Name{name}, func(o plumbing.Object) error { found = o; return nil })
	return found, err
}

// Objects asks for objects, each once; zeros are passed over.
func Objects(ctx context.Context, s Source, names []plumbing.Name, use func(plumbing.Object) error) error {
	return s.Objects(ctx, fresh(names, map[plumbing.Name]bool{}), use)
}

// Entries reads a tree.
func Entries(o plumbing.Object) (entries []plumbing.Entry, err error) {
	if o.Kind != plumbing.Tree {
		return nil, fmt.Errorf("%v: %w", o.Name, ErrKind)
	}
	entries = make([]plumbing.Entry, 0, bytes.Count(o.Contents, []byte{0}))
	for rest := string(o.Contents); ; {
		entry, after, ok := plumbing.NextEntry(rest)
		if !ok {
			return entries, nil
		}
		entries, rest = append(entries, entry), after
	}
}
