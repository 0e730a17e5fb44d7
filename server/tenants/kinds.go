package tenants

import (
	"context"

	"gitpoold/child"
	"gitpoold/frames"
	"gitpoold/plumbing"
)

// Tags parts names into those under which the tenant has tags and all others. The child says so without the contents of objects, which may be large.
func (t Tenant) Tags(ctx context.Context, names []plumbing.Name) (tags, others []plumbing.Name, err error) {
	return t.parted(ctx, names, "^{tag}")
}

// Commits parts names in the same way into those of commits and all others. None may be a tag: the child would follow each chain of tags to its end.
func (t Tenant) Commits(ctx context.Context, names []plumbing.Name) (commits, others []plumbing.Name, err error) {
	return t.parted(ctx, names, "^{commit}")
}

// Has tells of each name whether the tenant has an object of it.
func (t Tenant) Has(ctx context.Context, names []plumbing.Name) ([]bool, error) {
	return t.resolve(ctx, names, "")
}

// parted gives the names that the tenant has with a suffix of gitrevisions(7), and the others.
func (t Tenant) parted(ctx context.Context, names []plumbing.Name, suffix string) (found, others []plumbing.Name, err error) {
	has, err := t.resolve(ctx, names, suffix)
	if err != nil {
		return nil, nil, err
	}
	for at, name := range names {
		if has[at] {
			found = append(found, name)
		} else {
			others = append(others, name)
		}
	}
	return found, others, nil
}

// resolve tells of each name whether it names something with a suffix of gitrevisions(7).
func (t Tenant) resolve(ctx context.Context, names []plumbing.Name, suffix string) ([]bool, error) {
	const atOnce = 1024
	has := make([]bool, 0, len(names))
	for len(names) > 0 {
		part := names[:min(len(names), atOnce)]
		names = names[len(part):]
		queries := make([]string, len(part))
		for i, name := range part {
			queries[i] = "rev-parse " + name.String() + suffix
		}
		answers, err := t.begin(ctx, child.Short, queries)()
		if err != nil {
			return nil, err
		}
		for _, answer := range answers {
			has = append(has, answer.Status == frames.Ok)
		}
	}
	return has, nil
}
