package walk

import (
	"context"
	"maps"
	"math"
	"slices"

	"gitpoold/plumbing"
)

// Request is what a fetch asks for. Wants and Haves are objects of the tenant.
type Request struct {
	Wants, Haves []plumbing.Name
	Was          []plumbing.Name // commits that the client has without their parents
	Boundary     Boundary
	Filter       Filter
	// Tags are annotated tags to send where what they lead to in the end is sent, each with that.
	Tags map[plumbing.Name]plumbing.Name
}

// Select lists what a fetch has to send. Where a history is whole, the tenant is asked once for all that is missing. Else the commits are
// walked, and the tenant is asked for what the trees have that the client's trees have not.
func Select(ctx context.Context, source Source, h *History, q Request) (plumbing.Listing, error) {
	h.Cut(q.Was)
	h.Cut(q.Boundary.Shallow)
	s := &selection{source: source, history: h, request: q, isNamed: map[plumbing.Name]bool{}}
	steps := []func(context.Context) error{s.whole, s.named, s.filter, s.tags}
	if !s.isWhole() {
		steps[0] = s.part
	}
	for _, step := range steps {
		if err := step(ctx); err != nil {
			return nil, err
		}
	}
	return s.listing, nil
}

// selection is a listing on its way.
type selection struct {
	source  Source
	history *History
	request Request
	listing plumbing.Listing
	// isNamed is true of the trees and blobs that are wanted by their own names: they are sent whatever the client has, and pass every filter.
	isNamed map[plumbing.Name]bool
}

// isWhole tells whether the client's history and the one that it gets end nowhere before their roots, and no filter counts the depth of trees.
func (s *selection) isWhole() bool {
	q := s.request
	return len(q.Was)+len(q.Boundary.Shallow)+len(q.Boundary.Unshallow) == 0 && !s.countsDepth()
}

func (s *selection) countsDepth() bool {
	return s.request.Filter.TreeDepth > 0 && s.request.Filter.TreeDepth < math.MaxInt
}

func (s *selection) whole(ctx context.Context) (err error) {
	s.listing, err = s.source.Missing(ctx, s.request.Wants, s.request.Haves)
	if err != nil || s.request.Filter == All && len(s.request.Haves) == 0 {
		return err
	}
	_, _, err = s.lead(ctx, s.unlisted(s.request.Wants))
	return err
}

// unlisted gives those names of which the listing does not say already that they are no tags. Trees and blobs among the others become named
// ones.
func (s *selection) unlisted(names []plumbing.Name) []plumbing.Name {
	open := map[plumbing.Name]bool{}
	plumbing.Unseen(names, open)
	for at := 0; at < s.listing.Len(); at++ {
		name := s.listing.Name(at)
		if kind := s.listing.Kind(at); open[name] && kind != plumbing.Tag {
			delete(open, name)
			s.isNamed[name] = kind != plumbing.Commit
		}
	}
	return slices.Collect(maps.Keys(open))
}

// lead finds what names lead to: commits, and tags on the way; trees and blobs become named ones. Tags alone are read.
func (s *selection) lead(ctx context.Context, names []plumbing.Name) (commits []plumbing.Name, tags plumbing.Listing, err error) {
	seen := map[plumbing.Name]bool{}
	for names = plumbing.Unseen(names, seen); len(names) > 0; {
		wave, others, err := s.source.Tags(ctx, names)
		if err != nil {
			return nil, nil, err
		}
		found, others, err := s.source.Commits(ctx, others)
		if err != nil {
			return nil, nil, err
		}
		commits = append(commits, found...)
		for _, name := range others {
			s.isNamed[name] = true
		}
		var after []plumbing.Name
		err = s.source.Objects(ctx, wave, func(o plumbing.Object) error {
			tags = tags.With(o.Name, o.Kind, uint64(len(o.Contents)))
			if target, isTag := plumbing.Tagged(o.Contents); isTag {
				after = append(after, target)
			}
			return nil
		})
		if err != nil {
			return nil, nil, err
		}
		names = plumbing.Unseen(after, seen)
	}
	return commits, tags, nil
}

// part lists the commits of a part of the history, and what their trees have that the client's have not.
func (s *selection) part(ctx context.Context) error {
	wants, tags, err := s.lead(ctx, s.request.Wants)
	if err != nil {
		return err
	}
	if err := s.history.Load(ctx, s.request.Boundary.Unshallow); err != nil {
		return err
	}
	for _, name := range s.request.Boundary.Unshallow {
		wants = append(wants, s.history.commits[name].Parents...)
	}
	order, edges, err := s.history.Paint(ctx, wants, s.request.Haves)
	if err != nil {
		return err
	}
	s.listing = tags
	for _, name := range order {
		s.listing = s.listing.With(name, plumbing.Commit, s.history.commits[name].size)
	}
	if s.request.Filter.TreeDepth == 0 {
		return nil
	}
	return s.trees(ctx, order, append(append(edges, s.request.Boundary.Unshallow...), s.request.Haves...))
}

// trees lists what the trees of commits have, and those of the client's commits have not.
func (s *selection) trees(ctx context.Context, order, clients []plumbing.Name) error {
	if err := s.history.Load(ctx, clients); err != nil {
		return err
	}
	roots := s.history.trees(order)
	found, err := s.source.Missing(ctx, roots, s.history.trees(clients))
	if err == nil && s.countsDepth() {
		found, err = s.above(ctx, found, roots)
	}
	s.listing = append(s.listing, found...)
	return err
}

// above leaves out what is too deep below the roots.
func (s *selection) above(ctx context.Context, found plumbing.Listing, roots []plumbing.Name) (plumbing.Listing, error) {
	seen := map[plumbing.Name]bool{}
	wave := plumbing.Unseen(roots, seen)
	for depth := 1; depth < s.request.Filter.TreeDepth && len(wave) > 0; depth++ {
		var after []plumbing.Name
		err := s.source.Objects(ctx, wave, func(o plumbing.Object) error {
			if o.Kind != plumbing.Tree {
				return nil
			}
			before := len(seen)
			forEach(string(o.Contents), func(e plumbing.Entry) {
				if fresh := plumbing.Unseen([]plumbing.Name{e.Name}, seen); e.IsTree() {
					after = append(after, fresh...)
				}
			})
			return plumbing.Hold(ctx, nameBytes*int64(len(seen)-before))
		})
		if err != nil {
			return nil, err
		}
		wave = after
	}
	return found.Keep(func(at int) bool { return seen[found.Name(at)] }), nil
}

func forEach(contents string, use func(plumbing.Entry)) {
	for entry, rest, ok := plumbing.NextEntry(contents); ok; entry, rest, ok = plumbing.NextEntry(rest) {
		if !entry.IsGitlink() {
			use(entry)
		}
	}
}

// named adds what the named trees and blobs reach, as far as it is not listed.
func (s *selection) named(ctx context.Context) error {
	var roots []plumbing.Name
	for name, is := range s.isNamed {
		if is {
			roots = append(roots, name)
		}
	}
	if len(roots) == 0 || s.isWhole() && len(s.request.Haves) == 0 {
		return nil
	}
	found, err := s.source.Missing(ctx, roots, nil)
	if err == nil && s.countsDepth() {
		found, err = s.above(ctx, found, roots)
	}
	if err == nil {
		err = plumbing.Hold(ctx, nameBytes*int64(s.listing.Len()))
	}
	if err != nil {
		return err
	}
	listed := make(map[plumbing.Name]bool, s.listing.Len())
	for at := 0; at < s.listing.Len(); at++ {
		listed[s.listing.Name(at)] = true
	}
	s.listing = append(s.listing, found.Keep(func(at int) bool { return !listed[found.Name(at)] })...)
	return nil
}

// filter leaves out what the filter does.
func (s *selection) filter(context.Context) error {
	f := s.request.Filter
	if f == All {
		return nil
	}
	s.listing = s.listing.Keep(func(at int) bool {
		switch s.listing.Kind(at) {
		case plumbing.Tree:
			return f.TreeDepth > 0 || s.isNamed[s.listing.Name(at)]
		case plumbing.Blob:
			return f.TreeDepth > 0 && s.listing.Size(at) < uint64(f.BlobBytes) || s.isNamed[s.listing.Name(at)]
		}
		return true
	})
	return nil
}

// tags adds annotated tags that lead to what is listed.
func (s *selection) tags(ctx context.Context) error {
	if len(s.request.Tags) == 0 {
		return nil
	}
	leading := map[plumbing.Name][]plumbing.Name{}
	for tag, peeled := range s.request.Tags {
		leading[peeled] = append(leading[peeled], tag)
	}
	var names []plumbing.Name
	listed := map[plumbing.Name]bool{}
	for at := 0; at < s.listing.Len(); at++ {
		name := s.listing.Name(at)
		if names = append(names, leading[name]...); s.listing.Kind(at) == plumbing.Tag {
			listed[name] = true
		}
	}
	return s.source.Objects(ctx, plumbing.Unseen(names, listed), func(o plumbing.Object) error {
		s.listing = s.listing.With(o.Name, o.Kind, uint64(len(o.Contents)))
		return nil
	})
}
