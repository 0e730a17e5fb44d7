package walk

import (
	"context"
	"crypto/sha1"
	"fmt"
	"math"
	"math/rand"
	"slices"
	"testing"

	"gitpoold/plumbing"
)

// tenant is a tenant of a few objects, which answers as the child does.
type tenant map[plumbing.Name]plumbing.Object

func (t tenant) add(kind plumbing.Kind, contents string) plumbing.Name {
	name := plumbing.Name(sha1.Sum([]byte(fmt.Sprint(kind, contents))))
	t[name] = plumbing.Object{Name: name, Kind: kind, Contents: []byte(contents)}
	return name
}

// entry is the line of a tree.
func entry(mode, path string, of plumbing.Name) string {
	return mode + " " + path + "\x00" + string(of[:])
}

// grown gives a history of so many commits, each with up to two parents among those before it, whose files come and go.
func grown(chance *rand.Rand, count int) (t tenant, commits []plumbing.Name) {
	t = tenant{}
	for at := 0; at < count; at++ {
		below := t.add(plumbing.Tree, entry("100644", "x", t.add(plumbing.Blob, fmt.Sprint(chance.Intn(count)))))
		tree := t.add(plumbing.Tree, entry("40000", "d", below)+entry("100644", "f", t.add(plumbing.Blob, fmt.Sprint(chance.Intn(4)))))
		text := fmt.Sprintf("tree %v\n", tree)
		for parents := chance.Intn(3); parents > 0 && at > 0; parents-- {
			text += fmt.Sprintf("parent %v\n", commits[max(0, at-1-chance.Intn(3))])
		}
		commits = append(commits, t.add(plumbing.Commit, text+fmt.Sprintf("author a <a> 1 +0000\ncommitter a <a> %d +0000\n\n%d\n", 1000+at, at)))
	}
	return t, commits
}

// refers gives what an object refers to. Commits of `cuts` have no parents.
func (t tenant) refers(name plumbing.Name, cuts map[plumbing.Name]bool) (to []plumbing.Name) {
	switch o := t[name]; o.Kind {
	case plumbing.Commit:
		head := plumbing.ReadHead(o.Contents)
		if to = append(to, head.Tree); !cuts[name] {
			to = append(to, head.Parents...)
		}
	case plumbing.Tree:
		forEach(string(o.Contents), func(e plumbing.Entry) { to = append(to, e.Name) })
	}
	return to
}

// reach gives all that some objects reach.
func (t tenant) reach(from []plumbing.Name, cuts map[plumbing.Name]bool) map[plumbing.Name]bool {
	seen := map[plumbing.Name]bool{}
	for wave := plumbing.Unseen(from, seen); len(wave) > 0; {
		wave = append(plumbing.Unseen(t.refers(wave[0], cuts), seen), wave[1:]...)
	}
	return seen
}

func (t tenant) Objects(_ context.Context, names []plumbing.Name, use func(plumbing.Object) error) error {
	for _, name := range names {
		if _, has := t[name]; !has {
			return plumbing.ErrMissing
		}
		if err := use(t[name]); err != nil {
			return err
		}
	}
	return nil
}

func (t tenant) parted(names []plumbing.Name, kind plumbing.Kind) (is, others []plumbing.Name, err error) {
	for _, name := range names {
		if t[name].Kind == kind {
			is = append(is, name)
		} else {
			others = append(others, name)
		}
	}
	return is, others, nil
}

func (t tenant) Tags(_ context.Context, names []plumbing.Name) (tags, others []plumbing.Name, err error) {
	return t.parted(names, plumbing.Tag)
}

func (t tenant) Commits(_ context.Context, names []plumbing.Name) (commits, others []plumbing.Name, err error) {
	return t.parted(names, plumbing.Commit)
}

// Log is asked after more rounds of questions than these histories are deep.
func (t tenant) Log(context.Context, string) ([]plumbing.Name, error) {
	return nil, plumbing.ErrMissing
}

func (t tenant) Missing(_ context.Context, wants, haves []plumbing.Name) (listing plumbing.Listing, err error) {
	has := t.reach(haves, nil)
	for name := range t.reach(wants, nil) {
		if !has[name] {
			listing = listing.With(name, t[name].Kind, uint64(len(t[name].Contents)))
		}
	}
	return listing, nil
}

// some gives up to `most` of some names.
func some(chance *rand.Rand, names []plumbing.Name, most int) (chosen []plumbing.Name) {
	for count := chance.Intn(most + 1); count > 0; count-- {
		chosen = append(chosen, names[chance.Intn(len(names))])
	}
	return plumbing.Unseen(chosen, map[plumbing.Name]bool{})
}

func set(names []plumbing.Name) map[plumbing.Name]bool {
	is := map[plumbing.Name]bool{}
	plumbing.Unseen(names, is)
	return is
}

// TestAClientHasAllThatItAsksFor lets clients deepen and shorten what they have of random histories: each object comes once, and afterwards the
// client has all that its wants reach as far as its boundary, however much of it the client had before.
func TestAClientHasAllThatItAsksFor(t *testing.T) {
	for seed := int64(0); seed < 500; seed++ {
		chance := rand.New(rand.NewSource(seed))
		all, commits := grown(chance, 1+chance.Intn(24))
		haves, wants := some(chance, commits, 2), some(chance, commits, 2)
		cuts := some(chance, commits, 3)
		has := all.reach(haves, set(cuts))
		cuts = slices.DeleteFunc(cuts, func(it plumbing.Name) bool { return !has[it] })
		h, deepening := NewHistory(all), Deepening{}
		if len(wants) > 0 && chance.Intn(3) > 0 {
			deepening = Deepening{Depth: 1 + chance.Intn(6), IsRelative: chance.Intn(2) == 0}
		}
		q := Request{Wants: wants, Haves: haves, Was: cuts, Filter: All}
		if deepening.IsSet() {
			bound, err := h.Bound(context.Background(), deepening, wants, cuts)
			if err != nil {
				t.Fatal(seed, err)
			}
			q.Boundary = bound
		}
		got, err := Select(context.Background(), all, h, q)
		if err != nil {
			t.Fatal(seed, err)
		}
		came := map[plumbing.Name]bool{}
		for at := 0; at < got.Len(); at++ {
			if came[got.Name(at)] {
				t.Fatalf("%d: %v came twice", seed, got.Name(at))
			}
			came[got.Name(at)] = true
		}
		edge := set(append(slices.Clone(q.Boundary.Shallow), cuts...))
		for _, it := range q.Boundary.Unshallow {
			delete(edge, it)
		}
		for name := range all.reach(wants, edge) {
			if !came[name] && !has[name] {
				t.Fatalf("%d: a %v is not there", seed, all[name].Kind)
			}
		}
	}
}

// TestTheDepthOfAHistory has a history whose commits have one parent each.
func TestTheDepthOfAHistory(t *testing.T) {
	all := tenant{}
	var commits []plumbing.Name
	for at := 0; at < 8; at++ {
		text := fmt.Sprintf("tree %v\n", all.add(plumbing.Tree, ""))
		if at > 0 {
			text += fmt.Sprintf("parent %v\n", commits[at-1])
		}
		commits = append(commits, all.add(plumbing.Commit, text+fmt.Sprintf("committer a <a> %d +0000\n\n%d\n", 1000+at, at)))
	}
	tip := commits[7:]
	for _, it := range []struct {
		name               string
		ask                Deepening
		was                []plumbing.Name
		shallow, unshallow []plumbing.Name
	}{
		{"a depth", Deepening{Depth: 3}, nil, commits[5:6], nil},
		{"more than there is", Deepening{Depth: 9}, nil, nil, nil},
		{"deeper than before", Deepening{Depth: 5}, commits[5:6], commits[3:4], commits[5:6]},
		{"beyond the own edge", Deepening{Depth: 1, IsRelative: true}, commits[5:6], commits[4:5], commits[5:6]},
		{"as deep as before", Deepening{Depth: 3}, commits[5:6], nil, nil},
		{"all", Deepening{Depth: Infinite}, commits[5:6], nil, commits[5:6]},
		{"since a time", Deepening{Since: 1004}, nil, commits[4:5], nil},
		{"without what others reach", Deepening{Not: commits[1:2]}, nil, commits[2:3], nil},
	} {
		got, err := NewHistory(all).Bound(context.Background(), it.ask, tip, it.was)
		if err != nil || !slices.Equal(got.Shallow, it.shallow) || !slices.Equal(got.Unshallow, it.unshallow) {
			t.Errorf("%s: %v, %v", it.name, got, err)
		}
	}
	if _, err := NewHistory(all).Bound(context.Background(), Deepening{Since: math.MaxInt64}, tip, nil); err != ErrNothingSelected {
		t.Error(err)
	}
}
