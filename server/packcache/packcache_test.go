package packcache

import (
	"os"
	"path/filepath"
	"testing"

	"gitpoold/plumbing"
)

// TestKeys has clones that want the same in another order, and clones that do not want the same.
func TestKeys(t *testing.T) {
	a, b, c := plumbing.Name{1}, plumbing.Name{2}, plumbing.Name{3}
	tags := func(names ...plumbing.Name) map[plumbing.Name]plumbing.Name {
		all := map[plumbing.Name]plumbing.Name{}
		for _, name := range names {
			all[name] = c
		}
		return all
	}
	one := Clone{Wants: []plumbing.Name{a, b}}
	for _, same := range []Clone{{Wants: []plumbing.Name{b, a}}, {[]plumbing.Name{a, b}, tags(a)}, {[]plumbing.Name{a, b}, tags(a, b)}} {
		if same.key() != one.key() {
			t.Error(same)
		}
	}
	seen := map[key]bool{one.key(): true}
	for _, other := range []Clone{{}, {Wants: []plumbing.Name{a}}, {Wants: []plumbing.Name{a, b, c}}, {[]plumbing.Name{a}, tags(b)}, {nil, tags(a, b)},
		{[]plumbing.Name{a, b}, tags(c)}} {
		if seen[other.key()] {
			t.Error(other)
		}
		seen[other.key()] = true
	}
}

func TestPlansAreBounded(t *testing.T) {
	it := &kept{plans: map[key]plan{}}
	for at := 0; at < 10*mostPlans; at++ {
		it.remember(key{byte(at)}, plan{fits: true})
		if _, isKnown := it.plan(key{byte(at)}); !isKnown || len(it.plans) > mostPlans {
			t.Fatal(at, len(it.plans))
		}
	}
	it.remember(key{255}, plan{true, make(plumbing.Listing, 29*(mostBeside+1))})
	if _, isKnown := it.plan(key{255}); isKnown {
		t.Error("a plan that is too large")
	}
}

// TestWhatIsNoPack has files that are not what git was asked for.
func TestWhatIsNoPack(t *testing.T) {
	head, trailer := "PACK\x00\x00\x00\x02\x00\x00\x00\x00", "\x02\x9d\x08\x82\x3b\xd8\xa8\xea\xb5\x10\xad\x6a\xc7\x5c\x82\x3c\xfd\x3e\xd3\x1e"
	for text, is := range map[string]bool{
		head + trailer:                         true,
		"":                                     false,
		head:                                   false,
		head + trailer[:19] + "x":              false,
		head + "x" + trailer:                   false,
		head[:11] + "\x01" + trailer:           false,
		"KCAP" + head[4:] + trailer:            false,
		head[:7] + "\x03" + head[8:] + trailer: false,
		head + trailer + trailer:               false,
		head[:8] + "\x00\x00\x00\x01" + "x" + head: false,
	} {
		path := filepath.Join(t.TempDir(), "pack")
		if err := os.WriteFile(path, []byte(text), 0o600); err != nil {
			t.Fatal(err)
		}
		file, err := os.Open(path)
		if err != nil {
			t.Fatal(err)
		}
		if _, _, err := examine(file, 0); (err == nil) != is {
			t.Errorf("%q: %v", text, err)
		}
		file.Close()
	}
}
