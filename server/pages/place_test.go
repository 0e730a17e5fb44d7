package pages

import (
	"math/rand"
	"net/url"
	"strings"
	"testing"
)

// read parses the path of a URL as a server gets it.
func read(t *testing.T, text string) (Place, bool) {
	t.Helper()
	u, err := url.ParseRequestURI(text)
	if err != nil {
		t.Fatal(err)
	}
	return Parse(u.Path)
}

func TestParseReadsBackWhatURLWrites(t *testing.T) {
	tenants := []string{"acme/site", "a", "info/refs", "a/HEAD", "a/objects/b", "metrics", "healthz", "a-b", "x/git-upload-pack", "a_-/b-"}
	revisions := []string{"main", "HEAD", "refs/heads/a/-/b", "v1^{tree}", "main~3", "a\"<script>'&#%41", "\xff\xfe", "x.tar", "@"}
	paths := []string{"", "a", "a/b", "-/x", "a/-/b", ":", "a:b", "<i>\"'&?#%2e", "\xff\x00\n", "info/refs", "HEAD", "objects/x", "x.git", "a b+c"}
	for _, tenant := range tenants {
		for _, place := range []Place{{Kind: Home, Tenant: tenant}, {Kind: Refs, Tenant: tenant}} {
			if got, ok := read(t, place.URL()); !ok || got != place {
				t.Errorf("%+v is %s, and that is %+v", place, place.URL(), got)
			}
		}
		for _, revision := range revisions {
			for _, place := range []Place{{Log, tenant, revision, ""}, {Commit, tenant, revision, ""}, {Search, tenant, revision, ""}, {Feed, tenant, revision, ""},
				{Archive, tenant, revision, "tar"}, {Archive, tenant, revision, "tar.gz"}, {Archive, tenant, revision, "zip"},
				{Compare, tenant, revision, "..v1"}, {Compare, tenant, revision, "...main"}} {
				if got, ok := read(t, place.URL()); !ok || got != place {
					t.Errorf("%+v is %s, and that is %+v", place, place.URL(), got)
				}
			}
			for _, path := range paths {
				for _, kind := range []Kind{Tree, Blob, Raw, Blame, Log} {
					place := Place{kind, tenant, revision, path}
					if got, ok := read(t, place.URL()); !ok || got != place {
						t.Errorf("%+v is %s, and that is %+v", place, place.URL(), got)
					}
				}
			}
		}
	}
}

func TestNoPlaceHasTheURLOfAnother(t *testing.T) {
	random := rand.New(rand.NewSource(1))
	seen := map[string]Place{}
	parts := []string{"a", "-", "/", ":", ".tar", ".gz", "..", "tree", "compare", "log", "b", "%", "refs", ".git", "HEAD", "~1"}
	word := func() (text string) {
		for n := 1 + random.Intn(6); n > 0; n-- {
			text += parts[random.Intn(len(parts))]
		}
		return text
	}
	kinds := []Kind{Home, Refs, Log, Commit, Tree, Blob, Raw, Archive, Compare, Blame}
	for round := 0; round < 50000; round++ {
		place := Place{kinds[random.Intn(len(kinds))], word(), word(), word()}
		text, err := url.PathUnescape(place.URL())
		if err != nil {
			continue
		}
		got, ok := Parse(text)
		if !ok || got != place {
			continue
		}
		if other, has := seen[place.URL()]; has && other != place {
			t.Fatalf("%+v and %+v have one URL %s", other, place, place.URL())
		}
		seen[place.URL()] = place
	}
	if len(seen) < 300 {
		t.Fatal(len(seen))
	}
}

func TestParseRefusesWhatIsNoPage(t *testing.T) {
	for _, path := range []string{"", "*", "x", "//", "/-/", "/-/x", "/-/style-.css", "/a.b", "/a/../b", "/./a", "/-a", "/a/-b", "/a//b", "/a b", "/a\x00",
		"/a/info/refs", "/a/git-upload-pack", "/a/git-receive-pack", "/a/HEAD", "/a/objects/info", "/metrics", "/healthz", "/a/-/x", "/a/-/refs/",
		"/a/-/refs/x", "/a/-/log", "/a/-/log/", "/a/-/log/a..b", "/a/-/log/-x", "/a/-/log/a b", "/a/-/log/a\n", "/a/-/log/a:", "/a/-/tree/a:", "/a/-/compare/a", "/a/-/compare/a..",
		"/a/-/compare/..b", "/a/-/compare/a..b..c",
		"/a/-/compare/a:x..b", "/a/-/search/a:b", "/a/-/feed/", "/a/-/archive/a.rar", "/a/-/archive/.tar.gz", "/-/sitemap", "/robots.txt/",
		"/a/-/tree/:b", "/a/-/archive/main", "/a/-/archive/.tar", "/a/-/log/" + strings.Repeat("a", 1201), "/" + strings.Repeat("a", 65),
		"/a/-/log/a*", "/a/-/log/a?", "/a/-/log/a[", "/a/-/log/a\\", "/a/-/log/\x7f"} {
		if place, ok := Parse(path); ok {
			t.Errorf("%q is %+v", path, place)
		}
	}
}
