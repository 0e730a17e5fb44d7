package pages

import (
	"net/url"
	"testing"
	"unicode/utf8"
)

// FuzzParse asks that the address of a place is that of no other, and that nothing is shown which could act on a terminal or a page.
func FuzzParse(f *testing.F) {
	for _, path := range []string{"/", "/acme/site", "/a.git/", "/a/-/", "/a/-/refs", "/a/-/log/main~3", "/a/-/tree/refs/heads/x:a/b", "/-/style-x.css",
		"/a/-/archive/v1.tar", "/a/HEAD/-/", "/a/../b", "/a/-/blob/:x", "/a/-/raw/x:\xff\x00"} {
		f.Add(path)
	}
	f.Fuzz(func(t *testing.T, path string) {
		for _, text := range []string{visible(path), block(path), line(path)} {
			if !utf8.ValidString(text) {
				t.Fatalf("%q is shown as %q", path, text)
			}
		}
		place, ok := Parse(path)
		if !ok {
			return
		}
		back, err := url.ParseRequestURI(place.URL())
		if err != nil {
			t.Fatalf("%+v has the address %q: %v", place, place.URL(), err)
		}
		if again, ok := Parse(back.Path); !ok || again != place {
			t.Fatalf("%q is %+v, and its address %+v", path, place, again)
		}
	})
}
