package tenants

import (
	"fmt"
	"reflect"
	"testing"

	"gitpoold/plumbing"
)

// TestTagsAndCommits asks of a commit, its tree and file, a tag, the tag of that tag, a tag of a file, and a name that nothing has.
func TestTagsAndCommits(t *testing.T) {
	it := tenant(t, pool(t, 0), "acme/site")
	err := it.Push(background, agree, func(s *Stream) error {
		if err := commits("abc", nil)(s); err != nil {
			return err
		}
		s.WriteString("blob\nmark :2\ndata 3\nabc\n")
		for at, from := range []string{":1", ":10", ":2"} {
			fmt.Fprintf(s, "tag t%d\nmark :%d\nfrom %s\ntagger a <a@b> 1 +0000\ndata 1\nx\n", at, 10+at, from)
		}
		return nil
	})
	if err != nil {
		t.Fatal(err)
	}
	var names []plumbing.Name
	for _, expression := range []string{"main", "main^{tree}", "main:f", "refs/tags/t0", "refs/tags/t1", "refs/tags/t2"} {
		reply, err := it.Ask(background, "rev-parse "+expression)
		name, ok := plumbing.ParseName(string(reply[:digits]))
		if err != nil || !ok {
			t.Fatal(expression, err)
		}
		names = append(names, name)
	}
	names = append(names, plumbing.Name{1})
	tags, others, err := it.Tags(background, names)
	if err != nil || !reflect.DeepEqual(tags, names[3:6]) || !reflect.DeepEqual(others, append(append([]plumbing.Name{}, names[:3]...), names[6])) {
		t.Fatal(tags, others, err)
	}
	found, others, err := it.Commits(background, others)
	if err != nil || !reflect.DeepEqual(found, names[:1]) || len(others) != 3 {
		t.Fatal(found, others, err)
	}
}
