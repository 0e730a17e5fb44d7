package tenants

import (
	"context"
	"fmt"
	"strings"
	"testing"

	"gitpoold/plumbing"
)

// refsText is what the child says of so many refs, whose names have so many bytes more.
func refsText(count, more int) []byte {
	var text strings.Builder
	for at := 0; at < count; at++ {
		fmt.Fprintf(&text, "%v refs/heads/b%05d%s\n", plumbing.Name{byte(at), byte(at >> 8)}, at, strings.Repeat("x", more))
	}
	return []byte(text.String())
}

// listed gives the list that a request gets, and what that counts.
func listed(t *testing.T, l *refLists, tenant string, text []byte) ([]Ref, int64) {
	t.Helper()
	c := &counting{t: t}
	refs, err := l.share(plumbing.Counted(background, c), tenant, text)
	if err != nil {
		t.Fatal(err)
	}
	return refs, c.held
}

func TestRequestsShareAListOfRefs(t *testing.T) {
	var l refLists
	text := refsText(100, 0)
	first, counts := listed(t, &l, "acme/site", text)
	if len(first) != 100 || first[99] != (Ref{"refs/heads/b00099", plumbing.Name{99}}) || counts != int64(len(text)+100*refBytes) {
		t.Fatal(len(first), counts)
	}
	if second, _ := listed(t, &l, "acme/site", refsText(100, 0)); &second[0] != &first[0] {
		t.Error("the same refs are held twice")
	}
	if other, _ := listed(t, &l, "acme/other", text); &other[0] == &first[0] {
		t.Error("two tenants share a list")
	}
	if moved, _ := listed(t, &l, "acme/site", refsText(99, 0)); len(moved) != 99 || len(l.lists) != 2 {
		t.Error("the refs that were there before are kept or given", len(moved), len(l.lists))
	}
	if none, counts := listed(t, &l, "acme/none", nil); len(none) != 0 || counts != 0 {
		t.Error(none, counts)
	}
	if _, err := l.share(background, "acme/site", []byte("no refs\n")); err != errAnswer {
		t.Error(err)
	}
}

// full is a memory that holds nothing.
type full struct{ plumbing.Endless }

func (full) Share(any, int64) error { return errFull }

func TestARequestMayNotHoldAListOfRefs(t *testing.T) {
	var l refLists
	if _, err := l.share(plumbing.Counted(context.Background(), full{}), "acme/site", refsText(1, 0)); err != errFull {
		t.Fatal(err)
	}
}

// TestListsOfRefsAreBounded has more tenants than lists are kept of, and a list that is larger than all that is kept.
func TestListsOfRefsAreBounded(t *testing.T) {
	var l refLists
	text := refsText(1000, 1000)
	for at := 0; at < 50; at++ {
		listed(t, &l, fmt.Sprintf("tenant%d", at), text)
		if l.bytes > mostListed || l.bytes != int64(len(l.lists))*int64(len(text)+1000*refBytes) || l.lists[fmt.Sprintf("tenant%d", at)] == nil {
			t.Fatalf("%d bytes in %d lists", l.bytes, len(l.lists))
		}
	}
	refs, counts := listed(t, &l, "tenant49", refsText(1000, mostListed/1000))
	if len(refs) != 1000 || counts < mostListed || l.lists["tenant49"] != nil || l.bytes > mostListed || len(l.lists) < 20 {
		t.Fatal(len(refs), counts, l.bytes, len(l.lists))
	}
}
