package store

import (
	"fmt"
	"strings"
	"testing"
)

// refNamed is the name of a ref with so many bytes.
func refNamed(at, size int) string {
	name := fmt.Sprintf("refs/heads/%d/", at)
	return name + strings.Repeat("n", size-len(name))
}

// streamed carries out a stream of a tenant.
func streamed(t *testing.T, s *Store, tenant, text string) {
	t.Helper()
	st, err := s.Begin(background, tenant, Checkpoints)
	must(t, err)
	defer st.GiveUp()
	_, err = st.Commit(background, []byte(text))
	must(t, err)
}

// refsOf is a stream of refs with names of so many bytes, which hold one commit.
func refsOf(count, size int) string {
	text := string(commitOn("refs/heads/main", "m0", ""))
	for at := 1; at < count; at++ {
		text += "reset " + refNamed(at, size) + "\nfrom refs/heads/main\n\n"
	}
	return text
}

// TestRefsCount has a tenant whose refs are far more than its objects: they count after saves, a new start, a copy and a compact, and no longer once
// they are deleted.
func TestRefsCount(t *testing.T) {
	const count, size = 802, 1000
	c := config(t, folder(t))
	s := opened(t, c)
	streamed(t, s, "b", refsOf(1, 0))
	streamed(t, s, "a", refsOf(count, size))
	must(t, s.Save(background))
	objects := s.Bytes("b") - int64(len("refs/heads/main")+BesideRef)
	want := objects + int64(len("refs/heads/main")+(count-1)*size+count*BesideRef)
	counts := func(tenant string) {
		t.Helper()
		if has := s.Bytes(tenant); has != want {
			t.Fatalf("%d bytes count of %s, and %d should", has, tenant, want)
		}
	}
	counts("a")
	must(t, s.Copy(background, "a", "c"))
	counts("c")
	must(t, s.Compact(background, "a"))
	counts("a")
	must(t, s.Close(background))
	s = opened(t, c)
	defer s.Close(background)
	counts("a")
	for _, it := range s.Usages() {
		if it.Name == "a" && (it.Bytes != want || it.Own != want-objects || it.Refs != count) {
			t.Fatalf("%+v", it)
		}
	}
	if s.Total() != 2*want+objects+int64(len("refs/heads/main")+BesideRef) {
		t.Fatal(s.Total())
	}
	// As many refs with shorter names.
	deleted := "feature force\n"
	for at := 1; at < count; at++ {
		deleted += "reset " + refNamed(at, size) + "\nfrom 0000000000000000000000000000000000000000\n\n"
		deleted += "reset " + refNamed(at, 100) + "\nfrom refs/heads/main\n\n"
	}
	streamed(t, s, "a", deleted)
	must(t, s.Save(background))
	want -= (count - 1) * (size - 100)
	counts("a")
}

// TestRefsOfWhoIsUnchangedAreNotAskedFor has many tenants, of which one is pushed to between saves.
func TestRefsOfWhoIsUnchangedAreNotAskedFor(t *testing.T) {
	s := opened(t, config(t, folder(t)))
	defer s.Close(background)
	for at := 0; at < 200; at++ {
		streamed(t, s, fmt.Sprint("t", at), refsOf(2, 100))
	}
	must(t, s.Save(background))
	streamed(t, s, "t7", "reset refs/heads/more\nfrom refs/heads/main\n\n")
	sizes := map[string]Size{}
	for _, it := range s.Usages() {
		sizes[it.Name] = it.Size
	}
	known, _ := s.knownRefs(sizes)
	if _, has := known["t7"]; has || len(known) != 199 {
		t.Fatalf("%d tenants are known", len(known))
	}
	before := s.Bytes("t8")
	must(t, s.Save(background))
	if s.Bytes("t8") != before || s.usage.get("t7").refs.count != 3 {
		t.Fatal(s.Bytes("t8"), before, s.usage.get("t7").refs)
	}
}
