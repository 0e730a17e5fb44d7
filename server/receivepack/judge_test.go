package receivepack

import (
	"fmt"
	"reflect"
	"runtime"
	"strings"
	"testing"

	"gitpoold/plumbing"
	"gitpoold/tenants"
)

const (
	bands  = "report-status report-status-v2 side-band-64k"
	atomic = bands + " atomic"
	other  = "report-status side-band-64k"
)

var (
	second  = commitOf(files, "second", root)
	third   = commitOf(files, "third", second)
	lost    = object{plumbing.Blob, "in no pack\n"}
	holed   = object{plumbing.Tree, entryOf("100644", "lost", lost)}
	onHole  = commitOf(holed, "on a hole", root)
	afterIt = commitOf(files, "after the hole", onHole)
	tagOf   = func(o object, tag string) object {
		return object{plumbing.Tag, fmt.Sprintf("object %v\ntype commit\ntag %s\ntagger A <a@b> 1 +0000\n\nm\n", o.name(), tag)}
	}
)

// holds asks that a tenant has these refs and no others: each is followed by the object that it holds.
func holds(t *testing.T, it tenants.Tenant, want map[string]object) {
	t.Helper()
	refs, _, err := it.Refs(background)
	if err != nil || len(refs) != len(want) {
		t.Fatal(refs, err)
	}
	for _, ref := range refs {
		if want[ref.Name].contents == "" || want[ref.Name].name() != ref.Target {
			t.Errorf("%s holds %v", ref.Name, ref.Target)
		}
	}
}

// says asks for the lines of a report: the front of each and a part of the reason, with two spaces between.
func says(t *testing.T, report []string, want ...string) {
	t.Helper()
	if len(report) != len(want) {
		t.Fatalf("%q", report)
	}
	for at, it := range want {
		front, reason, _ := strings.Cut(it, "  ")
		if !strings.HasPrefix(report[at], front) || !strings.Contains(report[at], reason) {
			t.Errorf("%q, not %q", report[at], it)
		}
	}
}

// TestOneRefIsRefusedAlone has refs that cannot be kept beside one that can: it changes, unless the push is atomic.
func TestOneRefIsRefusedAlone(t *testing.T) {
	it := tenant(t)
	requests := []string{creates("refs/heads/a..b", root), creates("refs/foo", root), creates("refs/heads/tree", files),
		creates("refs/heads/none", lost), creates("refs/heads/main", root), changes("refs/heads/old", files.name(), root.name())}
	reasons := []string{"ng refs/heads/a..b  no name for a ref", "ng refs/foo  right below refs/", "ng refs/heads/tree  and no tree",
		"ng refs/heads/none  neither has the repository"}
	objects := packed(root, files, file)
	_, report := pushed(t, it, asking(atomic, requests[0], requests[1:]...)+objects)
	says(t, report, append(append([]string{"unpack ok"}, reasons...), "ng refs/heads/main  atomic push failed", "ng refs/heads/old  fetch first")...)
	holds(t, it, nil)
	_, report = pushed(t, it, asking(bands, requests[0], requests[1:]...)+objects)
	says(t, report, append(append([]string{"unpack ok"}, reasons...), "ok refs/heads/main", "ng refs/heads/old  fetch first")...)
	holds(t, it, map[string]object{"refs/heads/main": root})
}

// TestOnlyRefsOfWhatIsMissingAreRefused has a history in which an object is missing, and refs and tags before it, at it, after it and beside it.
func TestOnlyRefsOfWhatIsMissingAreRefused(t *testing.T) {
	it := tenant(t)
	v1, v2 := tagOf(afterIt, "v1"), tagOf(second, "v2")
	wrong := commitOf(object{plumbing.Tree, entryOf("100644", "f", files)}, "a file that is a directory")
	wrongTree := object{plumbing.Tree, entryOf("100644", "f", files)}
	request := []string{creates("refs/heads/hole", onHole), creates("refs/heads/after", afterIt), creates("refs/heads/main", root),
		creates("refs/heads/second", second), creates("refs/tags/v1", v1), creates("refs/tags/v2", v2), creates("refs/heads/wrong", wrong)}
	objects := packed(root, files, file, second, holed, onHole, afterIt, v1, v2, wrong, wrongTree)
	missing := "the path `lost` has the blob " + lost.name().String() + ", which is not here"
	reasons := []string{"ng refs/heads/hole  " + missing, "ng refs/heads/after  " + missing, "main", "second", "ng refs/tags/v1  " + missing, "v2",
		"ng refs/heads/wrong  is a file, and its object is a tree"}
	told := func(can, ofOthers string) {
		_, report := pushed(t, it, asking(can, request[0], request[1:]...)+objects)
		want := []string{"unpack ok"}
		for _, it := range reasons {
			if !strings.HasPrefix(it, "ng") {
				it = ofOthers
			}
			want = append(want, it)
		}
		says(t, report, want...)
	}
	told(atomic, "ng  atomic push failed")
	holds(t, it, nil)
	told(bands, "ok")
	holds(t, it, map[string]object{"refs/heads/main": root, "refs/heads/second": second, "refs/tags/v2": v2})
}

// TestADirectoryBesideAFile has refs of which one stands below the other: git takes the changes of a push one after another.
func TestADirectoryBesideAFile(t *testing.T) {
	const ok = "unpack ok"
	objects := packed(root, files, file)
	d, below := "refs/heads/d", "refs/heads/d/f"
	it := tenant(t)
	pushed(t, it, asking(bands, creates("refs/heads/main", root))+objects)
	_, report := pushed(t, it, asking(bands, creates(d, root), creates(below, root))+objects)
	says(t, report, ok, "ok "+d, "ng "+below+"  refs/heads/d is a ref, and git cannot have both")
	_, report = pushed(t, it, asking(bands, creates(below, root), deletes(d, root))+objects)
	says(t, report, ok, "ng "+below+"  git cannot have both", "ok "+d)
	_, report = pushed(t, it, asking(bands, creates(below, root), creates(d, root))+objects)
	says(t, report, ok, "ok "+below, "ng "+d+"  refs/heads/d/f is a ref, and git cannot have both")
	holds(t, it, map[string]object{"refs/heads/main": root, below: root})
	_, report = pushed(t, it, asking(bands, creates(d, root))+objects)
	says(t, report, ok, "ng "+d+"  refs/heads/d/f is a ref, and git cannot have both")
	_, report = pushed(t, it, asking(bands, deletes(below, root), creates(d, root))+objects)
	says(t, report, ok, "ok "+below, "ok "+d)
	_, report = pushed(t, it, asking(bands, creates("refs/heads/e/f", root), creates("refs/heads/e", root), creates("refs/heads/g", root))+objects)
	says(t, report, ok, "ok", "ng  cannot have both", "ok")
}

// TestTwoChangesOfOneRef has a ref that one push changes twice: the second change is compared with what the first has left, as in git.
func TestTwoChangesOfOneRef(t *testing.T) {
	it := tenant(t)
	v1 := tagOf(root, "v1")
	objects := packed(root, files, file, second, third, v1)
	a, b, tag := "refs/heads/a", "refs/heads/b", "refs/tags/v1"
	_, report := pushed(t, it, asking(atomic, creates(a, root), creates(a, second))+objects)
	says(t, report, "unpack ok", "ng  atomic push failed", "ng  the push changes refs/heads/a twice")
	holds(t, it, nil)
	_, report = pushed(t, it, asking(bands, creates(a, root), creates(a, second), creates(b, root), changes(b, root.name(), third.name()),
		creates(tag, v1), changes(tag, v1.name(), second.name()))+objects)
	says(t, report, "unpack ok", "ok", "ng  fetch first", "ok", "ok", "ok", "ok")
	holds(t, it, map[string]object{a: root, b: third, tag: second})
}

// TestTheBranchOfHeadStays has the branch deleted that HEAD names: it is refused as by git, and other refs of the push change.
func TestTheBranchOfHeadStays(t *testing.T) {
	it := tenant(t)
	objects := packed(root, files, file)
	main, next := "refs/heads/main", "refs/heads/next"
	pushed(t, it, asking(bands, creates(main, root), creates(next, root))+objects)
	progress, report := pushed(t, it, asking(bands, deletes(main, root), deletes(next, root)))
	says(t, report, "unpack ok", "ng "+main+"  deletion of the current branch prohibited", "ok "+next)
	if !strings.Contains(progress, "option gitpool head refs/heads/OTHER | ssh USER@HOST import acme/site") {
		t.Error(progress)
	}
	pushed(t, it, asking(bands, creates(next, root))+objects)
	if head, err := it.Head(background); err != nil || head != main {
		t.Fatal(head, err)
	}
	holds(t, it, map[string]object{main: root, next: root})
}

// TestReasonsOnTheBandOfProgress has clients that show the reasons of a report, and others, which drop them: these read them beside it.
func TestReasonsOnTheBandOfProgress(t *testing.T) {
	it := tenant(t)
	for can, want := range map[string][]string{
		bands: {"Such a history can be pushed", ""},
		other: {"error: commit " + signed.name().String()[:12] + " has a signature (gpgsig), which gitpool does not keep\nSuch a history can be pushed",
			"error: refs/heads/a..b: refs/heads/a..b is no name for a ref\n\n"},
	} {
		progress, report := pushed(t, it, asking(can, creates("refs/heads/bad", signed))+packed(signed, files, file))
		if says(t, report, "unpack commit  has a signature", "ng refs/heads/bad  unpacker error"); !strings.HasPrefix(progress, want[0]) {
			t.Errorf("%s: %q", can, progress)
		}
		progress, report = pushed(t, it, asking(can, creates("refs/heads/a..b", root))+packed(root, files, file))
		if says(t, report, "unpack ok", "ng  no name for a ref"); strings.TrimSpace(progress) != strings.TrimSpace(want[1]) {
			t.Errorf("%s: %q", can, progress)
		}
	}
	many := []string{}
	for at := 0; at < 100; at++ {
		many = append(many, creates(fmt.Sprintf("refs/%d", at), root))
	}
	progress, _ := pushed(t, it, asking(other, many[0], many[1:]...)+packed(root, files, file))
	if lines := strings.Split(strings.TrimSpace(progress), "\n"); len(lines) != mostRemarks+1 {
		t.Errorf("%q", lines)
	}
}

// TestLongRefsOfATenantTakeNoMemory has a tenant with ten megabytes of refs, each of five hundred parts, and a push of a few refs.
func TestLongRefsOfATenantTakeNoMemory(t *testing.T) {
	refs := make(tenants.Refs, 10_000)
	for at := range refs {
		refs[at] = tenants.Ref{Name: fmt.Sprintf("refs/heads/%05d%s", at, strings.Repeat("/x", 490)), Target: root.name()}
	}
	q := &request{can: map[string]bool{}}
	deep := "refs/heads/" + strings.Repeat("z/", 500) + "z"
	for _, it := range []string{"refs/heads/00007", "refs/heads/00007/x/x", "refs/heads/y", refs[9].Name + "/y", deep} {
		q.changes = append(q.changes, Change{Ref: it, New: root.name()})
	}
	p := newPush(Server{}, tenants.Tenant{}, q)
	var before, after runtime.MemStats
	runtime.ReadMemStats(&before)
	p.begin(refs, q.changes)
	for at, change := range q.changes {
		p.bad[at] = p.hindrance(change, "refs/heads/main")
	}
	runtime.ReadMemStats(&after)
	if more := after.TotalAlloc - before.TotalAlloc; more > 1<<20 {
		t.Errorf("%d bytes", more)
	}
	clash := func(ref string) string { return ref + " is a ref, and git cannot have both" }
	want := []string{clash(refs[7].Name), clash(refs[7].Name), "", clash(refs[9].Name), ""}
	if !reflect.DeepEqual(p.bad, want) {
		t.Errorf("%.100q", p.bad)
	}
}

// unfolding is a commit of so many trees, each of which has the one before it twice, and what stands in the pack beside it.
func unfolding(levels int, leaf object) (objects []object) {
	below, mode := leaf, "100644"
	objects = append(objects, leaf)
	for ; levels > 0; levels-- {
		below = object{plumbing.Tree, entryOf(mode, "a", below) + entryOf(mode, "b", below)}
		objects, mode = append(objects, below), "40000"
	}
	return append(objects, commitOf(below, "unfolds"))
}

// TestWhatUnfoldsIsBounded has packs of a kilobyte whose trees unfold to a million paths, in one commit or in several: nothing is fed of the first.
func TestWhatUnfoldsIsBounded(t *testing.T) {
	it := tenant(t)
	wide := unfolding(20, file)
	_, report := pushed(t, it, asking(bands, creates("refs/heads/main", wide[len(wide)-1]))+packed(wide...))
	says(t, report, "unpack a limit is passed  unfold to more paths", "ng refs/heads/main  unpacker error")
	leastUnfolded /= 32
	defer func() { leastUnfolded *= 32 }()
	var objects []object
	var last object
	for at := 0; at < 12; at++ {
		more := unfolding(12, object{plumbing.Blob, fmt.Sprintf("%d\n", at)})
		tree := more[len(more)-2]
		commit := commitOf(tree, "one of them")
		if at > 0 {
			commit = commitOf(tree, "one of them", last)
		}
		objects, last = append(append(objects, more[:len(more)-1]...), commit), commit
	}
	_, report = pushed(t, it, asking(bands, creates("refs/heads/main", last))+packed(objects...))
	says(t, report, "unpack ok", "ng refs/heads/main  unfold to more paths")
	holds(t, it, nil)
	few := unfolding(10, file)
	_, report = pushed(t, it, asking(bands, creates("refs/heads/main", few[len(few)-1]))+packed(few...))
	says(t, report, "unpack ok", "ok refs/heads/main")
}

// TestCopiesOfDirectoriesAreNoAttack has an import whose directories are copies of each other, to 60,000 files of few bytes.
func TestCopiesOfDirectoriesAreNoAttack(t *testing.T) {
	var entries, copies strings.Builder
	objects := []object{}
	for at := 0; at < 300; at++ {
		it := object{plumbing.Blob, fmt.Sprintf("%d\n", at)}
		objects = append(objects, it)
		entries.WriteString(entryOf("100644", fmt.Sprintf("a_name_of_a_file_%03d", at), it))
	}
	inner := object{plumbing.Tree, entries.String()}
	for at := 0; at < 200; at++ {
		copies.WriteString(entryOf("40000", fmt.Sprintf("a_name_of_a_copy_%03d", at), inner))
	}
	outer := object{plumbing.Tree, copies.String()}
	commit := commitOf(outer, "copies")
	it := tenant(t)
	_, report := pushed(t, it, asking(bands, creates("refs/heads/main", commit))+packed(append(objects, inner, outer, commit)...))
	says(t, report, "unpack ok", "ok")
}
