package receivepack

import (
	"bufio"
	"bytes"
	"context"
	"errors"
	"io"
	"os/exec"
	"path/filepath"
	"strings"
	"testing"

	"gitpoold/pack"
	"gitpoold/pktline"
	"gitpoold/plumbing"
	"gitpoold/protect"
	"gitpoold/tenants"
)

// pushedTo gives the answer of a server to a push, as `pushed` does.
func pushedTo(t *testing.T, s Server, it tenants.Tenant, text string) (progress string, report []string) {
	t.Helper()
	var out bytes.Buffer
	s.Folder, s.Limits = t.TempDir(), pack.Usual
	_, _ = s.Serve(background, it, bufio.NewReader(strings.NewReader(text)), pktline.NewWriter(&out))
	return answerOf(t, &out)
}

// TestForcedPushesAreKnown pushes commits over others: those that the new one reaches, through the pack, through what the tenant has, or through both,
// and those that it does not.
func TestForcedPushesAreKnown(t *testing.T) {
	it := tenant(t)
	fourth := commitOf(files, "fourth", third)
	merge := commitOf(files, "merge", commitOf(files, "side", root), fourth)
	side := commitOf(files, "side", root)
	alone := commitOf(files, "another root")
	pushed(t, it, asking(bands, creates("refs/heads/second", second), creates("refs/heads/alone", alone), creates("refs/heads/third", third))+
		packed(root, files, file, second, third, alone))
	for _, way := range []struct {
		old, new object
		more     []object
		isForced bool
	}{
		{second, third, nil, false}, {third, second, nil, true}, {second, second, nil, false}, {alone, second, nil, true},
		{second, fourth, []object{fourth}, false}, {third, fourth, []object{fourth}, false}, {alone, fourth, []object{fourth}, true},
		{root, merge, []object{merge, side, fourth}, false}, {third, merge, []object{merge, side, fourth}, false},
		{alone, merge, []object{merge, side, fourth}, true}, {third, side, []object{side}, true}, {root, side, []object{side}, false},
		{lost, fourth, []object{fourth}, true},
	} {
		q, err := readText(lines(changes("refs/heads/x", way.old.name(), way.new.name())+"\x00report-status", ""))
		if err != nil {
			t.Fatal(err)
		}
		p := newPush(Server{}, it, q)
		p.own, err = pack.NewQuarantine(t.TempDir(), it, pack.Usual)
		if err == nil {
			err = p.own.Read(background, strings.NewReader(packed(way.more...)))
		}
		if err == nil {
			p.heads = map[plumbing.Name]plumbing.Head{}
			err = p.examineCommits(background)
		}
		if err != nil {
			t.Fatal(err)
		}
		if isForced, err := p.isForced(background, q.changes[0]); err != nil || isForced != way.isForced {
			t.Errorf("%q over %q: %v %v", way.new.contents, way.old.contents, isForced, err)
		}
	}
}

// TestAProtectedRefIsRefusedAlone has refs that the operator protects beside one that is free.
func TestAProtectedRefIsRefusedAlone(t *testing.T) {
	it := tenant(t)
	pushed(t, it, asking(bands, creates("refs/heads/kept", root), creates("refs/heads/free", root))+packed(root, files, file))
	broken := errors.New("broken")
	s := Server{Protects: func(c protect.Change) (string, error) {
		if c.Ref == "refs/heads/broken" {
			return "", broken
		}
		isForced := false
		if !c.IsMade && !c.IsGone {
			isForced, _ = c.IsForced()
		}
		return map[bool]string{true: "protected branch: no"}[c.Ref == "refs/heads/kept" && (c.IsGone || isForced)], nil
	}}
	alone := commitOf(files, "another root")
	forced := []string{changes("refs/heads/kept", root.name(), alone.name()), changes("refs/heads/free", root.name(), alone.name())}
	_, report := pushedTo(t, s, it, asking(atomic, forced[0], forced[1])+packed(alone))
	says(t, report, "unpack ok", "ng refs/heads/kept  protected branch: no", "ng refs/heads/free  atomic push failed")
	_, report = pushedTo(t, s, it, asking(bands, forced[0], forced[1], deletes("refs/heads/kept", root))+packed(alone))
	says(t, report, "unpack ok", "ng refs/heads/kept  protected branch: no", "ok refs/heads/free", "ng refs/heads/kept  protected branch: no")
	holds(t, it, map[string]object{"refs/heads/kept": root, "refs/heads/free": alone})
	_, report = pushedTo(t, s, it, asking(bands, creates("refs/heads/broken", root), creates("refs/heads/new", root))+packed(root))
	if !strings.HasPrefix(report[0], "unpack ") || report[0] == "unpack ok" || len(report) != 3 {
		t.Errorf("%q", report)
	}
	holds(t, it, map[string]object{"refs/heads/kept": root, "refs/heads/free": alone})
}

// TestHooksAreAskedOfWhatMayChange asks hooks of those changes alone that may be made, and makes those that they let pass.
func TestHooksAreAskedOfWhatMayChange(t *testing.T) {
	it := tenant(t)
	asked := 0
	s := Server{Judge: func(_ context.Context, p Pushed) ([]string, error) {
		asked++
		p.Say([]byte("looking\n"))
		if len(p.Changes) != 2 || p.Changes[0].Ref != "refs/heads/a" || p.Changes[1].Ref != "refs/heads/b" || len(p.Refs) != 0 || p.Objects == nil {
			t.Errorf("%+v", p)
		}
		return []string{"hook declined", ""}, nil
	}}
	requests := []string{creates("refs/heads/a", root), creates("refs/heads/a..b", root), creates("refs/heads/b", root),
		changes("refs/heads/old", files.name(), root.name())}
	progress, report := pushedTo(t, s, it, asking(bands, requests[0], requests[1:]...)+packed(root, files, file))
	says(t, report, "unpack ok", "ng refs/heads/a  hook declined", "ng refs/heads/a..b  no name for a ref", "ok refs/heads/b",
		"ng refs/heads/old  fetch first")
	holds(t, it, map[string]object{"refs/heads/b": root})
	if asked != 1 || !strings.HasPrefix(progress, "looking\n") {
		t.Error(asked, progress)
	}
	_, report = pushedTo(t, s, it, asking(atomic, creates("refs/heads/c", root), requests[3])+packed(root, files, file))
	says(t, report, "unpack ok", "ng refs/heads/c  atomic push failed", "ng refs/heads/old  fetch first")
	if asked != 1 {
		t.Error("hooks are asked of a push that changes nothing")
	}
	s.Judge = func(context.Context, Pushed) ([]string, error) { return nil, errors.New("broken") }
	_, report = pushedTo(t, s, it, asking(bands, creates("refs/heads/c", root))+packed(root, files, file))
	if report[0] == "unpack ok" || !strings.HasPrefix(report[1], "ng refs/heads/c ") {
		t.Errorf("%q", report)
	}
	holds(t, it, map[string]object{"refs/heads/b": root})
}

// TestAPackForHooksIsGits lets git read the pack that hooks get.
func TestAPackForHooksIsGits(t *testing.T) {
	git, err := exec.LookPath("git")
	if err != nil {
		t.Skip("there is no git")
	}
	large := object{plumbing.Blob, strings.Repeat("0123456789abcdef", 1<<17)}
	tag, empty := tagOf(root, "v1"), object{plumbing.Blob, ""}
	q, err := pack.NewQuarantine(t.TempDir(), noBase{}, pack.Usual)
	if err != nil {
		t.Fatal(err)
	}
	all := []object{root, files, file, file, large, tag, empty}
	if err := q.Read(background, strings.NewReader(packed(all...))); err != nil {
		t.Fatal(err)
	}
	folder := t.TempDir()
	run := func(in io.Reader, words ...string) string {
		command := exec.Command(git, words...)
		command.Dir, command.Stdin = folder, in
		said, err := command.CombinedOutput()
		if err != nil {
			t.Fatalf("%q: %v: %s", words, err, said)
		}
		return string(said)
	}
	run(nil, "init", "-q", "--bare", ".")
	from, to := io.Pipe()
	go func() { to.CloseWithError(q.WritePack(to)) }()
	run(from, "index-pack", "--stdin", "--strict")
	for _, it := range all {
		if got := run(nil, "cat-file", it.kind.String(), it.name().String()); got != it.contents {
			t.Errorf("%v has %d bytes, and not %d", it.name(), len(got), len(it.contents))
		}
	}
	if packs, _ := filepath.Glob(filepath.Join(folder, "objects/pack/*.pack")); len(packs) != 1 {
		t.Error(packs)
	}
}
