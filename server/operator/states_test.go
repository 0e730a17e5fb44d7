package operator

import (
	"fmt"
	"os"
	"strings"
	"syscall"
	"testing"
	"time"

	"gitpoold/await"
	"gitpoold/child"
	"gitpoold/store"
)

// TestMemoryIsToldByItsKind has the children of two shards, and a second child: what they have of their own and of files is added up apart.
func TestMemoryIsToldByItsKind(t *testing.T) {
	const some = 8 << 20
	// This process may give memory back between two looks.
	await.Until(t, "three times the memory of this process", func() bool {
		own := child.MemoryOf(os.Getpid())
		all := memoryOf(store.State{ChildPid: os.Getpid(), SecondPid: os.Getpid()}, store.State{ChildPid: os.Getpid()}, store.State{})
		return own.Anonymous > 0 && own.File > 0 && distance(all.Anonymous, 3*own.Anonymous) <= some && distance(all.File, 3*own.File) <= some
	})
}

func distance(one, other int64) int64 {
	if one < other {
		return other - one
	}
	return one - other
}

func TestEndsOfChildrenAreTold(t *testing.T) {
	var text strings.Builder
	line := func(name string, value any) { fmt.Fprintf(&text, "%s %v\n", name, value) }
	ended := store.Counts{LastEnd: "exit status 5", EndedAt: time.Unix(1, 0)}
	tellEnds(line, []store.State{{}, {Counts: ended}})
	if text.String() != "child-ended 1970-01-01T00:00:01Z in shard 2: exit status 5\n" {
		t.Fatal(text.String())
	}
}

// TestStatusAndMetricsTellOfAChild kills a child as a bad page would.
func TestStatusAndMetricsTellOfAChild(t *testing.T) {
	folder, server := opened(t, "")
	call := func(name string) string {
		text, err := Call(folder+"/socket", "status")
		if err != nil {
			t.Fatal(err)
		}
		_, rest, _ := strings.Cut("\n"+text, "\n"+name+" ")
		value, _, _ := strings.Cut(rest, "\n")
		return strings.TrimSpace(value)
	}
	var pid int
	if _, err := fmt.Sscan(call("child"), &pid); err != nil || call("child-ended") != "" {
		t.Fatal(err)
	}
	if call("child-bytes") == "0" || call("child-file-bytes") == "0" {
		t.Fatal("the child has no memory")
	}
	var text strings.Builder
	server.gateway.Metrics.Text(&text)
	for _, name := range []string{"gitpoold_child_resident_anonymous_bytes", "gitpoold_child_resident_file_bytes"} {
		_, value, has := strings.Cut(text.String(), "\n"+name+" ")
		if !has || strings.HasPrefix(value, "0\n") {
			t.Fatal(name, text.String())
		}
	}
	if err := syscall.Kill(pid, syscall.SIGBUS); err != nil {
		t.Fatal(err)
	}
	await.Until(t, "another child", func() bool { return call("children-replaced") == "1" })
	if got := call("child-ended"); !strings.Contains(got, "Z in shard 1: SIGBUS, for a page of its pool file is gone or cannot be read") {
		t.Fatal(got)
	}
}
