//go:build faultpoints

package shards

import (
	"bytes"
	"fmt"
	"os"
	"os/exec"
	"strings"
	"testing"
	"time"

	"gitpoold/await"
	"gitpoold/store"
)

// TestMain makes this program the run that is killed: it pushes, moves a tenant to and fro, and says how each of these went.
func TestMain(m *testing.M) {
	if len(os.Args) == 3 && os.Args[1] == "moves" {
		moves(os.Args[2])
		os.Exit(0)
	}
	os.Exit(m.Run())
}

func configOf(folder string) Config {
	return Config{Store: store.Config{Folder: folder, Program: os.Getenv("GITPOOL"), Tell: func(string, ...any) {}, Stop: func(error) { os.Exit(1) }}}
}

func moves(folder string) {
	s, err := Open(configOf(folder))
	if err != nil {
		fmt.Println("closed", err)
		os.Exit(1)
	}
	pushAndTell(s, "a", "m0")
	pushAndTell(s, "b", "m0")
	for round := 1; round < 3; round++ {
		to := 3 - s.ShardOf("a")
		fmt.Println("moving", to)
		if s.Move(background, "a", to) == nil {
			fmt.Println("moved", to)
		}
		pushAndTell(s, "a", fmt.Sprint("m", round))
		pushAndTell(s, "b", fmt.Sprint("m", round))
	}
	s.Close(background)
}

// pushAndTell pushes until that is told. What a try whose child died came to is asked of the tenant.
func pushAndTell(s *Set, tenant, text string) {
	fmt.Println("began", tenant, text)
	for until := time.Now().Add(await.Longest); time.Now().Before(until); time.Sleep(time.Millisecond) {
		if err := push(s, tenant, text); err == nil {
			fmt.Println("told", tenant, text)
			return
		}
	}
	fmt.Println("failed", tenant, text)
}

func killed(t *testing.T, folder, fault, log string) string {
	t.Helper()
	command := exec.Command(os.Args[0], "moves", folder)
	command.Env = append(os.Environ(), "GITPOOLD_FAULT="+fault, "GITPOOLD_FAULT_LOG="+log)
	var out, said bytes.Buffer
	command.Stdout, command.Stderr = &out, &said
	timer := time.AfterFunc(5*await.Longest, func() { command.Process.Kill() })
	err := command.Run()
	if !timer.Stop() || err != nil && !strings.Contains(err.Error(), "killed") {
		t.Fatalf("%s: %v\n%s%s", fault, err, out.String(), said.String())
	}
	return out.String()
}

// judge asks after the next start that each tenant is in one shard, with all that was told and nothing of what was never begun.
func judge(t *testing.T, folder, fault, told string) {
	t.Helper()
	s := opened(t, configOf(folder))
	for _, tenant := range []string{"a", "b"} {
		got := messages(t, s, tenant)
		if len(got) > 0 {
			isIn(t, s, tenant, s.ShardOf(tenant))
		}
		for k := 0; k < 3; k++ {
			text, count := fmt.Sprint("m", k), 0
			for _, it := range got {
				if it == text {
					count++
				}
			}
			isTold := strings.Contains(told, "told "+tenant+" "+text+"\n")
			isBegun := strings.Contains(told, "began "+tenant+" "+text+"\n")
			if isTold && count != 1 || count > 1 || !isBegun && count > 0 {
				t.Fatalf("%s: %s has %s %d times:\n%s", fault, tenant, text, count, told)
			}
		}
	}
	if words := strings.Split(told, "\n"); !strings.Contains(told, "moving") && s.ShardOf("a") == s.ShardOf("b") && strings.Contains(told, "told b") {
		t.Fatalf("%s: both tenants are in one shard: %q", fault, words)
	}
	must(t, push(s, "a", "after"))
	must(t, s.Close(background))
	for number := 1; number < 3; number++ {
		if said, err := exec.Command(program(t), "check", "--pool", Folder(folder, number)+"/pool").CombinedOutput(); err != nil {
			t.Fatalf("%s: the pool file of shard %d is bad: %s", fault, number, said)
		}
	}
}

// TestKills kills the server, the child that was started last, and both, at each fault point of a move and at one of each other name. With
// GITPOOLD_KILLS above 100 it kills at all points of all moves.
func TestKills(t *testing.T) {
	log := t.TempDir() + "/log"
	first := inFiles(t, 2).Store.Folder
	told := killed(t, first, "", log)
	judge(t, first, "none", told)
	if strings.Count(told, "moved") != 2 || strings.Count(told, "told") != 6 {
		t.Fatal(told)
	}
	text, err := os.ReadFile(log)
	must(t, err)
	isThorough, seen := len(os.Getenv("GITPOOLD_KILLS")) > 2, map[string]bool{}
	for at, line := range strings.Split(strings.TrimSpace(string(text)), "\n") {
		_, name, _ := strings.Cut(line, " ")
		isOfMove := strings.Contains(line, "move") || strings.Contains(line, "merged") || strings.Contains(line, "tenant")
		if seen[name] && !(isThorough && isOfMove) {
			continue
		}
		seen[name] = true
		for _, whom := range []string{"server", "child", "both"} {
			fault := fmt.Sprintf("%s:%d", whom, at+1)
			made := inFiles(t, 2).Store.Folder
			judge(t, made, fault+" ("+line+")", killed(t, made, fault, made+"/log"))
			os.RemoveAll(made)
		}
	}
	for _, name := range []string{"before a move is noted", "after a move is noted", "before a tenant is extracted", "before a tenant is merged",
		"after a tenant is merged", "before a merged pool file is renamed", "after a merged pool file is renamed",
		"after a merged pool file is synced", "before a tenant has its new place", "after a tenant has its new place", "before a move is settled"} {
		if !seen[name] {
			t.Errorf("no fault point %q", name)
		}
	}
}
