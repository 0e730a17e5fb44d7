//go:build faultpoints

package store

import (
	"bufio"
	"bytes"
	"context"
	"errors"
	"fmt"
	"os"
	"os/exec"
	"strconv"
	"strings"
	"sync"
	"testing"
	"time"

	"gitpoold/await"
	"gitpoold/child"
	"gitpoold/frames"
	"gitpoold/idempotency"
)

// TestMain makes this program the run that is killed: it pushes to three tenants, saves in between, and says of each push how it went.
func TestMain(m *testing.M) {
	if len(os.Args) == 3 && os.Args[1] == "pushes" {
		pushes(os.Args[2])
		os.Exit(0)
	}
	os.Exit(m.Run())
}

const (
	rounds  = 3
	tenants = 3
	each    = 3
)

func tell(words ...any) { fmt.Println(words...) }

func pushes(folder string) {
	s, err := Open(always(Config{Folder: folder, Program: os.Getenv("GITPOOL"), Tell: func(string, ...any) {}}))
	if err != nil {
		tell("closed", err)
		os.Exit(1)
	}
	for round := 0; round < rounds; round++ {
		var all sync.WaitGroup
		for i := 0; i < tenants; i++ {
			all.Add(1)
			go func(tenant string) {
				defer all.Done()
				for k := 0; k < each; k++ {
					pushAndTell(s, tenant, fmt.Sprintf("m%d.%d", round, k), k == each-1)
				}
				giveUpOne(s, tenant)
				refuseOne(s, tenant)
			}(fmt.Sprint("t", i))
		}
		all.Wait()
		operateAndTell(s, round)
		if err := s.Save(background); err != nil {
			tell("unsaved", err)
		}
	}
	tell("closed", s.Close(background))
}

// pushAndTell pushes until the child is there for it. A push that is told to have failed is not tried again under its message. One that is measured
// is carried out before the journal has it.
func pushAndTell(s *Store, tenant, text string, isMeasured bool) {
	from := untilThere(s, tenant)
	tell("began", tenant, text)
	st, err := s.Begin(background, tenant, Whole)
	if err != nil {
		tell("failed", tenant, text, err)
		return
	}
	defer st.GiveUp()
	body := fmt.Sprintf("%scommit refs/heads/main\ncommitter a <a@b> 1 +0000\ndata %d\n%s\n%s", header, len(text), text, from)
	pending, err := st.Feed(background, []byte(body))
	if err == nil {
		_, err = pending.Wait(background)
	}
	if err == nil {
		st.Keep(idempotency.New(text, []byte(tenant)))
		err = commitOne(st, isMeasured, nil)
	}
	if err != nil {
		tell("failed", tenant, text, err)
		return
	}
	tell("told", tenant, text)
}

// commitOne ends a stream: as pushes end, or as streams do whose tenant has little room, where `refusal` may be what the measured size is answered.
func commitOne(st *Stream, isMeasured bool, refusal error) error {
	if !isMeasured {
		_, err := st.Commit(background, []byte("done\n"))
		return err
	}
	judge := func(int64, Ask) error { return refusal }
	_, err := st.FeedWithin(background, []byte("done\n"), judge)
	if err == nil {
		_, err = st.CommitWithin(background, judge)
	}
	return err
}

// tooLarge is the message of commits that a quota refuses.
const tooLarge = "too-large"

// refuseOne has a stream refused after it was carried out and measured.
func refuseOne(s *Store, tenant string) {
	st, err := s.Begin(background, tenant, Checkpoints)
	if err != nil {
		return
	}
	defer st.GiveUp()
	body := fmt.Sprintf("%scommit refs/heads/main\ncommitter a <a@b> 1 +0000\ndata %d\n%s\nfrom refs/heads/main^0\n", header, len(tooLarge), tooLarge)
	pending, err := st.Feed(background, []byte(body))
	if err == nil {
		_, err = pending.Wait(background)
	}
	if err == nil && commitOne(st, true, errors.New("the quota")) == nil {
		tell("refused", "nothing", tenant)
	}
}

func untilThere(s *Store, tenant string) string {
	for {
		from, err := parent(s, tenant, "refs/heads/main")
		if err == nil {
			return from
		}
		time.Sleep(time.Millisecond)
	}
}

// giveUpOne leaves a stream of frames after its checkpoint.
func giveUpOne(s *Store, tenant string) {
	st, err := s.Begin(background, tenant, Checkpoints)
	if err != nil {
		return
	}
	side := "reset refs/heads/side\nfrom refs/heads/main^0\n\ncheckpoint\n"
	_, _ = st.Feed(background, []byte(side+"reset refs/heads/lost\nfrom refs/heads/main^0\n\n"))
	st.GiveUp()
}

// copyOf is the name of the copy of a round.
func copyOf(round int) string { return fmt.Sprint("copy", round) }

// operateAndTell copies a tenant, compacts it, and removes the copy of the round before.
func operateAndTell(s *Store, round int) {
	untilThere(s, "t0")
	tell("copying", round)
	if s.Copy(background, "t0", copyOf(round)) == nil {
		tell("copied", round)
	}
	_ = s.Compact(background, "t0")
	if round == 0 {
		return
	}
	tell("removing", round-1)
	if s.Remove(background, copyOf(round-1)) == nil {
		tell("removed", round-1)
	}
}

// judgeCopies compares what was told of copies and removals with what is there.
func judgeCopies(t *testing.T, s *Store, fault, told string) {
	t.Helper()
	for round := 0; round < rounds; round++ {
		said := func(what string) bool { return strings.Contains(told, fmt.Sprintf("%s %d\n", what, round)) }
		isThere := ask(t, s, copyOf(round), "refs") != ""
		if said("removed") && isThere || said("copied") && !said("removing") && !isThere || !said("copying") && isThere {
			t.Fatalf("%s: the copy of round %d is there: %v\n%s", fault, round, isThere, told)
		}
	}
}

// killed runs the pushes with a fault, and gives what they said.
func killed(t *testing.T, folder, fault, log string) string {
	t.Helper()
	command := exec.Command(os.Args[0], "pushes", folder)
	command.Env = append(os.Environ(), "GITPOOLD_FAULT="+fault, "GITPOOLD_FAULT_LOG="+log)
	var out, said bytes.Buffer
	command.Stdout, command.Stderr = &out, &said
	timer := time.AfterFunc(5*await.Longest, func() { command.Process.Kill() })
	err := command.Run()
	if !timer.Stop() {
		t.Fatalf("%s: the run hangs:\n%s%s", fault, out.String(), said.String())
	}
	if err != nil && !strings.Contains(err.Error(), "killed") {
		t.Fatalf("%s: %v\n%s%s", fault, err, out.String(), said.String())
	}
	return out.String()
}

// judge compares what was told with what is there after the start that follows.
func judge(t *testing.T, folder, fault, told string) {
	t.Helper()
	c := config(t, folder)
	s := opened(t, c)
	history := map[string]map[string]int{}
	for i := 0; i < tenants; i++ {
		tenant := fmt.Sprint("t", i)
		history[tenant] = messages(t, s, tenant)
		judgeTokens(t, s, fault, tenant, history[tenant])
		if history[tenant][tooLarge] > 0 || strings.Contains(told, "refused nothing") {
			t.Fatalf("%s: a stream that the quota refuses left a commit in %s:\n%s", fault, tenant, told)
		}
		if refs := ask(t, s, tenant, "refs"); strings.Contains(refs, "lost") {
			t.Fatalf("%s: a stream that was given up left %q", fault, refs)
		}
	}
	judgeCopies(t, s, fault, told)
	last := compare(t, fault, told, history)
	for tenant, left := range history {
		delete(left, last[tenant])
		if len(left) > 0 {
			t.Fatalf("%s: %s has %v, which nobody was told of:\n%s", fault, tenant, left, told)
		}
	}
	if err := s.Close(background); err != nil {
		t.Fatal(fault, err)
	}
	if said, err := exec.Command(program(t), "check", "--pool", folder+"/pool").CombinedOutput(); err != nil {
		t.Fatalf("%s: the pool file is bad: %s", fault, said)
	}
}

// judgeTokens asks that each push has its token's answer where it is there, and none where it is not.
func judgeTokens(t *testing.T, s *Store, fault, tenant string, history map[string]int) {
	t.Helper()
	for round := 0; round < rounds; round++ {
		for k := 0; k < each; k++ {
			token := fmt.Sprintf("m%d.%d", round, k)
			kept, found := s.Kept(tenant, token)
			if found != (history[token] == 1) || found && string(kept.Reply) != tenant {
				t.Fatalf("%s: the push %s of %s is there %d times, and its token is kept: %v", fault, token, tenant, history[token], found)
			}
		}
	}
}

// compare takes what was told out of the histories, and gives each tenant's push of which nothing was told.
func compare(t *testing.T, fault, told string, history map[string]map[string]int) map[string]string {
	t.Helper()
	last := map[string]string{}
	lines := bufio.NewScanner(strings.NewReader(told))
	for lines.Scan() {
		words := strings.Fields(lines.Text())
		if len(words) < 3 {
			continue
		}
		count := history[words[1]][words[2]]
		switch words[0] {
		case "told":
			if count != 1 {
				t.Fatalf("%s: %s %s was told and is there %d times:\n%s", fault, words[1], words[2], count, told)
			}
		case "failed":
			if count != 0 {
				t.Fatalf("%s: %s %s failed and is there %d times:\n%s", fault, words[1], words[2], count, told)
			}
		case "began":
			last[words[1]] = words[2]
		}
		if words[0] != "began" {
			delete(history[words[1]], words[2])
			delete(last, words[1])
		}
	}
	return last
}

// messages counts the messages of a tenant's history.
func messages(t *testing.T, s *Store, tenant string) map[string]int {
	t.Helper()
	ctx, stop := context.WithTimeout(background, 10*time.Second)
	defer stop()
	batch, err := s.Ask(ctx, child.Short, frames.Step{Kind: frames.Ask, Tenant: tenant, Body: []byte("log refs/heads/main")})
	if err != nil {
		t.Fatal(err)
	}
	answers, err := batch.Wait(ctx)
	if err != nil {
		t.Fatal(err)
	}
	found := map[string]int{}
	for _, line := range strings.Split(string(answers[0].Reply), "\n") {
		if len(line) > 41 {
			found[line[41:]]++
		}
	}
	return found
}

// TestKills kills the server, the child, both, and a second child at fault points. GITPOOLD_KILLS says how many points of each are tried; without it
// some of them are.
func TestKills(t *testing.T) {
	log := t.TempDir() + "/log"
	first := folder(t)
	told := killed(t, first, "", log)
	judge(t, first, "none", told)
	if count := strings.Count(told, "told"); count != rounds*tenants*each {
		t.Fatalf("%d pushes were told:\n%s", count, told)
	}
	text, err := os.ReadFile(log)
	if err != nil {
		t.Fatal(err)
	}
	points := strings.Count(string(text), "\n")
	if testing.Verbose() {
		fmt.Printf("%d fault points\n", points)
	}
	wanted := 30
	if number, err := strconv.Atoi(os.Getenv("GITPOOLD_KILLS")); err == nil {
		wanted = number
	}
	for _, whom := range []string{"server", "child", "both", "second"} {
		for i := 0; i < wanted; i++ {
			killAt(t, whom, 1+i*points/wanted)
		}
	}
}

func killAt(t *testing.T, whom string, point int) {
	t.Helper()
	fault := fmt.Sprintf("%s:%d", whom, point)
	made := folder(t)
	log := made + "/log"
	began := time.Now()
	told := killed(t, made, fault, log)
	if took := time.Since(began); testing.Verbose() && took > time.Second/4 {
		text, _ := os.ReadFile(log)
		lines := strings.Split(strings.TrimSpace(string(text)), "\n")
		name := ""
		if point <= len(lines) {
			name = lines[point-1]
		}
		fmt.Printf("%s took %.1f s: %s\n", fault, took.Seconds(), name)
	}
	judge(t, made, fault, told)
	os.RemoveAll(made)
}
