package store

import (
	"context"
	"errors"
	"fmt"
	"math/rand"
	"os"
	"path/filepath"
	"strings"
	"sync"
	"testing"
	"time"

	"gitpoold/await"
	"gitpoold/child"
	"gitpoold/frames"
	"gitpoold/journal"
)

var background = context.Background()

func program(t testing.TB) string {
	t.Helper()
	found := os.Getenv("GITPOOL")
	if found == "" {
		t.Skip("GITPOOL names no program")
	}
	return found
}

func folder(t testing.TB) string {
	t.Helper()
	made := t.TempDir()
	if err := Create(made, program(t)); err != nil {
		t.Fatal(err)
	}
	return made
}

func config(t testing.TB, folder string) Config { return placed(t, plain(t, folder)) }

// plain is the configuration of a pool whose journal is in files.
func plain(t testing.TB, folder string) Config {
	return Config{Folder: folder, Program: program(t), Tell: func(format string, values ...any) {
		if testing.Verbose() {
			fmt.Printf(format+"\n", values...)
		}
	}}
}

func opened(t testing.TB, c Config) *Store {
	t.Helper()
	s, err := Open(c)
	if err != nil {
		t.Fatal(err)
	}
	return s
}

// crash ends a store as signal 9 would end the server and its child.
func crash(s *Store) {
	s.once.Do(func() { close(s.closing) })
	s.child.process.Kill()
	<-s.maintain
	s.journal.Close()
	// A process that is killed leaves the name of the lock file.
	s.locks.pool.Close()
	s.locks.linked.Close()
	s.locks.folder.Close()
}

const header = "feature force\nfeature done\n"

// push adds a commit with this message to a ref of a tenant. What it comes to depends on what the ref has, so a push that is carried
// out twice is seen.
func push(s *Store, tenant, ref, text string) error {
	from, err := parent(s, tenant, ref)
	if err != nil {
		return err
	}
	st, err := s.Begin(background, tenant, Whole)
	if err != nil {
		return err
	}
	defer st.GiveUp()
	body := fmt.Sprintf("%scommit %s\ncommitter a <a@b> 1 +0000\ndata %d\n%s\n%s", header, ref, len(text), text, from)
	pending, err := st.Feed(background, []byte(body))
	if err == nil {
		_, err = pending.Wait(background)
	}
	if err == nil {
		_, err = st.Commit(background, []byte("done\n"))
	}
	return err
}

// parent is the line that puts a commit on top of a ref, if there is one.
func parent(s *Store, tenant, ref string) (string, error) {
	batch, err := s.Ask(background, child.Short, frames.Step{Kind: frames.Ask, Tenant: tenant, Body: []byte("rev-parse " + ref)})
	if err != nil {
		return "", err
	}
	answers, err := batch.Wait(background)
	if err != nil || answers[0].Status != frames.Ok {
		return "", err
	}
	return "from " + ref + "^0\n", nil
}

// ask asks until there is an answer. A store has none while its child is replaced, nor one that follows while it is behind for long.
func ask(t testing.TB, s *Store, tenant, query string) string {
	t.Helper()
	ctx, stop := context.WithTimeout(background, await.Longest)
	defer stop()
	for ; ; time.Sleep(time.Millisecond) {
		batch, err := s.Ask(ctx, child.Short, frames.Step{Kind: frames.Ask, Tenant: tenant, Body: []byte(query)})
		if err != nil && !errors.Is(err, child.ErrGone) && !errors.Is(err, journal.ErrBehind) {
			t.Fatal(err)
		}
		if err == nil {
			if answers, err := batch.Wait(ctx); err == nil {
				return string(answers[0].Reply)
			}
		}
	}
}

// hasMessages tells whether the first-parent history of a ref has these messages, the last one first.
func hasMessages(t testing.TB, s *Store, tenant, ref string, want []string) {
	t.Helper()
	var got []string
	for _, line := range strings.Split(strings.TrimSpace(ask(t, s, tenant, "log "+ref)), "\n") {
		if len(line) > 41 {
			got = append(got, line[41:])
		}
	}
	if len(got) != len(want) {
		t.Fatalf("%s %s has %q, wanted %q", tenant, ref, got, want)
	}
	have := map[string]bool{}
	for _, message := range got {
		have[message] = true
	}
	for _, message := range want {
		if !have[message] {
			t.Fatalf("%s %s lacks %q", tenant, ref, message)
		}
	}
}

func TestWhatWasToldComesBackAfterACrash(t *testing.T) {
	c := config(t, folder(t))
	s := opened(t, c)
	var want []string
	for i := 0; i < 5; i++ {
		text := fmt.Sprint("m", i)
		if err := push(s, "acme/site", "refs/heads/main", text); err != nil {
			t.Fatal(err)
		}
		want = append(want, text)
		if i == 2 {
			if err := s.Save(background); err != nil {
				t.Fatal(err)
			}
		}
	}
	crash(s)
	s = opened(t, c)
	hasMessages(t, s, "acme/site", "refs/heads/main", want)
	if err := s.Close(background); err != nil {
		t.Fatal(err)
	}
	s = opened(t, c)
	defer s.Close(background)
	hasMessages(t, s, "acme/site", "refs/heads/main", want)
	if s.journal.HasSteps() {
		t.Fatal("the save left steps in the journal")
	}
}

// TestUnfinishedCopiesGo has what kills leave of copies of the pool file: a start removes that, and nothing that is no file of the server's.
func TestUnfinishedCopiesGo(t *testing.T) {
	c := config(t, folder(t))
	c.Copy = filepath.Join(t.TempDir(), "shared.pool")
	s := opened(t, c)
	if err := s.BringCopy(background); err != nil {
		t.Fatal(err)
	}
	crash(s)
	left := []string{filepath.Join(c.Folder, rescuedName+".new"), c.Copy + ".new"}
	other := []string{filepath.Join(c.Folder, "mine.new"), filepath.Join(c.Folder, rescuedName), c.Copy + ".new.old"}
	for _, path := range append(left, other...) {
		if err := os.WriteFile(path, []byte("half"), 0o600); err != nil {
			t.Fatal(err)
		}
	}
	s = opened(t, c)
	if err := s.BringCopy(background); err != nil {
		t.Fatal(err)
	}
	for at, path := range append(left, other...) {
		if _, err := os.Lstat(path); (err != nil) != (at < len(left)) {
			t.Error(path, err)
		}
	}
	crash(s)
	if err := os.Mkdir(left[0], 0o700); err != nil {
		t.Fatal(err)
	}
	crash(opened(t, c))
	if _, err := os.Lstat(left[0]); err != nil {
		t.Error(err)
	}
}

func TestAStreamThatIsGivenUpLeavesNothing(t *testing.T) {
	c := config(t, folder(t))
	s := opened(t, c)
	bodies := []string{"", header, header + "blob\ndata 3\nab", header + "commit refs/heads/main\ncommitter a <a@b> 1 +0000\ndata 1\nx\n",
		header + "blob\ndata <<END\n", header + "commit refs/heads/main\nno", header + "blob\ndata 12\n"}
	for _, body := range bodies {
		st, err := s.Begin(background, "a", Whole)
		if err != nil {
			t.Fatal(err)
		}
		if body != "" {
			if _, err := st.Feed(background, []byte(body)); err != nil {
				t.Fatal(err)
			}
		}
		st.GiveUp()
		if refs := ask(t, s, "a", "refs"); refs != "" {
			t.Fatalf("%q left %q", body, refs)
		}
	}
	if err := push(s, "a", "refs/heads/main", "m"); err != nil {
		t.Fatal(err)
	}
	crash(s)
	s = opened(t, c)
	defer s.Close(background)
	hasMessages(t, s, "a", "refs/heads/main", []string{"m"})
}

// TestCheckpointsOfAStreamThatIsGivenUpStay gives streams up wherever they stand; a crash changes nothing of what they leave.
func TestCheckpointsOfAStreamThatIsGivenUpStay(t *testing.T) {
	c := config(t, folder(t))
	s := opened(t, c)
	first := "commit refs/heads/main\ncommitter a <a@b> 1 +0000\ndata 3\none\ncheckpoint\n"
	second := "commit refs/heads/main\ncommitter a <a@b> 1 +0000\ndata 3\ntwo\n"
	for i, tail := range []string{"", "\n", "blob\ndata 9\n", "blob\ndata 70000\n", "blob\ndata <<END\nx\n", "M 644 inl", "# comment", "x\n"} {
		tenant := fmt.Sprint("t", i)
		st, err := s.Begin(background, tenant, Checkpoints)
		if err != nil {
			t.Fatal(err)
		}
		if _, err := st.Feed(background, []byte(first+second+tail)); err != nil {
			t.Fatal(err)
		}
		st.GiveUp()
		hasMessages(t, s, tenant, "refs/heads/main", []string{"one"})
		if err := push(s, tenant, "refs/heads/main", "after"); err != nil {
			t.Fatal(err)
		}
	}
	crash(s)
	s = opened(t, c)
	defer s.Close(background)
	for i := 0; i < 8; i++ {
		hasMessages(t, s, fmt.Sprint("t", i), "refs/heads/main", []string{"one", "after"})
	}
}

func TestASecondStreamIsRefused(t *testing.T) {
	s := opened(t, config(t, folder(t)))
	defer s.Close(background)
	st, err := s.Begin(background, "a", Checkpoints)
	if err != nil {
		t.Fatal(err)
	}
	var refused *Refused
	if _, err := s.Begin(background, "a", Whole); !errors.As(err, &refused) || refused.Number != 31 {
		t.Fatal(err)
	}
	st.GiveUp()
	if err := push(s, "a", "refs/heads/main", "m"); err != nil {
		t.Fatal(err)
	}
}

func TestASecondServerIsRefused(t *testing.T) {
	c := config(t, folder(t))
	s := opened(t, c)
	defer s.Close(background)
	if _, err := Open(c); !errors.Is(err, ErrInHand) {
		t.Fatal(err)
	}
}

// A server that was killed may have left its locks to a process that it was just starting.
func TestALockIsWaitedForAMoment(t *testing.T) {
	c := config(t, folder(t))
	for _, name := range []string{"lock", "pool.new"} {
		held, err := tryLockFile(filepath.Join(c.Folder, name))
		if err != nil {
			t.Fatal(err)
		}
		time.AfterFunc(200*time.Millisecond, func() { held.Close() })
		s := opened(t, c)
		if err := s.Close(background); err != nil {
			t.Fatal(err)
		}
	}
}

func TestARefusedEndIsToldAndLeavesNothing(t *testing.T) {
	c := config(t, folder(t))
	s := opened(t, c)
	st, err := s.Begin(background, "a", Whole)
	if err != nil {
		t.Fatal(err)
	}
	st.Feed(background, []byte(header+"commit refs/heads/main\ncommitter a <a@b> 1 +0000\ndata 1\nx\n"))
	var refused *Refused
	if _, err := st.Commit(background, []byte("no such command\ndone\n")); !errors.As(err, &refused) || refused.Number != 2 {
		t.Fatal(err)
	}
	if err := push(s, "a", "refs/heads/other", "m"); err != nil {
		t.Fatal(err)
	}
	refs := ask(t, s, "a", "refs")
	crash(s)
	s = opened(t, c)
	defer s.Close(background)
	if again := ask(t, s, "a", "refs"); again != refs || strings.Contains(refs, "main") {
		t.Fatal(refs, again)
	}
}

// TestChildrenThatDieLoseNothing kills the child again and again while pushes of several tenants run.
func TestChildrenThatDieLoseNothing(t *testing.T) {
	c := config(t, folder(t))
	s := opened(t, c)
	told := make([][]string, 4)
	var all sync.WaitGroup
	for i := range told {
		all.Add(1)
		go func(i int) {
			defer all.Done()
			for k := 0; k < 40; k++ {
				text := fmt.Sprintf("m%d", k)
				if err := push(s, fmt.Sprint("t", i), "refs/heads/main", text); err == nil {
					told[i] = append(told[i], text)
				} else if !errors.Is(err, child.ErrGone) {
					t.Error(err)
				}
			}
		}(i)
	}
	random := rand.New(rand.NewSource(1))
	for k := 0; k < 12; k++ {
		time.Sleep(time.Duration(random.Intn(20)) * time.Millisecond)
		in, _ := s.child.enter(background)
		in.leave()
		in.process.Kill()
	}
	all.Wait()
	for round := 0; round < 2; round++ {
		for i, messages := range told {
			hasMessages(t, s, fmt.Sprint("t", i), "refs/heads/main", messages)
		}
		crash(s)
		s = opened(t, c)
	}
	s.Close(background)
}

// TestAServerWithoutAProgramStops takes the program away under a server whose child then dies: it stops all the same, and another start
// has all that was told.
func TestAServerWithoutAProgramStops(t *testing.T) {
	c := config(t, folder(t))
	whole := c.Program
	c.Program = t.TempDir() + "/gitpool"
	if err := os.Symlink(whole, c.Program); err != nil {
		t.Fatal(err)
	}
	s := opened(t, c)
	if err := push(s, "a", "refs/heads/main", "m"); err != nil {
		t.Fatal(err)
	}
	os.Remove(c.Program)
	s.child.process.Kill()
	closed := make(chan error)
	go func() { time.Sleep(50 * time.Millisecond); closed <- s.Close(background) }()
	if err := await.From(t, "the end of the server", closed); err == nil {
		t.Fatal("saved without a program")
	}
	c.Program = whole
	s = opened(t, c)
	defer s.Close(background)
	hasMessages(t, s, "a", "refs/heads/main", []string{"m"})
}

// TestAnOutcomeMayComeEarly has a child that carries an end out before its push waits for that.
func TestAnOutcomeMayComeEarly(t *testing.T) {
	s := &inDoubt{ends: map[uint64]end{}, closing: make(chan struct{})}
	told := s.expect(7, end{tenant: "a"})
	s.tell(map[uint64]frames.Answer{7: {Reply: []byte("x")}})
	if len(told) != 1 {
		t.Fatal("the outcome is lost")
	}
	if answers, err := s.outcome(told); err != nil || string(answers[0].Reply) != "x" {
		t.Fatal(answers, err)
	}
}
