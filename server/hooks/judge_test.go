package hooks

import (
	"context"
	"os"
	"path/filepath"
	"strconv"
	"strings"
	"sync"
	"testing"
	"time"

	"gitpoold/await"
)

// judgedBy lets scripts judge a push of two refs, and gives the reasons and what the user is shown.
func judgedBy(t *testing.T, ctx context.Context, h *told) (reasons []string, shown string) {
	t.Helper()
	var mutex sync.Mutex
	var text strings.Builder
	push := Judged{Push: pushTo("acme/site", "refs/heads/main", "refs/heads/next"), Folder: t.TempDir(), Objects: "/objects", Shared: "/shared",
		Say: func(part []byte) {
			mutex.Lock()
			defer mutex.Unlock()
			text.Write(part)
		}}
	push.Options = []string{"an option"}
	reasons = h.Judge(ctx, push)
	mutex.Lock()
	defer mutex.Unlock()
	return reasons, text.String()
}

func pre(t *testing.T, text string) string { return "acme/* pre-receive " + script(t, text) }

func TestHooksGetWhatGitGivesThem(t *testing.T) {
	t.Setenv("GIT_WORK_TREE", "/elsewhere")
	said := filepath.Join(t.TempDir(), "said")
	environment := `echo "$GITPOOLD_TENANT $GITPOOLD_USER $GIT_PUSH_OPTION_0 $GIT_DIR $GIT_QUARANTINE_PATH $GIT_OBJECT_DIRECTORY ` +
		`$GIT_ALTERNATE_OBJECT_DIRECTORIES ${GIT_WORK_TREE-none}" >> ` + said + "\n"
	h := loaded(t, time.Minute, pre(t, environment+"cat >> "+said), "* update "+script(t, `echo "update $*" >> `+said),
		"other update "+script(t, "exit 1"))
	reasons, _ := judgedBy(t, context.Background(), h)
	zeros, as := strings.Repeat("0", 40), strings.Repeat("a", 40)
	want := "acme/site alice an option . /objects /objects /shared none\n" + zeros + " " + as + " refs/heads/main\n" + zeros + " " + as +
		" refs/heads/next\nupdate refs/heads/main " + zeros + " " + as + "\nupdate refs/heads/next " + zeros + " " + as + "\n"
	if strings.Join(reasons, "") != "" || contents(said) != want {
		t.Fatalf("%q %q", reasons, contents(said))
	}
	if !h.Judges("acme/site") || !h.Judges("other") || loaded(t, time.Minute, "* /bin/true").Judges("acme/site") {
		t.Fatal("who judges is not known")
	}
}

func TestHooksDecline(t *testing.T) {
	h := loaded(t, time.Minute, "* update "+script(t, `echo "no $1"; [ $1 != refs/heads/next ]`))
	reasons, shown := judgedBy(t, context.Background(), h)
	if strings.Join(reasons, ",") != ",hook declined" || shown != "no refs/heads/main\nno refs/heads/next\n" {
		t.Fatalf("%q %q", reasons, shown)
	}
	h = loaded(t, time.Minute, pre(t, "exit 7"), "* update "+script(t, "echo never"))
	reasons, shown = judgedBy(t, context.Background(), h)
	if strings.Join(reasons, ",") != "pre-receive hook declined,pre-receive hook declined" || shown != "" {
		t.Fatalf("%q %q", reasons, shown)
	}
	if h.result("declined") != 1 || h.noted() != "" {
		t.Fatal(h.result("declined"), h.noted())
	}
}

// TestHooksThatFail has hooks that hang, die, are none, or leave what holds their pipes: a sentence each, in time, and a line for the operator.
func TestHooksThatFail(t *testing.T) {
	pids := filepath.Join(t.TempDir(), "pids")
	const late = "the pre-receive hook took longer than 1s, and was ended"
	for text, says := range map[string]string{
		"sleep 300 & echo $! >> " + pids + "; sleep 300": late,
		"trap '' TERM INT; while :; do :; done":          late,
		"kill -KILL $$":                                  "the pre-receive hook died: signal: killed",
		"sleep 300 & echo $! >> " + pids + "; exit 1":    "pre-receive hook declined",
		"cat > /dev/null; cd /; rm -rf $OLDPWD; exit 1":  "pre-receive hook declined",
		"exec 0<&- 1>&- 2>&-; exit 1":                    "pre-receive hook declined",
	} {
		within := map[bool]time.Duration{true: time.Second, false: await.Longest}[says == late]
		h := loaded(t, within, pre(t, text))
		began := time.Now()
		reasons, _ := judgedBy(t, context.Background(), h)
		if reasons[0] != says || reasons[1] != says || time.Since(began) > await.Longest {
			t.Errorf("%s: %q after %v", text, reasons, time.Since(began))
		}
	}
	for _, pid := range strings.Fields(contents(pids)) {
		awaitGone(t, pid)
	}
	h := loaded(t, time.Minute, "* pre-receive "+filepath.Join(t.TempDir(), "none"))
	if reasons, _ := judgedBy(t, context.Background(), h); reasons[0] != "the pre-receive hook cannot be run; the server's log says why" ||
		!strings.Contains(h.noted(), "no such file") || h.result("failed") != 1 {
		t.Fatal(reasons, h.noted())
	}
}

// awaitGone waits until a process is gone, or is one that nobody has waited for.
func awaitGone(t *testing.T, pid string) {
	t.Helper()
	await.Until(t, "the process "+pid+" has ended", func() bool {
		text := contents("/proc/" + pid + "/stat")
		return text == "" || strings.Contains(text, ") Z ")
	})
}

// TestWhatHooksSayIsBounded has hooks that print more than is shown, by one byte and without an end.
func TestWhatHooksSayIsBounded(t *testing.T) {
	for _, text := range []string{"head -c 65536 /dev/zero", "head -c 65537 /dev/zero", "head -c 200000000 /dev/zero"} {
		_, shown := judgedBy(t, context.Background(), loaded(t, time.Minute, pre(t, text)))
		isLeftOut := strings.Contains(shown, "beyond 65536 bytes is left out")
		if strings.Count(shown, "\x00") != MostShown || isLeftOut != (text != "head -c 65536 /dev/zero") || len(shown) > MostShown+100 {
			t.Errorf("%s: %d bytes, %v", text, len(shown), isLeftOut)
		}
	}
	h := loaded(t, time.Second, pre(t, "exec yes"))
	if reasons, shown := judgedBy(t, context.Background(), h); !strings.Contains(reasons[0], "took longer") || len(shown) > MostShown+100 {
		t.Error(reasons, len(shown))
	}
}

// TestAPushThatEndsTakesItsHooksAlong ends the push, and then the server, while a hook runs.
func TestAPushThatEndsTakesItsHooksAlong(t *testing.T) {
	for _, end := range []string{"push", "server"} {
		pids := filepath.Join(t.TempDir(), "pids")
		h := loaded(t, time.Minute, pre(t, "echo $$ >> "+pids+"; sleep 300"))
		ctx, stop := context.WithCancel(context.Background())
		defer stop()
		ended := make(chan []string)
		go func() {
			reasons, _ := judgedBy(t, ctx, h)
			ended <- reasons
		}()
		await.Until(t, "the hook runs", func() bool { return strings.HasSuffix(contents(pids), "\n") })
		if end == "push" {
			stop()
		} else {
			h.Close()
		}
		if reasons := <-ended; reasons[0] != "the pre-receive hook was ended with its push" {
			t.Error(end, reasons)
		}
		awaitGone(t, strings.TrimSpace(contents(pids)))
	}
}

// TestHooksThatHangKeepNobodyElse has as many pushes of one user as may be judged at once, whose hooks hang, and one of another user.
func TestHooksThatHangKeepNobodyElse(t *testing.T) {
	pids := filepath.Join(t.TempDir(), "pids")
	h := loaded(t, time.Minute, "hangs pre-receive "+script(t, "echo $$ >> "+pids+"; sleep 300"), "acme/* pre-receive "+script(t, "exit 1"))
	ctx, stop := context.WithCancel(context.Background())
	var all sync.WaitGroup
	for at := 0; at < 2*judgesAtOnce.OfOneOfIt[0]; at++ {
		all.Add(1)
		go func(token string) {
			defer all.Done()
			push := Judged{Push: Push{Tenant: "hangs", User: token, Changes: []Change{{Ref: "refs/heads/a"}}},
				Folder: os.TempDir(), Say: func([]byte) {}}
			h.Judge(ctx, push)
		}("mallory~" + strconv.Itoa(at))
	}
	await.Until(t, "as many hooks run as may", func() bool { return strings.Count(contents(pids), "\n") == judgesAtOnce.OfOneOfIt[0] })
	if reasons, _ := judgedBy(t, context.Background(), h); reasons[0] != "pre-receive hook declined" {
		t.Error(reasons)
	}
	if count := strings.Count(contents(pids), "\n"); count != judgesAtOnce.OfOneOfIt[0] {
		t.Error(count, "hooks of one user run at once")
	}
	stop()
	all.Wait()
}

func TestRowsOfHooks(t *testing.T) {
	folder, program := t.TempDir(), script(t, "")
	for _, words := range [][]string{{"*", program}, {"*", "pre-receive", program}, {"*", "update", program}, {"*", "post-receive", "http://a/"}} {
		must(t, Add(folder, words...))
		must(t, Add(folder, words...))
	}
	rows, err := Rows(folder)
	if want := "* " + program + ",* pre-receive " + program + ",* update " + program + ",* http://a/"; err != nil || strings.Join(rows, ",") != want {
		t.Fatal(rows, err)
	}
	for _, words := range [][]string{{"*", "update", "http://a/"}, {"*", "pre-push", program}, {"*"}, {"*", "update", program, "x"},
		{"*", "update", "/none"}, {"a b", "update", program}} {
		if Add(folder, words...) == nil {
			t.Error(words)
		}
	}
	must(t, Remove(folder, "*", "post-receive", program))
	must(t, Remove(folder, "*", "update", program))
	if Remove(folder, "*", "update", program) == nil {
		t.Error("what is not there is removed")
	}
	if rows, _ = Rows(folder); len(rows) != 2 {
		t.Error(rows)
	}
}
