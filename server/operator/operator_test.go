package operator

import (
	"bufio"
	"bytes"
	"context"
	"fmt"
	"io"
	"math/rand"
	"net"
	"os"
	"os/exec"
	"path/filepath"
	"strings"
	"testing"
	"time"

	"gitpoold/access"
	"gitpoold/await"
	"gitpoold/frames"
	"gitpoold/gateway"
	"gitpoold/limits"
	"gitpoold/logs"
	"gitpoold/metrics"
	"gitpoold/plumbing"
	"gitpoold/shards"
	"gitpoold/store"
	"gitpoold/tenants"
)

var background = context.Background()

// served starts a server over an empty pool, and gives its folder.
func served(t testing.TB, limitLines string) string {
	t.Helper()
	folder, _ := opened(t, limitLines)
	return folder
}

// opened starts a server over an empty pool, and gives its folder and the server.
func opened(t testing.TB, limitLines string) (string, *Server) {
	t.Helper()
	program := os.Getenv("GITPOOL")
	if program == "" {
		t.Skip("GITPOOL names no program")
	}
	folder := t.TempDir()
	must(t, store.Create(folder, program))
	must(t, os.WriteFile(filepath.Join(folder, "limits"), []byte(limitLines), 0o600))
	m := metrics.New()
	log := logs.New(io.Discard, m)
	bounds, err := limits.Load(folder, log.Printf)
	must(t, err)
	who, err := access.Load(folder, log.Printf)
	must(t, err)
	s, err := shards.Open(shards.Config{Store: store.Config{Folder: folder, Program: program, Tell: log.Printf}})
	must(t, err)
	server := New(&gateway.Gateway{Pool: tenants.New(s, bounds.Quota), Access: who, Limits: bounds, Log: log, Metrics: m, Version: "9"}, s)
	server.Measure()
	listener, err := Listen(folder + "/socket")
	must(t, err)
	ctx, stop := context.WithCancel(background)
	ended := make(chan error)
	go func() { ended <- server.Serve(ctx, listener) }()
	t.Cleanup(func() {
		stop()
		must(t, <-ended)
		must(t, s.Close(background))
	})
	return folder, server
}

func must(t testing.TB, err error) {
	t.Helper()
	if err != nil {
		t.Fatal(err)
	}
}

func dialed(t testing.TB, folder string) net.Conn {
	t.Helper()
	conn, err := net.Dial("unix", folder+"/socket")
	must(t, err)
	t.Cleanup(func() { conn.Close() })
	return conn
}

// steps makes steps of some tenants at random, after a commit of each: good ones, and ones that are refused.
func steps(random *rand.Rand, count int) (all []frames.Step) {
	bodies := []string{"commit refs/heads/main\ncommitter a <a@b> 1 +0000\ndata 1\nx\n", "checkpoint\n", "blob\nmark :1\ndata 3\nabc\nget-mark :1\n",
		"no command\n", "progress on\n", "feature done\n", "reset refs/heads/other\nfrom refs/heads/main^0\n\n", "data", ""}
	queries := []string{"refs", "head", "log main", "cat main", "rev-parse f2ba", "no query", "export", strings.Repeat("x", 9000)}
	names := []string{"a", "acme/site", "b", "../bad", ""}
	for _, tenant := range names[:3] {
		all = append(all, frames.Step{Kind: frames.Open, Tenant: tenant},
			frames.Step{Kind: frames.Feed, Tenant: tenant, Body: []byte(bodies[0])}, frames.Step{Kind: frames.End, Tenant: tenant})
	}
	for i := 0; i < count; i++ {
		step := frames.Step{Kind: frames.Kind(1 + random.Intn(4)), Tenant: names[random.Intn(len(names)*3)%5]}
		switch step.Kind {
		case frames.Feed:
			step.Body = []byte(bodies[random.Intn(len(bodies))])
		case frames.Ask:
			step.Body = []byte(queries[random.Intn(len(queries))])
		}
		if random.Intn(40) == 0 {
			step = frames.Step{Kind: frames.Restart}
		}
		if random.Intn(4) == 0 {
			step = request(random, names)
		}
		all = append(all, step)
	}
	// A stream that has said `done` takes no more, and is given up all the same.
	return append(all, frames.Step{Kind: frames.Open, Tenant: "c"}, frames.Step{Kind: frames.Feed, Tenant: "c", Body: []byte("done\n")},
		frames.Step{Kind: frames.Restart}, frames.Step{Kind: frames.Open, Tenant: "c"})
}

// request makes a request of the operator.
func request(random *rand.Rand, names []string) frames.Step {
	step := frames.Step{Kind: frames.Save + frames.Kind(random.Intn(8)), Tenant: names[random.Intn(len(names)*3)%5]}
	switch step.Kind {
	case frames.Save:
		step.Tenant, step.Body = "", frames.AsOpened[random.Intn(2):]
	case frames.Sizes:
		step.Tenant = ""
	case frames.Copy:
		step.Body = []byte(names[random.Intn(len(names))])
	case frames.Missing:
		step.Body = append([]byte{0, 0, 0, byte(random.Intn(3))}, objectNames(random, 2+random.Intn(3))...)
	case frames.Entries:
		step.Body = append([]byte{0, 0, 0, 0, 0, 0, byte(random.Intn(3)), 0}, objectNames(random, random.Intn(3))...)
	}
	return step
}

// objectNames are names that tenants may have: of the commit of `steps`, of its tree, and of nothing.
func objectNames(random *rand.Rand, count int) (bytes []byte) {
	all := []string{"5566f0fb5202abaf7f0d21e3b976f604075c31ae", "4b825dc642cb6eb9a060e54bf8d69288fbee4904", strings.Repeat("1", 40)}
	for ; count > 0; count-- {
		name, _ := plumbing.ParseName(all[random.Intn(len(all)+3)%len(all)])
		bytes = append(bytes, name[:]...)
	}
	return bytes
}

// TestFramesAreAnsweredAsByHost sends the same frames to the socket and to `gitpool host`.
func TestFramesAreAnsweredAsByHost(t *testing.T) {
	found := 0
	for seed := int64(0); seed < 4; seed++ {
		var text []byte
		all := steps(rand.New(rand.NewSource(seed)), 300)
		for _, step := range all {
			text = step.AppendTo(text)
		}
		folder := served(t, "")
		conn := dialed(t, folder).(*net.UnixConn)
		go func() {
			conn.Write(text)
			conn.CloseWrite()
		}()
		got, err := io.ReadAll(conn)
		must(t, err)
		command := exec.Command(os.Getenv("GITPOOL"), "host", "--pool", filepath.Join(t.TempDir(), "pool"))
		command.Stdin = bytes.NewReader(text)
		want, err := command.Output()
		must(t, err)
		found += compare(t, seed, all, got, want)
	}
	if found == 0 {
		t.Error("nothing was found that a fetch asks for")
	}
}

// compare gives how many answers to what a fetch asks have a reply.
func compare(t *testing.T, seed int64, all []frames.Step, got, want []byte) (found int) {
	t.Helper()
	mine, theirs := bufio.NewReader(bytes.NewReader(got)), bufio.NewReader(bytes.NewReader(want))
	for i, step := range all {
		wanted, err := frames.ReadAnswer(theirs)
		must(t, err)
		answer, err := frames.ReadAnswer(mine)
		if err != nil || answer.Status != wanted.Status || answer.Value != wanted.Value || !bytes.Equal(answer.Reply, wanted.Reply) {
			t.Fatalf("seed %d, step %d, %d %q %.40q: %v %d %.60q %v, wanted %d %.60q", seed, i, step.Kind, step.Tenant, step.Body,
				answer.Status, answer.Value, answer.Reply, err, wanted.Value, wanted.Reply)
		}
		if (step.Kind == frames.Missing || step.Kind == frames.Entries) && len(answer.Reply) > 0 {
			found++
		}
	}
	return found
}

// ask sends steps together, so that no time passes between them.
func ask(t testing.TB, conn net.Conn, steps ...frames.Step) (answers []frames.Answer) {
	t.Helper()
	var text []byte
	for _, step := range steps {
		text = step.AppendTo(text)
	}
	_, err := conn.Write(text)
	must(t, err)
	in := bufio.NewReader(conn)
	for range steps {
		answer, err := frames.ReadAnswer(in)
		must(t, err)
		answers = append(answers, answer)
	}
	return answers
}

func TestWrongFramesCloseTheConnection(t *testing.T) {
	folder := served(t, "")
	for _, text := range []string{"\x06", "\x01\x00\x01t\x00\x00\x00\x01", "\x18\x00\x00\x00\x00\x00\x00", "\x10\x00\x01",
		"\x10\x00\x00\x00\x00\x00\x01\x02"} {
		conn := dialed(t, folder)
		conn.Write([]byte(text))
		if got, err := io.ReadAll(conn); len(got) > 0 || err != nil {
			t.Errorf("%q: %q %v", text, got, err)
		}
	}
	if answer := ask(t, dialed(t, folder), frames.Step{Kind: frames.Ask, Tenant: "a", Body: []byte("head")}); answer[0].Status != frames.Ok {
		t.Fatal(answer)
	}
}

// TestAHalfFrameIsNotWaitedFor begins frames and does not end them: the connections are closed after `idle`, and nothing of them is left. A client
// that is silent between frames is left alone.
func TestAHalfFrameIsNotWaitedFor(t *testing.T) {
	folder := served(t, "idle 300ms\n")
	silent, talking := dialed(t, folder), dialed(t, folder)
	for _, conn := range []net.Conn{silent, talking} {
		ask(t, conn, frames.Step{Kind: frames.Ask, Tenant: "a", Body: []byte("refs")})
	}
	before := await.Goroutines()
	whole := frames.Step{Kind: frames.Ask, Tenant: "a", Body: []byte("refs")}.AppendTo(nil)
	for _, half := range [][]byte{whole[:1], whole[:2], whole[:4], whole[:len(whole)-1], append(append([]byte(nil), whole...), 4)} {
		conn := dialed(t, folder)
		_, err := conn.Write(half)
		must(t, err)
		must(t, conn.SetReadDeadline(time.Now().Add(await.Longest)))
		if _, err := io.ReadAll(conn); err != nil {
			t.Fatalf("%x: %v", half, err)
		}
	}
	await.NoMore(t, before)
	for _, conn := range []net.Conn{silent, talking} {
		ask(t, conn, frames.Step{Kind: frames.Ask, Tenant: "a", Body: []byte("refs")})
	}
}

// TestALostConnectionGivesItsStreamUp has a client that goes away, or falls silent, in the middle of a stream.
func TestALostConnectionGivesItsStreamUp(t *testing.T) {
	folder := served(t, "frame-idle 200ms\n")
	for _, silent := range []bool{false, true} {
		conn := dialed(t, folder)
		ask(t, conn, frames.Step{Kind: frames.Open, Tenant: "a"},
			frames.Step{Kind: frames.Feed, Tenant: "a", Body: []byte("reset refs/heads/main\n")})
		if !silent {
			conn.Close()
		}
		answers := ask(t, dialed(t, folder), frames.Step{Kind: frames.Open, Tenant: "a"}, frames.Step{Kind: frames.End, Tenant: "a"})
		if answers[0].Status != frames.Ok || answers[1].Status != frames.Ok {
			t.Fatal(silent, answers)
		}
	}
}

func TestCommands(t *testing.T) {
	folder := served(t, "quota acme/site 5M\n")
	conn := dialed(t, folder)
	ask(t, conn, frames.Step{Kind: frames.Open, Tenant: "acme/site"},
		frames.Step{Kind: frames.Feed, Tenant: "acme/site", Body: []byte("commit refs/heads/main\ncommitter a <a@b> 1 +0000\ndata 1\nx\n")},
		frames.Step{Kind: frames.End, Tenant: "acme/site"})
	call := func(words ...string) string {
		text, err := Call(folder+"/socket", words...)
		if err != nil {
			return "error: " + err.Error()
		}
		return text
	}
	const now = "acme/site objects 2 refs 1 bytes 176 own 176 since 0 quota 5242880\n"
	for _, it := range [][2]string{{"tenants", now}, {"save", ""}, {"tenants", now}} {
		if got := call(it[0]); got != it[1] {
			t.Error(got)
		}
	}
	for _, line := range []string{"version            9", "saves              1", "pushes             1", "answering          true"} {
		if got := call("status"); !strings.Contains(got, line+"\n") {
			t.Errorf("no line %q in\n%s", line, got)
		}
	}
	if call("copy", "acme/site", "acme/fork") != "" || !strings.Contains(call("tenants"), "acme/fork objects 2 ") {
		t.Error(call("tenants"))
	}
	refusesCommands(t, call)
	if call("compact", "acme/site") != "" || call("remove", "acme/fork") != "" || strings.Contains(call("tenants"), "acme/fork") {
		t.Error(call("tenants"))
	}
	if _, err := Call(folder+"/none", "status"); err != ErrNoServer {
		t.Error(err)
	}
}

// TestAPushDoesNotMeetTheOperator has a push that has compared the refs of a tenant, and an operator who would change them before it does: one of
// both is refused, or waits.
func TestAPushDoesNotMeetTheOperator(t *testing.T) {
	folder, server := opened(t, "")
	commit := "commit refs/heads/main\ncommitter a <a@b> 1 +0000\ndata 1\nx\n"
	push := func(tenant string, judge func(tenants.Refs) error) error {
		it, err := server.gateway.Pool.Tenant(tenant)
		must(t, err)
		return it.Push(background, judge, func(s *tenants.Stream) error {
			_, err := s.WriteString(commit)
			return err
		})
	}
	for _, name := range []string{"a", "b"} {
		must(t, push(name, func(tenants.Refs) error { return nil }))
	}
	must(t, push("b", func(refs tenants.Refs) error {
		for _, words := range [][]string{{"copy", "a", "b"}, {"remove", "b"}, {"compact", "b"}} {
			if _, err := Call(folder+"/socket", words...); err == nil || !strings.Contains(err.Error(), "fault 31") {
				t.Errorf("%v beside a push: %v", words, err)
			}
		}
		return nil
	}))
	c, err := server.gateway.Pool.Tenant("c")
	must(t, err)
	result, isOver := make(chan error, 1), false
	must(t, c.Alone(func() error {
		go func() {
			result <- push("c", func(refs tenants.Refs) error {
				if !isOver || len(refs) == 0 {
					t.Errorf("the push has not waited for the copy: %v", refs)
				}
				return nil
			})
		}()
		time.Sleep(50 * time.Millisecond)
		err := server.store.Copy(background, "a", "c")
		isOver = true
		return err
	}))
	must(t, <-result)
}

func refusesCommands(t *testing.T, call func(words ...string) string) {
	t.Helper()
	for want, words := range map[string][]string{
		"HEAD than `refs/heads/main` (fault 33)":  {"copy", "acme/site", "acme/fork"},
		"bad tenant name (fault 32)":              {"copy", "acme/site", "../x"},
		"tenant name (fault 32)":                  {"remove", "../x"},
		"name (fault 32)":                         {"compact", "../x"},
		`there is no command "what" with 0 words`: {"what"},
		`there is no command "save" with 1 words`: {"save", "now"},
	} {
		if got := call(words...); !strings.Contains(got, want) {
			t.Errorf("%v: %q", words, got)
		}
	}
}

// TestStrangersDoNotKeepTheOperatorOut has strangers who have all connections that there may be.
func TestStrangersDoNotKeepTheOperatorOut(t *testing.T) {
	folder, server := opened(t, "connections 2\nconnections-by-address 2\n")
	inner, err := net.Listen("tcp", "127.0.0.1:0")
	must(t, err)
	defer inner.Close()
	listener := server.gateway.Limits.Listen(inner)
	go func() {
		for {
			if _, err := listener.Accept(); err != nil {
				return
			}
		}
	}()
	for server.gateway.Limits.Connections() < 2 {
		conn, err := net.Dial("tcp", inner.Addr().String())
		must(t, err)
		defer conn.Close()
		time.Sleep(10 * time.Millisecond)
	}
	if text, err := Call(folder+"/socket", "status"); err != nil || !strings.Contains(text, "connections        2\n") {
		t.Fatal(text, err)
	}
}

// TestBrokenConnectionsLeaveNothing breaks connections off in many ways, and looks at what runs and what is open still.
func TestBrokenConnectionsLeaveNothing(t *testing.T) {
	folder, server := opened(t, "")
	open := frames.Step{Kind: frames.Open, Tenant: "a"}.AppendTo(nil)
	feed := frames.Step{Kind: frames.Feed, Tenant: "a", Body: []byte("progress x\n")}.AppendTo(nil)
	question := frames.Step{Kind: frames.Ask, Tenant: "a", Body: []byte("refs")}.AppendTo(nil)
	all := [][]byte{{}, []byte("sta"), []byte("status\n"), open, open[:3], append(open[:len(open):len(open)], feed...),
		append(open[:len(open):len(open)], feed[:len(feed)-2]...), bytes.Repeat(question, 500), append(bytes.Repeat(question, 50), 99)}
	_, err := Call(folder+"/socket", "status")
	must(t, err)
	before := await.Goroutines()
	for at := 0; at < 1000; at++ {
		conn, err := net.Dial("unix", folder+"/socket")
		must(t, err)
		_, _ = conn.Write(all[at%len(all)])
		conn.Close()
	}
	await.Until(t, "the end of all streams", func() bool { return together(server.store.States()).Streams == 0 })
	await.NoMore(t, before)
}

func TestASocketThatIsAnsweredIsNotTaken(t *testing.T) {
	folder := served(t, "")
	if _, err := Listen(folder + "/socket"); err == nil {
		t.Fatal("taken")
	}
	info, err := os.Stat(folder + "/socket")
	if err != nil || info.Mode().Perm() != 0o600 {
		t.Fatal(info.Mode(), err)
	}
	dead, err := net.Listen("unix", folder+"/dead")
	must(t, err)
	dead.(*net.UnixListener).SetUnlinkOnClose(false)
	dead.Close()
	again, err := Listen(folder + "/dead")
	must(t, err)
	again.Close()
}

func BenchmarkQuestions(b *testing.B) {
	folder := served(b, "")
	step := frames.Step{Kind: frames.Ask, Tenant: "acme/site", Body: []byte("head")}
	for _, ahead := range []int{1, 32} {
		b.Run(fmt.Sprint("ahead ", ahead), func(b *testing.B) {
			b.SetParallelism(8)
			b.RunParallel(func(pb *testing.PB) {
				conn := dialed(b, folder)
				in := bufio.NewReader(conn)
				for more := true; more; {
					var text []byte
					count := 0
					for ; count < ahead && more; count++ {
						text = step.AppendTo(text)
						more = pb.Next()
					}
					conn.Write(text)
					for ; count > 0; count-- {
						frames.ReadAnswer(in)
					}
				}
			})
		})
	}
}
