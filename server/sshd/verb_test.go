package sshd

import (
	"bufio"
	"bytes"
	"context"
	"fmt"
	"io"
	"math/rand"
	"os"
	"os/exec"
	"path/filepath"
	"strings"
	"sync"
	"syscall"
	"testing"
	"time"

	"golang.org/x/crypto/ssh"

	"gitpoold/access"
	"gitpoold/await"
	"gitpoold/frames"
)

func TestVerbWords(t *testing.T) {
	quoted := "'" + strings.Repeat("'\\''", 8192) + "'"
	for command, want := range map[string]verb{
		"import a/b":                   {name: "import", tenant: "a/b"},
		"gitpool import a":             {name: "import", tenant: "a"},
		"import a --token x-1":         {name: "import", tenant: "a", token: "x-1"},
		"import --token=x a":           {name: "import", tenant: "a", token: "x"},
		"ask a log main":               {name: "ask", tenant: "a", query: "log main"},
		"ask a cat main:a  b ":         {name: "ask", tenant: "a", query: "cat main:a  b "},
		"ask a 'cat main:it'\\''s'":    {name: "ask", tenant: "a", query: "cat main:it's"},
		"ask a ":                       {name: "ask", tenant: "a"},
		"ask a \xff\x80":               {name: "ask", tenant: "a", query: "\xff\x80"},
		"ask a " + quoted:              {name: "ask", tenant: "a", query: strings.Repeat("'", 8192)},
		"frames a":                     {name: "frames", tenant: "a"},
		"frames ../x":                  {name: "frames", tenant: "../x"},
		"import":                       {},
		"import a b":                   {},
		"import a --token":             {},
		"import a --token ''":          {},
		"import a --token a/b":         {},
		"import a --token x --token y": {},
		"import a --what":              {tenant: "--what"},
		"ask a":                        {},
		"ask a 'b' c":                  {},
		"ask":                          {},
		"frames":                       {},
		"frames a --token x":           {},
		"serve a":                      {},
		" import a":                    {},
		"":                             {},
		"import a" + strings.Repeat(" ", longestVerb): {},
	} {
		if got, ok := parseVerb(command); ok != (want.name != "") || ok && got != want {
			t.Errorf("%.80q: %+.80v %v", command, got, ok)
		}
	}
}

// FuzzVerb asks that what is taken is what was said.
func FuzzVerb(f *testing.F) {
	f.Add("import a/b --token x")
	f.Add("ask a 'cat main:it'\\''s'")
	f.Add("gitpool frames a")
	f.Fuzz(func(t *testing.T, command string) {
		v, ok := parseVerb(command)
		if !ok {
			return
		}
		words := strings.TrimPrefix(command, "gitpool ")
		switch {
		case v.name == askVerb && words == "ask "+v.tenant+" "+v.query && !strings.HasPrefix(v.query, "'"):
		case v.name == askVerb && strings.HasPrefix(words, "ask "+v.tenant+" '") && len(v.query) < len(words):
		case v.name != askVerb && v.query == "" && strings.Contains(words, v.tenant) && strings.Contains(words, v.token) && v.tenant != "":
		default:
			t.Fatalf("%q: %+v", command, v)
		}
	})
}

// stream makes a stream at random: good commands, some that print, some that are refused, and ends of all kinds.
func stream(random *rand.Rand) []byte {
	var text bytes.Buffer
	if random.Intn(3) == 0 {
		text.WriteString("feature done\n")
	}
	text.WriteString("feature force\n")
	for count := random.Intn(12); count > 0; count-- {
		branch := fmt.Sprint("refs/heads/b", random.Intn(3))
		switch random.Intn(9) {
		case 0, 1, 2:
			fmt.Fprintf(&text, "commit %s\nmark :%d\ncommitter a <a@b> %d +0000\ndata 2\nx\xff\nM 100644 inline f%d\ndata %d\n%s\n", branch, 1+random.Intn(9),
				random.Intn(1000), random.Intn(3), 20, strings.Repeat("\x00\xfe", 10))
		case 3:
			fmt.Fprintf(&text, "blob\nmark :%d\ndata 3\nabc\nget-mark :%d\n", 1+random.Intn(9), 1+random.Intn(9))
		case 4:
			text.WriteString("checkpoint\n")
		case 5:
			text.WriteString("progress on \xff\n")
		case 6:
			fmt.Fprintf(&text, "reset %s\n\n", branch)
		case 7:
			fmt.Fprintf(&text, "cat-blob %s\n", "f2ba8f84ab5c1bce84a7b441cb1959cfc7093b7f")
		case 8:
			if random.Intn(4) == 0 {
				text.WriteString("no command\n")
			}
		}
	}
	if random.Intn(3) > 0 {
		text.WriteString("done\n")
	}
	whole := text.Bytes()
	if random.Intn(5) == 0 {
		whole = whole[:random.Intn(len(whole))]
	}
	return whole
}

// piecesOf cuts a text anywhere. The server may answer while pieces of it are still sent, so they are cut before.
func piecesOf(random *rand.Rand, text []byte) (all [][]byte) {
	for len(text) > 0 {
		count := 1 + random.Intn(len(text))
		all, text = append(all, text[:count]), text[count:]
	}
	return all
}

// TestImportsAreAnsweredAsByTheProgram sends streams that are cut anywhere, and asks, over ssh, and carries the same out by the program alone.
func TestImportsAreAnsweredAsByTheProgram(t *testing.T) {
	r, pool := served(t, 1, ""), filepath.Join(t.TempDir(), "pool")
	random := rand.New(rand.NewSource(7))
	ends := map[int]int{}
	for turn := 0; turn < 25; turn++ {
		text := stream(random)
		it, pieces := r.begin("alice", "import acme/site"), piecesOf(random, text)
		go func() {
			for _, piece := range pieces {
				it.in.Write(piece)
			}
			it.in.Close()
		}()
		out, _ := io.ReadAll(it.out)
		got, want := done{it.status(), string(out), it.said.String()}, alone(t, pool, text, "import", "acme/site")
		if got.status != want.status || got.out != want.out || !strings.HasSuffix(got.said, want.said) {
			t.Fatalf("turn %d, %q: %+v, wanted %+v", turn, text, got, want)
		}
		ends[got.status]++
		for _, query := range []string{"refs", "cat refs/heads/b1:f0", "export"} {
			got, want := r.run("bob", "ask acme/site "+query, nil), alone(t, pool, nil, "ask", "acme/site", query)
			if got.status != want.status || got.out != want.out || !strings.HasSuffix(got.said, want.said) {
				t.Fatalf("turn %d, %s: %+v, wanted %+v", turn, query, got, want)
			}
		}
	}
	if ends[0] < 5 || ends[1] < 5 {
		t.Error("too few streams of a kind:", ends)
	}
}

// steps makes frames of one tenant at random.
func steps(random *rand.Rand, count int) (all []frames.Step) {
	queries := []string{"refs", "head", "log refs/heads/b0", "no query", "cat \xff", strings.Repeat("x", 9000)}
	for i := 0; i < count; i++ {
		step := frames.Step{Kind: []frames.Kind{frames.Open, frames.Feed, frames.Feed, frames.Feed, frames.End, frames.Ask, frames.Abandon}[random.Intn(7)],
			Tenant: "acme/site"}
		switch step.Kind {
		case frames.Feed:
			step.Body = stream(random)
		case frames.Ask:
			step.Body = []byte(queries[random.Intn(len(queries))])
		}
		all = append(all, step)
	}
	return all
}

func TestFramesAreAnsweredAsByHost(t *testing.T) {
	for seed := int64(0); seed < 3; seed++ {
		all := steps(rand.New(rand.NewSource(seed)), 300)
		var text []byte
		for _, step := range all {
			text = step.AppendTo(text)
		}
		got := served(t, 1, "").run("alice", "frames acme/site", text)
		command := exec.Command(os.Getenv("GITPOOL"), "host", "--pool", filepath.Join(t.TempDir(), "pool"))
		command.Stdin = bytes.NewReader(text)
		want, err := command.Output()
		must(t, err)
		if got.status != 0 || got.said != "" {
			t.Fatal(seed, got.status, got.said)
		}
		mine, theirs := bufio.NewReader(strings.NewReader(got.out)), bufio.NewReader(bytes.NewReader(want))
		for i, step := range all {
			answer, err := frames.ReadAnswer(mine)
			must(t, err)
			wanted, err := frames.ReadAnswer(theirs)
			must(t, err)
			if answer.Status != wanted.Status || answer.Value != wanted.Value || !bytes.Equal(answer.Reply, wanted.Reply) {
				t.Fatalf("seed %d, step %d, %d %.60q: %v, wanted %v", seed, i, step.Kind, step.Body, answer, wanted)
			}
		}
	}
}

// ask sends a frame and reads its answer.
func (it *running) ask(t testing.TB, kind frames.Kind, tenant, body string) frames.Answer {
	t.Helper()
	_, err := it.in.Write(frames.Step{Kind: kind, Tenant: tenant, Body: []byte(body)}.AppendTo(nil))
	must(t, err)
	return it.answer(t)
}

func (it *running) answer(t testing.TB) frames.Answer {
	t.Helper()
	answer, err := frames.ReadAnswer(bufio.NewReaderSize(it.out, 17))
	must(t, err)
	return answer
}

const commit = "commit refs/heads/main\ncommitter a <a@b> 1 +0000\ndata 1\nx\n"

// another makes one more commit on a branch each time that it is carried out.
const another = "commit refs/heads/main\ncommitter a <a@b> 1 +0000\ndata 1\nx\nfrom refs/heads/main^0\nprogress told\n"

func TestFramesOfOthersAndOfTheOperatorAreRefused(t *testing.T) {
	r := served(t, 1, "")
	it := r.begin("bob", "frames acme/site")
	for _, step := range []struct {
		kind         frames.Kind
		tenant, body string
		want         uint64
	}{
		{frames.Ask, "acme/other", "refs", 32}, {frames.Ask, "", "refs", 32}, {frames.Ask, "../x", "refs", 32}, {frames.Open, "acme/other", "", 32},
		{frames.Abandon, "acme/none", "", 32}, {frames.Ask, "\xff\x00", "refs", 32}, {frames.Remove, "acme/site", "", 50},
		{frames.Save, "", "", 50}, {frames.Sizes, "", "", 50}, {frames.Restart, "", "", 50}, {frames.Compact, "acme/site", "", 50},
		{frames.Copy, "acme/site", "acme/other", 50}, {frames.Missing, "acme/site", "\x00\x00\x00\x00", 50},
		{frames.Entries, "acme/site", "\xff\xff\xff\xff\xff\xff\xff\xff", 50}, {frames.Feed, "acme/site", "x", 30}, {frames.End, "acme/site", "", 30},
		{frames.Abandon, "acme/site", "", 30}, {frames.Open, "acme/site", "", 25}, {frames.Open, "acme/site", "", 25}, {frames.Ask, "acme/site", "refs", 0},
	} {
		if answer := it.ask(t, step.kind, step.tenant, step.body); answer.Value != step.want || len(answer.Reply) > 0 {
			t.Errorf("%+v: %+v", step, answer)
		}
	}
	it.in.Close()
	if status := it.status(); status != 0 || strings.Count(it.said.String(), "not push to it") != 1 {
		t.Error(status, it.said.String())
	}
	same := map[done]bool{}
	for _, command := range []string{"ask acme/other refs", "ask none refs", "ask ../x refs", "frames none", "frames acme/other", "import acme/other",
		"import none --token x", "import \xff"} {
		same[r.run("bob", command, nil)] = true
	}
	if want := (done{1, "", "gitpoold: there is no such repository, or you may not read it\ngitpool: fault 32\n"}); len(same) != 1 || !same[want] {
		t.Error(same)
	}
}

func TestHalfFramesAndWrongOnes(t *testing.T) {
	r := served(t, 1, "")
	open := string(frames.Step{Kind: frames.Open, Tenant: "a"}.AppendTo(nil))
	for text, want := range map[string]string{
		"": "", open: "", open[:1]: "51", open[:4]: "51", open + "\x02\x00\x01a\x00\x00\x00\x09x": "51", "\x06": "50", "\xff": "50",
		open + "\x02\x00\x01a\xff\xff\xff\xff": "50", "\x01\x00\x01a\x00\x00\x00\x01": "50",
	} {
		got := r.run("alice", "frames a", []byte(text))
		if want == "" && got.status == 0 && got.said == "" {
			continue
		}
		if got.status != 1 || !strings.HasSuffix(got.said, "gitpool: fault "+want+"\n") {
			t.Errorf("%q: %+v, wanted %s", text, got, want)
		}
	}
	if got := r.run("alice", "import a", []byte(commit)); got.status != 0 {
		t.Error("a stream of a session that ended is open still:", got)
	}
}

// refs asks for the refs of a tenant.
func (r *room) refs(tenant string) string { return r.run("alice", "ask "+tenant+" refs", nil).out }

// commits is how many commits a branch has.
func (r *room) commits(tenant string) int {
	return strings.Count(r.run("alice", "ask "+tenant+" log main", nil).out, "\n")
}

func TestLimitsLeaveTheLastCheckpoint(t *testing.T) {
	for lines, says := range map[string]string{"stream-bytes 100K\n": "stream-bytes", "stream-age 4s\n": "stream-age", "frame-idle 4s\n": "frame-idle",
		"quota 100K\n": "quota"} {
		lines, says := lines, says
		t.Run(says, func(t *testing.T) {
			t.Parallel()
			passALimit(t, lines, says)
		})
	}
}

// passALimit sends a stream that has a checkpoint and does not end.
func passALimit(t *testing.T, lines, says string) {
	r := served(t, 1, lines)
	it := r.begin("alice", "import a")
	it.in.Write([]byte(commit + "checkpoint\n" + strings.ReplaceAll(commit, "main", "other")))
	switch says {
	case "quota":
		fmt.Fprintf(it.in, "\nblob\ndata 300000\n%s\ncheckpoint\n", strings.Repeat("x", 300_000))
	case "stream-bytes":
		it.in.Write(bytes.Repeat([]byte("#"+strings.Repeat("x", 99)+"\n"), 3000))
	case "stream-age":
		go func() {
			for _, err := it.in.Write([]byte("#\n")); err == nil; _, err = it.in.Write([]byte("#\n")) {
				time.Sleep(20 * time.Millisecond)
			}
		}()
	}
	if status := it.status(); status != 1 || !strings.Contains(it.said.String(), says) || !strings.HasSuffix(it.said.String(), "gitpool: fault 25\n") {
		t.Error(status, it.said.String())
	}
	if got := r.refs("a"); !strings.Contains(got, "main") || strings.Contains(got, "other") {
		t.Error(got)
	}
}

func TestLimitsAreAnsweredBy25InFrames(t *testing.T) {
	r := served(t, 1, "stream-bytes 1000\nstreams-by-user 1\n")
	it := r.begin("alice", "frames a")
	other := r.begin("alice", "frames b")
	for _, step := range []struct {
		kind frames.Kind
		body string
		want uint64
	}{
		{frames.Open, "", 0}, {frames.Feed, commit + "checkpoint\n", 0}, {frames.Feed, strings.ReplaceAll(commit, "main", "other"), 0},
		{frames.Feed, strings.Repeat("#\n", 500), 25}, {frames.Feed, "#\n", 25}, {frames.Open, "", 31}, {frames.End, "", 25}, {frames.End, "", 30},
		{frames.Open, "", 0}, {frames.Feed, strings.Repeat("#\n", 501), 25}, {frames.Abandon, "", 0}, {frames.Feed, "#\n", 30}, {frames.Open, "", 0},
	} {
		if answer := it.ask(t, step.kind, "a", step.body); answer.Value != step.want {
			t.Errorf("%d %.20q: %+v", step.kind, step.body, answer)
		}
	}
	if got := r.refs("a"); !strings.Contains(got, "main") || strings.Contains(got, "other") {
		t.Error(got)
	}
	if answer := other.ask(t, frames.Open, "b", ""); answer.Value != 25 {
		t.Error(answer)
	}
	it.ask(t, frames.End, "a", "")
	if answer := other.ask(t, frames.Open, "b", ""); answer.Value != 0 {
		t.Error(answer)
	}
	for _, it := range []*running{it, other} {
		it.in.Close()
		it.status()
	}
	if strings.Count(it.said.String(), "stream-bytes") != 1 || !strings.Contains(other.said.String(), "streams-by-user") {
		t.Error(it.said.String(), other.said.String())
	}
}

// TestAnOldStreamOfFrames has a client that asks on while its stream gets too old.
func TestAnOldStreamOfFrames(t *testing.T) {
	r := served(t, 1, "stream-age 200ms\n")
	it := r.begin("alice", "frames a")
	it.ask(t, frames.Open, "a", "")
	it.ask(t, frames.Feed, "a", commit)
	time.Sleep(300 * time.Millisecond)
	for kind, want := range map[frames.Kind]uint64{frames.Ask: 0} {
		if answer := it.ask(t, kind, "a", "refs"); answer.Value != want || len(answer.Reply) > 0 {
			t.Error(answer)
		}
	}
	if answer := it.ask(t, frames.End, "a", ""); answer.Value != 25 {
		t.Error(answer)
	}
	if answer := it.ask(t, frames.Open, "a", ""); answer.Value != 0 {
		t.Error(answer)
	}
}

// TestALostConnectionEndsNoStream closes the connection in the middle of a stream that could end there.
func TestALostConnectionEndsNoStream(t *testing.T) {
	r := served(t, 1, "")
	for _, command := range []string{"import a", "import a --token x"} {
		it := r.begin("alice", command)
		it.in.Write([]byte(commit + "progress there\n"))
		io.ReadFull(it.out, make([]byte, len("progress there\n")))
		it.raw.Close()
		await.Until(t, "the end of the stream", func() bool { return r.pool.States()[0].Streams == 0 })
		if got := r.refs("a"); got != "" {
			t.Fatal(got)
		}
	}
}

// TestAChildThatDies kills the child in the middle of streams: what was not told is not there, and what was told is.
func TestAChildThatDies(t *testing.T) {
	r := served(t, 1, "")
	r.run("alice", "import a --token x", []byte(commit))
	for _, command := range []string{"import a", "import a --token y", "frames a"} {
		it := r.begin("alice", command)
		text := []byte(another)
		if command == "frames a" {
			it.ask(t, frames.Open, "a", "")
			text = frames.Step{Kind: frames.Feed, Tenant: "a", Body: text}.AppendTo(nil)
		}
		it.in.Write(text)
		_, err := io.ReadFull(it.out, make([]byte, len("progress told\n")))
		must(t, err)
		must(t, syscall.Kill(r.pool.States()[0].ChildPid, syscall.SIGKILL))
		it.in.Write(text)
		it.in.Close()
		if status := it.status(); status != 4 || !strings.HasSuffix(it.said.String(), "gitpool: fault 68\n") {
			t.Error(command, status, it.said.String())
		}
		await.Until(t, "another child", func() bool { return r.commits("a") > 0 })
		if got := r.commits("a"); got != 1 {
			t.Error(command, got, "commits")
		}
	}
	if got := r.run("alice", "import a --token y", []byte(another)); got.status != 0 || r.commits("a") != 2 {
		t.Error(got)
	}
}

// TestAClientThatSaysNotThatItIsThere ends its stream and then answers no question of ssh, as one whose machine is gone.
func TestAClientThatSaysNotThatItIsThere(t *testing.T) {
	r := served(t, 1, "idle 2s\n")
	client, _ := r.dial("alice")
	channel, _, err := client.OpenChannel("session", nil)
	must(t, err)
	_, err = channel.SendRequest("exec", true, ssh.Marshal(struct{ Command string }{"import a"}))
	must(t, err)
	_, err = channel.Write([]byte(commit))
	must(t, err)
	must(t, channel.CloseWrite())
	await.Until(t, "a stream that is given up", func() bool { return r.pool.States()[0].GivenUp == 1 })
	if got := r.refs("a"); got != "" {
		t.Error(got)
	}
}

// TestAClientThatIsThereMayBeSilent pauses a stream for longer than a connection may be silent.
func TestAClientThatIsThereMayBeSilent(t *testing.T) {
	const idle = 2 * time.Second
	r := served(t, 1, fmt.Sprintf("idle %v\n", idle))
	it := r.begin("alice", "import a")
	for _, line := range strings.SplitAfter(commit, "\n") {
		it.in.Write([]byte(line))
		time.Sleep(idle / 4)
	}
	time.Sleep(2 * idle)
	it.in.Close()
	if status := it.status(); status != 0 || r.commits("a") != 1 {
		t.Error(status, it.said.String())
	}
}

func TestSilentAndSlowClientsOfFrames(t *testing.T) {
	r := served(t, 1, "frame-idle 3s\n")
	silent := map[string]*running{"": nil, "\x01": nil, "\x01\x00\x01a\x00\x00\x00\x00": nil,
		"\x01\x00\x01b\x00\x00\x00\x00\x02\x00\x01b\x00\x00\x00\x09x": nil}
	for text := range silent {
		silent[text] = r.begin("alice", "frames "+map[bool]string{true: "b", false: "a"}[strings.Contains(text, "b")])
		silent[text].in.Write([]byte(text))
	}
	for text, it := range silent {
		if status := it.status(); status != 1 || !strings.Contains(it.said.String(), "frame-idle") {
			t.Errorf("%q: %d %s", text, status, it.said.String())
		}
	}
	it := r.begin("alice", "frames a")
	for _, kind := range []frames.Kind{frames.Open, frames.Feed, frames.End} {
		body := map[frames.Kind]string{frames.Feed: commit}[kind]
		for _, one := range (frames.Step{Kind: kind, Tenant: "a", Body: []byte(body)}).AppendTo(nil) {
			it.in.Write([]byte{one})
		}
		if answer := it.answer(t); answer.Value != 0 {
			t.Error(kind, answer)
		}
	}
	if r.commits("a") != 1 {
		t.Error("a slow client is not served")
	}
}

// TestAClientThatReadsNothing sends commands that print, and takes nothing of that.
func TestAClientThatReadsNothing(t *testing.T) {
	r := served(t, 1, "idle 2s\n")
	for _, command := range []string{"import a", "frames a"} {
		it := r.begin("alice", command)
		if command == "frames a" {
			it.in.Write(frames.Step{Kind: frames.Open, Tenant: "a"}.AppendTo(nil))
		}
		progress := []byte("progress " + strings.Repeat("x", 60000) + "\n")
		if command == "frames a" {
			progress = frames.Step{Kind: frames.Feed, Tenant: "a", Body: progress}.AppendTo(nil)
		}
		failed := make(chan error, 1)
		go func() {
			var err error
			for err == nil {
				_, err = it.in.Write(progress)
			}
			failed <- err
		}()
		await.From(t, "the end of "+command, failed)
		await.Until(t, "the end of the stream", func() bool { return r.pool.States()[0].Streams == 0 })
	}
}

func TestAnswersThatWaitAreBounded(t *testing.T) {
	r := served(t, 1, "answer-bytes 3M\n")
	blob := "blob\nmark :1\ndata 2500000\n" + strings.Repeat("x", 2500000) + "\ncommit refs/heads/main\ncommitter a <a@b> 1 +0000\ndata 1\nx\nM 100644 :1 f\n"
	if got := r.run("alice", "import a", []byte(blob)); got.status != 0 {
		t.Fatal(got)
	}
	// The library takes 2 MB that nobody reads, so the rest of the first answer waits once it has begun to come.
	first, second := r.begin("alice", "frames a"), r.begin("alice", "frames a")
	first.in.Write(frames.Step{Kind: frames.Ask, Tenant: "a", Body: []byte("cat main:f")}.AppendTo(nil))
	begun := make([]byte, 1)
	_, err := io.ReadFull(first.out, begun)
	must(t, err)
	first.out = io.MultiReader(bytes.NewReader(begun), first.out)
	if answer := second.ask(t, frames.Ask, "a", "cat main:f"); answer.Value != 25 {
		t.Error(answer.Status, answer.Value, len(answer.Reply))
	}
	if answer := first.answer(t); answer.Value != 0 || len(answer.Reply) < 2500000 {
		t.Error(answer.Status, answer.Value, len(answer.Reply))
	}
	if answer := second.ask(t, frames.Ask, "a", "cat main:f"); answer.Value != 0 {
		t.Error(answer.Value)
	}
}

// TestCommandsThatPrintMuchAreBounded prints an object again and again within one piece: over `import` that is passed on, and in one answer of frames
// it is refused.
func TestCommandsThatPrintMuchAreBounded(t *testing.T) {
	r := served(t, 1, "answer-bytes 3M\n")
	blob := "blob\nmark :1\ndata 1000000\n" + strings.Repeat("x", 1000000) + "\n"
	printing := strings.Repeat("cat-blob :1\n", 20)
	if got := r.run("alice", "import a", []byte(blob+printing)); got.status != 0 || len(got.out) < 20000000 {
		t.Error(got.status, len(got.out), got.said)
	}
	it := r.begin("alice", "frames a")
	it.ask(t, frames.Open, "a", "")
	it.ask(t, frames.Feed, "a", blob+commit+"checkpoint\n")
	if answer := it.ask(t, frames.Feed, "a", printing[:24]); answer.Value != 0 || len(answer.Reply) < 2000000 {
		t.Error(answer.Value, len(answer.Reply))
	}
	if answer := it.ask(t, frames.Feed, "a", printing); answer.Value != 25 || len(answer.Reply) > 0 {
		t.Error(answer.Value, len(answer.Reply))
	}
	if answer := it.ask(t, frames.End, "a", ""); answer.Value != 25 || r.commits("a") != 1 {
		t.Error(answer.Value)
	}
}

func TestManyConnectionsOfOneKey(t *testing.T) {
	r := served(t, 1, "requests-by-user 10\n")
	var all []*running
	for i := 0; i < 10; i++ {
		it := r.begin("alice", "frames a")
		it.ask(t, frames.Ask, "a", "head")
		all = append(all, it)
	}
	var wait sync.WaitGroup
	for i := 0; i < 90; i++ {
		it := r.begin("alice", []string{"import a", "frames a", "ask a refs"}[i%3])
		wait.Add(1)
		go func() {
			defer wait.Done()
			if status := it.status(); status != 1 || !strings.HasSuffix(it.said.String(), "gitpool: fault 25\n") {
				t.Error(status, it.said.String())
			}
		}()
		if i%5 == 4 {
			// More at once than 10 beside those at work are refused when they open.
			wait.Wait()
		}
	}
	wait.Wait()
	for _, it := range all {
		it.in.Close()
		if it.status() != 0 {
			t.Error(it.said.String())
		}
	}
	if got := r.run("alice", "import a", []byte(commit)); got.status != 0 {
		t.Error(got)
	}
}

func TestATokenIsCarriedOutOnce(t *testing.T) {
	r := served(t, 1, "")
	if got := r.run("alice", "import a", []byte(commit)); got.status != 0 {
		t.Fatal(got)
	}
	want := done{0, "progress told\n", ""}
	same := func(count int, token string) {
		t.Helper()
		if got := r.run("alice", "import a --token "+token, []byte(another)); got != want {
			t.Error(token, got)
		}
		if got := r.commits("a"); got != count {
			t.Error(token, got, "commits, wanted", count)
		}
	}
	same(2, "x")
	same(2, "x")
	same(3, "y")
	must(t, r.pool.Save(context.Background()))
	same(3, "x")
	r.again()
	same(3, "y")
	same(4, "z")
	if got := r.run("alice", "import b --token x", []byte(commit)); got.status != 0 || r.refs("b") == "" {
		t.Error("another tenant's token counts:", got)
	}
	for i := 0; i < 2; i++ {
		if got := r.run("alice", "import a --token w", []byte(another+"what\n")); got.status != 1 || got.out != "progress told\n" {
			t.Error("a stream that is refused is carried out each time:", got)
		}
	}
	same(5, "w")
	must(t, r.pool.Remove(context.Background(), "a"))
	if got := r.run("alice", "import a --token x", []byte(commit)); got.status != 0 || r.refs("a") == "" {
		t.Error("a removed tenant's token counts:", got)
	}
}

func TestATokenUsedTwiceAtOnce(t *testing.T) {
	r := served(t, 1, "streams-by-user 12\n")
	r.run("alice", "import a", []byte(commit))
	var wait sync.WaitGroup
	for i := 0; i < 12; i++ {
		wait.Add(1)
		go func() {
			defer wait.Done()
			if got := r.run("alice", "import a --token x", []byte(another)); got != (done{0, "progress told\n", ""}) {
				t.Error(got)
			}
		}()
	}
	wait.Wait()
	if got := r.commits("a"); got != 2 {
		t.Error(got, "commits")
	}
}

// TestATokenIsToldWhateverLimitsSay sends a stream again when its tenant is full, and when its user has as many streams as may be.
func TestATokenIsToldWhateverLimitsSay(t *testing.T) {
	text := []byte(commit + "progress x\n")
	// What the stream leaves: a commit of 97 bytes, a tree of none, and a ref.
	const full = 97 + len("refs/heads/main") + 64
	r := served(t, 1, fmt.Sprintf("quota a %d\nstreams-by-user 1\n", full))
	first := r.run("alice", "import a --token x", text)
	it := r.begin("alice", "frames b")
	it.ask(t, frames.Open, "b", "")
	if got := r.run("alice", "import a --token y", text); got.status != 1 || !strings.Contains(got.said, "quota") {
		t.Error(got)
	}
	if got := r.run("alice", "import c", text); got.status != 1 || !strings.Contains(got.said, "streams-by-user") {
		t.Error(got)
	}
	if got := r.run("alice", "import a --token x", text); got != first || got.status != 0 {
		t.Error(got, first)
	}
}

// TestALongAnswerIsNotKept sends a stream again that printed more than is kept: it is not carried out, and its client is told why.
func TestALongAnswerIsNotKept(t *testing.T) {
	r := served(t, 1, "")
	text := commit + strings.Repeat("progress "+strings.Repeat("x", 1000)+"\n", 100)
	if got := r.run("alice", "import a --token x", []byte(text)); got.status != 0 || len(got.out) < 100000 {
		t.Fatal(got.status, len(got.out))
	}
	if got := r.run("alice", "import a --token x", []byte(text)); got.status != 1 || !strings.Contains(got.said, "has ended and lasts") {
		t.Error(got)
	}
}

func TestATokenGoesWithItsTenant(t *testing.T) {
	r := served(t, 2, "")
	r.run("alice", "import a", []byte(commit))
	r.run("alice", "import a --token x", []byte(another))
	from := r.pool.ShardOf("a")
	must(t, r.pool.Move(context.Background(), "a", 3-from))
	for i := 0; i < 2; i++ {
		if got := r.run("alice", "import a --token x", []byte(another)); got.out != "progress told\n" || r.commits("a") != 2 {
			t.Fatal(got, r.commits("a"))
		}
		r.again()
	}
	if r.pool.ShardOf("a") == from {
		t.Fatal("it was not moved")
	}
}

// TestABlockedTenantHasNoStreamOfFrames blocks a tenant whose stream of frames is silent, and one that is busy.
func TestABlockedTenantHasNoStreamOfFrames(t *testing.T) {
	r := served(t, 1, "")
	for _, isBusy := range []bool{false, true} {
		await.Quick(t, time.Second, func() time.Duration { return r.blocksFrames(isBusy) })
	}
}

// blocksFrames blocks a tenant, and gives how long its stream of frames lasts then.
func (r *room) blocksFrames(isBusy bool) (took time.Duration) {
	t := r.t
	it := r.begin("alice", "frames a")
	it.ask(t, frames.Open, "a", "")
	it.ask(t, frames.Feed, "a", commit)
	began := time.Now()
	must(t, access.Block(r.folder, access.Tenant, "a", ""))
	if isBusy {
		await.Until(t, "a refusal", func() bool { return it.ask(t, frames.Feed, "a", "#\n").Value != 0 })
	}
	await.Until(t, "the end of the stream", func() bool { return r.pool.States()[0].Streams == 0 })
	took = time.Since(began)
	for _, kind := range []frames.Kind{frames.Feed, frames.End, frames.Open} {
		if answer := it.ask(t, kind, "a", ""); answer.Value != 25 {
			t.Error(kind, answer)
		}
	}
	if answer := it.ask(t, frames.Ask, "a", "refs"); answer.Value != 0 || len(answer.Reply) > 0 {
		t.Error(answer)
	}
	it.in.Close()
	if status := it.status(); status != 0 || strings.Count(it.said.String(), "blocked") != 1 {
		t.Error(status, it.said.String())
	}
	must(t, access.Unblock(r.folder, access.Tenant, "a"))
	return took
}

// TestABlockReachesAPush blocks a user and a tenant while the server waits for a push.
func TestABlockReachesAPush(t *testing.T) {
	r := served(t, 1, "")
	for _, block := range [][2]string{{access.Tenant, "a"}, {access.User, "alice"}} {
		await.Quick(t, time.Second, func() time.Duration { return r.blocksAPush(block) })
	}
}

// blocksAPush gives how long a push lasts after a block.
func (r *room) blocksAPush(block [2]string) (took time.Duration) {
	t := r.t
	it := r.begin("alice", "git-receive-pack '/a'")
	_, err := io.ReadFull(it.out, make([]byte, 20))
	must(t, err)
	began := time.Now()
	must(t, access.Block(r.folder, block[0], block[1], "too much"))
	status := it.status()
	if took = time.Since(began); status == 0 || !strings.Contains(it.said.String(), "too much") {
		t.Error(block, status, took, it.said.String())
	}
	must(t, access.Unblock(r.folder, block[0], block[1]))
	return took
}

// TestABlockReachesWhatIsOpen blocks a tenant and a user while sessions are at work.
func TestABlockReachesWhatIsOpen(t *testing.T) {
	r := served(t, 1, "")
	for _, block := range [][2]string{{access.Tenant, "a"}, {access.User, "alice"}} {
		await.Quick(t, time.Second, func() time.Duration { return r.blocksSessions(block) })
	}
	if got := r.run("alice", "import a", []byte(commit)); got.status != 0 || r.commits("a") != 1 {
		t.Error(got)
	}
}

// blocksSessions gives how long a stream lasts after a block, which reaches no other user and no other tenant.
func (r *room) blocksSessions(block [2]string) (took time.Duration) {
	t := r.t
	it, framed, reader := r.begin("alice", "import a"), r.begin("alice", "frames b"), r.begin("bob", "frames acme/site")
	it.in.Write([]byte(commit + "progress there\n"))
	io.ReadFull(it.out, make([]byte, len("progress there\n")))
	framed.ask(t, frames.Ask, "b", "head")
	began := time.Now()
	must(t, access.Block(r.folder, block[0], block[1], "too much"))
	await.Until(t, "the end of the stream", func() bool { return r.pool.States()[0].Streams == 0 })
	took = time.Since(began)
	if status := it.status(); status != 1 || !strings.HasSuffix(it.said.String(), "too much (fault 25)\ngitpool: fault 25\n") {
		t.Error(block, status, took, it.said.String())
	}
	if got := r.run("alice", "import a", []byte(commit)); got.status != 1 || !strings.Contains(got.said, "blocked") {
		t.Error(block, got)
	}
	if got := r.run("alice", "ask a refs", nil); (got.status == 0) != (block[0] == access.Tenant) || got.out != "" {
		t.Error(block, got)
	}
	if answer := reader.ask(t, frames.Ask, "acme/site", "head"); answer.Value != 0 {
		t.Error("another user is refused")
	}
	if block[0] == access.User {
		if status := framed.status(); status != 1 {
			t.Error(status)
		}
	} else if answer := framed.ask(t, frames.Open, "b", ""); answer.Value != 0 {
		t.Error("another tenant is refused")
	}
	must(t, access.Unblock(r.folder, block[0], block[1]))
	return took
}

// TestAStopEndsWhatWaits stops the server while a client of frames is silent.
func TestAStopEndsWhatWaits(t *testing.T) {
	r := served(t, 1, "")
	it := r.begin("alice", "frames a")
	it.ask(t, frames.Ask, "a", "head")
	ended := make(chan int, 1)
	go func() { ended <- it.status() }()
	r.again()
	if status := <-ended; status != 4 || !strings.Contains(it.said.String(), "the server stops") {
		t.Error(status, it.said.String())
	}
}
