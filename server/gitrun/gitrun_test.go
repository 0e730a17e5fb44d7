package gitrun

import (
	"bytes"
	"context"
	"errors"
	"fmt"
	"io"
	"os"
	"path/filepath"
	"strings"
	"testing"
	"time"
)

// alone is a run of git that does what a line of the shell says, or what git does by these words.
func alone(t *testing.T, words ...string) Command {
	t.Helper()
	folder := t.TempDir()
	// On a busy machine git would have no turn for minutes.
	if err := os.WriteFile(filepath.Join(folder, "nice"), []byte("#!/bin/sh\nshift 2; exec \"$@\"\n"), 0o700); err != nil {
		t.Fatal(err)
	}
	t.Setenv("PATH", folder+":"+os.Getenv("PATH"))
	if len(words) == 1 {
		words = []string{"-c", "alias.it=!" + words[0], "it"}
	}
	return Command{Words: words, Environment: Environment(folder), Folder: folder, Memory: 1 << 30, FileBytes: 1 << 20, Every: time.Hour,
		Judge: func() error { return nil }}
}

func fed(text string) func(context.Context, io.Writer) error {
	return func(_ context.Context, to io.Writer) error {
		_, err := io.WriteString(to, text)
		return err
	}
}

func TestWhatGitReadsAndPrints(t *testing.T) {
	var out bytes.Buffer
	it := alone(t, "hash-object", "--stdin")
	it.Feed, it.Out = fed("hello\n"), &out
	if err := it.Run(context.Background()); err != nil || out.String() != "ce013625030ba8dba906f756967f9e9ca394464a\n" {
		t.Fatal(err, out.String())
	}
}

var errOwn = errors.New("of the caller")

// failing fails once the first write comes.
type failing struct{}

func (failing) Write([]byte) (int, error) { return 0, errOwn }

// TestWhyGitEnds has runs that are ended, and ones that end by themselves.
func TestWhyGitEnds(t *testing.T) {
	late, stop := context.WithTimeout(context.Background(), 50*time.Millisecond)
	defer stop()
	large := fed(strings.Repeat("x", 10<<20))
	for what, it := range map[string]struct {
		line  string
		with  func(*Command)
		under context.Context
		why   func(error) bool
	}{
		"its words":               {"echo fatal: the reason >&2; exit 3", nil, nil, func(err error) bool { return err.Error() == "the reason" }},
		"no words":                {"exit 3", nil, nil, func(err error) bool { return strings.HasPrefix(err.Error(), "git ended: ") }},
		"no words, and unread":    {"exit 3", func(c *Command) { c.Feed = large }, nil, func(err error) bool { return strings.HasPrefix(err.Error(), "git ended: ") }},
		"well, and unread":        {"exit 0", func(c *Command) { c.Feed = large }, nil, func(err error) bool { return err == errUnread }},
		"what it reads fails":     {"cat; exit 0", func(c *Command) { c.Feed = func(context.Context, io.Writer) error { return errOwn } }, nil, isOwn},
		"what it prints fails":    {"yes", func(c *Command) { c.Out = failing{} }, nil, isOwn},
		"a bound":                 {"sleep 1000", func(c *Command) { c.Every, c.Judge = time.Millisecond, func() error { return errOwn } }, nil, isOwn},
		"silence":                 {"sleep 1000", func(c *Command) { c.Every, c.Silence = time.Millisecond, time.Millisecond }, nil, func(err error) bool { return err == ErrSilent }},
		"the context":             {"sleep 1000", nil, late, func(err error) bool { return err == context.DeadlineExceeded }},
		"a file that is too long": {"head -c 2000000 /dev/zero > file", nil, nil, func(err error) bool { return err != nil }},
	} {
		c := alone(t, it.line)
		if it.with != nil {
			it.with(&c)
		}
		if it.under == nil {
			it.under = context.Background()
		}
		if err := c.Run(it.under); err == nil || !it.why(err) {
			t.Errorf("%s: %v", what, err)
		}
	}
}

func isOwn(err error) bool { return err == errOwn }

// TestWhatIsFedWaitsForNoGit has a source that waits for as long as git is there.
func TestWhatIsFedWaitsForNoGit(t *testing.T) {
	it := alone(t, "echo fatal: the reason >&2; exit 3")
	it.Feed = func(ctx context.Context, _ io.Writer) error {
		<-ctx.Done()
		return ctx.Err()
	}
	if err := it.Run(context.Background()); err == nil || err.Error() != "the reason" {
		t.Fatal(err)
	}
}

func TestNoGitOnThePath(t *testing.T) {
	it := alone(t, "init")
	t.Setenv("PATH", t.TempDir())
	if err := it.Run(context.Background()); err == nil || !strings.Contains(err.Error(), "not on the PATH") {
		t.Fatal(err)
	}
}

func TestWordsOfGitAreBounded(t *testing.T) {
	said := &tail{}
	for i := 0; i < 10_000; i++ {
		fmt.Fprintf(said, "remote: \x1b]0;%d\x07 %s\r", i, strings.Repeat("x", 1000))
	}
	if len(said.kept) > mostSaid || len(said.words()) > MostTold || strings.ContainsAny(said.words(), "\x1b\x07") {
		t.Error(len(said.kept), said.words())
	}
	fmt.Fprint(said, "\nfatal: the reason\nfatal: another\n")
	if got := said.words(); got != "the reason" {
		t.Error(got)
	}
}
