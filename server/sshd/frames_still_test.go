package sshd

import (
	"os"
	"path/filepath"
	"strings"
	"testing"

	"gitpoold/await"
	"gitpoold/frames"
)

// TestFramesOfAUserWhoIsNoLongerLetIn takes the key of a user whose session of frames is open. The grants stay, and so does the stream that has begun;
// nothing else begins, and the connection ends with the session.
func TestFramesOfAUserWhoIsNoLongerLetIn(t *testing.T) {
	r := served(t, 1, "")
	it := r.begin("alice", "frames a")
	for _, step := range []struct {
		kind frames.Kind
		body string
		want uint64
	}{
		{frames.Ask, "refs", 0}, {frames.Open, "", 0}, {frames.Feed, commit, 0}, {frames.Kind(0), "", 0}, {frames.Ask, "refs", 25}, {frames.Feed, "#\n", 0},
		{frames.End, "", 0}, {frames.Open, "", 25}, {frames.Ask, "refs", 25}, {frames.Feed, "#\n", 30},
	} {
		if step.kind == 0 {
			must(t, os.WriteFile(filepath.Join(r.folder, "keys"), nil, 0o600))
			continue
		}
		if answer := it.ask(t, step.kind, "a", step.body); answer.Value != step.want {
			t.Errorf("%d %q: %+v, and not %d", step.kind, step.body, answer, step.want)
		}
	}
	must(t, it.in.Close())
	must(t, it.Wait())
	ended := make(chan struct{})
	go func() {
		defer close(ended)
		_ = it.client.Wait()
	}()
	await.From(t, "the end of the connection", ended)
	if strings.Count(it.said.String(), "no longer valid") != 1 {
		t.Error(it.said.String())
	}
}
