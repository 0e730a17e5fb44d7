package store

import (
	"errors"
	"fmt"
	"os"
	"strings"
	"testing"
)

// errTooMany is what a test refuses a tenant for.
var errTooMany = errors.New("too many bytes")

// wideCommits is a stream whose commits write a tree of 1,000 entries each, of which a few bytes tell.
func wideCommits(branch string, commits int) string {
	who := "commit " + branch + "\ncommitter a <b> 1 +0000\ndata 0\n"
	text := "blob\nmark :1\ndata 1\nx\n" + who
	for at := 0; at < 1000; at++ {
		text += fmt.Sprintf("M 644 :1 %d\n", at)
	}
	for at := 0; at < commits; at++ {
		text += who + fmt.Sprintf("M 644 :1 x%d\n", at)
	}
	return text
}

// within feeds a stream, and ends it where the tenant has at most so many bytes then. It gives what the tenant would have.
func within(t *testing.T, s *Store, tenant, text string, most int64) (bytes int64, err error) {
	t.Helper()
	st, err := s.Begin(background, tenant, Checkpoints)
	must(t, err)
	defer st.GiveUp()
	pending, err := st.Feed(background, []byte(text))
	must(t, err)
	_, err = pending.Wait(background)
	must(t, err)
	_, err = st.CommitWithin(background, func(has int64, _ Ask) error {
		if bytes = has; has > most {
			return errTooMany
		}
		return nil
	})
	return bytes, err
}

// savedAs saves, and gives the pool file.
func savedAs(t *testing.T, s *Store, c Config) string {
	t.Helper()
	must(t, s.Save(background))
	file, err := os.ReadFile(c.Folder + "/pool")
	must(t, err)
	return string(file)
}

// TestAStreamIsMeasuredAtItsEnd ends a stream at the byte. With one byte less nothing of it is there, also for a child that carries out the journal,
// and the pool file is that of a store which never had the stream.
func TestAStreamIsMeasuredAtItsEnd(t *testing.T) {
	c, other := config(t, folder(t)), config(t, folder(t))
	s, twin := opened(t, c), opened(t, other)
	defer func() { s.Abort(); twin.Abort() }()
	for _, it := range []*Store{s, twin} {
		streamed(t, it, "a", wideCommits("refs/heads/main", 3))
		streamed(t, it, "b", wideCommits("refs/heads/main", 2))
		streamed(t, it, "aside-0", wideCommits("refs/heads/main", 1))
		must(t, it.Recount(background, "a"))
	}
	had := s.Bytes("a")
	more := wideCommits("refs/heads/more", 30)
	want, err := within(t, s, "a", more, 0)
	if err != errTooMany || want < had+30*25_000 || s.Bytes("a") != had || s.AtMost("a") != had {
		t.Fatalf("%d bytes, and there were %d of %d: %v", want, s.Bytes("a"), had, err)
	}
	if _, err := within(t, s, "a", more, want-1); err != errTooMany {
		t.Fatal(err)
	}
	if savedAs(t, s, c) != savedAs(t, twin, other) {
		t.Fatal("a stream that was refused is in the pool file")
	}
	if _, err := within(t, s, "a", more, want-1); err != errTooMany {
		t.Fatal(err)
	}
	s.Abort()
	s = opened(t, c)
	if s.Bytes("a") != had {
		t.Fatalf("a new start finds %d bytes of %d", s.Bytes("a"), had)
	}
	if has, err := within(t, s, "a", more, want); err != nil || has != want || s.Bytes("a") != want || s.AtMost("a") != want {
		t.Fatalf("%d bytes of %d, and %d count: %v", has, want, s.Bytes("a"), err)
	}
	streamed(t, twin, "a", more)
	if savedAs(t, s, c) != savedAs(t, twin, other) {
		t.Fatal("a stream that was let in is not in the pool file")
	}
}

// TestARefusedStreamLeavesTheLastCheckpoint has a tenant with objects that no ref reaches. A checkpoint that is refused leaves the one before.
func TestARefusedStreamLeavesTheLastCheckpoint(t *testing.T) {
	c, other := config(t, folder(t)), config(t, folder(t))
	s, twin := opened(t, c), opened(t, other)
	defer func() { s.Abort(); twin.Abort() }()
	first := wideCommits("refs/heads/main", 3) + "reset refs/heads/main\nfrom 0000000000000000000000000000000000000000\n\n"
	first = "feature force\n" + strings.Replace(first, "\nreset", "\ncheckpoint\nreset", 1) + wideCommits("refs/heads/next", 2) + "checkpoint\n"
	st, err := s.Begin(background, "a", Checkpoints)
	must(t, err)
	defer st.GiveUp()
	refuse := false
	judge := func(int64, Ask) error {
		if refuse {
			return errTooMany
		}
		return nil
	}
	for _, text := range []string{first, wideCommits("refs/heads/more", 1) + "checkpoint\n"} {
		answer, err := st.FeedWithin(background, []byte(text), judge)
		if !refuse && (err != nil || answer.Status != 0) || refuse && err != errTooMany {
			t.Fatal(answer, err)
		}
		refuse = true
	}
	st.GiveUp()
	streamed(t, twin, "a", first)
	must(t, twin.Compact(background, "a"))
	must(t, s.Recount(background, "a"))
	if s.Bytes("a") != twin.Bytes("a") {
		t.Fatalf("%d bytes are left, and %d were there", s.Bytes("a"), twin.Bytes("a"))
	}
	streamed(t, s, "a", wideCommits("refs/heads/last", 1))
	streamed(t, twin, "a", wideCommits("refs/heads/last", 1))
	s.Abort()
	s = opened(t, c)
	if savedAs(t, s, c) != savedAs(t, twin, other) {
		t.Fatal("another child comes to something else")
	}
}
