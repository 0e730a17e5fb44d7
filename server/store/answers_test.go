package store

import (
	"fmt"
	"testing"
	"time"

	"gitpoold/idempotency"
)

// pushKept ends a stream with a token, which prints its token as well.
func pushKept(t *testing.T, s *Store, tenant, token string) {
	t.Helper()
	st, err := s.Begin(background, tenant, Checkpoints)
	if err != nil {
		t.Fatal(err)
	}
	defer st.GiveUp()
	pending, err := st.Feed(background, []byte("blob\ndata 1\nx\nprogress "+token+"\n"))
	if err != nil {
		t.Fatal(err)
	}
	printed, err := pending.Wait(background)
	if err != nil {
		t.Fatal(err)
	}
	st.Keep(idempotency.New(token, printed))
	if _, err := st.Commit(background, nil); err != nil {
		t.Fatal(err)
	}
}

func hasTokens(t *testing.T, s *Store, tenant string, from, to int) {
	t.Helper()
	for i := 0; i < to+2; i++ {
		token := fmt.Sprint("t", i)
		kept, found := s.Kept(tenant, token)
		if found != (i >= from && i < to) || found && string(kept.Reply) != "progress "+token+"\n" {
			t.Errorf("%s of %s: %v %q", token, tenant, found, kept.Reply)
		}
	}
}

func TestATokenThatWasToldComesBack(t *testing.T) {
	c := config(t, folder(t))
	s := opened(t, c)
	for i := 0; i < 6; i++ {
		pushKept(t, s, "a", fmt.Sprint("t", i))
		if i == 2 {
			if err := s.Save(background); err != nil {
				t.Fatal(err)
			}
		}
	}
	crash(s)
	s = opened(t, c)
	hasTokens(t, s, "a", 0, 6)
	if err := s.Remove(background, "a"); err != nil {
		t.Fatal(err)
	}
	hasTokens(t, s, "a", 0, 0)
	pushKept(t, s, "a", "t0")
	pushKept(t, s, "b", "t0")
	crash(s)
	s = opened(t, c)
	defer s.Close(background)
	hasTokens(t, s, "a", 0, 1)
	hasTokens(t, s, "b", 0, 1)
}

// TestMoreTokensThanAreKept has the journal say all of them again, to the next child and at the next start.
func TestMoreTokensThanAreKept(t *testing.T) {
	c := config(t, folder(t))
	s := opened(t, c)
	count := idempotency.MostAnswers + 10
	for i := 0; i < count; i++ {
		pushKept(t, s, "a", fmt.Sprint("t", i))
	}
	hasTokens(t, s, "a", 10, count)
	was := s.State().ChildPid
	s.child.process.Kill()
	for pid := was; pid == was || pid == 0; pid = s.State().ChildPid {
		time.Sleep(time.Millisecond)
	}
	hasTokens(t, s, "a", 10, count)
	crash(s)
	s = opened(t, c)
	hasTokens(t, s, "a", 10, count)
	if err := s.Close(background); err != nil {
		t.Fatal(err)
	}
	s = opened(t, c)
	defer s.Close(background)
	hasTokens(t, s, "a", 10, count)
}
