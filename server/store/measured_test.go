package store

import (
	"fmt"
	"testing"
)

// TestStreamsCountWhatTheyWrite has a stream of few bytes whose commits write a tree of 5,000 entries each. What it writes counts while it is open and
// as soon as it has ended, and to the byte once the child is asked.
func TestStreamsCountWhatTheyWrite(t *testing.T) {
	const commits, treeBytes = 40, 5000 * 28
	s := opened(t, config(t, folder(t)))
	defer s.Abort()
	st, err := s.Begin(background, "a", Checkpoints)
	if err != nil {
		t.Fatal(err)
	}
	defer st.GiveUp()
	who := "commit refs/heads/main\ncommitter a <b> 1 +0000\ndata 0\n"
	first := "blob\nmark :1\ndata 1\nx\n" + who
	for at := 0; at < 5000; at++ {
		first += fmt.Sprintf("M 644 :1 %d\n", at)
	}
	text := first
	for at := 0; at < commits; at++ {
		text += who + fmt.Sprintf("M 644 :1 x%d\n", at)
	}
	for len(text) > 0 {
		piece := text
		if len(piece) > 64<<10 {
			piece = piece[:64<<10]
		}
		text = text[len(piece):]
		pending, err := st.Feed(background, []byte(piece))
		if err == nil {
			_, err = pending.Wait(background)
		}
		if err != nil {
			t.Fatal(err)
		}
	}
	if cost := st.Cost(); cost.Grown < commits*treeBytes || cost.Took <= 0 || cost.Resident < cost.Grown {
		t.Fatalf("%+v", cost)
	}
	if s.Bytes("a") != 0 {
		t.Fatal("the child tells what is not kept yet")
	}
	if _, err := st.Commit(background, nil); err != nil {
		t.Fatal(err)
	}
	if s.Bytes("a") < commits*treeBytes {
		t.Fatalf("%d bytes count", s.Bytes("a"))
	}
	if err := s.Recount(background, "a"); err != nil || s.Bytes("a") != s.usage.get("a").Bytes || s.Bytes("a") < commits*treeBytes {
		t.Fatalf("%d bytes count, and the tenant has %d: %v", s.Bytes("a"), s.usage.get("a").Bytes, err)
	}
}
