package store

import (
	"fmt"
	"path/filepath"
	"strings"
	"testing"
	"time"
)

// TestAStreamThatIsOpenAsksForOneSave has a stream open whose records are more than the journal is to have, and which no save can drop.
func TestAStreamThatIsOpenAsksForOneSave(t *testing.T) {
	s := opened(t, config(t, folder(t)))
	defer s.Close(background)
	st, err := s.Begin(background, "b", Checkpoints)
	if err == nil {
		err = fed(st, []byte(fmt.Sprintf("blob\ndata 2000\n%s\n", strings.Repeat("x", 2000))))
	}
	if err != nil {
		t.Fatal(err)
	}
	rhythm, last := Rhythm{600, time.Hour, time.Hour}, lastSave{at: time.Now()}
	if !s.isDue(rhythm, &last) {
		t.Fatal("a large journal asks for no save")
	}
	if last = s.saveNow(background); last.failed != nil || s.isDue(rhythm, &last) {
		t.Fatal("what a save has left asks for another one:", last.failed)
	}
	pushAll(t, s, strings.Repeat("x", 700))
	if !s.isDue(rhythm, &last) {
		t.Fatal("what came after a save asks for none")
	}
	st.GiveUp()
	if last = s.saveNow(background); last.failed != nil || last.left > 600 {
		t.Fatalf("%d bytes are left: %v", last.left, last.failed)
	}
}

// TestAStreamWithoutMemoryIsSavedAway has a stream for which the child has no memory. Another child may have none for it either, so a save comes soon.
func TestAStreamWithoutMemoryIsSavedAway(t *testing.T) {
	c := config(t, folder(t))
	c.ChildMemory = 48 << 20
	s := opened(t, c)
	st, err := s.Begin(background, "a", Checkpoints)
	for i := 0; i < 8 && err == nil; i++ {
		err = fed(st, []byte(fmt.Sprintf("blob\ndata %d\n%s\n", 15<<20, strings.Repeat(fmt.Sprint(i), 15<<20))))
	}
	if !isRefused(err, 90) {
		t.Fatal(err)
	}
	st.GiveUp()
	rhythm := Rhythm{1 << 40, time.Hour, time.Hour}
	if s.isDue(rhythm, &lastSave{at: time.Now()}) || !s.isDue(rhythm, &lastSave{at: time.Now().Add(-2 * starvedEvery)}) {
		t.Fatal("the journal keeps the stream")
	}
	s.config.Copy = filepath.Join(t.TempDir(), "none", "pool")
	if err := s.Save(background); err == nil || !s.hasStarved.Load() {
		t.Fatal("a save that failed is none:", err)
	}
	s.config.Copy = ""
	if err := s.Save(background); err != nil || s.hasStarved.Load() {
		t.Fatal(err)
	}
	crash(s)
	s = opened(t, c)
	defer s.Close(background)
	pushAll(t, s, "m0")
}
