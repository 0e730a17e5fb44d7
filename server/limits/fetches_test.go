package limits

import (
	"context"
	"testing"
	"time"
)

// taken takes room that has to be there.
func taken(t *testing.T, f Fetch, bytes int64) (giveBack func()) {
	t.Helper()
	giveBack, err := f.Take(context.Background(), bytes)
	if err != nil {
		t.Fatal(err)
	}
	return giveBack
}

func TestFetchesWaitForRoom(t *testing.T) {
	l, _ := loaded(t, "answer-bytes 100\n")
	first, second, other := l.Fetch("alice", "10.0.0.1:1"), l.Fetch("alice", "10.0.0.2:1"), l.Fetch("", "10.0.0.1:1")
	sixty, hundred := first.TryTake(60), other.TryTake(100)
	if sixty == nil || hundred == nil || second.TryTake(41) != nil {
		t.Fatal("who has room")
	}
	ctx, stop := context.WithTimeout(context.Background(), 20*time.Millisecond)
	defer stop()
	if _, err := second.Take(ctx, 41); err != context.DeadlineExceeded {
		t.Fatal(err)
	}
	forty := taken(t, second, 40)
	waits := make(chan func())
	go func() {
		// It is larger than all of the room.
		all, _ := first.Take(context.Background(), 1000)
		waits <- all
	}()
	sixty()
	// There is room for one byte, and nobody gets it once the other fetch waits.
	for it := second.TryTake(1); it != nil; it = second.TryTake(1) {
		it()
		time.Sleep(time.Millisecond)
	}
	select {
	case <-waits:
		t.Fatal("it has room that another fetch has")
	default:
	}
	forty()
	all := <-waits
	if second.TryTake(1) != nil {
		t.Fatal("there is more room than there is")
	}
	all()
	hundred()
	if len(l.rooms) != 0 {
		t.Fatal(l.rooms)
	}
}

func TestWithoutRoomLargeObjectsComeOneByOne(t *testing.T) {
	l, _ := loaded(t, "answer-bytes 0\n")
	it := l.Fetch("alice", "10.0.0.1:1")
	giveBack := taken(t, it, 1<<20)
	if it.TryTake(1) != nil {
		t.Fatal("two at once")
	}
	giveBack()
	taken(t, it, 1)()
}

func TestWhatFetchesHold(t *testing.T) {
	l, _ := loaded(t, "fetch-bytes 50\n")
	first, second := l.Fetch("alice", "10.0.0.1:1"), l.Fetch("alice", "10.0.0.2:1")
	if first.Hold(30) != nil || second.Hold(21) != ErrFetches || l.Fetch("bob", "10.0.0.1:1").Hold(50) != nil {
		t.Fatal("who may hold as much")
	}
	first.Free()
	if second.Hold(50) != nil || first.Hold(1) != ErrFetches {
		t.Fatal("who may hold as much once it is freed")
	}
	second.Free()
	if len(l.fetches) != 1 {
		t.Fatal(l.fetches)
	}
}

// TestAListOfRefsCountsOnce has requests of two users and a visitor that hold lists of refs, some of them the same.
func TestAListOfRefsCountsOnce(t *testing.T) {
	l, _ := loaded(t, "answer-bytes 50\n")
	main, other := new(int), new(int)
	first, second := l.Fetch("alice", "10.0.0.1:1"), l.Fetch("alice", "10.0.0.2:1")
	if first.Share(main, 30) != nil || second.Share(main, 30) != nil || second.Share(other, 21) != ErrAnswers || second.Share(other, 20) != nil {
		t.Fatal("what the lists of one user count")
	}
	if l.Fetch("bob", "10.0.0.1:1").Share(main, 50) != nil || l.Fetch("", "10.0.0.1:1").Share(main, 51) != ErrAnswers {
		t.Fatal("what the lists of others count")
	}
	if _, err := l.Wait("alice", 1); err != ErrAnswers {
		t.Fatal("lists do not count among the answers that wait", err)
	}
	first.Free()
	if second.Share(new(int), 1) != ErrAnswers {
		t.Fatal("a list counts no more that another request holds")
	}
	second.Free()
	second.Free()
	if first.Share(other, 50) != nil || len(l.lists) != 2 {
		t.Fatal("lists count that nobody holds", l.lists, l.answers)
	}
	first.Free()
	if len(l.lists) != 1 || l.answers["alice"] != 0 {
		t.Fatal(l.lists, l.answers)
	}
}
