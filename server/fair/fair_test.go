package fair

import (
	"context"
	"fmt"
	"sync"
	"testing"
	"time"

	"gitpoold/await"
)

// order lets askers wait in an order while all places are taken, and tells in which order they have their turns.
func order(t *testing.T, p *Semaphore, waiting ...[]string) (served []string) {
	t.Helper()
	var mutex sync.Mutex
	var all sync.WaitGroup
	leave := make([]func(), p.limits.Places)
	for at := range leave {
		leave[at] = enter(t, p, Kind(at%2), fmt.Sprint("holder ", at))
	}
	for at, askers := range waiting {
		all.Add(1)
		go func(askers []string) {
			defer all.Done()
			end, err := p.Acquire(context.Background(), kindOf(askers), askers...)
			mutex.Lock()
			defer mutex.Unlock()
			if served = append(served, fmt.Sprint(askers)); err == nil {
				end()
			}
		}(askers)
		await.Until(t, "as many wait as have come", func() bool { return p.count0() == at+1 })
	}
	for _, end := range leave[1:] {
		defer end()
	}
	leave[0]()
	all.Wait()
	return served
}

func kindOf(askers []string) Kind {
	if askers[0][0] == 'u' {
		return Second
	}
	return First
}

func (p *Semaphore) count0() int {
	p.mutex.Lock()
	defer p.mutex.Unlock()
	return len(p.waiting)
}

func enter(t *testing.T, p *Semaphore, kind Kind, askers ...string) func() {
	t.Helper()
	ctx, stop := context.WithTimeout(context.Background(), time.Minute)
	defer stop()
	leave, err := p.Acquire(ctx, kind, askers...)
	if err != nil {
		t.Fatal(kind, askers, err)
	}
	return leave
}

// waits asks that there is no turn for an asker now.
func waits(t *testing.T, p *Semaphore, kind Kind, askers ...string) {
	t.Helper()
	ctx, stop := context.WithTimeout(context.Background(), 20*time.Millisecond)
	defer stop()
	if leave, err := p.Acquire(ctx, kind, askers...); err == nil {
		leave()
		t.Fatal(kind, askers, "has a turn")
	}
}

func TestAskersTakeTurns(t *testing.T) {
	one := New(Limits{1, [2]int{1, 1}, [2]int{1, 1}})
	var waiting [][]string
	for at := 0; at < 5; at++ {
		waiting = append(waiting, []string{"a", "x"})
	}
	waiting = append(waiting, []string{"b", "x"}, []string{"a", "y"}, []string{"u", ""}, []string{"b", "x"})
	// The holder was of the first kind, so the second one is next.
	got := fmt.Sprint(order(t, one, waiting...))
	if want := "[[u ] [a x] [b x] [a y] [b x] [a x] [a x] [a x] [a x]]"; got != want {
		t.Errorf("%s, and not %s", got, want)
	}
	if len(one.of) != 0 || one.atWork != [2]int{} || len(one.waiting) != 0 {
		t.Error(one)
	}
}

func TestAPartOfThePlaces(t *testing.T) {
	p := New(Limits{4, [2]int{2, 4}, [2]int{1, 2}})
	first := enter(t, p, First, "1.2.3.4")
	waits(t, p, First, "1.2.3.4")
	enter(t, p, First, "1.2.3.5")
	waits(t, p, First, "1.2.3.6")
	enter(t, p, Second, "alice")
	last := enter(t, p, Second, "alice")
	waits(t, p, Second, "bob")
	last()
	last()
	waits(t, p, First, "1.2.3.6")
	enter(t, p, Second, "bob")
	first()
	enter(t, p, First, "1.2.3.4")
	waits(t, p, Second, "carol")
	if len(p.waiting) != 0 {
		t.Error(p.waiting)
	}
}

// TestATurnThatComesTooLate has many that give up at the moment at which they have their turns: no place is lost.
func TestATurnThatComesTooLate(t *testing.T) {
	p := New(Limits{2, [2]int{2, 2}, [2]int{2, 2}})
	var all sync.WaitGroup
	for at := 0; at < 200; at++ {
		all.Add(1)
		go func(at int) {
			defer all.Done()
			ctx, stop := context.WithTimeout(context.Background(), time.Duration(at)*20*time.Microsecond)
			defer stop()
			if leave, err := p.Acquire(ctx, Kind(at%2), fmt.Sprint(at%7)); err == nil {
				time.Sleep(50 * time.Microsecond)
				leave()
			}
		}(at)
	}
	all.Wait()
	if len(p.of) != 0 || p.atWork != [2]int{} || len(p.waiting) != 0 {
		t.Fatal(p.of, p.atWork, p.waiting)
	}
}

func TestWhatIsKnownOfAskersIsBounded(t *testing.T) {
	p := New(Limits{1, [2]int{1, 1}, [2]int{1, 1}})
	for at := 0; at < mostServed; at++ {
		p.served[fmt.Sprint(at)] = 1
	}
	for at := 0; at < 100; at++ {
		enter(t, p, First, fmt.Sprint("new ", at))()
	}
	if len(p.served) > 100 {
		t.Fatal(len(p.served))
	}
}
