// Package await lets tests wait for what other goroutines, processes and machines bring about.
package await

import (
	"runtime"
	"testing"
	"time"
)

// Longest is how long a test waits for what has to come. It measures nothing: it ends a test that would wait for ever, however slow the machine is.
const Longest = 2 * time.Minute

// Until waits until something holds. What the test waits for is told where it does not come.
func Until(t testing.TB, what string, holds func() bool) {
	t.Helper()
	for until := time.Now().Add(Longest); !holds(); time.Sleep(time.Millisecond) {
		if time.Now().After(until) {
			t.Fatalf("it does not come in %v: %s", Longest, what)
		}
	}
}

// From takes what comes from a channel, or tells that nothing does.
func From[T any](t testing.TB, what string, from <-chan T) (it T) {
	t.Helper()
	select {
	case it = <-from:
	case <-time.After(Longest):
		t.Fatalf("it does not come in %v: %s", Longest, what)
	}
	return it
}

// Goroutines gives how many there are, once their number has not changed for a while: what has just begun or ended does not count.
func Goroutines() int {
	const while = 20
	count, same := runtime.NumGoroutine(), 0
	for ; same < while; time.Sleep(10 * time.Millisecond) {
		if now := runtime.NumGoroutine(); now != count {
			count, same = now, 0
		} else {
			same++
		}
	}
	return count
}

// NoMore waits until there are no more goroutines than before, and shows all where there are.
func NoMore(t testing.TB, before int) {
	t.Helper()
	for until := time.Now().Add(Longest); runtime.NumGoroutine() > before; time.Sleep(10 * time.Millisecond) {
		if time.Now().After(until) {
			text := make([]byte, 1<<20)
			t.Fatalf("%d goroutines are left:\n%s", runtime.NumGoroutine()-before, text[:runtime.Stack(text, true)])
		}
	}
}

// Quick asks that something takes less than a time in one of twenty tries. What is slow by itself is slow in each of them, and what a busy machine
// holds up is not.
func Quick(t testing.TB, most time.Duration, try func() time.Duration) {
	t.Helper()
	took := try()
	for tries := 1; took >= most && tries < 20 && !t.Failed(); tries++ {
		took = try()
	}
	if took >= most {
		t.Errorf("it takes %v, and not less than %v", took, most)
	}
}
