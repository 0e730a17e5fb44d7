package collector

import (
	"runtime"
	"testing"
	"time"
)

func TestAims(t *testing.T) {
	for _, it := range []struct {
		live, spare int64
		percent     int
	}{{0, 64, 400}, {1, 64, 400}, {16, 64, 400}, {32, 64, 200}, {33, 64, 193}, {64, 64, 100}, {65, 64, 100}, {1 << 40, 64, 100}, {1 << 40, 0, 100}} {
		if got := aim(it.live, it.spare); got != it.percent {
			t.Error(it, got)
		}
	}
}

// TestALargeHeapIsCollectedAsEver lets a heap grow and shrink again.
func TestALargeHeapIsCollectedAsEver(t *testing.T) {
	t.Setenv("GOGC", "")
	t.Setenv("GOMEMLIMIT", "")
	Begin(64 << 20)
	if now := percent.Load(); now != mostPercent {
		t.Fatal(now)
	}
	held := make([]byte, 64<<20)
	awaitPercent(t, func(now int64) bool { return now == leastPercent })
	runtime.KeepAlive(held)
	held = nil
	awaitPercent(t, func(now int64) bool { return now == mostPercent })
}

func awaitPercent(t *testing.T, is func(now int64) bool) {
	t.Helper()
	for until := time.Now().Add(time.Minute); !is(percent.Load()); time.Sleep(time.Millisecond) {
		if runtime.GC(); time.Now().After(until) {
			t.Fatal(percent.Load())
		}
	}
}
