// Package collector lets Go's collector of garbage run less often while the heap is small: a server that passes large steps on has little that
// lives, and makes much garbage.
//
// A limit of memory (debug.SetMemoryLimit) would do the same, but where what lives comes near it, collections follow one another and may take half of
// the processors. Here a large heap is collected as it always was.
package collector

import (
	"os"
	"runtime"
	"runtime/debug"
	"runtime/metrics"
	"sync/atomic"
)

// Bounds of the part, in percent of what lives, by which the heap may grow before the next collection.
const (
	leastPercent = 100
	mostPercent  = 400
)

// aim is the part by which the heap may grow where `live` bytes live and `spare` may be garbage.
func aim(live, spare int64) int {
	if live < 1 {
		return mostPercent
	}
	switch percent := spare * 100 / live; {
	case percent < leastPercent:
		return leastPercent
	case percent < mostPercent:
		return int(percent)
	}
	return mostPercent
}

// percent is what holds now.
var percent atomic.Int64

// cycle is garbage at once. So its finalizer runs after each collection, and makes the next one.
type cycle struct{ spare *int64 }

func ended(it *cycle) {
	now := percent.Load()
	if next := int64(aim(live(now), *it.spare)); next != now {
		percent.Store(next)
		debug.SetGCPercent(int(next))
	}
	runtime.SetFinalizer(&cycle{it.spare}, ended)
}

// live is about how many bytes live, by the size at which the next collection begins.
func live(percent int64) int64 {
	goal := []metrics.Sample{{Name: "/gc/heap/goal:bytes"}}
	metrics.Read(goal)
	if goal[0].Value.Kind() != metrics.KindUint64 {
		return 0
	}
	return int64(goal[0].Value.Uint64()) * 100 / (100 + percent)
}

// Begin lets the heap grow by `spare` bytes before each collection, but by no more than four times what lives, and no less than that. Where the
// environment sets GOGC or GOMEMLIMIT, that holds alone.
func Begin(spare int64) {
	if os.Getenv("GOGC") != "" || os.Getenv("GOMEMLIMIT") != "" {
		return
	}
	percent.Store(mostPercent)
	debug.SetGCPercent(mostPercent)
	runtime.SetFinalizer(&cycle{&spare}, ended)
}
