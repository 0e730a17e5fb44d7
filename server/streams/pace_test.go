package streams

import (
	"testing"
	"time"

	"gitpoold/child"
	"gitpoold/fastimport"
)

// TestPace lets parts take long: one line goes at once then. When they take little again, more and more do.
func TestPace(t *testing.T) {
	p := newPace()
	step := func(part fastimport.Part, took time.Duration, want fastimport.Part) {
		t.Helper()
		if p.adapt(part, took); p.next != want {
			t.Fatalf("%v that took %v: %v, wanted %v", part, took, p.next, want)
		}
	}
	most := fastimport.Part{Bytes: partBytes, Heavy: partHeavy}
	step(most, time.Millisecond, most)
	step(fastimport.Part{Bytes: 600, Heavy: 8}, 200*time.Millisecond, fastimport.Part{Bytes: shortest, Heavy: 2})
	step(fastimport.Part{Bytes: 200, Heavy: 2}, 46*time.Millisecond, fastimport.Part{Bytes: shortest, Heavy: 2})
	step(fastimport.Part{Bytes: 200, Heavy: 2}, time.Minute, fastimport.Part{Bytes: shortest, Heavy: 1})
	step(fastimport.Part{Bytes: partBytes}, 100*time.Millisecond, fastimport.Part{Bytes: partBytes / 2, Heavy: 1})
	step(fastimport.Part{Bytes: partBytes / 2}, 20*time.Millisecond, fastimport.Part{Bytes: partBytes, Heavy: 2})
	for heavy := 3; heavy <= partHeavy; heavy++ {
		step(fastimport.Part{Bytes: 100, Heavy: 1}, 0, fastimport.Part{Bytes: partBytes, Heavy: heavy})
	}
}

// TestStepsAreShort lets each heavy line take 23 ms, as a tree of 20,000 entries does: no part takes long but the first.
func TestStepsAreShort(t *testing.T) {
	p := newPace()
	for turn := 0; turn < 1000; turn++ {
		part := fastimport.Part{Bytes: 75 * p.next.Heavy, Heavy: p.next.Heavy}
		took := time.Duration(part.Heavy) * 23 * time.Millisecond
		if took > 2*stepTime && turn > 0 {
			t.Fatalf("turn %d takes %v", turn, took)
		}
		p.adapt(part, took)
	}
}

// TestGrowth fills a room by memory that the child takes.
func TestGrowth(t *testing.T) {
	const room = 10 << 20
	g := growth{room: room}
	parts := 0
	for ; !g.isBeyond(0); parts++ {
		g.add(child.Cost{Grown: 650_000})
	}
	if taken := int64(parts) * 650_000; taken < room+workBytes || taken > room+workBytes+(jumps+2)*650_000 {
		t.Errorf("%d bytes are let through", taken)
	}
	// The tables of all tenants are doubled, and a stream of tiny blobs takes much beside its contents.
	g = growth{room: room}
	for at := int64(0); at < 1000; at++ {
		g.add(child.Cost{Grown: 70_000})
		if at%400 == 0 {
			g.add(child.Cost{Grown: 300 << 20})
		}
		if g.isBeyond(280 * at) {
			t.Fatal("refused at", at)
		}
	}
}
