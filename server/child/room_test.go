package child

import (
	"bytes"
	"testing"

	"gitpoold/frames"
)

// TestAnswersWithoutRoomAreDropped has room for a part of the answers of a batch: those that come first are kept, and the child goes on.
func TestAnswersWithoutRoomAreDropped(t *testing.T) {
	p := started(t, 100)
	var steps []frames.Step
	for at := 0; at < 10; at++ {
		steps = append(steps, frames.Step{Kind: frames.Ask, Tenant: "t", Body: bytes.Repeat([]byte{byte('a' + at)}, 1000)})
	}
	for room, want := range map[int64]int{1: 1, 3000: 3, 4000: 4, 1 << 20: 10} {
		batch, err := p.Send(InRoom(background, room), Short, steps...)
		if err != nil {
			t.Fatal(err)
		}
		answers, err := batch.Wait(background)
		if err != nil || len(answers) != want || answers[want-1].Reply[2] != byte('a'+want-1) {
			t.Fatalf("room for %d bytes: %d answers, wanted %d: %v", room, len(answers), want, err)
		}
		if batch.frames != nil {
			t.Fatal("the frames of the questions are kept")
		}
	}
	if wrong, gone := asked(p, Short, 2, "t"); wrong+gone > 0 {
		t.Fatal(wrong, gone)
	}
}
