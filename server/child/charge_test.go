package child

import (
	"context"
	"sync"
	"sync/atomic"
	"testing"
	"time"

	"gitpoold/frames"
)

// TestTheChildsTimeIsCharged has one asker of slow questions, and one whose quick ones wait meanwhile. A quick question that was charged for
// its wait would cost as much as a slow one. The bounds are half of what the slow ones take, for a machine that is busy with other things.
func TestTheChildsTimeIsCharged(t *testing.T) {
	const count = 4
	p := started(t, 1000)
	asked(p, Short, 1, "the start of the child is charged to nobody")
	var charged [2]atomic.Int64
	var all sync.WaitGroup
	ask := func(who int, body string) {
		defer all.Done()
		ctx := Charging(background, func(took time.Duration) { charged[who].Add(int64(took)) })
		for k := 0; k < count; k++ {
			batch, err := p.Send(Endless(ctx), Short, frames.Step{Kind: frames.Ask, Tenant: "t", Body: []byte(body)})
			if err == nil {
				_, err = batch.Wait(background)
			}
			if err != nil {
				t.Error(err)
			}
		}
	}
	all.Add(2)
	go ask(0, "slow")
	go ask(1, "quick")
	all.Wait()
	slowly, quickly := time.Duration(charged[0].Load()), time.Duration(charged[1].Load())
	if slowly < count*slow/2 || quickly > count*slow/2 {
		t.Fatal(slowly, quickly)
	}
	if chargeOf(background) != nil || chargeOf(Endless(context.TODO())) != nil {
		t.Fatal("somebody is charged")
	}
}
