package child

import (
	"context"
	"testing"

	"gitpoold/frames"
)

// TestCostsAreTold measures one of two batches: it gets the child's time and memory before its answers are there, and the other one costs nothing.
func TestCostsAreTold(t *testing.T) {
	p := started(t, 100)
	var costs []Cost
	ctx := Measuring(background, func(cost Cost) { costs = append(costs, cost) })
	question := frames.Step{Kind: frames.Ask, Tenant: "t", Body: []byte("q")}
	for at := 1; at <= 3; at++ {
		for _, of := range []context.Context{ctx, background} {
			batch, err := p.Send(of, Short, question)
			if err != nil {
				t.Fatal(err)
			}
			if _, err := batch.Wait(background); err != nil {
				t.Fatal(err)
			}
		}
		if len(costs) != at {
			t.Fatalf("%d of %d batches were measured", len(costs), at)
		}
		if cost := costs[at-1]; cost.Took <= 0 || cost.Resident <= 0 || cost.Grown > cost.Resident {
			t.Fatalf("%+v", cost)
		}
	}
	if p.measured != 0 {
		t.Fatal("batches are measured still")
	}
	if _, err := p.Send(Endless(ctx), Short, question); err != nil || len(costs) != 3 {
		t.Fatal("an endless context measures")
	}
}
