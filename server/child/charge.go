package child

import (
	"context"
	"math"
	"time"
)

// chargeKey is the key, among the values of a context, of who is charged for the child's time.
type chargeKey struct{}

// Charging gives a context whose batches are charged for: `charge` gets the time that the child has worked for each of them.
func Charging(ctx context.Context, charge func(time.Duration)) context.Context {
	return context.WithValue(ctx, chargeKey{}, charge)
}

func chargeOf(ctx context.Context) func(time.Duration) {
	charge, _ := ctx.Value(chargeKey{}).(func(time.Duration))
	return charge
}

// Cost is what the child took for steps: its time, and by how many bytes its own memory has grown. Resident is how much it had then, with all
// that it maps of files.
type Cost struct {
	Took            time.Duration
	Grown, Resident int64
}

// measureKey is the key, among the values of a context, of who measures.
type measureKey struct{}

// Measuring gives a context whose batches are measured: `measure` gets what each of them cost, before its answers are there.
func Measuring(ctx context.Context, measure func(Cost)) context.Context {
	return context.WithValue(ctx, measureKey{}, measure)
}

func measureOf(ctx context.Context) func(Cost) {
	measure, _ := ctx.Value(measureKey{}).(func(Cost))
	return measure
}

// roomKey is the key, among the values of a context, of the room for replies.
type roomKey struct{}

// InRoom gives a context whose batches have room for so many bytes of replies. The answers that come once there is none left are dropped, so at
// least one is kept; who asks may ask the rest again.
func InRoom(ctx context.Context, bytes int64) context.Context {
	return context.WithValue(ctx, roomKey{}, bytes)
}

// longestKey is the key, among the values of a context, of the longest reply that is taken.
type longestKey struct{}

// Longest gives a context whose batches take no reply of more than so many bytes: the answer is fault 25 then.
func Longest(ctx context.Context, bytes int64) context.Context {
	return context.WithValue(ctx, longestKey{}, bytes)
}

// boundOf gives what a context says under one of these keys, which is without end where it says nothing.
func boundOf(ctx context.Context, key any) int64 {
	if bound, has := ctx.Value(key).(int64); has {
		return bound
	}
	return math.MaxInt64
}

// Endless gives a context that never ends, and charges as another one does. It measures nothing.
func Endless(ctx context.Context) context.Context {
	return context.WithValue(context.Background(), chargeKey{}, chargeOf(ctx))
}
