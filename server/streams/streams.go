// Package streams lets a user send streams of git-fast-import(1) to a tenant and ask questions about it, without a protocol of Git: one stream,
// one question, or frames of one tenant.
//
// A stream that ended is in the journal, synced, when its client is told. One that is refused by a limit, or whose client is gone, is given up:
// what it did up to its last checkpoint stays.
package streams

import (
	"context"
	"errors"
	"io"
	"time"

	"gitpoold/access"
	"gitpoold/dailyquota"
	"gitpoold/fastimport"
	"gitpoold/faults"
	"gitpoold/frames"
	"gitpoold/gateway"
	"gitpoold/limits"
	"gitpoold/store"
	"gitpoold/tenants"
)

// Use is what a user does with one tenant.
type Use struct {
	Gateway       *gateway.Gateway
	User, Address string
	Tenant        tenants.Tenant
	Meter         *dailyquota.Meter
	In            io.Reader
	// Out takes answers. A Write fails where the client takes nothing for too long.
	Out io.Writer
	// Tell writes a line to the user's terminal.
	Tell func(sentence string)
	// IsThere tells, after the end of In, whether the client ended it. Else the connection broke off.
	IsThere func(ctx context.Context) bool
	// IsLetIn is asked before frames that begin something. It is an error where what let the user in is no longer valid.
	IsLetIn func() error
	// Cut ends the connection, whatever the client does.
	Cut func()
	// Stopping is closed when the server stops.
	Stopping <-chan struct{}
}

// errLost says that the client was gone before its stream ended.
var errLost = errors.New("the connection broke off before the stream ended")

// NumberOf gives the number of the fault by which an error of this package is told; 68 where the service is away.
func NumberOf(err error) int {
	var passed limits.Passed
	var blocked *access.Blocked
	var refused *fastimport.Refused
	switch {
	case errors.As(err, &refused), errors.As(err, &passed), errors.As(err, &blocked), errors.Is(err, tenants.ErrFull),
		errors.Is(err, limits.ErrUserBusy), errors.Is(err, dailyquota.ErrBytes), errors.Is(err, dailyquota.ErrChild), errors.Is(err, gateway.ErrReadOnly),
		errors.As(err, new(gateway.Mirrored)):
		return 25
	case errors.Is(err, gateway.ErrNotFound):
		return 32
	case errors.Is(err, frames.ErrWrong):
		return 50
	case errors.Is(err, frames.ErrCut):
		return 51
	}
	if number := tenants.ErrorNumber(err); number > 0 {
		return number
	}
	return 68
}

// Sentence gives what a user is told of an error.
func Sentence(err error) string {
	if NumberOf(err) != 68 || tenants.IsSentence(err) {
		return err.Error()
	}
	return "the server failed; its log says why"
}

// arrival is what came from a client, or the error in its place.
type arrival[T any] struct {
	value T
	err   error
}

// arrivals reads in the background, so that whoever waits for what comes can stop waiting. It reads the next one when the one before was
// taken, until an error or until `stop` is closed.
func arrivals[T any](read func() (T, error), stop <-chan struct{}) <-chan arrival[T] {
	all := make(chan arrival[T])
	go func() {
		for {
			var it arrival[T]
			it.value, it.err = read()
			select {
			case all <- it:
			case <-stop:
				return
			}
			if it.err != nil {
				return
			}
		}
	}()
	return all
}

// next waits for what comes next: ErrSilent where that takes too long; of a stream that is open, ErrStreamAge where it gets too old meanwhile, and
// *access.Blocked; and store.ErrClosed where the server stops and no stream is open.
func next[T any](ctx context.Context, u Use, from <-chan arrival[T], open *stream) (value T, err error) {
	silent := time.NewTimer(u.Gateway.Limits.Get().FrameIdle)
	defer silent.Stop()
	stopping := u.Stopping
	var old <-chan time.Time
	var blocked <-chan error
	if open != nil {
		stopping, blocked = nil, open.blocked
		age := time.NewTimer(time.Until(open.until))
		defer age.Stop()
		old = age.C
	}
	select {
	case it := <-from:
		return it.value, it.err
	case <-silent.C:
		return value, limits.ErrSilent
	case <-old:
		return value, limits.ErrStreamAge
	case err := <-blocked:
		return value, err
	case <-stopping:
		return value, store.ErrClosed
	case <-ctx.Done():
		return value, ctx.Err()
	}
}

// write lets the client take bytes within a time. They count among the answers that wait.
func (u Use) write(bytes []byte, within time.Duration) error {
	taken, err := u.Gateway.Limits.Wait(u.User, len(bytes))
	if err != nil {
		return err
	}
	defer taken()
	return u.writeInAnyCase(bytes, within)
}

func (u Use) writeInAnyCase(bytes []byte, within time.Duration) error {
	if len(bytes) == 0 {
		return nil
	}
	timer := time.AfterFunc(within, u.Cut)
	defer timer.Stop()
	_, err := u.Out.Write(bytes)
	return err
}

// within is how long the client has to take an answer.
func (u Use) within(open *stream) time.Duration {
	values := u.Gateway.Limits.Get()
	if open == nil {
		return values.Request
	}
	// A stream that gets too old meanwhile is given up with its connection.
	return time.Until(open.until) + values.Idle
}

// mayGoOn refuses a user who has taken what a day allows, or has too many answers to take.
func (u Use) mayGoOn() error {
	if err := u.Meter.Err(); err != nil {
		return err
	}
	return u.Gateway.Limits.MayWait(u.User)
}

// question asks one question.
func (u Use) question(ctx context.Context, query []byte) (frames.Answer, error) {
	if err := u.mayGoOn(); err != nil {
		return frames.Answer{}, err
	}
	wait, err := u.Gateway.Pool.Pass(ctx, []frames.Step{{Kind: frames.Ask, Tenant: u.Tenant.Name(), Body: query}})
	if err != nil {
		return frames.Answer{}, err
	}
	answers, err := wait(ctx)
	if err != nil {
		return frames.Answer{}, err
	}
	return answers[0], nil
}

// Ask answers one query.
func (u Use) Ask(ctx context.Context, query string) error {
	answer, err := u.question(ctx, []byte(query))
	if err == nil {
		err = u.write(answer.Reply, u.within(nil))
	}
	if err == nil {
		err = faultOf(answer)
	}
	return err
}

// faultOf gives the fault of an answer, if it is one.
func faultOf(answer frames.Answer) error {
	switch answer.Status {
	case frames.Fault:
		return faults.Fault(answer.Value)
	case frames.Memory:
		return faults.Fault(90)
	}
	return nil
}
