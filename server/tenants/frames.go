package tenants

import (
	"context"
	"errors"

	"gitpoold/child"
	"gitpoold/faults"
	"gitpoold/frames"
	"gitpoold/idempotency"
	"gitpoold/journal"
	"gitpoold/store"
)

// FrameStream is a stream of a client that speaks frames: its steps are answered as `gitpool host` answers them, and an End lasts from
// its answer on. It belongs to one goroutine.
type FrameStream struct {
	tenant Tenant
	inner  *store.Stream
	leave  func()
}

// OpenFrames opens a stream as an Open does. It waits for a push of the tenant as long as the context lasts, and is then refused
// under 31.
func (t Tenant) OpenFrames(ctx context.Context) (*FrameStream, error) {
	unlock, err := t.pool.locks.take(ctx, t.name)
	if err != nil {
		return nil, faults.Fault(31)
	}
	if _, err := t.RoomCounted(ctx); err != nil {
		unlock()
		return nil, faults.Fault(25)
	}
	share, err := t.Enter()
	if err != nil {
		unlock()
		return nil, err
	}
	inner, err := t.pool.store.Begin(ctx, t.name, store.Checkpoints)
	if err != nil {
		share.Leave(false)
		unlock()
		return nil, fromStore(err)
	}
	return &FrameStream{t, inner, func() { share.Leave(true); unlock() }}, nil
}

// OpenOnce opens a stream as OpenFrames does, unless one with this token has ended well before. Then it gives what that one was answered, and
// no stream. Without a token it opens one in any case.
func (t Tenant) OpenOnce(ctx context.Context, token string) (*FrameStream, *idempotency.Answer, error) {
	stream, err := t.OpenFrames(ctx)
	// One that had the tenant while this one waited may have had the same token.
	kept := t.Kept(token)
	if kept == nil {
		return stream, nil, err
	}
	if err == nil {
		stream.GiveUp()
	}
	return nil, kept, nil
}

// Kept gives what the stream with a token was answered, if one has ended well and that is kept.
func (t Tenant) Kept(token string) *idempotency.Answer {
	if kept, found := t.pool.store.Kept(t.name, token); found {
		return &kept
	}
	return nil
}

// AtEnd lets `do` be called when the stream has ended or was given up, while no other stream of the tenant can begin.
func (s *FrameStream) AtEnd(do func()) {
	leave := s.leave
	s.leave = func() { do(); leave() }
}

// Keep lets what the stream is answered be kept where it ends well: `before` is what it was answered so far, and its token.
func (s *FrameStream) Keep(before idempotency.Answer) { s.inner.Keep(before) }

// Feed feeds a piece, and gives the call that waits for the answer.
func (s *FrameStream) Feed(ctx context.Context, body []byte) (func(context.Context) (frames.Answer, error), error) {
	pending, err := s.inner.Feed(ctx, body)
	return pending.Answer, err
}

// Cost gives what the child took for the stream so far.
func (s *FrameStream) Cost() child.Cost { return s.inner.Cost() }

// Had is how many bytes the tenant has at most, without what the stream has brought since the tenant was last measured.
func (s *FrameStream) Had() int64 { return s.tenant.pool.store.AtMost(s.tenant.name) }

// Fits tells whether the tenant may have so many bytes more than it Had. That is the most that the stream has brought since.
func (s *FrameStream) Fits(more int64) bool {
	s.inner.Bounded(more)
	return s.tenant.Allows(s.Had()+more) == nil
}

// FeedMeasured feeds a piece that ends with a checkpoint, and waits for the answer. It is ErrFull where the tenant may not have what it would have
// then, or the error of `judge`, which may be nil: that is dropped.
func (s *FrameStream) FeedMeasured(ctx context.Context, body []byte, judge func(Trial) error) (frames.Answer, error) {
	return s.inner.FeedWithin(ctx, body, s.tenant.judgedBy(judge))
}

// EndMeasured ends the stream as End does. It is ErrFull where the tenant may not have what it would have then, or the error of `judge`: that is
// dropped.
func (s *FrameStream) EndMeasured(ctx context.Context, judge func(Trial) error) (frames.Answer, error) {
	return s.ended(s.inner.CommitWithin(ctx, s.tenant.judgedBy(judge)))
}

// End ends the stream, and gives the answer once it is in the journal and synced. On an error the stream is open still.
func (s *FrameStream) End(ctx context.Context) (frames.Answer, error) {
	return s.ended(s.inner.Commit(ctx, nil))
}

func (s *FrameStream) ended(reply []byte, err error) (frames.Answer, error) {
	// One that stands inside of another error has not closed the stream.
	refused, isRefused := err.(*store.Refused)
	switch {
	case isRefused:
		s.leave()
		return frames.Answer{Status: frames.Fault, Value: uint64(refused.Number)}, nil
	case err == nil:
		s.leave()
	}
	return frames.Answer{Reply: reply}, err
}

// GiveUp drops the stream of a client that is gone: what it did since its last checkpoint.
func (s *FrameStream) GiveUp() {
	s.inner.GiveUp()
	s.leave()
}

// Pass asks for the child's answers to questions in frames, in one batch.
func (p *Pool) Pass(ctx context.Context, questions []frames.Step) (func(context.Context) ([]frames.Answer, error), error) {
	class := child.Short
	for _, question := range questions {
		if question.Kind == frames.Missing || question.Kind == frames.Entries {
			class = child.Bulk
		}
	}
	batch, err := p.store.Ask(ctx, class, questions...)
	if err != nil {
		return nil, err
	}
	return batch.Wait, nil
}

// ErrorNumber gives the number of the fault by which an error is told to a client that speaks frames, 0 where there is none: the
// connection ends then, as that of a `serve` that ended.
func ErrorNumber(err error) int {
	var fault faults.Fault
	var refused *store.Refused
	var follows *store.Follows
	switch {
	case errors.As(err, &follows):
		return 68
	case errors.As(err, &fault):
		return int(fault)
	case errors.As(err, &refused):
		return refused.Number
	case errors.Is(err, journal.ErrTooLarge):
		return 25
	case errors.Is(err, journal.ErrFull), errors.Is(err, journal.ErrBroken), errors.Is(err, journal.ErrAway):
		return 68
	}
	return 0
}
