package streams

import (
	"context"
	"errors"
	"time"

	"gitpoold/access"
	"gitpoold/child"
	"gitpoold/fastimport"
	"gitpoold/frames"
	"gitpoold/hooks"
	"gitpoold/idempotency"
	"gitpoold/limits"
	"gitpoold/plumbing"
	"gitpoold/tenants"
)

// openPatience is how long an Open waits for another stream, or a push, of the same tenant.
const openPatience = 5 * time.Second

// stream is a stream that is open, with what its limits count.
type stream struct {
	Use
	inner *tenants.FrameStream
	until time.Time
	most  int64
	taken int64
	// journaled is how much of the journal the stream takes.
	journaled int64
	reader    *fastimport.Reader
	pace      pace
	growth    growth
	counted   child.Cost
	answer    idempotency.Answer
	// blocked has the refusal where the user or the tenant is blocked meanwhile.
	blocked chan error
	over    chan struct{}
	unwatch func()
	leave   func()
	isOver  bool
}

// open opens a stream, unless one with this token has ended well: then it gives what that one was answered, whatever the limits say, and no stream.
func (u Use) open(ctx context.Context, token string) (*stream, *idempotency.Answer, error) {
	if kept := u.Tenant.Kept(token); kept != nil {
		return nil, kept, nil
	}
	if err := u.mayOpen(ctx); err != nil {
		return nil, nil, err
	}
	leave, err := u.Gateway.Limits.EnterStream(u.User, u.Tenant.Name())
	if err != nil {
		return nil, nil, err
	}
	patient, stop := context.WithTimeout(ctx, openPatience)
	defer stop()
	inner, kept, err := u.Tenant.OpenOnce(patient, token)
	if inner == nil {
		leave()
		return nil, kept, err
	}
	// The stream may have waited for others, which took of the room.
	room, err := u.Tenant.Room()
	if err != nil {
		leave()
		inner.GiveUp()
		return nil, nil, err
	}
	values := u.Gateway.Limits.Get()
	s := &stream{Use: u, inner: inner, until: time.Now().Add(values.StreamAge), most: values.StreamBytes,
		reader: fastimport.New(values.Fsck, u.Tenant.Object), pace: newPace(), growth: growth{room: room},
		answer: idempotency.New(token, nil), leave: leave, blocked: make(chan error), over: make(chan struct{})}
	_, s.unwatch = u.Gateway.Watch(context.Background(), u.User, u.Tenant.Name(), access.Write, s.block)
	if err := s.tellChanges(ctx); err != nil {
		s.giveUp()
		return nil, nil, err
	}
	return s, nil, nil
}

// mayOpen refuses a stream of a tenant that is full or has hooks which judge pushes, and of a user who may not go on.
func (u Use) mayOpen(ctx context.Context) error {
	_, err := u.Tenant.RoomCounted(ctx)
	if err == nil {
		err = u.mayPassHooks()
	}
	if err == nil {
		err = u.mayGoOn()
	}
	return err
}

// blockWithin is how long a client that is blocked may be at work with an answer; then its connection is cut.
const blockWithin = 500 * time.Millisecond

// block lets whoever waits for the client know that the user or the tenant is blocked.
func (s *stream) block(why error) {
	select {
	case s.blocked <- why:
	case <-s.over:
	case <-time.After(blockWithin):
		s.Cut()
	}
}

// feed feeds a piece in parts, and lets `take` take what each of them prints. It gives how the last part went that was fed: the first that was
// refused. On an error, also of `take`, the stream was given up.
func (s *stream) feed(ctx context.Context, piece []byte, take func(printed []byte) error) (answer frames.Answer, err error) {
	for isFirst := true; isFirst || len(piece) > 0 && answer.Status == frames.Ok; isFirst = false {
		part, refused := s.reader.Next(ctx, piece, s.pace.next)
		answer, err = s.feedPart(ctx, piece[:part.Bytes], part)
		piece = piece[part.Bytes:]
		if err == nil {
			err = take(answer.Reply)
		}
		if err == nil && answer.Status == frames.Ok {
			// What came before is carried out first, for it may have a fault or a checkpoint.
			err = refused
		}
		if err != nil {
			s.giveUp()
			return frames.Answer{}, err
		}
	}
	return answer, nil
}

func (s *stream) feedPart(ctx context.Context, piece []byte, part fastimport.Part) (frames.Answer, error) {
	if err := s.mayTake(int64(len(piece))); err != nil {
		return frames.Answer{}, err
	}
	answer, err := s.feedFitting(ctx, piece, part)
	if err != nil || answer.Status != frames.Ok {
		return answer, err
	}
	cost := s.count()
	s.pace.adapt(part, cost.Took)
	if s.growth.isBeyond(s.reader.Things()) {
		return frames.Answer{}, limits.ErrQuota
	}
	return answer, nil
}

// fits tells whether the tenant may have whatever the stream has told. Else what it has is measured at the next checkpoint.
func (s *stream) fits() bool { return s.inner.Fits(s.reader.Most(s.inner.Had())) }

// feedFitting feeds a part. A checkpoint at its end is undone if the tenant may not have what it would have then, or a ref may not change so.
func (s *stream) feedFitting(ctx context.Context, piece []byte, part fastimport.Part) (frames.Answer, error) {
	if !part.HasCheckpoint {
		return s.feedInner(ctx, piece)
	}
	judge, err := s.judge(ctx)
	switch {
	case err != nil:
		return frames.Answer{}, err
	case judge == nil && s.fits():
		return s.feedInner(ctx, piece)
	}
	answer, err := s.inner.FeedMeasured(ctx, piece, judge)
	if err == nil && answer.Status == frames.Ok {
		s.reader.Forget()
		s.growth, err = s.newGrowth()
	}
	s.keepAnswer(answer)
	return answer, atQuota(err)
}

// newGrowth begins to count anew, from what the tenant has now.
func (s *stream) newGrowth() (growth, error) {
	room, err := s.Tenant.Room()
	if errors.Is(err, tenants.ErrFull) {
		// What follows may be what the tenant has already.
		err = nil
	}
	return growth{room: room}, err
}

// atQuota says in the words of streams that the tenant is full.
func atQuota(err error) error {
	if err == tenants.ErrFull {
		return limits.ErrQuota
	}
	return err
}

// count counts what the child took since the last count, and gives it.
func (s *stream) count() child.Cost {
	all := s.inner.Cost()
	cost := child.Cost{Took: all.Took - s.counted.Took, Grown: all.Grown - s.counted.Grown, Resident: all.Resident}
	s.counted = all
	s.growth.add(cost)
	return cost
}

func (s *stream) feedInner(ctx context.Context, piece []byte) (frames.Answer, error) {
	wait, err := s.inner.Feed(ctx, piece)
	if err != nil {
		return frames.Answer{}, err
	}
	answer, err := wait(ctx)
	s.keepAnswer(answer)
	return answer, err
}

func (s *stream) keepAnswer(answer frames.Answer) {
	if s.answer.Token != "" && len(answer.Reply) > 0 {
		s.answer = s.answer.With(answer.Reply)
	}
}

// Each part is a record of the journal, which has at most recordBytes beside. A stream takes at most journalFactor times as many bytes of the journal
// as it may have itself.
const (
	recordBytes   = 128
	journalFactor = 2
)

// mayTake counts more bytes of the stream, and refuses those that go beyond a limit.
func (s *stream) mayTake(more int64) error {
	s.taken += more
	s.journaled += more + recordBytes
	switch {
	case time.Now().After(s.until):
		return limits.ErrStreamAge
	case s.taken > s.most || s.journaled > journalFactor*s.most:
		return limits.ErrStreamBytes
	}
	if err := s.Gateway.Access.Blocked(s.User, s.Tenant.Name(), access.Write); err != nil {
		return err
	}
	return s.mayGoOn()
}

// end ends the stream, and gives the answer once the End is in the journal and synced. On an error the stream was given up.
func (s *stream) end(ctx context.Context) (answer frames.Answer, err error) {
	if s.answer.Token != "" {
		s.inner.Keep(s.answer)
	}
	if err = s.mayTake(0); err == nil {
		answer, err = s.endFitting(ctx)
	}
	if err != nil {
		s.giveUp()
		return frames.Answer{}, err
	}
	s.close()
	return answer, nil
}

// endFitting ends the stream, unless the tenant may not have what it would have then, or a ref may not change so.
func (s *stream) endFitting(ctx context.Context) (frames.Answer, error) {
	judge, err := s.judge(ctx)
	switch {
	case err != nil:
		return frames.Answer{}, err
	case judge == nil && s.fits():
		return s.inner.End(ctx)
	}
	answer, err := s.inner.EndMeasured(ctx, judge)
	return answer, atQuota(err)
}

func (s *stream) close() {
	s.isOver = true
	close(s.over)
	s.unwatch()
	s.leave()
}

// giveUp drops what the stream did since its last checkpoint, if it has not ended.
func (s *stream) giveUp() {
	if !s.isOver {
		s.inner.GiveUp()
		s.close()
	}
}

// changesWithin is how long the refs of a tenant are waited for after its stream.
const changesWithin = time.Minute

// tellChanges lets the log and the hooks be told, at the end of the stream, which refs it has changed.
func (s *stream) tellChanges(ctx context.Context) error {
	before, _, err := s.Tenant.Refs(ctx)
	if err != nil {
		return err
	}
	s.inner.AtEnd(func() {
		soon, stop := context.WithTimeout(context.Background(), changesWithin)
		defer stop()
		after, _, err := s.Tenant.Refs(soon)
		if err != nil {
			s.Gateway.Log.Printf("which refs a stream of %s changed in %s is not known: %v", s.User, s.Tenant.Name(), err)
			return
		}
		s.Gateway.Changed(s.Address, hooks.Push{Tenant: s.Tenant.Name(), User: s.User, Changes: changes(before, after)})
	})
	return nil
}

// changes gives what is different in two lists of refs, both in the order of their names.
func changes(before, after []tenants.Ref) (all []hooks.Change) {
	for len(before) > 0 || len(after) > 0 {
		var it hooks.Change
		none := plumbing.Name{}.String()
		switch {
		case len(after) == 0 || len(before) > 0 && before[0].Name < after[0].Name:
			it = hooks.Change{Ref: before[0].Name, Old: before[0].Target.String(), New: none}
			before = before[1:]
		case len(before) == 0 || after[0].Name < before[0].Name:
			it = hooks.Change{Ref: after[0].Name, Old: none, New: after[0].Target.String()}
			after = after[1:]
		default:
			it = hooks.Change{Ref: after[0].Name, Old: before[0].Target.String(), New: after[0].Target.String()}
			before, after = before[1:], after[1:]
		}
		if it.Old != it.New {
			all = append(all, it)
		}
	}
	return all
}
