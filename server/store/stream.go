package store

import (
	"context"
	"errors"
	"sort"
	"sync"
	"sync/atomic"
	"time"

	"gitpoold/child"
	"gitpoold/faultpoint"
	"gitpoold/frames"
	"gitpoold/idempotency"
	"gitpoold/journal"
)

// Form says what a stream leaves if it is given up.
type Form byte

// The forms of streams.
const (
	// Checkpoints is a stream of which its checkpoints stay.
	Checkpoints Form = 0
	// Whole is a stream that begins with `feature done` and has no `checkpoint`: it leaves nothing unless it ends.
	Whole Form = 1
)

// Stream is the stream of a tenant. Its calls come from one goroutine.
type Stream struct {
	store  *Store
	tenant string
	form   Form

	// isStarved tells whether the child had no memory for a piece.
	isStarved atomic.Bool

	mutex    sync.Mutex
	fed      int64
	isClosed bool
	// fedBefore and grownBefore are of when the child was last asked what the tenant has, and bound is the most that the stream has left since.
	fedBefore, grownBefore int64
	bound                  atomic.Int64
	// kept is what the stream was answered before its End, if that is to be kept.
	kept *idempotency.Answer
	// These are what the child took for the stream, if its form is Checkpoints, and its memory at the last answer.
	took, grown, resident atomic.Int64

	// These are set by who is inside, and read by who uses the child alone: the child that has the stream, the number of its Open in the
	// journal, and how often the journal had lost records before.
	process *child.Process
	number  uint64
	losses  uint64
	isEnded bool
}

// isOfChild tells whether the child has the stream, and has not got its End.
func (st *Stream) isOfChild(x exclusive) bool { return st.process == x.child.process && !st.isEnded }

// isInJournal tells whether the journal may have all steps of the stream.
func (st *Stream) isInJournal() bool { return st.losses == st.store.journal.Losses() }

// Pending is a piece of a stream that is on its way.
type Pending struct {
	batch *child.Batch
	of    *Stream
}

// Wait gives what the piece printed, or Refused.
func (p Pending) Wait(ctx context.Context) ([]byte, error) {
	answer, err := p.Answer(ctx)
	if err != nil {
		return nil, err
	}
	return replies([]frames.Answer{answer})
}

// Answer waits for the child's answer as it is.
func (p Pending) Answer(ctx context.Context) (answer frames.Answer, err error) {
	answers, err := p.batch.Wait(ctx)
	if err != nil {
		return answer, err
	}
	if outOfMemory(answers) {
		p.of.isStarved.Store(true)
	}
	return answers[0], nil
}

// replies joins the replies of answers, or gives the first refusal.
func replies(answers []frames.Answer) (all []byte, err error) {
	for _, answer := range answers {
		switch answer.Status {
		case frames.Memory:
			return nil, &Refused{90}
		case frames.Fault:
			return nil, &Refused{int(answer.Value)}
		}
		all = append(all, answer.Reply...)
	}
	return all, nil
}

// Late gives Refused under 31 for the error of a context whose time is over: no stream could be opened so soon.
func Late(err error) error {
	if errors.Is(err, context.DeadlineExceeded) {
		return &Refused{31}
	}
	return err
}

// Begin opens a stream of a tenant, which has to be ended by Commit or given up. A tenant that has one is refused under 31, and so is one that
// had to wait for longer than the context lasts because a tenant is moved.
func (s *Store) Begin(ctx context.Context, tenant string, form Form) (*Stream, error) {
	st := &Stream{store: s, tenant: tenant, form: form}
	st.bound.Store(unbounded)
	if err := s.streams.enter(ctx); err != nil {
		return nil, Late(err)
	}
	if !s.streams.add(st) {
		s.streams.leave()
		return nil, &Refused{31}
	}
	pending, err := st.openIn(ctx)
	if err == nil {
		_, err = pending.Wait(ctx)
	}
	if err != nil {
		st.GiveUp()
		return nil, err
	}
	return st, nil
}

func (st *Stream) openIn(ctx context.Context) (Pending, error) {
	st.mutex.Lock()
	defer st.mutex.Unlock()
	in, err := st.store.child.enter(ctx)
	if err != nil {
		return Pending{}, err
	}
	defer in.leave()
	st.process, st.losses = in.process, st.store.journal.Losses()
	record := frames.Step{Kind: frames.Open, Tenant: st.tenant, Body: []byte{byte(st.form)}}
	number, err := st.store.journal.Append(record)
	if err != nil {
		return Pending{}, err
	}
	st.number = number
	batch, err := st.process.Send(child.Endless(ctx), child.Short, frames.Step{Kind: frames.Open, Tenant: st.tenant})
	return Pending{batch, st}, err
}

// Feed feeds a piece of at most frames.LongestBody bytes. It does not wait for the answer. What the journal has the child gets, also where the
// context ends meanwhile: else another child that carries the journal out would come to something else.
func (st *Stream) Feed(ctx context.Context, body []byte) (Pending, error) {
	st.mutex.Lock()
	defer st.mutex.Unlock()
	in, err := st.enter(ctx, st.isThere)
	if err != nil {
		return Pending{}, err
	}
	defer in.leave()
	step := frames.Step{Kind: frames.Feed, Tenant: st.tenant, Body: body}
	if _, err := st.store.journal.Append(step); err != nil {
		return Pending{}, err
	}
	st.fed += int64(len(body))
	st.store.counters.steps.Add(1)
	batch, err := st.process.Send(st.endless(ctx), child.Short, step)
	return Pending{batch, st}, err
}

// endless gives a context that never ends, for steps of the stream. What a Whole stream brings was bounded before.
func (st *Stream) endless(ctx context.Context) context.Context {
	ctx = child.Endless(ctx)
	if st.form == Whole {
		return ctx
	}
	return child.Measuring(ctx, func(cost child.Cost) {
		st.took.Add(int64(cost.Took))
		st.grown.Add(cost.Grown)
		st.resident.Store(cost.Resident)
	})
}

// Cost gives what the child took for the pieces that were answered, and for the End.
func (st *Stream) Cost() child.Cost {
	return child.Cost{Took: time.Duration(st.took.Load()), Grown: st.grown.Load(), Resident: st.resident.Load()}
}

// Bounded says how many bytes of objects and refs the stream has told so far at most, since the child was last asked what the tenant has.
func (st *Stream) Bounded(bytes int64) { st.bound.Store(bytes) }

// Recount asks the child what tenants have at their last checkpoints, for Bytes, unless nothing of the tenant has changed. It waits for its turn as
// long as the context lasts.
func (s *Store) Recount(ctx context.Context, tenant string) error {
	if it := s.usage.get(tenant); it.since == 0 && it.bound == 0 {
		return nil
	}
	return s.RecountAll(ctx)
}

// enter goes in where the stream may go on, as `may` says of the child that there is.
func (st *Stream) enter(ctx context.Context, may func(*child.Process) error) (inside, error) {
	in, err := st.store.child.enter(ctx)
	if err != nil {
		return in, err
	}
	if err = may(in.process); err != nil {
		in.leave()
	}
	return in, err
}

// isOpen is an error where the stream is closed, or its child is not this one.
func (st *Stream) isOpen(process *child.Process) error {
	switch {
	case st.isClosed:
		return &Refused{30}
	case st.process != process:
		return child.ErrGone
	}
	return nil
}

// isThere does the same, and is an error too where the journal lacks what the stream was fed.
func (st *Stream) isThere(process *child.Process) error {
	err := st.isOpen(process)
	if err == nil && !st.isInJournal() {
		err = journal.ErrBroken
	}
	return err
}

// Commit ends the stream with its last piece, which may be empty, and gives what that printed. The piece and the End are in the
// journal and synced before the child gets them; so when Commit returns nil, the push lasts. On an error of the journal, and
// where the context ends before, the stream is open still, and nothing of it lasts if it is given up. Refused closes the stream.
func (st *Stream) Commit(ctx context.Context, last []byte) ([]byte, error) {
	st.mutex.Lock()
	defer st.mutex.Unlock()
	sent, err := st.sendEnd(ctx, last)
	if err != nil {
		return nil, err
	}
	answers, err := sent.batch.Wait(context.Background())
	isTold := err == nil && st.store.inDoubt.forget(sent.number)
	st.keep(answers, isTold)
	switch {
	case !isTold:
		// The journal has the End, so the next child carries it out.
		answers, err = st.store.inDoubt.outcome(sent.outcome)
	case outOfMemory(answers):
		err = st.withdraw()
	}
	return st.tell(answers, err)
}

// tell closes the stream, and gives what its End printed.
func (st *Stream) tell(answers []frames.Answer, err error) (reply []byte, _ error) {
	faultpoint.Here("before a push is told")
	if err == nil {
		reply, err = replies(answers)
	}
	st.close(err == nil)
	return reply, err
}

// withdraw takes back an End for which the child had no memory, and which nobody was told of. What the child has then is not what
// the journal says, so it is replaced. It is ErrUnknown where the journal keeps the End.
func (st *Stream) withdraw() error {
	in, err := st.enter(context.Background(), st.isOpen)
	if err != nil {
		return ErrUnknown
	}
	defer in.leave()
	err = st.store.journal.takeBack(st.number, end{tenant: st.tenant})
	st.process.Kill()
	return err
}

func outOfMemory(answers []frames.Answer) bool {
	for _, answer := range answers {
		if answer.Status == frames.Memory || answer.Status == frames.Fault && answer.Value == 90 {
			return true
		}
	}
	return false
}

// sentEnd is an End that is in the journal, under a number, and was sent to the child. Where the child dies, its outcome comes from the
// next one.
type sentEnd struct {
	number  uint64
	batch   *child.Batch
	outcome <-chan frames.Answer
}

func (st *Stream) sendEnd(ctx context.Context, last []byte) (sentEnd, error) {
	in, err := st.enter(ctx, st.isThere)
	if err != nil {
		return sentEnd{}, err
	}
	defer in.leave()
	s := st.store
	steps := []frames.Step{{Kind: frames.End, Tenant: st.tenant}}
	if len(last) > 0 {
		steps = []frames.Step{{Kind: frames.Feed, Tenant: st.tenant, Body: last}, steps[0]}
		st.fed += int64(len(last))
	}
	number, err := s.journal.add(st.noted(steps)...)
	if err != nil {
		return sentEnd{}, err
	}
	st.setEnded()
	outcome := s.inDoubt.expect(number, end{tenant: st.tenant})
	s.counters.steps.Add(int64(len(steps)))
	faultpoint.Here("before the end is sent")
	batch, err := st.process.Send(st.endless(ctx), child.Short, steps...)
	if err != nil {
		batch = child.Lost(err)
	}
	return sentEnd{number, batch, outcome}, nil
}

// GiveUp ends the stream: of a Whole one nothing stays, of another one its checkpoints. It does nothing where the stream has ended.
func (st *Stream) GiveUp() {
	st.mutex.Lock()
	defer st.mutex.Unlock()
	if st.isClosed {
		return
	}
	ctx := context.Background()
	if in, err := st.enter(ctx, st.isOpen); err == nil {
		// Where the journal lacks its Open, this would take back the End of the tenant's stream before.
		if st.number > 0 && st.isInJournal() {
			st.store.journal.noteGivenUp(st.tenant)
		}
		st.isEnded = true
		giveUp(ctx, st.process, st.tenant)
		in.leave()
	}
	st.store.count(func(c *Counts) { c.GivenUp++ })
	st.close(false)
}

// tellingGrowth is how much more than its bytes a stream takes of the child's memory where that says something.
const tellingGrowth = 1 << 20

// brought is how much the stream may have left since the child was last asked: its bytes, or as much as the child's memory grew by, where few bytes
// have written many; and no more than it is bounded by.
func (st *Stream) brought() int64 {
	fed, grown := st.fed-st.fedBefore, st.grown.Load()-st.grownBefore
	if grown > fed+tellingGrowth {
		fed = grown
	}
	if most := st.bound.Load(); fed > most {
		return most
	}
	return fed
}

// close lets the tenant have another stream.
func (st *Stream) close(well bool) {
	s := st.store
	st.isClosed = true
	if well || st.form == Checkpoints {
		s.usage.add(st.tenant, st.brought(), st.bound.Load())
	}
	s.count(func(c *Counts) {
		if well {
			c.Pushes++
		} else {
			c.Refused++
		}
	})
	s.streams.remove(st)
	if st.form == Checkpoints && st.isStarved.Load() {
		// Another child that carries the journal out may have no memory for the piece either, so the journal is not to keep it for long.
		s.hasStarved.Store(true)
	}
}

// giveUp gives a stream up in the child: its last checkpoint stays.
func giveUp(ctx context.Context, p *child.Process, tenant string) {
	_, _ = sendAndWait(ctx, p, frames.Step{Kind: frames.Abandon, Tenant: tenant})
}

func sendAndWait(ctx context.Context, p *child.Process, step frames.Step) ([]frames.Answer, error) {
	batch, err := p.Send(ctx, child.Short, step)
	if err != nil {
		return nil, err
	}
	return batch.Wait(ctx)
}

// openStreams are the streams that are open. Each is inside the gate. While that is shut, no stream is open and none begins.
type openStreams struct {
	*gate
	merging sync.Mutex

	mutex sync.Mutex
	of    map[string]*Stream
}

// add takes a stream, unless its tenant has one.
func (o *openStreams) add(st *Stream) bool {
	o.mutex.Lock()
	defer o.mutex.Unlock()
	if o.of[st.tenant] != nil {
		return false
	}
	o.of[st.tenant] = st
	return true
}

// remove lets the tenant of a stream have another one.
func (o *openStreams) remove(st *Stream) {
	o.mutex.Lock()
	delete(o.of, st.tenant)
	o.mutex.Unlock()
	o.leave()
}

// those gives the streams that are as `are` says.
func (o *openStreams) those(are func(*Stream) bool) (found []*Stream) {
	o.mutex.Lock()
	defer o.mutex.Unlock()
	for _, it := range o.of {
		if are(it) {
			found = append(found, it)
		}
	}
	return found
}

// openNumbers gives the numbers of the Opens of the streams that the child has, in rising order.
func (x exclusive) openNumbers() (numbers []uint64) {
	isOpen := func(st *Stream) bool { return st.isOfChild(x) && st.number > 0 && st.isInJournal() }
	for _, st := range x.streams.those(isOpen) {
		numbers = append(numbers, st.number)
	}
	sort.Slice(numbers, func(i, k int) bool { return numbers[i] < numbers[k] })
	return numbers
}
