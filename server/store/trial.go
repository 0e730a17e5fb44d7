package store

import (
	"context"
	"errors"
	"fmt"

	"gitpoold/child"
	"gitpoold/faultpoint"
	"gitpoold/frames"
	"gitpoold/journal"
)

// How a stream is kept from leaving more than its tenant may have stands in this file. The child tells what a tenant has at its last checkpoint
// alone. So a step that makes a checkpoint is carried out before the journal has it, while nobody else uses the child and a copy of the tenant
// stands aside. Where the tenant has too much then, the copy takes its place, and the journal never gets the step.

// Judge refuses a tenant that would have so many bytes. It may ask the child what else the tenant would have.
type Judge func(bytes int64, ask Ask) error

// Ask asks the child one thing while nobody else uses it. Refused is its refusal.
type Ask func(frames.Step) ([]byte, error)

// FeedWithin feeds a piece that ends with a checkpoint, and waits for the answer. What `judge` says of the bytes that the tenant has then may
// be an error. That is given back, the stream is closed, and the tenant is as at the checkpoint before, without the objects that no ref reaches.
// On any other error the stream is open still.
func (st *Stream) FeedWithin(ctx context.Context, body []byte, judge Judge) (frames.Answer, error) {
	st.mutex.Lock()
	defer st.mutex.Unlock()
	answer, err := st.try(ctx, frames.Step{Kind: frames.Feed, Tenant: st.tenant, Body: body}, judge)
	if err == nil && outOfMemory([]frames.Answer{answer}) {
		st.isStarved.Store(true)
	}
	return answer, err
}

// CommitWithin ends the stream as Commit does without a last piece, unless `judge` refuses what the tenant has then, as FeedWithin says.
func (st *Stream) CommitWithin(ctx context.Context, judge Judge) ([]byte, error) {
	st.mutex.Lock()
	defer st.mutex.Unlock()
	answer, err := st.try(ctx, frames.Step{Kind: frames.End, Tenant: st.tenant}, judge)
	if err != nil {
		return nil, err
	}
	return st.tell([]frames.Answer{answer}, nil)
}

// try carries out a step alone, and lets the journal have it once `judge` has let it pass.
func (st *Stream) try(ctx context.Context, step frames.Step, judge Judge) (answer frames.Answer, err error) {
	if st.store.child.isClosing() {
		return answer, ErrClosed
	}
	m, err := st.store.beginMaintenance(ctx)
	if err != nil {
		return answer, err
	}
	defer m.done()
	x, err := m.shut(ctx)
	if err != nil {
		return answer, err
	}
	defer x.open()
	if err := st.isThere(x.child.process); err != nil {
		return answer, err
	}
	t := &trial{exclusive: x, stream: st}
	if err := t.putAside(); err != nil {
		return answer, fmt.Errorf("what the repository would have cannot be measured: %w", err)
	}
	faultpoint.Here("before a step is carried out alone")
	if answer, err = t.carryOut(ctx, step, judge); err == nil {
		faultpoint.Here("after a step is carried out alone")
		err = t.note(step, answer)
	}
	return answer, err
}

// trial is a stream of which a step is tried, and the name of the copy of its tenant that stands aside.
type trial struct {
	exclusive
	stream *Stream
	aside  string
}

// ask asks the child one thing.
func (t *trial) ask(step frames.Step) ([]byte, error) { return request(t.child.process, step) }

// orReplaced replaces the child where there is an error: it has what the journal has not.
func (t *trial) orReplaced(err error) error {
	if err != nil {
		t.child.process.Kill()
	}
	return err
}

// putAside copies the tenant. A name that a tenant has is passed over.
func (t *trial) putAside() error {
	const isStreaming, isNotEmpty = 31, 33
	for at := 0; ; at++ {
		t.aside = fmt.Sprint("aside-", at)
		_, err := t.ask(frames.Step{Kind: frames.Copy, Tenant: t.stream.tenant, Body: []byte(t.aside)})
		var refused *Refused
		if !errors.As(err, &refused) {
			return err
		}
		if refused.Number != isStreaming && refused.Number != isNotEmpty {
			_ = t.drop()
			return err
		}
	}
}

// drop removes the copy.
func (t *trial) drop() error {
	_, err := t.ask(frames.Step{Kind: frames.Remove, Tenant: t.aside})
	return t.orReplaced(err)
}

// carryOut lets the child carry a step out and `judge` what that leaves, and does away with the copy.
func (t *trial) carryOut(ctx context.Context, step frames.Step, judge Judge) (answer frames.Answer, err error) {
	st := t.stream
	answers, err := sendAndWait(st.endless(ctx), st.process, step)
	if err != nil {
		return answer, err
	}
	if answer = answers[0]; answer.Status == frames.Ok {
		size, refs, err := measure(st.process, st.tenant)
		if err != nil {
			return answer, t.orReplaced(err)
		}
		if err = judge(size.Bytes, t.ask); err != nil {
			faultpoint.Here("before a step is undone")
			t.undo()
			faultpoint.Here("after a step is undone")
			return answer, err
		}
		t.usage.measured(st.tenant, size, refs)
		st.isMeasured()
	}
	return answer, t.drop()
}

// measure asks a child that nobody else uses what a tenant has.
func measure(process *child.Process, tenant string) (Size, refSize, error) {
	sizes, err := askSizes(process)
	known := map[string]refSize{}
	if err == nil && sizes[tenant].Refs > 0 {
		err = askRefsOf(process, []string{tenant}, sizes, known)
	}
	return sizes[tenant].with(known[tenant]), known[tenant], err
}

// isMeasured says that the store knows what the stream has brought so far.
func (st *Stream) isMeasured() {
	st.fedBefore, st.grownBefore = st.fed, st.grown.Load()
	st.bound.Store(0)
}

// undo puts the copy in the place of the tenant, or replaces the child, which then comes to the same but for what no ref reaches.
func (t *trial) undo() {
	if err := t.putBack(); err != nil {
		t.config.Tell("the child is replaced, since a stream of it that a limit refuses cannot be undone: %v", err)
		t.child.process.Kill()
		return
	}
	t.stream.number = 0
	t.stream.isMeasured()
}

// putBack puts the copy in the place of the tenant. A copy has what the refs reach and no more, so the journal gets a Compact.
func (t *trial) putBack() error {
	tenant := t.stream.tenant
	// Where the step was an End, there is no stream any more.
	_, _ = t.ask(frames.Step{Kind: frames.Abandon, Tenant: tenant})
	compact := frames.Step{Kind: frames.Compact, Tenant: tenant}
	for _, step := range []frames.Step{{Kind: frames.Remove, Tenant: tenant}, {Kind: frames.Copy, Tenant: t.aside, Body: []byte(tenant)},
		{Kind: frames.Remove, Tenant: t.aside}, compact} {
		if _, err := t.ask(step); err != nil {
			return err
		}
	}
	if _, err := t.journal.add(frames.Step{Kind: journal.GivenUp, Tenant: tenant}, compact); err != nil {
		return err
	}
	return t.usage.readFrom(t.child.process)
}

// note lets the journal have a step that the child has carried out.
func (t *trial) note(step frames.Step, answer frames.Answer) error {
	st := t.stream
	t.counters.steps.Add(1)
	if step.Kind == frames.Feed {
		st.fed += int64(len(step.Body))
		_, err := t.journal.Append(step)
		return t.orReplaced(err)
	}
	if outOfMemory([]frames.Answer{answer}) {
		// Another child might have the memory.
		t.child.process.Kill()
		return nil
	}
	if _, err := t.journal.add(st.noted([]frames.Step{step})...); err != nil {
		return t.orReplaced(err)
	}
	st.setEnded()
	st.keep([]frames.Answer{answer}, true)
	return nil
}
