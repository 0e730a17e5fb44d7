package store

import (
	"context"
	"encoding/binary"
	"errors"
	"fmt"

	"gitpoold/child"
	"gitpoold/frames"
	"gitpoold/journal"
)

// replay is the journal on its way to a new child.
type replay struct {
	started
	fate    fate
	streams map[string]*replayed
	waiting []sent
	// answered is told the answers that somebody may wait for, and brought how many bytes a stream has brought to a tenant.
	answered func(record journal.Record, answer frames.Answer)
	brought  func(tenant string, bytes int64)
	// ended has the tenants whose last stream has ended, where the journal goes on: what comes of other streams is not known yet. Else it is nil.
	// fed has the bytes of streams whose Ends have no answer yet, by the numbers of these.
	ended map[string]bool
	fed   map[uint64]int64
}

// newReplay is for a journal that is carried out to its end, of which nobody is told.
func newReplay(by started, fate fate) *replay {
	return &replay{started: by, fate: fate, streams: map[string]*replayed{},
		answered: func(journal.Record, frames.Answer) {}, brought: func(string, int64) {}}
}

// newOngoing is for a journal that goes on, of which nobody is told.
func newOngoing(by started, fate fate) *replay {
	r := newReplay(by, fate)
	r.ended, r.fed = map[string]bool{}, map[uint64]int64{}
	return r
}

// fate is what became of what is in the journal, by the numbers of records: the Opens whose streams have an End that was not taken back,
// those whose End was, and the operator's requests that were taken back. takenEnds are the Ends that were taken back.
type fate struct {
	ended, withdrawn, takenBack map[uint64]bool
	takenEnds                   []frames.Step
}

// replayed is a stream that is open in the journal. One that leaves nothing is left out.
type replayed struct {
	form      Form
	hasEnd    bool
	isLeftOut bool
	fed       int64
	// held is the last piece of a Whole stream, where the journal goes on: its refs change with that piece, so it waits for the End.
	held *journal.Record
}

type sent struct {
	batch  *child.Batch
	record journal.Record
}

// replayAhead is how many steps are with the child at once.
const replayAhead = 64

// fateOf looks through the journal for what became of its streams and requests.
func (w *wal) fateOf(pool journal.Digest) (fate, error) {
	found := fate{ended: map[uint64]bool{}, withdrawn: map[uint64]bool{}, takenBack: map[uint64]bool{}}
	open, ends := map[string]uint64{}, map[string]frames.Step{}
	err := w.Records(pool, func(r journal.Record) error {
		switch r.Step.Kind {
		case frames.Open:
			open[r.Step.Tenant] = r.Number
		case frames.End:
			found.ended[open[r.Step.Tenant]] = true
			ends[r.Step.Tenant] = r.Step
		case journal.GivenUp:
			if number := open[r.Step.Tenant]; found.ended[number] {
				delete(found.ended, number)
				found.withdrawn[number] = true
				found.takenEnds = append(found.takenEnds, ends[r.Step.Tenant])
			}
		case journal.TakenBack:
			if len(r.Step.Body) == 8 {
				found.takenBack[binary.BigEndian.Uint64(r.Step.Body)] = true
			}
		}
		return nil
	})
	return found, err
}

// errTakenBack says that the log takes back what the child has carried out, so that another one has to begin anew.
var errTakenBack = errors.New("the log takes back what was carried out")

// take carries out one record.
func (r *replay) take(record journal.Record) error {
	step := record.Step
	switch step.Kind {
	case frames.Open:
		return r.takeOpen(record)
	case journal.GivenUp:
		if r.ended[step.Tenant] {
			return errTakenBack
		}
		return r.takeGivenUp(step.Tenant)
	case journal.TakenBack:
		return r.takeTakenBack(step.Body)
	case frames.Remove, frames.Compact:
		return r.takeRequest(record, step.Tenant)
	case frames.Copy:
		return r.takeRequest(record, string(step.Body))
	}
	stream := r.streams[step.Tenant]
	if stream == nil || stream.isLeftOut || step.Kind == frames.End && !stream.hasEnd {
		return nil
	}
	if stream.fed += int64(len(step.Body)); step.Kind == frames.End {
		delete(r.streams, step.Tenant)
		if r.ended != nil {
			r.ended[step.Tenant], r.fed[record.Number] = true, stream.fed
		}
	}
	if r.ended != nil && stream.form == Whole {
		return r.sendHeld(stream, record)
	}
	return r.send(record)
}

// takeTakenBack takes a request of the operator back, which was not carried out if that was known before.
func (r *replay) takeTakenBack(number []byte) error {
	if r.ended != nil && len(number) == 8 && !r.fate.takenBack[binary.BigEndian.Uint64(number)] {
		return errTakenBack
	}
	return nil
}

// takeRequest carries out a request of the operator that changes a tenant. A stream that the tenant has in the journal still was not with
// the child when it got the request: it was lost with an earlier child.
func (r *replay) takeRequest(record journal.Record, changed string) error {
	if r.fate.takenBack[record.Number] {
		return nil
	}
	if err := r.takeGivenUp(changed); err != nil {
		return err
	}
	return r.send(record)
}

func (r *replay) takeOpen(record journal.Record) error {
	tenant := record.Step.Tenant
	if err := r.takeGivenUp(tenant); err != nil {
		return err
	}
	stream := &replayed{}
	if len(record.Step.Body) == 1 {
		stream.form = Form(record.Step.Body[0])
	}
	stream.hasEnd = r.fate.ended[record.Number]
	stream.isLeftOut = stream.form == Whole && !stream.hasEnd
	if r.ended != nil {
		delete(r.ended, tenant)
		stream.hasEnd = !r.fate.withdrawn[record.Number]
		stream.isLeftOut = stream.form == Whole && !stream.hasEnd
	}
	r.streams[tenant] = stream
	if stream.isLeftOut {
		return nil
	}
	record.Step.Body = nil
	return r.send(record)
}

// takeGivenUp gives a tenant's stream up, if it has one.
func (r *replay) takeGivenUp(tenant string) error {
	if r.streams[tenant] == nil {
		return nil
	}
	err := r.settle(0)
	r.drop(tenant)
	return err
}

func (r *replay) drop(tenant string) {
	stream := r.streams[tenant]
	delete(r.streams, tenant)
	if r.ended != nil && stream.form == Checkpoints {
		r.brought(tenant, stream.fed)
	}
	if !stream.isLeftOut {
		giveUp(context.Background(), r.process, tenant)
	}
}

func (r *replay) send(record journal.Record) error {
	step := record.Step
	if step.Kind == frames.End {
		step.Body = nil
	}
	batch, err := r.process.Send(context.Background(), child.Short, step)
	if err != nil {
		return err
	}
	r.waiting = append(r.waiting, sent{batch, record})
	return r.settle(replayAhead)
}

// settle waits until at most so many steps are without an answer. A refusal is the same as when the step was first taken; a stop for
// want of memory is not.
func (r *replay) settle(most int) error {
	for len(r.waiting) > most {
		it := r.waiting[0]
		r.waiting = r.waiting[1:]
		answers, err := it.batch.Wait(context.Background())
		if err != nil {
			return err
		}
		if outOfMemory(answers) {
			return fmt.Errorf("the child has no memory to carry out the journal: %w", &Refused{90})
		}
		r.note(it.record, answers[0])
	}
	return nil
}

// note tells an answer that somebody may wait for, or what a stream has brought to a tenant.
func (r *replay) note(record journal.Record, answer frames.Answer) {
	switch record.Step.Kind {
	case frames.End, frames.Remove, frames.Compact, frames.Copy:
		r.answered(record, answer)
	}
	if fed, has := r.fed[record.Number]; has {
		delete(r.fed, record.Number)
		if answer.Status == frames.Ok {
			r.brought(record.Step.Tenant, fed)
		}
	}
}

// sendHeld sends the piece that was held, and holds this one.
func (r *replay) sendHeld(stream *replayed, record journal.Record) error {
	held := stream.held
	stream.held = nil
	if held != nil {
		if err := r.send(*held); err != nil {
			return err
		}
	}
	if record.Step.Kind == frames.Feed {
		stream.held = &record
		return nil
	}
	return r.send(record)
}
