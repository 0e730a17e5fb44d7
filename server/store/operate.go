package store

import (
	"context"

	"gitpoold/faultpoint"
	"gitpoold/frames"
)

// Remove removes a tenant. It may be Refused: under 32, and under 31 while the tenant has a stream. The removal lasts when Remove
// returns nil. What the tenant had stays in the journal until the next save.
func (s *Store) Remove(ctx context.Context, tenant string) error {
	return s.operate(ctx, tenant, frames.Step{Kind: frames.Remove, Tenant: tenant})
}

// Compact removes the objects of a tenant that its refs do not reach. It may be Refused as Remove is, and under 90.
func (s *Store) Compact(ctx context.Context, tenant string) error {
	return s.operate(ctx, tenant, frames.Step{Kind: frames.Compact, Tenant: tenant})
}

// Copy copies a tenant, as it is at its last checkpoint, to an empty one. It may be Refused.
func (s *Store) Copy(ctx context.Context, from, to string) error {
	return s.operate(ctx, to, frames.Step{Kind: frames.Copy, Tenant: from, Body: []byte(to)})
}

// operate carries out a request of the operator that changes one tenant. Where the child dies meanwhile, the next one carries it out.
func (s *Store) operate(ctx context.Context, changed string, step frames.Step) error {
	m, err := s.beginMaintenance(ctx)
	if err != nil {
		return err
	}
	number, outcome, err := m.sendRequest(ctx, changed, step)
	if number > 0 && step.Kind == frames.Remove && changed == m.halfMerged {
		m.halfMerged = ""
	}
	m.done()
	if number == 0 {
		return err
	}
	if _, isRefused := err.(*Refused); (err == nil || isRefused) && s.inDoubt.forget(number) {
		return err
	}
	answers, err := s.inDoubt.outcome(outcome)
	if err == nil {
		_, err = replies(answers)
	}
	return err
}

// sendRequest puts a request into the journal, syncs that, and lets the child carry the request out. No step comes in between, so that
// the journal has it at the same place among all steps as the child. The number is 0 if it did not come into the journal, or was taken
// back there. Where the child dies, the outcome comes from the next one.
func (m maintenance) sendRequest(ctx context.Context, changed string, step frames.Step) (number uint64, outcome <-chan frames.Answer, err error) {
	x, err := m.shut(ctx)
	if err != nil {
		return 0, nil, err
	}
	defer x.open()
	if x.HasStream(changed) {
		return 0, nil, &Refused{31}
	}
	if number, err = x.journal.add(step); err != nil {
		return 0, nil, err
	}
	outcome = x.inDoubt.expect(number, end{isRequest: true})
	faultpoint.Here("before a request of the operator is sent")
	_, err = request(x.child.process, step)
	if refused, isRefused := err.(*Refused); isRefused && refused.Number == 90 {
		x.inDoubt.forget(number)
		if failed := x.journal.takeBack(number, end{isRequest: true}); failed != nil {
			err = failed
		}
		return 0, nil, err
	}
	if err == nil {
		x.keepAgain(step, frames.Answer{})
		err = x.usage.readFrom(x.child.process)
	}
	return number, outcome, err
}
