package streams

import (
	"context"
	"fmt"

	"gitpoold/hooks"
	"gitpoold/limits"
	"gitpoold/plumbing"
	"gitpoold/protect"
	"gitpoold/tenants"
)

// errHooks refuses a stream of which a hook would have to be told before it changes anything: a hook sees objects before they are a tenant's, and
// those of a stream are objects only when its refs change.
const errHooks = limits.Passed("this repository has a hook that judges each push (pre-receive or update), and a stream cannot be shown to it:" +
	" push by git (fault 25)")

// mayPassHooks refuses a stream of a tenant that has hooks which judge pushes.
func (u Use) mayPassHooks() error {
	if u.Gateway.Hooks != nil && u.Gateway.Hooks.Judges(u.Tenant.Name()) {
		return errHooks
	}
	return nil
}

// judge gives what judges the refs that the tenant would have after the next step. It is nil where all of them may change in every way.
func (s *stream) judge(ctx context.Context) (func(tenants.Trial) error, error) {
	if err := s.mayPassHooks(); err != nil {
		return nil, err
	}
	if len(s.Gateway.Protected.Of(s.Tenant.Name())) == 0 {
		return nil, nil
	}
	before, _, err := s.Tenant.Refs(ctx)
	if err != nil {
		return nil, err
	}
	return func(t tenants.Trial) error {
		after, err := t.Refs()
		for _, it := range changes(before, after) {
			if err == nil {
				err = s.judgeChange(t, it)
			}
		}
		return err
	}, nil
}

// judgeChange refuses a change of one ref that the operator does not want.
func (s *stream) judgeChange(t tenants.Trial, it hooks.Change) error {
	before, _ := plumbing.ParseName(it.Old)
	after, _ := plumbing.ParseName(it.New)
	why, err := s.Gateway.Protects(s.User, s.Tenant.Name(), protect.Change{Ref: it.Ref, IsMade: before.IsZero(), IsGone: after.IsZero(),
		IsForced: func() (bool, error) {
			reaches, err := t.Reaches([]plumbing.Name{after}, before)
			return !reaches, err
		}})
	if why != "" && err == nil {
		err = limits.Passed(fmt.Sprintf("the stream changes %.1000q: %s; what came after its last checkpoint is dropped (fault 25)", it.Ref, why))
	}
	return err
}
