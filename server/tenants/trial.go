package tenants

import (
	"context"
	"encoding/binary"

	"gitpoold/frames"
	"gitpoold/plumbing"
	"gitpoold/store"
)

// Trial is what a tenant would have after a step of a stream, while nobody is told of it and all others wait.
type Trial struct {
	tenant string
	ask    store.Ask
}

// Refs gives the refs that the tenant would have.
func (t Trial) Refs() ([]Ref, error) {
	text, err := t.ask(frames.Step{Kind: frames.Ask, Tenant: t.tenant, Body: []byte("refs")})
	if err != nil {
		return nil, fromStore(err)
	}
	return readRefs(string(text))
}

// Reaches tells whether one of these commits reaches another one, or is it.
func (t Trial) Reaches(from []plumbing.Name, to plumbing.Name) (bool, error) {
	missing, err := t.ask(frames.Step{Kind: frames.Missing, Tenant: t.tenant, Body: missingBody([]plumbing.Name{to}, from)})
	return len(missing) == 0, fromStore(err)
}

// Reaches tells whether one of these objects reaches another one, or is it. One that the tenant has not reaches nothing.
func (t Tenant) Reaches(ctx context.Context, from []plumbing.Name, to plumbing.Name) (bool, error) {
	missing, err := t.missing(ctx, []plumbing.Name{to}, from)
	return err == nil && len(missing) == 0, err
}

// missingBody is the body of the question what the wants reach and the haves do not.
func missingBody(wants, haves []plumbing.Name) []byte {
	body := binary.BigEndian.AppendUint32(make([]byte, 0, 4+len(plumbing.Name{})*(len(wants)+len(haves))), uint32(len(wants)))
	return appendNames(appendNames(body, wants), haves)
}

// judgedBy gives what judges a step of a stream: the quota, and then `judge`, unless it is nil.
func (t Tenant) judgedBy(judge func(Trial) error) store.Judge {
	return func(bytes int64, ask store.Ask) error {
		err := t.Allows(bytes)
		if err == nil && judge != nil {
			err = judge(Trial{t.name, ask})
		}
		return err
	}
}
