package shards

import (
	"bytes"
	"context"

	"gitpoold/store"
)

// line is a line of what a child says of the sizes of tenants.
type line struct {
	tenant string
	text   []byte
}

func linesOf(reply []byte) (all []line) {
	for len(reply) > 0 {
		end := bytes.IndexByte(reply, '\n') + 1
		if end == 0 {
			end = len(reply)
		}
		name, _, _ := bytes.Cut(reply[:end], []byte(" "))
		all = append(all, line{string(name), reply[:end]})
		reply = reply[end:]
	}
	return all
}

// operate lets one request of the operator at a time change tenants.
func (s *Set) operate(ctx context.Context, do func() error) error {
	if err := s.refusal(); err != nil {
		return err
	}
	select {
	case s.operator <- struct{}{}:
		defer func() { <-s.operator }()
		return do()
	case <-ctx.Done():
		return ctx.Err()
	}
}

// Remove removes a tenant, as the store of its shard does.
func (s *Set) Remove(ctx context.Context, tenant string) error {
	return s.operate(ctx, func() error {
		// What a move left elsewhere may not be taken for the tenant.
		if err := s.settle(tenant); err != nil {
			return err
		}
		return s.storeOf(tenant).Remove(ctx, tenant)
	})
}

// Compact removes the objects of a tenant that its refs do not reach, as the store of its shard does.
func (s *Set) Compact(ctx context.Context, tenant string) error {
	return s.operate(ctx, func() error {
		// Where a move has not ended, what is compacted may not be what the tenant is to have.
		if err := s.settle(tenant); err != nil {
			return err
		}
		return s.storeOf(tenant).Compact(ctx, tenant)
	})
}

// Copy copies a tenant, as it is at its last checkpoint, to an empty one, which comes to the same shard. It may be Refused.
func (s *Set) Copy(ctx context.Context, from, to string) error {
	return s.operate(ctx, func() error { return s.copy(ctx, from, to) })
}

func (s *Set) copy(ctx context.Context, from, to string) error {
	if s.table == nil {
		return s.stores[0].Copy(ctx, from, to)
	}
	number := s.shardOf(from)
	arrived, err := s.hold(ctx, to)
	if err != nil {
		return err
	}
	defer s.release(to, arrived)
	if s.table.shardOf(to) != number {
		if s.storeOf(to).Has(to) {
			return &store.Refused{Number: 33}
		}
		if err := s.table.put(to, number); err != nil {
			return err
		}
	}
	return s.stores[number-1].Copy(ctx, from, to)
}
