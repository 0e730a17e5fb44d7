package tenants

import (
	"context"
	"errors"
	"sync"
)

// ErrBusy says that the tenant had another stream for longer than the caller waited.
var ErrBusy = errors.New("another push to this repository is at work; try again")

// locks has a lock for each tenant that has or waits for a stream.
type locks struct {
	mutex sync.Mutex
	held  map[string]*lock
}

type lock struct {
	place chan struct{}
	users int
}

// take waits for a tenant's lock, and gives the call that leaves it.
func (l *locks) take(ctx context.Context, tenant string) (func(), error) {
	it := l.user(tenant)
	select {
	case it.place <- struct{}{}:
		return func() { <-it.place; l.leave(tenant, it) }, nil
	case <-ctx.Done():
		l.leave(tenant, it)
		return nil, ctx.Err()
	}
}

// try takes a tenant's lock if nobody has it, and gives the call that leaves it.
func (l *locks) try(tenant string) (leave func(), isTaken bool) {
	it := l.user(tenant)
	select {
	case it.place <- struct{}{}:
		return func() { <-it.place; l.leave(tenant, it) }, true
	default:
		l.leave(tenant, it)
		return nil, false
	}
}

func (l *locks) user(tenant string) *lock {
	l.mutex.Lock()
	defer l.mutex.Unlock()
	if l.held == nil {
		l.held = map[string]*lock{}
	}
	it := l.held[tenant]
	if it == nil {
		it = &lock{place: make(chan struct{}, 1)}
		l.held[tenant] = it
	}
	it.users++
	return it
}

func (l *locks) leave(tenant string, it *lock) {
	l.mutex.Lock()
	defer l.mutex.Unlock()
	it.users--
	if it.users == 0 {
		delete(l.held, tenant)
	}
}
