package tenants

import (
	"context"
	"sync"

	"gitpoold/child"
	"gitpoold/plumbing"
)

// listings are the histories that are being listed. Fetches that want the same of a tenant at the same time share one listing: what objects
// reach does not depend on the time.
type listings struct {
	mutex sync.Mutex
	made  map[string]*sharedListing
}

// sharedListing is a listing on its way, and the fetches that wait for it. Each of them counts all of it as its own.
type sharedListing struct {
	plumbing.Endless
	of      *listings
	key     string
	waiting map[*waiter]bool
	bytes   int64 // that were counted so far
	stop    context.CancelFunc
	done    chan struct{}
	listing plumbing.Listing
	err     error
}

// waiter is a fetch that waits for a listing. `refused` is closed where it may not hold as much, with the reason in `err`.
type waiter struct {
	memory  plumbing.Memory
	isFirst bool
	refused chan struct{}
	err     error
}

// share gives the listing that `list` makes, or the one of another fetch that has the same key. The listing is made as long as somebody waits
// for it. Nobody may change it.
func (l *listings) share(ctx context.Context, key string, list func(context.Context) (plumbing.Listing, error)) (plumbing.Listing, error) {
	it, w, err := l.join(ctx, key, list)
	if err != nil {
		return nil, err
	}
	select {
	case <-it.done:
	case <-w.refused:
	case <-ctx.Done():
		l.leave(it, w)
		return nil, ctx.Err()
	}
	if err := l.refusal(w); err != nil {
		return nil, err
	}
	if it.err != nil && !w.isFirst {
		return list(ctx)
	}
	return it.listing, it.err
}

func (l *listings) join(ctx context.Context, key string, list func(context.Context) (plumbing.Listing, error)) (*sharedListing, *waiter, error) {
	l.mutex.Lock()
	defer l.mutex.Unlock()
	w := &waiter{memory: plumbing.MemoryOf(ctx), refused: make(chan struct{})}
	it := l.made[key]
	if it == nil {
		w.isFirst = true
		it = l.begin(ctx, key, list)
	}
	if err := w.memory.Hold(it.bytes); err != nil {
		l.drop(it, w)
		return it, w, err
	}
	it.waiting[w] = true
	return it, w, nil
}

// begin begins to make a listing; the mutex is held.
func (l *listings) begin(ctx context.Context, key string, list func(context.Context) (plumbing.Listing, error)) *sharedListing {
	making, stop := context.WithCancel(child.Endless(ctx))
	it := &sharedListing{of: l, key: key, waiting: map[*waiter]bool{}, stop: stop, done: make(chan struct{})}
	if l.made == nil {
		l.made = map[string]*sharedListing{}
	}
	l.made[key] = it
	go l.make(plumbing.Counted(making, it), it, list)
	return it
}

func (l *listings) make(ctx context.Context, it *sharedListing, list func(context.Context) (plumbing.Listing, error)) {
	defer it.stop()
	listing, err := list(ctx)
	it.listing, it.err = listing[:len(listing):len(listing)], err
	l.mutex.Lock()
	l.forget(it)
	l.mutex.Unlock()
	close(it.done)
}

// Hold counts a part of the listing for each fetch that waits for it. A fetch that may not hold it waits no longer.
func (it *sharedListing) Hold(bytes int64) error {
	it.of.mutex.Lock()
	defer it.of.mutex.Unlock()
	it.bytes += bytes
	for w := range it.waiting {
		if w.err = w.memory.Hold(bytes); w.err != nil {
			close(w.refused)
			it.of.drop(it, w)
		}
	}
	return nil
}

// refusal is why a fetch may not hold its listing, or nil.
func (l *listings) refusal(w *waiter) error {
	l.mutex.Lock()
	defer l.mutex.Unlock()
	return w.err
}

// leave lets a fetch wait no longer.
func (l *listings) leave(it *sharedListing, w *waiter) {
	l.mutex.Lock()
	defer l.mutex.Unlock()
	l.drop(it, w)
}

// drop does this while the mutex is held. It ends the making of a listing for which nobody waits any more.
func (l *listings) drop(it *sharedListing, w *waiter) {
	delete(it.waiting, w)
	if len(it.waiting) == 0 {
		l.forget(it)
		it.stop()
	}
}

// forget lets nobody join any more; the mutex is held.
func (l *listings) forget(it *sharedListing) {
	if l.made[it.key] == it {
		delete(l.made, it.key)
	}
}
