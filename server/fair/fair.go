// Package fair is a semaphore with a fair order: whoever asks for much, from however many connections, waits for itself.
package fair

import (
	"context"
	"slices"
	"sync"
)

// Kind parts those who ask into two kinds, of which none waits for all of the other.
type Kind int

// The kinds.
const (
	First Kind = iota
	Second
	kinds
)

// Limits say how many are at work at once: in all, of each kind, and of one asker of each kind.
type Limits struct {
	Places    int
	OfKind    [kinds]int
	OfOneOfIt [kinds]int
}

// Semaphore has places, which are taken in turns. Its methods may be called by many goroutines at once.
type Semaphore struct {
	limits  Limits
	mutex   sync.Mutex
	waiting []*turn
	atWork  [kinds]int
	last    Kind
	// of has how many each asker has at work, and served when it had its last turn, as a count of turns.
	of     map[string]int
	served map[string]uint64
	count  uint64
}

// turn is one that waits. Its askers are from wide to narrow, such as an address and a user of it; the widest one counts for OfOneOfIt.
type turn struct {
	kind   Kind
	askers []string
	ready  chan struct{}
}

// New gives a semaphore whose places nobody has.
func New(limits Limits) *Semaphore {
	return &Semaphore{limits: limits, of: map[string]int{}, served: map[string]uint64{}}
}

// Acquire waits for a turn as long as the context lasts, and gives the call that ends the turn. Askers are from wide to narrow: those of one
// address take turns with those of another, and among themselves by the next word.
func (p *Semaphore) Acquire(ctx context.Context, kind Kind, askers ...string) (leave func(), err error) {
	if ctx.Err() != nil {
		return nil, ctx.Err()
	}
	t := &turn{kind, keys(askers), make(chan struct{})}
	p.mutex.Lock()
	p.waiting = append(p.waiting, t)
	p.give()
	p.mutex.Unlock()
	select {
	case <-t.ready:
		return p.leaver(t), nil
	case <-ctx.Done():
	}
	if !p.drop(t) {
		p.leave(t)
	}
	return nil, ctx.Err()
}

// keys gives each asker a name that has those before it.
func keys(askers []string) []string {
	names := make([]string, len(askers))
	for at, it := range askers {
		if names[at] = it; at > 0 {
			names[at] = names[at-1] + "\x00" + it
		}
	}
	return names
}

func (p *Semaphore) leaver(t *turn) func() {
	var once sync.Once
	return func() { once.Do(func() { p.leave(t) }) }
}

// drop takes back one that waits. It is false where it has its turn by now.
func (p *Semaphore) drop(t *turn) bool {
	p.mutex.Lock()
	defer p.mutex.Unlock()
	at := slices.Index(p.waiting, t)
	if at >= 0 {
		p.waiting = slices.Delete(p.waiting, at, at+1)
	}
	return at >= 0
}

func (p *Semaphore) leave(t *turn) {
	p.mutex.Lock()
	defer p.mutex.Unlock()
	p.atWork[t.kind]--
	if p.of[t.askers[0]]--; p.of[t.askers[0]] == 0 {
		delete(p.of, t.askers[0])
	}
	p.give()
}

// give gives free places to those that wait.
func (p *Semaphore) give() {
	for {
		at := p.next()
		if at < 0 {
			return
		}
		t := p.waiting[at]
		p.waiting = slices.Delete(p.waiting, at, at+1)
		p.note(t)
		close(t.ready)
	}
}

// mostServed is of how many askers it is known when they had a turn. Beyond it all of them are new again.
const mostServed = 1 << 16

func (p *Semaphore) note(t *turn) {
	if len(p.served) > mostServed {
		p.served = map[string]uint64{}
	}
	p.count++
	for _, asker := range t.askers {
		p.served[asker] = p.count
	}
	p.atWork[t.kind]++
	p.of[t.askers[0]]++
	p.last = t.kind
}

// next gives the place in the queue of the one whose turn it is, or -1.
func (p *Semaphore) next() int {
	best := -1
	if p.atWork[First]+p.atWork[Second] >= p.limits.Places {
		return best
	}
	for at, it := range p.waiting {
		isFull := p.atWork[it.kind] >= p.limits.OfKind[it.kind] || p.of[it.askers[0]] >= p.limits.OfOneOfIt[it.kind]
		if !isFull && (best < 0 || p.isBefore(it, p.waiting[best])) {
			best = at
		}
	}
	return best
}

// isBefore tells whether one that came later has its turn before another: its kind has fewer at work, or had not the last turn; then the
// widest asker that differs had its last turn before.
func (p *Semaphore) isBefore(t, other *turn) bool {
	if t.kind != other.kind {
		if mine, theirs := p.atWork[t.kind], p.atWork[other.kind]; mine != theirs {
			return mine < theirs
		}
		return t.kind != p.last
	}
	for at := 0; at < len(t.askers) && at < len(other.askers); at++ {
		if t.askers[at] != other.askers[at] {
			return p.served[t.askers[at]] < p.served[other.askers[at]]
		}
	}
	return false
}
