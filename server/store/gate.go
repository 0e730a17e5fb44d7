package store

import (
	"context"
	"sync"
	"sync/atomic"

	"gitpoold/child"
)

// gate lets many in at once, or shuts until all are out. One caller at a time may shut it.
type gate struct {
	mutex   sync.Mutex
	inside  int
	isShut  bool
	changed chan struct{}
}

func newGate() *gate { return &gate{changed: make(chan struct{})} }

// tell wakes everyone who waits; the mutex is held.
func (g *gate) tell() {
	close(g.changed)
	g.changed = make(chan struct{})
}

// enter goes in, and waits while the gate is shut.
func (g *gate) enter(ctx context.Context) error {
	return g.wait(ctx, func() bool {
		if !g.isShut {
			g.inside++
		}
		return !g.isShut
	})
}

func (g *gate) leave() {
	g.mutex.Lock()
	defer g.mutex.Unlock()
	g.inside--
	if g.inside == 0 {
		g.tell()
	}
}

// shut lets nobody in any more and waits until all are out. Where the context ends first, the gate is open again.
func (g *gate) shut(ctx context.Context) error {
	g.mutex.Lock()
	g.isShut = true
	g.mutex.Unlock()
	err := g.wait(ctx, func() bool { return g.inside == 0 })
	if err != nil {
		g.open()
	}
	return err
}

func (g *gate) open() {
	g.mutex.Lock()
	defer g.mutex.Unlock()
	g.isShut = false
	g.tell()
}

// wait waits until `may`, which is called under the mutex, says so.
func (g *gate) wait(ctx context.Context, may func() bool) error {
	for {
		g.mutex.Lock()
		done, changed := may(), g.changed
		g.mutex.Unlock()
		if done {
			return nil
		}
		select {
		case <-changed:
		case <-ctx.Done():
			return ctx.Err()
		}
	}
}

// childGate is the gate before the child of a store: many use it at once, or one alone, who may put another one in its place.
type childGate struct {
	*gate
	// These are for who is inside and for who has the turn of maintenance. `losses` is how often the log had lost records when the process began.
	started
	losses uint64
	// beside answers questions while the gate is shut; nil where there is no such child.
	beside *child.Process
	// newest and second are the child and the second one, for who is outside.
	newest, second atomic.Pointer[child.Process]
	closing        <-chan struct{}
}

// inside is who uses a child beside others: the one of the store, or a second one.
type inside struct {
	gate     *childGate
	process  *child.Process
	isBeside bool
}

// leave goes out.
func (in inside) leave() {
	if !in.isBeside {
		in.gate.leave()
	}
}

func (g *childGate) isClosing() bool {
	select {
	case <-g.closing:
		return true
	default:
		return false
	}
}

// enter goes in, unless the store closes.
func (g *childGate) enter(ctx context.Context) (in inside, err error) {
	if g.isClosing() {
		return in, ErrClosed
	}
	if err = g.gate.enter(ctx); err == nil {
		in = inside{g, g.process, false}
	}
	return in, err
}

// enterOrBeside does the same for a question, which a second child may answer.
func (g *childGate) enterOrBeside(ctx context.Context) (in inside, err error) {
	if g.isClosing() {
		return in, ErrClosed
	}
	err = g.wait(ctx, func() bool {
		if in = (inside{g, g.beside, true}); g.beside == nil && !g.isShut {
			in = inside{g, g.process, false}
			g.inside++
		}
		return in.process != nil
	})
	return in, err
}

// putBeside lets a child answer questions until the gate, which is shut, is open again.
func (g *childGate) putBeside(process *child.Process) {
	g.mutex.Lock()
	defer g.mutex.Unlock()
	g.beside = process
	g.tell()
}

// dropBeside lets a child that has ended answer no more.
func (g *childGate) dropBeside(process *child.Process) {
	g.mutex.Lock()
	defer g.mutex.Unlock()
	if g.beside == process {
		g.beside = nil
	}
}

// isAnswering tells whether who asks a question has not to wait.
func (g *childGate) isAnswering() bool {
	g.mutex.Lock()
	defer g.mutex.Unlock()
	return !g.isShut || g.beside != nil
}

func (g *childGate) open() {
	g.mutex.Lock()
	defer g.mutex.Unlock()
	g.isShut, g.beside = false, nil
	g.tell()
}

// upkeep is for who has the turn of maintenance: the tenant of a merge that the log may have, and this store has not; and whether the last save had
// no second child, although it should have had one.
type upkeep struct {
	halfMerged string
	isAlone    bool
}

// maintenance is a store whose caller has the turn of what only one may do at a time: saves, requests of the operator, and another child.
type maintenance struct {
	*Store
	*upkeep
}

// beginMaintenance waits for that turn as long as the context lasts.
func (s *Store) beginMaintenance(ctx context.Context) (maintenance, error) {
	select {
	case kept := <-s.maintain:
		return maintenance{s, kept}, nil
	case <-ctx.Done():
		return maintenance{}, ctx.Err()
	}
}

func (m maintenance) done() { m.maintain <- m.upkeep }

// exclusive is a store whose caller alone uses the child: no step comes to that or into the log.
type exclusive struct{ maintenance }

// shut waits until nobody else uses the child.
func (m maintenance) shut(ctx context.Context) (exclusive, error) {
	return exclusive{m}, m.child.shut(ctx)
}

// alone does the same, however long that takes.
func (m maintenance) alone() exclusive {
	x, _ := m.shut(context.Background())
	return x
}

func (x exclusive) open() { x.child.open() }

// put puts another child in the place of the one before.
func (x exclusive) put(next started) (before started) {
	before, x.child.started, x.child.losses = x.child.started, next, x.journal.Losses()
	x.child.newest.Store(next.process)
	go x.watch(next.process)
	return before
}

// Unsaved is a store of which nothing is saved, and in which no request of the operator begins, until End.
type Unsaved struct{ turn maintenance }

// Unsaved waits until nothing is saved.
func (s *Store) Unsaved(ctx context.Context) (Unsaved, error) {
	m, err := s.beginMaintenance(ctx)
	return Unsaved{m}, err
}

// End lets the store be saved again.
func (u Unsaved) End() { u.turn.done() }

// Shut lets no step come to the child or into the journal until the call that it gives.
func (u Unsaved) Shut(ctx context.Context) (open func(), err error) {
	x, err := u.turn.shut(ctx)
	return x.open, err
}
