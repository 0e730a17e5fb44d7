// Package webhooks tells http addresses of events, signed, and again until they take them.
//
// What is to be delivered stands in files of the folder `deliveries` from before a push is told until an address has taken it. So a server that is
// killed delivers it when it starts again. An address may be told twice of one event, which has the same name of the delivery then.
package webhooks

import (
	"context"
	"crypto/rand"
	"errors"
	"fmt"
	"path/filepath"
	"sync"
	"time"

	"gitpoold/configfile"
	"gitpoold/metrics"
)

// Event is something that an address is told. Body gives its JSON, in which the name of the delivery stands.
type Event struct {
	Name, Tenant string
	Body         func(delivery string) ([]byte, error)
}

// What waits for one address has these bounds; it misses the events beyond them.
const (
	mostWaiting      = 1000
	mostWaitingBytes = 16 << 20
)

// How a delivery that failed is tried again: after firstWait, then after twice as long each time, up to longestWait; and no more once it is so old
// as giveUpAfter.
const (
	firstWait   = 10 * time.Second
	longestWait = time.Hour
	giveUpAfter = 24 * time.Hour
)

// waitAfter is how long a delivery waits that was tried so often in vain.
func waitAfter(tries int) time.Duration {
	wait := firstWait
	for ; tries > 1 && wait < longestWait; tries-- {
		wait *= 2
	}
	return min(longestWait, wait)
}

// Config says what a sender needs.
type Config struct {
	Folder string
	// Within gives the time that an address has for one delivery.
	Within func() time.Duration
	// IsWanted tells whether an address is still to be told. What waits for one that is not is dropped.
	IsWanted func(address string) bool
	// Tell gets lines for the operator.
	Tell    func(format string, values ...any)
	Metrics *metrics.Metrics
}

// Sender delivers events to addresses. Its methods may be called by many goroutines at once.
type Sender struct {
	Config
	settings *configfile.Followed[settings]
	spool    spool
	history  history
	clock    func() time.Time
	ctx      context.Context
	stop     func()
	running  sync.WaitGroup

	mutex    sync.Mutex
	queues   map[string]*queue
	isClosed bool
}

// queue is what waits for one address, in the order in which it came. Of what was not yet written only the size is counted.
type queue struct {
	waiting []delivery
	count   int
	bytes   int64
	missed  int
	wake    chan struct{}
}

// Open reads what a folder says of addresses, and what waits for them. Nothing is delivered before Start, or a Put.
func Open(c Config) (*Sender, error) {
	path := filepath.Join(c.Folder, listName)
	followed, err := configfile.Follow(func() (settings, error) { return readSettings(path) }, c.Tell, path)
	if err != nil {
		return nil, err
	}
	folder := filepath.Join(c.Folder, folderName)
	s := &Sender{Config: c, settings: followed, spool: spool{folder}, history: history{folder: folder}, clock: time.Now,
		queues: map[string]*queue{}}
	s.ctx, s.stop = context.WithCancel(context.Background())
	return s, nil
}

// Start delivers what waits since before the server started. The folder has to be this server's alone.
func (s *Sender) Start() {
	all, err := s.spool.read(s.Tell)
	if err != nil {
		s.Tell("what waits for addresses of hooks cannot be read: %v", err)
	}
	if len(all) > 0 {
		s.Tell("addresses of hooks are to be told of %d events from before the server started", len(all))
	}
	s.mutex.Lock()
	defer s.mutex.Unlock()
	for _, it := range all {
		q := s.queueOf(it.Address)
		q.count++
		q.bytes += it.size
		q.add(it)
	}
}

// Unread says why the list of secrets and networks cannot be read, so that what was read before holds. It is nil where it can.
func (s *Sender) Unread() error { return s.settings.Unread() }

// Waiting is how many deliveries are still to be taken.
func (s *Sender) Waiting() (count int) {
	s.mutex.Lock()
	defer s.mutex.Unlock()
	for _, q := range s.queues {
		count += q.count
	}
	return count
}

// Close ends what is at work. What waits is delivered after the next start.
func (s *Sender) Close() {
	s.mutex.Lock()
	s.isClosed = true
	s.mutex.Unlock()
	if waiting := s.Waiting(); waiting > 0 {
		s.Tell("the server stops; addresses of hooks are told of %d events after the next start", waiting)
	}
	s.stop()
	s.running.Wait()
}

// Put lets an address be told of an event. When it returns, that outlives this process; it does not wait for the address.
func (s *Sender) Put(address string, e Event) {
	d, body, err := s.made(address, e)
	if err == nil && !s.reserve(d) {
		return
	}
	if err == nil {
		err = s.spool.write(d, body)
	}
	if err != nil {
		s.Tell("hook %s is not told of an event of %s, which cannot be kept: %v", Shown(address), e.Tenant, err)
		s.release(d)
		s.Count("missed")
		return
	}
	s.mutex.Lock()
	defer s.mutex.Unlock()
	s.queueOf(address).add(d)
}

// made gives a new delivery.
func (s *Sender) made(address string, e Event) (d delivery, body []byte, err error) {
	id, err := newID()
	if err != nil {
		return d, nil, err
	}
	if body, err = e.Body(id); err != nil {
		return d, nil, err
	}
	now := s.clock()
	return delivery{ID: id, Event: e.Name, Tenant: e.Tenant, Address: address, Made: now, Next: now, size: int64(len(body))}, body, nil
}

// newID gives the name of a delivery, in the form of RFC 9562.
func newID() (string, error) {
	var b [16]byte
	if _, err := rand.Read(b[:]); err != nil {
		return "", err
	}
	b[6], b[8] = b[6]&0x0f|0x40, b[8]&0x3f|0x80
	return fmt.Sprintf("%x-%x-%x-%x-%x", b[:4], b[4:6], b[6:8], b[8:10], b[10:]), nil
}

// reserve counts a delivery before it is written, or lets its address miss it.
func (s *Sender) reserve(d delivery) bool {
	s.mutex.Lock()
	defer s.mutex.Unlock()
	q := s.queueOf(d.Address)
	if q.count >= mostWaiting || q.bytes+d.size > mostWaitingBytes {
		if q.missed++; q.missed == 1 {
			s.Tell("hook %s misses events: too many wait for it", Shown(d.Address))
		}
		s.Count("missed")
		return false
	}
	q.count++
	q.bytes += d.size
	return true
}

// release counts a delivery no more.
func (s *Sender) release(d delivery) {
	s.mutex.Lock()
	defer s.mutex.Unlock()
	if q := s.queues[d.Address]; q != nil && d.ID != "" {
		q.count--
		q.bytes -= d.size
		q.ring()
	}
}

// queueOf gives the queue of an address, which works until nothing waits in it. The mutex is held.
func (s *Sender) queueOf(address string) *queue {
	q := s.queues[address]
	if q == nil {
		q = &queue{wake: make(chan struct{}, 1)}
		s.queues[address] = q
		if !s.isClosed {
			s.running.Add(1)
			go s.work(address, q)
		}
	}
	return q
}

func (q *queue) add(d delivery) {
	q.waiting = append(q.waiting, d)
	q.ring()
}

// ring lets the queue look at what waits.
func (q *queue) ring() {
	select {
	case q.wake <- struct{}{}:
	default:
	}
}

// work delivers what waits for one address, one after another, until nothing does.
func (s *Sender) work(address string, q *queue) {
	defer s.running.Done()
	for {
		d, wait, isOver := s.next(address, q)
		switch {
		case isOver:
			return
		case d.ID == "":
			s.sleep(q, wait)
		default:
			s.attempt(q, d)
		}
	}
}

// sleep waits so long, until something comes, or until the server stops.
func (s *Sender) sleep(q *queue, wait time.Duration) {
	timer := time.NewTimer(wait)
	defer timer.Stop()
	select {
	case <-timer.C:
	case <-q.wake:
	case <-s.ctx.Done():
	}
}

// next gives the first delivery that is due, or how long there is none. Where nothing waits, or the server stops, the queue is over.
func (s *Sender) next(address string, q *queue) (d delivery, wait time.Duration, isOver bool) {
	s.mutex.Lock()
	defer s.mutex.Unlock()
	if q.count == 0 || s.ctx.Err() != nil {
		if q.missed > 0 {
			s.Tell("hook %s has missed %d events", Shown(address), q.missed)
		}
		if q.count == 0 {
			delete(s.queues, address)
		}
		return d, 0, true
	}
	wait = longestWait
	for _, it := range q.waiting {
		until := it.Next.Sub(s.clock())
		if until <= 0 {
			return it, 0, false
		}
		wait = min(wait, until)
	}
	return d, wait, false
}

// Count counts what became of a delivery.
func (s *Sender) Count(result string) {
	s.Metrics.Add("gitpoold_hooks_total", "What hooks were told of, by how it went.", 1, "result", result)
}

// Results of an attempt that are told in these words.
var (
	ErrLate    = errors.New("it took longer than a hook may take")
	ErrStopped = errors.New("the server stops")
)

// ResultOf is how the metrics call what became of an attempt to tell a hook.
func ResultOf(err error) string {
	switch err {
	case nil:
		return "ok"
	case ErrLate:
		return "late"
	}
	return "failed"
}

// attempt delivers one event, or says when it is tried again.
func (s *Sender) attempt(q *queue, d delivery) {
	if s.IsWanted != nil && !s.IsWanted(d.Address) {
		s.Tell("hook %s was taken back, and is not told of an event of %s", Shown(d.Address), d.Tenant)
		s.drop(q, d)
		return
	}
	body, err := s.spool.body(d)
	if err != nil {
		s.Tell("hook %s is not told of an event of %s, which cannot be read: %v", Shown(d.Address), d.Tenant, err)
		s.Count("missed")
		s.drop(q, d)
		return
	}
	began := s.clock()
	if err = s.deliver(d, body); errors.Is(err, ErrStopped) {
		return
	}
	d.Tries++
	s.Count(ResultOf(err))
	s.Metrics.Observe("gitpoold_hook_seconds", "The time of hooks.", s.clock().Sub(began).Seconds())
	if err == nil {
		s.drop(q, d)
		s.hurry(q)
	} else {
		s.postpone(q, &d, err)
	}
	s.history.note(d, began, s.clock().Sub(began), err, s.Tell)
}

// drop takes a delivery out of its queue and off the disk.
func (s *Sender) drop(q *queue, d delivery) {
	s.spool.remove(d)
	s.mutex.Lock()
	for at, it := range q.waiting {
		if it.ID == d.ID {
			q.waiting = append(q.waiting[:at:at], q.waiting[at+1:]...)
			break
		}
	}
	s.mutex.Unlock()
	s.release(d)
}

// hurry lets what waits be tried now: the address takes deliveries again.
func (s *Sender) hurry(q *queue) {
	s.mutex.Lock()
	defer s.mutex.Unlock()
	for at := range q.waiting {
		q.waiting[at].Next = s.clock()
	}
}

// postpone lets a delivery that failed be tried later, or never again where it is old. The operator is told of the first time and the last one.
func (s *Sender) postpone(q *queue, d *delivery, why error) {
	if d.Tries == 1 {
		s.Tell("hook %s was not told of an event of %s: %v; it is tried again", Shown(d.Address), d.Tenant, why)
	}
	d.Next = s.clock().Add(waitAfter(d.Tries))
	if d.Next.Sub(d.Made) > giveUpAfter {
		s.Tell("hook %s was told of an event of %s %d times in vain, and is told no more: %v", Shown(d.Address), d.Tenant, d.Tries, why)
		s.Count("given-up")
		d.Next = time.Time{}
		s.drop(q, *d)
		return
	}
	s.spool.update(*d)
	s.mutex.Lock()
	defer s.mutex.Unlock()
	for at := range q.waiting {
		if q.waiting[at].ID == d.ID {
			q.waiting[at] = *d
		}
	}
}
