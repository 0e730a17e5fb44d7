package journal

import (
	"context"
	"errors"
	"fmt"
	"strings"
	"sync"
	"sync/atomic"
	"time"

	"github.com/gomodule/redigo/redis"
)

// ErrBehind says that a server that follows a log does not come to what the log has, or cannot ask what that is.
var ErrBehind = errors.New("this server follows another one, and does not come to what that one has told; try again")

// Following is a log in Redis that another server writes. This one reads what comes and changes nothing: as a Journal it refuses each
// change, until TakeOver makes this server the one that writes. From then on it is that Journal.
type Following struct {
	options Options
	refusal error
	leader  atomic.Pointer[Redis]
	place   *placeFile
	closing chan struct{}
	asked   chan struct{}
	ended   chan struct{}
	once    sync.Once

	// line is held by whoever uses the connection over which records come.
	line  sync.Mutex
	conn  redis.Conn
	of    int64
	count int

	// mutex guards what follows. `walk` says how far the log was taken, `reached` how far it ever was, and `come` how far it was carried out.
	mutex   sync.Mutex
	walk    walk
	reached mark
	come    uint64
	changed chan struct{}
	next    *question
	sight   sight
}

// Followed is a record of a log that is followed. Where it is a save, the other server made the pool file Pool there.
type Followed struct {
	Record
	IsSave bool
	Pool   Digest
}

// readFor is how long a read waits for records.
const readFor = time.Second / 2

// Follow begins to follow a log, for a pool file with this digest: it reads the log through, as OpenRedis does, and changes nothing. Each
// change is refused with `refusal`. What is not as it was written, or not what this server had, is BadLog.
func Follow(options Options, pool Digest, refusal error) (*Following, error) {
	f := &Following{options: options, refusal: refusal, count: fewestAtOnce, closing: make(chan struct{}), asked: make(chan struct{}, 1),
		ended: make(chan struct{}), changed: make(chan struct{})}
	kept, _, err := readPlace(options.Place)
	if err != nil {
		return nil, err
	}
	if err := f.open(pool, kept); err != nil {
		return nil, err
	}
	if f.place, err = keepPlace(options.Place, f.walk.end); err != nil {
		f.conn.Close()
		return nil, err
	}
	f.reached, f.sight.fresh = f.walk.end, time.Now()
	go f.look()
	return f, nil
}

// open reads the log, and tries again while Redis is away.
func (f *Following) open(pool Digest, kept place) error {
	for until := time.Now().Add(f.options.Wait); ; time.Sleep(time.Second / 10) {
		err := f.tryOpen(pool, kept)
		if err == nil || isEnd(err) || errors.Is(err, ErrUnsynced) || time.Now().After(until) {
			return err
		}
	}
}

func (f *Following) tryOpen(pool Digest, kept place) error {
	conn, err := f.options.connect()
	if err != nil {
		return err
	}
	_ = announce(conn, f.options.Address)
	err = unlessTrimmed(conn, f.options.Address, func() error { return f.readThrough(conn, pool, kept) })
	if err != nil {
		conn.Close()
		return err
	}
	f.conn = conn
	return nil
}

// readThrough reads the log from its first record on.
func (f *Following) readThrough(conn redis.Conn, pool Digest, kept place) error {
	f.walk = walk{address: f.options.Address, kept: kept}
	err := f.walk.all(conn, 1, 0)
	if err == nil {
		err = f.walk.check()
	}
	if err == nil {
		_, err = f.walk.baseFor(pool)
	}
	return err
}

// Entries are what a read of the log brought behind a record. They are taken one after another.
type Entries struct {
	behind uint64
	list   []any
}

// Read waits for entries behind those that were taken, for half a second at most.
func (f *Following) Read() (found Entries, err error) {
	f.line.Lock()
	defer f.line.Unlock()
	if f.isClosed() || f.IsLeading() {
		return found, nil
	}
	if err := f.reconnect(); err != nil {
		return found, fmt.Errorf("%w: %v", ErrUnread, err)
	}
	found.behind = f.Number()
	if found.list, err = f.read(found.behind); err != nil {
		f.conn.Close()
		f.conn = nil
		return found, fmt.Errorf("%w: %v", ErrUnread, err)
	}
	f.count = countAfter(f.count, found.list)
	return found, nil
}

// reconnect connects where there is no connection, or where the one that asks how far the log is was made anew since: Redis may be elsewhere.
func (f *Following) reconnect() (err error) {
	f.mutex.Lock()
	connections := f.sight.connections
	f.mutex.Unlock()
	if f.conn != nil && f.of == connections {
		return nil
	}
	closeConn(f.conn)
	if f.conn, err = f.options.connect(); err != nil {
		f.conn = nil
	}
	f.of = connections
	return err
}

func (f *Following) read(behind uint64) ([]any, error) {
	got, err := redis.Values(redis.DoWithTimeout(f.conn, readFor+f.options.tryWithin(), "XREAD", "COUNT", f.count,
		"BLOCK", readFor.Milliseconds(), "STREAMS", f.options.Address.key, idOf(behind)))
	if err == redis.ErrNil || err == nil && len(got) == 0 {
		return nil, nil
	}
	var stream []any
	if err == nil {
		stream, err = redis.Values(got[0], nil)
	}
	if err != nil || len(stream) != 2 {
		return nil, fmt.Errorf("XREAD: %w", err)
	}
	return redis.Values(stream[1], nil)
}

// HasNext tells whether there are entries that were not taken, and which go on from what was.
func (f *Following) HasNext(entries *Entries) bool {
	f.mutex.Lock()
	defer f.mutex.Unlock()
	return len(entries.list) > 0 && entries.behind == f.walk.end.number && !f.IsLeading()
}

// Take takes the first of the entries, of which HasNext tells that there is one. Where it is not as it should be, the error is BadLog.
func (f *Following) Take(entries *Entries) (it Followed, err error) {
	number, record, err := recordOf(f.options.Address, entries.list[0])
	if err != nil {
		return it, err
	}
	entries.list, entries.behind = entries.list[1:], number
	f.mutex.Lock()
	defer f.mutex.Unlock()
	if number > f.walk.end.number+1 {
		return it, f.tooOld("the log has record %d where record %d should come", number, f.walk.end.number+1)
	}
	segments := len(f.walk.segments)
	it.Step.Kind = TakenOver
	f.walk.use = func(_ int, r Record) error {
		it.Record = r
		return nil
	}
	if err := f.walk.take(record); err != nil {
		return it, f.other(err)
	}
	if it.Number = f.walk.end.number; len(f.walk.segments) > segments {
		it.IsSave, it.Pool = true, f.walk.segments[segments].pool
	}
	return it, f.reach()
}

// reach notes how far the log was taken, which is the same log as before. The mutex is held.
func (f *Following) reach() error {
	at := f.walk.end
	if at.number == f.reached.number && at.chain != f.reached.chain {
		return f.options.Address.otherRecord(at.number)
	}
	if at.number > f.reached.number {
		f.reached = at
	}
	return nil
}

// Rewind takes the log from the record on that names a pool file: what follows it is read and taken again.
func (f *Following) Rewind(pool Digest) error {
	f.mutex.Lock()
	defer f.mutex.Unlock()
	base, err := f.walk.baseFor(pool)
	if err != nil {
		return err
	}
	f.walk.segments = f.walk.segments[:base+1]
	f.walk.end, f.walk.hasSteps = f.walk.segments[base].end, false
	f.comeTo(f.walk.end.number)
	return nil
}

// comeTo notes how far the log was carried out, and wakes who waits for that. The mutex is held.
func (f *Following) comeTo(number uint64) {
	f.come = number
	close(f.changed)
	f.changed = make(chan struct{})
}

// tooOld says that this server needs a newer pool file.
func (f *Following) tooOld(form string, values ...any) error {
	return &BadLog{Log: f.options.Address.String(), NeedsCopy: true,
		Reason: fmt.Sprintf(form, values...) + "; copy the newest pool file of the server that writes the log to this one, with its log-place, and start"}
}

// OtherPool says that the pool file which the other server saved is none that this server comes to by the log.
func (f *Following) OtherPool(number uint64) error {
	return f.tooOld("the pool file that was saved at record %d is another one than this server comes to", number)
}

// other tells a damaged record from one that goes on from another history. The mutex is held.
func (f *Following) other(damaged error) error {
	conn, err := f.options.connect()
	if err != nil {
		return damaged
	}
	defer conn.Close()
	at := f.walk.end
	found, err := redis.Values(conn.Do("XRANGE", f.options.Address.key, idOf(at.number), idOf(at.number)))
	if err != nil || len(found) == 0 {
		return damaged
	}
	if _, record, err := entryOf(found[0]); err == nil && strings.HasSuffix(string(record), string(at.chain[:])) {
		return damaged
	}
	return f.options.Address.otherRecord(at.number)
}

// Arrive says that all records up to a number were carried out.
func (f *Following) Arrive(number uint64) {
	f.mutex.Lock()
	defer f.mutex.Unlock()
	if number <= f.come {
		return
	}
	f.comeTo(number)
	f.sight.arrived(number)
	if !f.IsLeading() {
		if err := f.place.write(f.reached); err != nil {
			f.options.Tell("%s cannot be written: %v", f.options.Place, err)
		}
	}
}

// Fresh waits until all is carried out that the log had when Fresh was called, and gives the number of the last record of that. It is ErrBehind
// where that takes longer than a push waits for Redis, and the context's error.
func (f *Following) Fresh(ctx context.Context) (uint64, error) {
	soon, stop := context.WithTimeout(ctx, f.options.Wait)
	defer stop()
	for {
		number, err := f.last(soon)
		if err == nil {
			err = f.wait(soon, number)
		}
		switch {
		case err == nil || f.IsLeading():
			return number, nil
		case ctx.Err() != nil:
			return 0, ctx.Err()
		case soon.Err() != nil:
			return 0, ErrBehind
		}
		time.Sleep(time.Second / 50)
	}
}

// wait waits until a record was carried out.
func (f *Following) wait(ctx context.Context, number uint64) error {
	for {
		f.mutex.Lock()
		come, changed := f.come, f.changed
		f.mutex.Unlock()
		if come >= number {
			return nil
		}
		select {
		case <-changed:
		case <-ctx.Done():
			return ctx.Err()
		}
	}
}

// HasCome tells whether a record was carried out. Where another child began from a pool file, that may be so no more.
func (f *Following) HasCome(number uint64) bool {
	f.mutex.Lock()
	defer f.mutex.Unlock()
	return f.come >= number
}

// Saved says that the pool file of this server is now that with this digest. Segments before are not needed any more.
func (f *Following) Saved(pool Digest) {
	f.mutex.Lock()
	defer f.mutex.Unlock()
	if base, found := baseOf(f.walk.segments, pool); found {
		f.walk.segments = f.walk.segments[neededFrom(f.walk.segments, base):]
	}
}

// IsLeading tells whether this server has taken the log over.
func (f *Following) IsLeading() bool { return f.leader.Load() != nil }

// ErrNotAtEnd says that a log has records that were not taken yet, or that the server that writes it lives.
var ErrNotAtEnd = errors.New("the log goes on")

// TakeOver makes this server the one that writes the log, where all of it was taken, and its end was the same for so long a silence; else it is
// ErrNotAtEnd. `pool` is the digest of its pool file. On an error this server goes on following. Nobody may call Take meanwhile.
func (f *Following) TakeOver(pool Digest, silence time.Duration) error {
	r, at, err := f.asLeader(pool, silence)
	if err != nil {
		return err
	}
	conn, err := f.options.connect()
	if err != nil {
		return err
	}
	taken, err := takenOver(at)
	if err == nil {
		err = r.putAndWait(conn, at, []queued{taken})
	}
	if err = r.awaitReplicas(conn, taken.end, err); err != nil {
		conn.Close()
		if isOther(err) {
			return ErrNotAtEnd
		}
		return err
	}
	r.conn, r.counts.Connections, r.counts.IsAnswering = conn, 1, true
	r.acked, r.appended = taken.end, taken.end
	r.keepPlace()
	f.leader.Store(r)
	f.Arrive(taken.end.number)
	go r.write()
	return nil
}

// asLeader gives the journal of this server as the one that writes the log from a mark on.
func (f *Following) asLeader(pool Digest, silence time.Duration) (r *Redis, at mark, err error) {
	f.mutex.Lock()
	defer f.mutex.Unlock()
	at = f.walk.end
	if f.isClosed() || silence > 0 && (f.sight.silent < silence || f.sight.last != at.number) {
		return nil, at, ErrNotAtEnd
	}
	base, err := f.walk.baseToWrite(pool)
	r = &Redis{options: f.options, place: f.place, segments: f.walk.segments, base: base, hasSteps: f.walk.hasSteps,
		wake: make(chan struct{}, 1), closing: make(chan struct{}), ended: make(chan struct{})}
	r.changed = sync.NewCond(&r.mutex)
	return r, at, err
}
