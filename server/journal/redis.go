package journal

import (
	"crypto/rand"
	"errors"
	"fmt"
	"os"
	"sync"
	"time"

	"github.com/gomodule/redigo/redis"

	"gitpoold/frames"
)

// Options say how a server works with a log in Redis.
type Options struct {
	Address Address
	// Wait is how long a push waits for a Redis that does not answer.
	Wait time.Duration
	// Replicas is how many replicas of the Redis have to have a record before it lasts.
	Replicas int
	// IsUnsynced says that the Redis need not sync what it acknowledges.
	IsUnsynced bool
	// Place is the path of the file that keeps how far this server has come.
	Place string
	// Tell writes a line for the operator.
	Tell func(format string, values ...any)
	// Stale is called where the log has other records than the child was given. It is called again until Resume is.
	Stale func()
	// Lost is called where this server may go on with the log no more.
	Lost func(error)
}

// tryWithin is how long one try may take.
func (o *Options) tryWithin() time.Duration { return o.Wait/3 + time.Second/2 }

// Redis is the journal of a pool as a stream of Redis: an entry a record, whose place is NUMBER-0. One goroutine alone writes (write): it
// sends what was appended once somebody waits for it, by a script that appends nothing unless the log ends as this server left it.
type Redis struct {
	options Options
	place   *placeFile
	wake    chan struct{}
	closing chan struct{}
	ended   chan struct{}
	once    sync.Once

	// line is held by whoever uses the connection.
	line sync.Mutex
	conn redis.Conn

	mutex    sync.Mutex
	changed  *sync.Cond
	queue    []queued
	waiting  int
	wanted   uint64
	acked    mark
	appended mark
	segments []segment
	base     int
	hasSteps bool
	broken   error
	// These are those of a broken journal: the records that Redis got and said nothing of, and the number of the last one; where the log
	// may end; whether Redis answers again, and what the log ends in then.
	sent    []queued
	unsure  uint64
	ends    []possibleEnd
	isStale bool
	next    mark
	isOver  bool
	counts  RedisCounts
}

// RedisCounts are what a log did since the start of the server, and how it stands.
type RedisCounts struct {
	Appends, Connections int64
	Seconds              float64
	WaitingBytes         int64
	IsAnswering          bool
}

// queued is a record on its way to Redis, and the journal's end behind it. The first record of a segment has that.
type queued struct {
	end    mark
	bytes  []byte
	kind   frames.Kind
	begins *segment
}

const (
	// sendFrom is how many bytes are sent although nobody waits for them, mostSent how many at most together, and mostQueued how many
	// may wait. mostTogether is how many records go together.
	sendFrom     = 1 << 20
	mostSent     = 4 << 20
	mostQueued   = 32 << 20
	mostTogether = 4096
	epochBytes   = 16
)

// CreateRedis begins a log for a pool file with this digest, unless there is one.
func CreateRedis(options Options, pool Digest) error {
	_, had, err := readPlace(options.Place)
	if err != nil {
		return err
	}
	conn, err := options.connect()
	if err != nil {
		return err
	}
	defer conn.Close()
	exists, err := redis.Bool(conn.Do("EXISTS", options.Address.key))
	if err != nil || exists {
		return err
	}
	if had {
		return options.Address.bad("the log is gone of which this server has a place; remove %s to begin another log", options.Place)
	}
	first := segment{number: 1, pool: pool}
	var at mark
	bytes := appendRecord(nil, &at, frames.Step{Kind: saved, Body: first.body()})
	return put(conn, options.Address.key, "", []queued{{end: at, bytes: bytes}})
}

// OpenRedis takes a log over: it reads it through, for a pool file with this digest, and writes that this server has it now. From then on
// no other server can append to it. What is not as it was written, or not what this server had, is BadLog.
func OpenRedis(options Options, pool Digest) (*Redis, error) {
	r := &Redis{options: options, wake: make(chan struct{}, 1), closing: make(chan struct{}), ended: make(chan struct{})}
	r.changed = sync.NewCond(&r.mutex)
	kept, _, err := readPlace(options.Place)
	if err != nil {
		return nil, err
	}
	if err = r.takeOver(pool, kept); err != nil {
		return nil, err
	}
	if r.place, err = keepPlace(options.Place, r.acked); err == nil {
		err = r.place.file.Sync()
	}
	if err != nil {
		r.conn.Close()
		return nil, err
	}
	go r.write()
	return r, nil
}

// takeOver reads the log and takes it over. It tries again while Redis is away, replicas are late, or another server is at work with it.
func (r *Redis) takeOver(pool Digest, kept place) error {
	began := time.Now()
	for {
		err := r.tryTakeOver(pool, kept)
		if err == nil || isEnd(err) || errors.Is(err, ErrUnsynced) || time.Since(began) > r.options.startWithin(err) {
			return err
		}
		time.Sleep(time.Second / 10)
	}
}

// replicasWithin is how long a start waits for replicas at least. After a failover a primary has none for some ten seconds: Sentinel waits
// that long before it lets the old primary follow the new one.
const replicasWithin = time.Minute

// startWithin is how long a start tries again what failed.
func (o *Options) startWithin(err error) time.Duration {
	if errors.Is(err, errFewReplicas) && o.Wait < replicasWithin {
		return replicasWithin
	}
	return o.Wait
}

func (r *Redis) tryTakeOver(pool Digest, kept place) error {
	conn, err := r.options.connect()
	if err != nil {
		return err
	}
	err = unlessTrimmed(conn, r.options.Address, func() error { return r.readThrough(conn, pool, kept) })
	if err != nil {
		conn.Close()
		return err
	}
	r.conn, r.counts.Connections, r.counts.IsAnswering = conn, 1, true
	return nil
}

// readThrough reads the log from its first record on, and takes it over. A server that has the log still may append to it meanwhile.
func (r *Redis) readThrough(conn redis.Conn, pool Digest, kept place) error {
	w := walk{address: r.options.Address, kept: kept}
	err := r.readAndBegin(conn, &w, pool)
	for turn := 0; turn < mostTurns && isOther(err); turn++ {
		err = r.readAndBegin(conn, &w, pool)
	}
	return err
}

// mostTurns is how often a start reads on where another server appended to the log in between.
const mostTurns = 1000

func isOther(err error) bool {
	var other *otherEnd
	return errors.As(err, &other)
}

// readAndBegin reads the log from where it was read to, and takes it over at its end.
func (r *Redis) readAndBegin(conn redis.Conn, w *walk, pool Digest) error {
	if err := w.all(conn, w.end.number+1, 0); err != nil {
		return err
	}
	if err := w.check(); err != nil {
		return err
	}
	base, err := w.baseToWrite(pool)
	if err != nil {
		return err
	}
	taken, err := takenOver(w.end)
	if err == nil {
		err = r.putAndWait(conn, w.end, []queued{taken})
	}
	if err = r.awaitReplicas(conn, taken.end, err); err != nil {
		return err
	}
	r.segments, r.base, r.hasSteps, r.acked, r.appended = w.segments, base, w.hasSteps, taken.end, taken.end
	return nil
}

// takenOver is the record by which this server takes a log over at a mark.
func takenOver(at mark) (queued, error) {
	body := make([]byte, epochBytes)
	if _, err := rand.Read(body); err != nil {
		return queued{}, err
	}
	machine, err := os.Hostname()
	if err != nil {
		return queued{}, err
	}
	step := frames.Step{Kind: TakenOver, Body: append(body, fmt.Sprintf("%s, process %d", machine, os.Getpid())...)}
	bytes := appendRecord(nil, &at, step)
	return queued{end: at, bytes: bytes, kind: TakenOver}, nil
}

// Append queues steps behind one another, and gives the number of the last one.
func (r *Redis) Append(steps ...frames.Step) (uint64, error) {
	if err := readable(steps...); err != nil {
		return 0, err
	}
	r.mutex.Lock()
	defer r.mutex.Unlock()
	for r.broken == nil && r.waiting > mostQueued {
		r.changed.Wait()
	}
	if r.broken != nil {
		return 0, r.broken
	}
	for _, step := range steps {
		r.enqueue(step, nil)
	}
	r.hasSteps = true
	if r.waiting >= sendFrom {
		r.wakeUp()
	}
	return r.appended.number, nil
}

func (r *Redis) enqueue(step frames.Step, begins *segment) {
	bytes := appendRecord(make([]byte, 0, headBytes+step.Size()+chainBytes), &r.appended, step)
	r.queue = append(r.queue, queued{r.appended, bytes, step.Kind, begins})
	r.waiting += len(bytes)
}

func (r *Redis) wakeUp() {
	select {
	case r.wake <- struct{}{}:
	default:
	}
}

// Sync waits until Redis has synced the record of a number, and all before it.
func (r *Redis) Sync(number uint64) error {
	r.mutex.Lock()
	defer r.mutex.Unlock()
	if number > r.wanted && number > r.acked.number {
		r.wanted = number
		r.wakeUp()
	}
	for r.acked.number < number {
		if r.broken != nil && number <= r.unsure {
			return ErrUnsure
		}
		if r.broken != nil {
			return r.broken
		}
		r.changed.Wait()
	}
	return nil
}

// Begin begins a segment for the steps that come after a pool file.
func (r *Redis) Begin(pool Digest, open []uint64) error {
	r.mutex.Lock()
	if r.broken != nil {
		defer r.mutex.Unlock()
		return r.broken
	}
	made := &segment{number: r.segments[len(r.segments)-1].number + 1, pool: pool, open: open, before: r.appended.chain,
		first: r.appended.number + 1}
	if err := made.readable(); err != nil {
		r.mutex.Unlock()
		return err
	}
	r.appended.size = 0
	r.enqueue(frames.Step{Kind: saved, Body: made.body()}, made)
	number := r.appended.number
	r.mutex.Unlock()
	if err := r.Sync(number); err != nil {
		return err
	}
	r.mutex.Lock()
	defer r.mutex.Unlock()
	r.hasSteps = false
	return nil
}

// Drop removes the records that are not needed any more, unless another server has the log. Where servers follow the log, it keeps those that
// followedFrom says.
func (r *Redis) Drop() error {
	r.line.Lock()
	defer r.line.Unlock()
	r.mutex.Lock()
	base := len(r.segments) - 1
	needed, followed := neededFrom(r.segments, base), followedFrom(r.segments)
	first, early, end := r.segments[needed].first, r.segments[followed].first, r.acked.chain
	r.mutex.Unlock()
	if r.conn == nil {
		return fmt.Errorf("the log keeps what it no longer needs: %w", ErrAway)
	}
	isFollowed, err := trimmed(trimScript.Do(r.conn, r.options.Address.key, r.options.Address.followers(), end[:], idOf(first), idOf(early)))
	if err != nil {
		return fmt.Errorf("the log keeps what it no longer needs: %w", err)
	}
	if isFollowed {
		needed = followed
	}
	r.mutex.Lock()
	defer r.mutex.Unlock()
	r.base, r.segments = base-needed, r.segments[needed:]
	return r.place.file.Sync()
}

// IsFollowed tells whether other servers follow the log. They may where Redis does not say.
func (r *Redis) IsFollowed() bool {
	r.line.Lock()
	defer r.line.Unlock()
	if r.conn == nil {
		return true
	}
	found, err := redis.Bool(r.conn.Do("EXISTS", r.options.Address.followers()))
	return err != nil || found
}

// A log that servers follow keeps what came since the save before the last one, and up to mostKept saves if these have no more than keptBytes.
const (
	mostKept  = 8
	keptBytes = 64 << 20
)

// followedFrom is the place of the first segment that is kept for servers that follow the log and may be behind.
func followedFrom(all []segment) int {
	last := len(all) - 1
	at, bytes := last, int64(0)
	for at > 0 && (at == last || last-at < mostKept && bytes+all[at-1].size <= keptBytes) {
		at--
		bytes += all[at].size
	}
	return neededFrom(all, at)
}

// Resume lets the journal go on from what Redis has.
func (r *Redis) Resume() {
	r.mutex.Lock()
	defer r.mutex.Unlock()
	if !r.isStale || r.isOver {
		return
	}
	r.acked, r.appended, r.broken, r.isStale, r.hasSteps = r.next, r.next, nil, false, true
	r.sent, r.unsure, r.wanted = nil, 0, 0
	r.keepPlace()
	r.changed.Broadcast()
}

// keepPlace writes how far the log was told of. The mutex is held.
func (r *Redis) keepPlace() {
	if err := r.place.write(r.acked); err != nil {
		r.options.Tell("%s cannot be written: %v", r.options.Place, err)
	}
}

// Losses is 0: where records are lost, the child is replaced, and its streams end.
func (r *Redis) Losses() uint64 { return 0 }

// Bytes is how many bytes of records the log has that a start would need.
func (r *Redis) Bytes() int64 {
	r.mutex.Lock()
	defer r.mutex.Unlock()
	return bytesOf(r.segments[neededFrom(r.segments, r.base):], r.appended)
}

// Number is the number of the last record.
func (r *Redis) Number() uint64 {
	r.mutex.Lock()
	defer r.mutex.Unlock()
	return r.appended.number
}

// Segments gives the numbers of the first and the last segment.
func (r *Redis) Segments() (first, last uint64) {
	r.mutex.Lock()
	defer r.mutex.Unlock()
	return r.segments[0].number, r.segments[len(r.segments)-1].number
}

// HasSteps tells whether there are steps since the last save.
func (r *Redis) HasSteps() bool {
	r.mutex.Lock()
	defer r.mutex.Unlock()
	return r.hasSteps || r.base != len(r.segments)-1
}

// IsBroken tells whether the journal takes no records.
func (r *Redis) IsBroken() bool {
	r.mutex.Lock()
	defer r.mutex.Unlock()
	return r.broken != nil
}

// IsHealedBySave says that a save does not bring Redis back.
func (r *Redis) IsHealedBySave() bool { return false }

// Counts tells what the log did.
func (r *Redis) Counts() RedisCounts {
	r.mutex.Lock()
	defer r.mutex.Unlock()
	counts := r.counts
	counts.WaitingBytes = int64(r.waiting)
	return counts
}

// Close sends what is queued, and closes the journal.
func (r *Redis) Close() error {
	_ = r.Sync(r.Number())
	r.once.Do(func() { close(r.closing) })
	<-r.ended
	r.line.Lock()
	defer r.line.Unlock()
	if r.conn != nil {
		r.conn.Close()
	}
	return r.place.file.Close()
}
