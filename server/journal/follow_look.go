package journal

import (
	"context"
	"fmt"
	"time"

	"github.com/gomodule/redigo/redis"
)

// What a server that follows a log asks Redis, beside the records, stands in this file: how far the log is, and whether the server that writes
// it lives.

// lookScript gives the place and the chain of the last entry, and the sign of life of the server that writes the log. It removes a key that is not
// there, which a Redis refuses that is a replica by now: what that has may be old.
var lookScript = redis.NewScript(3, `
redis.call('DEL', KEYS[3])
local last = redis.call('XREVRANGE', KEYS[1], '+', '-', 'COUNT', 1)[1]
return {last and last[1] or '', last and string.sub(last[2][2], -32) or '', redis.call('GET', KEYS[2]) or ''}
`)

// sight is what was seen of a log, and when. The mutex of Following guards it.
type sight struct {
	isAnswering bool
	connections int64
	// last is the number of the log's last record, and sign the sign of life. Both were the same in all looks of the time `silent`.
	last   uint64
	sign   string
	silent time.Duration
	looked time.Time
	// fresh is when this server last had all that the log had. Where it has not come to what a later look found, `waited` is that one.
	fresh   time.Time
	waited  time.Time
	awaited uint64
	// short is since when the log has ended before what was taken of it.
	short time.Time
}

// mostBetween is how much of the time between two looks counts as silence: this server may have been stopped.
const mostBetween = 2 * lookEvery

// saw notes a look that began at a moment.
func (s *sight) saw(began time.Time, number uint64, sign string, come uint64) {
	between := began.Sub(s.looked)
	if between > mostBetween {
		between = mostBetween
	}
	s.silent += between
	if !s.isAnswering || number > s.last || sign != s.sign {
		s.silent = 0
	}
	s.isAnswering, s.last, s.sign, s.looked, s.short = true, number, sign, began, time.Time{}
	if come >= number {
		s.fresh, s.awaited = began, 0
	} else if s.awaited == 0 {
		s.waited, s.awaited = began, number
	}
}

// arrived notes how far this server has come.
func (s *sight) arrived(number uint64) {
	if s.awaited > 0 && number >= s.awaited {
		s.fresh, s.awaited = s.waited, 0
	}
}

// question is how far the log is, asked once for all who want to know it before it is sent.
type question struct {
	done   chan struct{}
	number uint64
	err    error
}

// last asks for the number of the log's last record.
func (f *Following) last(ctx context.Context) (uint64, error) {
	f.mutex.Lock()
	if f.next == nil {
		f.next = &question{done: make(chan struct{})}
	}
	mine := f.next
	f.mutex.Unlock()
	select {
	case f.asked <- struct{}{}:
	default:
	}
	select {
	case <-mine.done:
		return mine.number, mine.err
	case <-ctx.Done():
		return 0, ctx.Err()
	case <-f.ended:
		return 0, ErrUnread
	}
}

// look asks Redis when somebody wants to know, and twice a second, until this server leads or closes.
func (f *Following) look() {
	defer close(f.ended)
	var conn redis.Conn
	ticker, announced := time.NewTicker(lookEvery), time.Now()
	defer ticker.Stop()
	for !f.IsLeading() {
		conn = f.lookOnce(conn)
		if conn != nil && time.Since(announced) > announceEvery {
			announced = time.Now()
			_ = announce(conn, f.options.Address)
		}
		select {
		case <-f.asked:
		case <-ticker.C:
		case <-f.closing:
			closeConn(conn)
			return
		}
	}
	closeConn(conn)
	f.answer(ErrUnread, 0)
}

func closeConn(conn redis.Conn) {
	if conn != nil {
		conn.Close()
	}
}

// answer answers those who have asked before now.
func (f *Following) answer(err error, number uint64) {
	f.mutex.Lock()
	it := f.next
	f.next = nil
	f.mutex.Unlock()
	if it != nil {
		it.number, it.err = number, err
		close(it.done)
	}
}

// lookOnce asks Redis, and answers all who had asked before. It gives the connection, if that is well.
func (f *Following) lookOnce(conn redis.Conn) redis.Conn {
	f.mutex.Lock()
	it, taken := f.next, f.reached
	f.next = nil
	f.mutex.Unlock()
	began := time.Now()
	number, sign, conn, err := f.askOver(conn, taken)
	f.mutex.Lock()
	if err == nil {
		f.sight.saw(began, number, sign, f.come)
	} else {
		f.sight.isAnswering = false
	}
	f.mutex.Unlock()
	if it != nil {
		it.number, it.err = number, err
		close(it.done)
	}
	if isEnd(err) {
		f.lose(err)
	}
	return conn
}

// lose says once that this server may not go on.
func (f *Following) lose(why error) { f.once.Do(func() { go f.options.Lost(why) }) }

// askOver asks how far the log is, which has to have what was taken.
func (f *Following) askOver(conn redis.Conn, taken mark) (number uint64, sign string, same redis.Conn, err error) {
	if conn == nil {
		if conn, err = f.options.connect(); err != nil {
			return 0, "", nil, err
		}
		f.mutex.Lock()
		f.sight.connections++
		f.mutex.Unlock()
	}
	key := f.options.Address.key
	found, err := redis.Strings(lookScript.Do(conn, key, f.options.Address.alive(), f.options.Address.Beside("nothing").key))
	if err == nil && len(found) != 3 {
		err = ErrUnread
	}
	if err != nil {
		conn.Close()
		return 0, "", nil, fmt.Errorf("%w: %v", ErrUnread, err)
	}
	number, err = f.compare(taken, found[0], found[1])
	return number, found[2], conn, err
}

// compare compares the last entry of the log with what was taken before.
func (f *Following) compare(taken mark, id, chain string) (uint64, error) {
	if id == "" {
		return 0, f.options.Address.bad("the log is gone, and this server had come to record %d", taken.number)
	}
	number, err := numberOf(id)
	switch {
	case err != nil:
		return 0, f.options.Address.bad("the entry %s has no place of this service", id)
	case number < taken.number && f.mayComeAgain():
		return 0, ErrUnread
	case number < taken.number:
		return 0, f.options.Address.bad("the log ends at record %d, and this server had come to record %d: the log lost its end", number, taken.number)
	case number == taken.number && chain != string(taken.chain[:]):
		return 0, f.options.Address.otherRecord(number)
	}
	return number, nil
}

// mayComeAgain tells whether the other server may still send what a log lacks, which nobody was told of then: its Redis was replaced by one
// that had not got it yet.
func (f *Following) mayComeAgain() bool {
	f.mutex.Lock()
	defer f.mutex.Unlock()
	if f.sight.short.IsZero() {
		f.sight.short = time.Now()
	}
	return time.Since(f.sight.short) < f.options.Wait
}

// alive is the key of the sign of life of the server that writes the log, and followers the key that is there while servers follow it.
func (a Address) alive() string     { return a.Beside("alive").key }
func (a Address) followers() string { return a.Beside("followers").key }

// The announcement outlives a clock of Redis that jumps by a day: a log without it does not get the files of tenants that are moved, and who follows it
// ends at the next save.
const (
	announceEvery = time.Hour
	announcedFor  = 7 * 24 * time.Hour
)

// announce lets the server that writes the log know that there are servers that follow it: then it keeps more for those that are behind.
func announce(conn redis.Conn, address Address) error {
	_, err := conn.Do("SET", address.followers(), "1", "EX", int(announcedFor.Seconds()))
	return err
}

// Silence is for how long nothing was seen of the server that writes the log, while Redis answered; 0 where Redis does not answer.
func (f *Following) Silence() time.Duration {
	f.mutex.Lock()
	defer f.mutex.Unlock()
	if !f.sight.isAnswering {
		return 0
	}
	return f.sight.silent
}

// Hush lets the silence begin anew.
func (f *Following) Hush() {
	f.mutex.Lock()
	defer f.mutex.Unlock()
	f.sight.silent = 0
}

// Behind is how many records this server has not carried out, of those that it knows of, and for how many seconds it may be without what
// the log has. Both are 0 once this server leads.
func (f *Following) Behind() (records uint64, seconds float64) {
	if f.IsLeading() {
		return 0, 0
	}
	f.mutex.Lock()
	defer f.mutex.Unlock()
	if f.sight.last > f.come {
		records = f.sight.last - f.come
	}
	return records, time.Since(f.sight.fresh).Seconds()
}

// isClosed tells whether the log is followed no more.
func (f *Following) isClosed() bool {
	select {
	case <-f.closing:
		return true
	default:
		return false
	}
}
