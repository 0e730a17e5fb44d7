package journal

import (
	"errors"
	"fmt"
	"strings"
	"time"

	"github.com/gomodule/redigo/redis"

	"gitpoold/faultpoint"
)

const recordField = "record"

// ending is what both scripts begin with: they do nothing unless the chain of the last entry is the one that is given.
const ending = `
local last = redis.call('XREVRANGE', KEYS[1], '+', '-', 'COUNT', 1)[1]
local chain = last and string.sub(last[2][2], -32) or ''
if chain ~= ARGV[1] then return {last and last[1] or '', chain} end
`

var (
	appendScript = redis.NewScript(1, ending+`
for at = 2, #ARGV, 2 do redis.call('XADD', KEYS[1], ARGV[at], 'record', ARGV[at + 1]) end
return {}
`)
	// trimScript tells whether servers follow the log. Then it keeps more.
	trimScript = redis.NewScript(2, ending+`
local followed = redis.call('EXISTS', KEYS[2])
redis.call('XTRIM', KEYS[1], 'MINID', ARGV[2 + followed])
return {tostring(followed)}
`)
	// signScript raises the sign of life of the server that writes the log. A Redis that has no memory for it goes without, unless it is needed.
	signScript = redis.NewScript(2, ending+`
if ARGV[2] == 'needed' then redis.call('INCR', KEYS[2]) else redis.pcall('INCR', KEYS[2]) end
return {}
`)
)

// otherEnd says that a log does not end where it was thought to, but in an entry with this place and chain.
type otherEnd struct{ id, chain string }

func (o *otherEnd) Error() string { return fmt.Sprintf("the log ends in another record, %s", o.id) }

// ended reads what a script answers.
func ended(answer any, err error) error {
	found, err := redis.Strings(answer, err)
	if err == nil && len(found) == 2 {
		err = &otherEnd{found[0], found[1]}
	}
	return err
}

// trimmed reads what the script of a trim answers.
func trimmed(answer any, err error) (isFollowed bool, _ error) {
	if err = ended(answer, err); err != nil {
		return false, err
	}
	found, err := redis.Strings(answer, nil)
	return len(found) == 1 && found[0] == "1", err
}

// put appends records to a log that ends in a chain. Where it ends in another one, nothing is appended, and the error is otherEnd.
func put(conn redis.Conn, key, chain string, batch []queued) error {
	words := []any{key, chain}
	for _, it := range batch {
		words = append(words, idOf(it.end.number), it.bytes)
	}
	return ended(appendScript.Do(conn, words...))
}

// errFewReplicas says that a record is in the log, and that too few replicas have said that they have it.
var errFewReplicas = errors.New("too few replicas have the last record")

// putAndWait appends records behind a mark, and waits for replicas. Records that the log has already are not appended again.
func (r *Redis) putAndWait(conn redis.Conn, behind mark, batch []queued) error {
	err := put(conn, r.options.Address.key, string(behind.chain[:]), batch)
	var other *otherEnd
	for errors.As(err, &other) {
		has := countOf(batch, other.chain)
		if has == 0 {
			return err
		}
		behind, batch = batch[has-1].end, batch[has:]
		err = nil
		if len(batch) > 0 {
			err = put(conn, r.options.Address.key, string(behind.chain[:]), batch)
		}
	}
	if err != nil {
		return err
	}
	return r.waitForReplicas(conn, lastOf(behind, batch), len(batch) > 0)
}

// lastOf is where a log ends that has a batch after a mark.
func lastOf(behind mark, batch []queued) mark {
	if len(batch) == 0 {
		return behind
	}
	return batch[len(batch)-1].end
}

// waitForReplicas waits until enough replicas have the record in which the log ends. Meanwhile it gives signs of life, for else a server that
// follows would take the log over. Where another connection has written the record, it gives one first, which then has to be there: later versions of
// Redis let WAIT wait for what its own connection has written.
func (r *Redis) waitForReplicas(conn redis.Conn, end mark, hasWritten bool) error {
	if r.options.Replicas == 0 {
		return nil
	}
	until := time.Now().Add(r.options.tryWithin())
	for isFirst := true; ; isFirst = false {
		if !isFirst || !hasWritten {
			if err := r.sign(conn, end, !hasWritten); err != nil {
				return lateUnlessEnded(err)
			}
		}
		count, err := r.askReplicas(conn)
		switch {
		case err != nil:
			return lateUnlessEnded(err)
		case count >= r.options.Replicas:
			return nil
		case time.Now().After(until):
			return fmt.Errorf("%w: %d of %d", errFewReplicas, count, r.options.Replicas)
		}
	}
}

// lateUnlessEnded is errFewReplicas, unless the log ends in another record.
func lateUnlessEnded(err error) error {
	if errors.As(err, new(*otherEnd)) {
		return err
	}
	return fmt.Errorf("%w: %v", errFewReplicas, err)
}

// askReplicas gives how many replicas have what this connection has written, as soon as they are enough, and after a while in any case.
func (r *Redis) askReplicas(conn redis.Conn) (int, error) {
	return redis.Int(redis.DoWithTimeout(conn, lookEvery+r.options.tryWithin(), "WAIT", r.options.Replicas, lookEvery.Milliseconds()))
}

// sign gives a sign of life, if the log ends at a mark. One that is needed is an error where Redis has no memory for it.
func (r *Redis) sign(conn redis.Conn, end mark, isNeeded bool) error {
	address, how := r.options.Address, ""
	if isNeeded {
		how = "needed"
	}
	return ended(signScript.Do(conn, address.key, address.alive(), end.chain[:], how))
}

// awaitReplicas waits longer where a start has found that replicas are late, as long as the connection lasts: so it appends one record
// and no more.
func (r *Redis) awaitReplicas(conn redis.Conn, end mark, late error) error {
	if !errors.Is(late, errFewReplicas) {
		return late
	}
	r.options.Tell("the log %v: %v; the start waits for them", r.options.Address, late)
	for began := time.Now(); errors.Is(late, errFewReplicas) && conn.Err() == nil && time.Since(began) < r.options.startWithin(late); {
		time.Sleep(time.Second / 20)
		late = r.waitForReplicas(conn, end, true)
	}
	return late
}

// countOf tells how many of the records a log has that ends in a chain: 0 where the chain is behind none of them.
func countOf(batch []queued, chain string) int {
	for at, it := range batch {
		if string(it.end.chain[:]) == chain {
			return at + 1
		}
	}
	return 0
}

// lookEvery is how often a log is looked at by which nobody waits, and tried again if it was away.
const lookEvery = time.Second / 2

// write sends what is queued until the journal is closed, or may be written by this server no more.
func (r *Redis) write() {
	defer close(r.ended)
	ticker := time.NewTicker(lookEvery)
	defer ticker.Stop()
	for isTick := true; ; {
		for r.step(isTick) {
			isTick = false
		}
		select {
		case <-r.closing:
			return
		case <-r.wake:
			isTick = false
		case <-ticker.C:
			isTick = true
		}
	}
}

// step sends some of what is queued, or looks how the log stands. It tells whether there may be more to send.
func (r *Redis) step(isTick bool) bool {
	r.mutex.Lock()
	batch := r.take(isTick)
	isBroken, isStale, isOver := r.broken != nil, r.isStale, r.isOver
	r.mutex.Unlock()
	switch {
	case isOver:
	case len(batch) > 0:
		r.send(batch)
		return true
	case isTick && isBroken && !isStale:
		r.heal()
	case isTick:
		r.lookAtEnd()
	}
	return false
}

// take takes records of the queue: where somebody waits for them, where they are many, or where it is time. The mutex is held.
func (r *Redis) take(isTime bool) (batch []queued) {
	if r.broken != nil || !isTime && r.wanted <= r.acked.number && r.waiting < sendFrom {
		return nil
	}
	size, count := 0, 0
	for count < len(r.queue) && count < mostTogether && (count == 0 || size+len(r.queue[count].bytes) <= mostSent) {
		size += len(r.queue[count].bytes)
		count++
	}
	batch, r.queue = r.queue[:count:count], r.queue[count:]
	r.waiting -= size
	return batch
}

// send sends a batch until Redis has it, refuses it, or is away for too long.
func (r *Redis) send(batch []queued) {
	until, began := time.Now().Add(r.options.Wait), time.Now()
	isSure := true
	for {
		err := r.try(batch, began, &isSure)
		switch {
		case err == nil:
			return
		case isEnd(err):
			r.stop(err)
			return
		case isRefusal(err) || time.Now().After(until) || r.isClosing():
			r.fail(batch, isSure, err)
			return
		}
		time.Sleep(time.Second / 20)
	}
}

// try sends a batch once, for which somebody has waited since it began. `isSure` becomes false where Redis may have the batch although it
// did not say so.
func (r *Redis) try(batch []queued, began time.Time, isSure *bool) error {
	r.line.Lock()
	defer r.line.Unlock()
	if err := r.reconnect(); err != nil {
		return err
	}
	faultpoint.Here("before records are sent to Redis")
	err := r.putAndWait(r.conn, r.acked, batch)
	faultpoint.Here("after records are in Redis")
	var other *otherEnd
	if errors.As(err, &other) {
		return r.explain(r.acked, other)
	}
	var refused redis.Error
	if err != nil && !errors.As(err, &refused) {
		*isSure = false
	}
	if err == nil {
		r.acknowledge(batch, time.Since(began))
	}
	return r.unless(err)
}

// reconnect connects where there is no connection. The line is held.
func (r *Redis) reconnect() (err error) {
	if r.conn != nil {
		return nil
	}
	if r.conn, err = r.options.connect(); err != nil {
		r.conn = nil
		return r.unless(err)
	}
	r.mutex.Lock()
	defer r.mutex.Unlock()
	r.counts.Connections++
	return nil
}

// unless gives a connection up that did not do what it should, and notes whether Redis answers. The line is held.
func (r *Redis) unless(err error) error {
	if err != nil && r.conn != nil {
		r.conn.Close()
		r.conn = nil
	}
	r.mutex.Lock()
	defer r.mutex.Unlock()
	if wasAnswering := r.counts.IsAnswering; wasAnswering && err != nil {
		r.options.Tell("the log %v does not take records: %v", r.options.Address, err)
	} else if !wasAnswering && err == nil {
		r.options.Tell("the log %v answers again", r.options.Address)
	}
	r.counts.IsAnswering = err == nil
	return err
}

// passing are the first words of errors that end by themselves.
var passing = [...]string{"LOADING", "READONLY", "MASTERDOWN", "CLUSTERDOWN", "TRYAGAIN", "BUSY", "NOREPLICAS", "NOSCRIPT"}

// isRefusal tells whether Redis says that it does not write a record, for a reason that may last.
func isRefusal(err error) bool {
	var refused redis.Error
	if !errors.As(err, &refused) {
		return false
	}
	word, _, _ := strings.Cut(string(refused), " ")
	for _, it := range passing {
		if word == it {
			return false
		}
	}
	return true
}

// isEnd tells whether an error says that this server may go on with the log no more.
func isEnd(err error) bool {
	var bad *BadLog
	return errors.As(err, &bad)
}

func (r *Redis) isClosing() bool {
	select {
	case <-r.closing:
		return true
	default:
		return false
	}
}

// acknowledge notes that Redis has a batch.
func (r *Redis) acknowledge(batch []queued, took time.Duration) {
	r.mutex.Lock()
	defer r.mutex.Unlock()
	for _, it := range batch {
		r.note(it, &r.acked)
	}
	r.counts.Appends++
	r.counts.Seconds += took.Seconds()
	r.keepPlace()
	r.changed.Broadcast()
}

// note moves the end of the log behind a record that is there. The mutex is held.
func (r *Redis) note(it queued, end *mark) {
	if it.begins != nil {
		r.segments[len(r.segments)-1].size = end.size
		r.segments = append(r.segments, *it.begins)
	}
	*end = it.end
}

// fail refuses what is not in the log. Of a batch that Redis got nobody knows whether it is there, until Redis answers again.
func (r *Redis) fail(batch []queued, isSure bool, why error) {
	r.mutex.Lock()
	defer r.mutex.Unlock()
	r.broken = ErrAway
	if isRefusal(why) {
		r.broken = ErrFull
	}
	r.sent, r.ends = nil, []possibleEnd{{mark: r.acked}}
	if !isSure {
		r.sent, r.unsure = batch, batch[len(batch)-1].end.number
		for at, it := range batch {
			r.ends = append(r.ends, possibleEnd{mark: it.end, stand: at + 1})
		}
	}
	r.queue, r.waiting, r.appended = nil, 0, r.acked
	r.options.Tell("the journal takes no records: %v", why)
	r.changed.Broadcast()
}

// stop ends this server's work with the log.
func (r *Redis) stop(why error) {
	r.mutex.Lock()
	defer r.mutex.Unlock()
	r.broken, r.isOver, r.unsure = ErrAway, true, ^uint64(0)
	r.changed.Broadcast()
	go r.options.Lost(why)
}

// possibleEnd is where the log of a broken journal may end, and how many of the records are there then that Redis said nothing of. It may be
// a record by which this server has taken the log over since.
type possibleEnd struct {
	mark
	stand   int
	isFence bool
}

// heal looks whether Redis takes records again. It writes that this server takes the log over, so that what was sent before and is on its
// way still comes too late; then it is known which of it is there.
func (r *Redis) heal() {
	end, stand, err := r.fence()
	if err != nil {
		if isEnd(err) {
			r.stop(err)
		}
		return
	}
	r.mutex.Lock()
	at := r.acked
	for _, it := range r.sent[:stand] {
		r.note(it, &at)
	}
	r.next, r.isStale = end, true
	sent := len(r.sent)
	r.mutex.Unlock()
	r.options.Tell("the log %v takes records again; of %d records that it had not told of it has %d", r.options.Address, sent, stand)
	r.options.Stale()
}

// fence takes the log over at the record in which it ends, and tells how many of the records are there that were sent.
func (r *Redis) fence() (end mark, stand int, err error) {
	r.line.Lock()
	defer r.line.Unlock()
	if err := r.reconnect(); err != nil {
		return mark{}, 0, err
	}
	at := r.ends[0]
	for turn := 0; turn < 3; turn++ {
		end, err := r.fenceAt(at)
		var other *otherEnd
		if !errors.As(err, &other) {
			return end, at.stand, r.unless(err)
		}
		var known bool
		if at, known = r.endOf(other.chain); !known {
			return mark{}, 0, r.explain(r.acked, other)
		}
	}
	return mark{}, 0, errors.New("the log goes on by itself")
}

// fenceAt takes the log over at one of its possible ends, if it ends there. Its record is another one then, unless it was surely not appended.
// Where that end is such a record, and replicas were late, it waits for these alone.
func (r *Redis) fenceAt(at possibleEnd) (end mark, err error) {
	if at.isFence {
		return at.mark, r.waitForReplicas(r.conn, at.mark, false)
	}
	taken, err := takenOver(at.mark)
	if err != nil {
		return mark{}, err
	}
	r.ends = append(r.ends, possibleEnd{mark: taken.end, stand: at.stand, isFence: true})
	err = r.putAndWait(r.conn, at.mark, []queued{taken})
	var other *otherEnd
	if isRefusal(err) || errors.As(err, &other) {
		r.ends = r.ends[:len(r.ends)-1]
	}
	return taken.end, err
}

// endOf gives the end of a chain, if the log of a broken journal may end there.
func (r *Redis) endOf(chain string) (possibleEnd, bool) {
	for _, it := range r.ends {
		if string(it.chain[:]) == chain {
			return it, true
		}
	}
	return possibleEnd{}, false
}

// lookAtEnd looks whether the log ends where this server left it, leaves a sign of life, and calls for another child while one is needed.
func (r *Redis) lookAtEnd() {
	r.mutex.Lock()
	end, isStale := r.acked, r.isStale
	if isStale {
		end = r.next
	}
	r.mutex.Unlock()
	r.line.Lock()
	err := r.reconnect()
	if err == nil {
		err = r.sign(r.conn, end, false)
		var other *otherEnd
		if errors.As(err, &other) {
			err = r.explain(end, other)
		} else {
			err = r.unless(err)
		}
	}
	r.line.Unlock()
	if isEnd(err) {
		r.stop(err)
	} else if err == nil && isStale && r.IsBroken() {
		r.options.Stale()
	}
}

// explain says why a log does not end at a mark, where this server left it: another server has taken it over, or it lost records. The line is held.
func (r *Redis) explain(at mark, other *otherEnd) error {
	address := r.options.Address
	if other.id == "" {
		return address.bad("the log is gone, and this server had come to record %d", at.number)
	}
	found, err := redis.Values(r.conn.Do("XRANGE", address.key, idOf(at.number), "+", "COUNT", fewestAtOnce))
	if err != nil {
		return r.unless(err)
	}
	if len(found) == 0 {
		last := strings.TrimSuffix(other.id, "-0")
		return address.bad("the log ends at record %s, and this server had come to record %d: the log lost its end", last, at.number)
	}
	if first, err := firstOf(r.conn, address); err == nil && first > at.number {
		// Only a server that has the log removes the records at its beginning.
		reason := fmt.Sprintf("another server has taken the log over%s and saved: the log begins at record %d, and this server had come to record %d",
			whoOf(found), first, at.number)
		return &BadLog{Log: address.String(), Reason: reason, IsTaken: true, MayHaveLost: true}
	}
	if _, record, err := entryOf(found[0]); err != nil || !strings.HasSuffix(string(record), string(at.chain[:])) {
		return address.otherRecord(at.number)
	}
	return &BadLog{Log: address.String(), Reason: "another server has taken the log over" + whoOf(found[1:]), IsTaken: true}
}

// whoOf tells who has taken a log over, by the entries that follow.
func whoOf(entries []any) string {
	for _, it := range entries {
		if _, record, err := entryOf(it); err == nil {
			if step, is := stepOf(record); is && step.Kind == TakenOver && len(step.Body) > epochBytes {
				return fmt.Sprintf(" (%q)", step.Body[epochBytes:])
			}
		}
	}
	return ""
}
