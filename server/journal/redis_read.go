package journal

import (
	"bufio"
	"bytes"
	"errors"
	"fmt"
	"io"
	"strconv"
	"strings"

	"github.com/gomodule/redigo/redis"

	"gitpoold/frames"
)

// ErrUnread says that the Redis of a journal could not be read. What is in it stands.
var ErrUnread = errors.New("the journal cannot be read now")

// BadLog says why a server may not go on with a log. Nothing is changed.
type BadLog struct {
	Log    string
	Reason string
	// IsTaken says that the log is as it should be, and that another server has it. NeedsCopy says that it is as it should be, and that
	// this server, which follows it, has to begin from a newer pool file.
	IsTaken, NeedsCopy bool
	// MayHaveLost says of a log that another server has that it begins after the last record of this server. So nobody can tell whether it had
	// all of them.
	MayHaveLost bool
}

// IsLoss tells whether the log lacks, or may lack, what this server had.
func (b *BadLog) IsLoss() bool { return !b.NeedsCopy && (!b.IsTaken || b.MayHaveLost) }

func (b *BadLog) Error() string {
	return fmt.Sprintf("%s: %s; nothing was changed (docs/DEPLOY.md, \"The journal in Redis\")", b.Log, b.Reason)
}

func (a Address) bad(form string, values ...any) error {
	return &BadLog{Log: a.String(), Reason: fmt.Sprintf(form, values...)}
}

func (a Address) otherRecord(number uint64) error {
	return a.bad("record %d is another one than this server had: the log lost records and went on", number)
}

// reading reads the entries of a stream in order, some at a time.
type reading struct {
	conn    redis.Conn
	address Address
	from    uint64
	count   int
	got     []any
	isEnd   bool
}

const (
	fewestAtOnce = 16
	mostAtOnce   = 1024
	fewBytes     = 4 << 20
	manyBytes    = 16 << 20
)

// next gives the record of the next entry, or io.EOF.
func (r *reading) next() ([]byte, error) {
	if len(r.got) == 0 && !r.isEnd {
		if err := r.fetch(); err != nil {
			return nil, err
		}
	}
	if len(r.got) == 0 {
		return nil, io.EOF
	}
	number, record, err := recordOf(r.address, r.got[0])
	if err != nil {
		return nil, err
	}
	if number < r.from {
		return nil, r.address.bad("the entry %s has no place of this service", idOf(number))
	}
	r.got, r.from = r.got[1:], number+1
	return record, nil
}

// recordOf gives the number and the record of an entry, which has to be one.
func recordOf(address Address, entry any) (uint64, []byte, error) {
	id, record, err := entryOf(entry)
	if err != nil {
		return 0, nil, address.bad("the entry %s is not one of this service", id)
	}
	number, err := numberOf(id)
	if err != nil {
		return 0, nil, address.bad("the entry %s has no place of this service", id)
	}
	if h := headOf(record); !h.isGood || h.number != number || h.recordBytes() != int64(len(record)) {
		return 0, nil, address.bad("record %d is not as it was written", number)
	}
	return number, record, nil
}

// headOf reads the head of a record, which is bad where the record is too short for one.
func headOf(record []byte) head {
	if len(record) < headBytes+chainBytes {
		return head{}
	}
	return readHead(record)
}

// firstOf gives the number of the first record that a log has, or 0.
func firstOf(conn redis.Conn, address Address) (uint64, error) {
	entries := reading{conn: conn, address: address, from: 1}
	record, err := entries.next()
	if err == io.EOF {
		return 0, nil
	}
	if err != nil {
		return 0, err
	}
	return readHead(record).number, nil
}

// unlessTrimmed reads a log, and does so again where that finds it bad and the server that writes it has removed records meanwhile, after a
// save: then those that were missing are none that got lost.
func unlessTrimmed(conn redis.Conn, address Address, read func() error) error {
	for {
		before, err := firstOf(conn, address)
		if err != nil {
			return err
		}
		err = read()
		if !isEnd(err) {
			return err
		}
		if now, failed := firstOf(conn, address); failed != nil || now == before {
			return err
		}
	}
}

func (r *reading) fetch() error {
	if r.count == 0 {
		r.count = fewestAtOnce
	}
	got, err := redis.Values(r.conn.Do("XRANGE", r.address.key, idOf(r.from), "+", "COUNT", r.count))
	if err != nil {
		return fmt.Errorf("%w: %v", ErrUnread, err)
	}
	r.got, r.isEnd = got, len(got) < r.count
	r.count = countAfter(r.count, got)
	return nil
}

// countAfter gives how many entries to read at once, after these were read.
func countAfter(count int, got []any) int {
	size := 0
	for _, it := range got {
		if _, record, err := entryOf(it); err == nil {
			size += len(record)
		}
	}
	if size < fewBytes && count < mostAtOnce {
		return count * 2
	} else if size > manyBytes && count > fewestAtOnce {
		return count / 2
	}
	return count
}

// entryOf gives the place and the record of an entry as Redis tells it.
func entryOf(entry any) (id string, record []byte, err error) {
	pair, err := redis.Values(entry, nil)
	if err != nil || len(pair) != 2 {
		return "", nil, errBad
	}
	if id, err = redis.String(pair[0], nil); err != nil {
		return "", nil, err
	}
	fields, err := redis.ByteSlices(pair[1], nil)
	if err != nil || len(fields) != 2 || string(fields[0]) != recordField {
		return id, nil, errBad
	}
	return id, fields[1], nil
}

// The place of a record in the stream is its number.
func idOf(number uint64) string { return strconv.FormatUint(number, 10) + "-0" }

func numberOf(id string) (uint64, error) {
	number, rest, _ := strings.Cut(id, "-")
	if rest != "0" {
		return 0, errBad
	}
	return strconv.ParseUint(number, 10, 64)
}

// walk reads a log through. It calls `use`, if there is one, with each record that is a step, and the place of its segment.
type walk struct {
	address  Address
	segments []segment
	end      mark
	hasSteps bool
	// before is the chain at the number of the place that was kept, where the log has that record.
	kept  place
	found *Chain
	use   func(at int, record Record) error
}

// all reads to the end of the log, or to the record of a number.
func (w *walk) all(conn redis.Conn, from, to uint64) error {
	entries := reading{conn: conn, address: w.address, from: from}
	for to == 0 || w.end.number < to {
		record, err := entries.next()
		if err == io.EOF {
			return nil
		}
		if err == nil {
			err = w.take(record)
		}
		if err != nil {
			return err
		}
	}
	return nil
}

// take takes the next record of the log.
func (w *walk) take(record []byte) error {
	if len(w.segments) == 0 {
		var first segment
		if !first.takeFirst(record, 0) {
			return w.address.bad("record %d is not one that a log begins with, or not as it was written", readHead(record).number)
		}
		first.number = 1
		w.segments, w.end = []segment{first}, first.end
		w.look()
		return nil
	}
	read, err := readRecord(bufio.NewReader(bytes.NewReader(record)), &w.end)
	if err != nil {
		return w.address.bad("record %d is not as it was written, or those before it are missing", readHead(record).number)
	}
	w.look()
	return w.step(read, int64(len(record)))
}

func (w *walk) step(read Record, size int64) error {
	last := len(w.segments) - 1
	switch read.Step.Kind {
	case saved:
		it := segment{number: w.segments[last].number + 1, first: read.Number}
		if !it.readBody(read.Step.Body) {
			return w.address.bad("record %d is not as it was written", read.Number)
		}
		w.segments[last].size = w.end.size - size
		w.end.size, w.hasSteps = size, false
		it.end = w.end
		w.segments = append(w.segments, it)
	case TakenOver:
	case Merged:
		w.segments[last].isMerged = true
	default:
		w.hasSteps = true
		if w.use != nil {
			return w.use(last, read)
		}
	}
	return nil
}

// look compares the log with the place that was kept.
func (w *walk) look() {
	if w.end.number == w.kept.number {
		chain := w.end.chain
		w.found = &chain
	}
}

// check says what is wrong where the log is not what this server had before.
func (w *walk) check() error {
	switch {
	case len(w.segments) == 0:
		return w.address.bad("there is no log; `gitpoold init DIR --log ADDRESS` begins one")
	case w.kept.number > w.end.number:
		return w.address.bad("the log ends at record %d, and this server had come to record %d: the log lost its end", w.end.number, w.kept.number)
	case w.kept.number >= w.segments[0].first && (w.found == nil || *w.found != w.kept.chain):
		return w.address.bad("record %d is another one than this server had: this is another log, or it lost records and went on", w.kept.number)
	}
	return nil
}

// Records calls `use` with each record that a pool file has not, in order.
func (r *Redis) Records(pool Digest, use func(Record) error) error {
	return readOnce(r.Reader(pool, use))
}

// Reader gives what calls `use` with the same records, and then with those that come.
func (r *Redis) Reader(pool Digest, use func(Record) error) (Reader, error) {
	r.mutex.Lock()
	all := append([]segment(nil), r.segments...)
	r.mutex.Unlock()
	return r.options.reader(all, r.last, pool, use)
}

// last gives the end of the journal, once Redis has it.
func (r *Redis) last() (mark, error) {
	r.mutex.Lock()
	appended := r.appended
	r.mutex.Unlock()
	return appended, r.Sync(appended.number)
}

// logReader reads the records of a log, up to an end that is asked for each time.
type logReader struct {
	conn redis.Conn
	walk walk
	from uint64
	last func() (mark, error)
}

// reader reads the records that a pool file has not from the segments of a log on.
func (o *Options) reader(all []segment, last func() (mark, error), pool Digest, use func(Record) error) (Reader, error) {
	base, found := baseOf(all, pool)
	if !found {
		return nil, o.Address.lostPool(pool)
	}
	conn, err := o.connect()
	if err != nil {
		return nil, fmt.Errorf("%w: %v", ErrUnread, err)
	}
	older := openOnly(all[base].open, use)
	needed := neededFrom(all, base)
	w := walk{address: o.Address, use: func(at int, record Record) error {
		if needed+at < base {
			return older(record)
		}
		return use(record)
	}}
	return &logReader{conn, w, all[needed].first, last}, nil
}

// Read reads all that the log has now and that was not read before.
func (l *logReader) Read() error {
	end, err := l.last()
	if err != nil {
		return fmt.Errorf("%w: %v", ErrUnread, err)
	}
	if end.number != l.walk.kept.number {
		l.walk.kept, l.walk.found = place{end.number, end.chain}, nil
	}
	if err := l.walk.all(l.conn, l.from, end.number); err != nil {
		return err
	}
	l.from = l.walk.end.number + 1
	return l.walk.check()
}

// Close closes the connection.
func (l *logReader) Close() { l.conn.Close() }

// baseFor gives the place of the segment that goes on from a pool file.
func (w *walk) baseFor(pool Digest) (int, error) {
	base, found := baseOf(w.segments, pool)
	if !found {
		return 0, w.address.lostPool(pool)
	}
	if open := w.segments[base].open; len(open) > 0 && open[0] < w.segments[0].first {
		if base < len(w.segments)-1 {
			// A later save has dropped them.
			return 0, w.address.lostPool(pool)
		}
		return 0, w.address.bad("the records before record %d are missing", w.segments[0].first)
	}
	return base, nil
}

// baseToWrite gives the same for a server that is to write the log.
func (w *walk) baseToWrite(pool Digest) (int, error) {
	base, err := w.baseFor(pool)
	if err == nil && isMergedSince(w.segments, base) {
		err = w.address.lostPool(pool)
	}
	return base, err
}

func (a Address) lostPool(pool Digest) error {
	return a.bad("no record goes on from the pool file with the digest %x; it is another one, or older than the log", pool)
}

// stepOf gives the step of a record.
func stepOf(record []byte) (step frames.Step, is bool) {
	if !headOf(record).isGood {
		return step, false
	}
	return frames.Parse(record[headBytes : len(record)-chainBytes])
}
