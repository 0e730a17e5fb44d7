package journal

import "gitpoold/frames"

// Following as a Journal stands in this file.

// Append refuses steps, unless this server leads.
func (f *Following) Append(steps ...frames.Step) (uint64, error) {
	if r := f.leader.Load(); r != nil {
		return r.Append(steps...)
	}
	return 0, f.refusal
}

// Sync waits for what this server has appended.
func (f *Following) Sync(number uint64) error {
	if r := f.leader.Load(); r != nil {
		return r.Sync(number)
	}
	return f.refusal
}

// Begin refuses a segment, unless this server leads.
func (f *Following) Begin(pool Digest, open []uint64) error {
	if r := f.leader.Load(); r != nil {
		return r.Begin(pool, open)
	}
	return f.refusal
}

// Drop refuses to remove anything, unless this server leads.
func (f *Following) Drop() error {
	if r := f.leader.Load(); r != nil {
		return r.Drop()
	}
	return f.refusal
}

// Records calls `use` with each record, of those that were taken, that a pool file has not, in order.
func (f *Following) Records(pool Digest, use func(Record) error) error {
	if r := f.leader.Load(); r != nil {
		return r.Records(pool, use)
	}
	err := readOnce(f.Reader(pool, use))
	if first, isKnown := f.firstOf(); isEnd(err) && isKnown && first > f.first() {
		return f.tooOld("the log no longer has the records before record %d", first)
	}
	return err
}

// Reader gives what calls `use` with the same records, and then with those that are taken.
func (f *Following) Reader(pool Digest, use func(Record) error) (Reader, error) {
	if r := f.leader.Load(); r != nil {
		return r.Reader(pool, use)
	}
	f.mutex.Lock()
	all := append([]segment(nil), f.walk.segments...)
	f.mutex.Unlock()
	return f.options.reader(all, f.taken, pool, use)
}

// taken is the end of what was taken of the log.
func (f *Following) taken() (mark, error) {
	f.mutex.Lock()
	defer f.mutex.Unlock()
	return f.walk.end, nil
}

// first is the number of the first record that this server may need.
func (f *Following) first() uint64 {
	f.mutex.Lock()
	defer f.mutex.Unlock()
	return f.walk.segments[0].first
}

// firstOf gives the number of the first record that the log has.
func (f *Following) firstOf() (number uint64, isKnown bool) {
	conn, err := f.options.connect()
	if err != nil {
		return 0, false
	}
	defer conn.Close()
	number, err = firstOf(conn, f.options.Address)
	return number, err == nil && number > 0
}

// Resume lets the journal of a server that leads go on.
func (f *Following) Resume() {
	if r := f.leader.Load(); r != nil {
		r.Resume()
	}
}

// Losses is 0, as with Redis.
func (f *Following) Losses() uint64 { return 0 }

// Bytes is how many bytes of records the log has that a start would need.
func (f *Following) Bytes() int64 {
	if r := f.leader.Load(); r != nil {
		return r.Bytes()
	}
	f.mutex.Lock()
	defer f.mutex.Unlock()
	return bytesOf(f.walk.segments, f.walk.end)
}

// Number is the number of the last record that was taken.
func (f *Following) Number() uint64 {
	if r := f.leader.Load(); r != nil {
		return r.Number()
	}
	f.mutex.Lock()
	defer f.mutex.Unlock()
	return f.walk.end.number
}

// Segments gives the numbers of the first and the last segment.
func (f *Following) Segments() (first, last uint64) {
	if r := f.leader.Load(); r != nil {
		return r.Segments()
	}
	f.mutex.Lock()
	defer f.mutex.Unlock()
	return f.walk.segments[0].number, f.walk.segments[len(f.walk.segments)-1].number
}

// HasSteps tells whether this server has something to save.
func (f *Following) HasSteps() bool {
	r := f.leader.Load()
	return r != nil && r.HasSteps()
}

// IsBroken tells whether the journal of a server that leads takes no records.
func (f *Following) IsBroken() bool {
	r := f.leader.Load()
	return r != nil && r.IsBroken()
}

// IsFollowed tells whether other servers follow the log of this one.
func (f *Following) IsFollowed() bool {
	r := f.leader.Load()
	return r != nil && r.IsFollowed()
}

// IsHealedBySave says that a save does not bring Redis back.
func (f *Following) IsHealedBySave() bool { return false }

// Counts tells what the log did.
func (f *Following) Counts() RedisCounts {
	if r := f.leader.Load(); r != nil {
		return r.Counts()
	}
	f.mutex.Lock()
	defer f.mutex.Unlock()
	return RedisCounts{Connections: f.sight.connections, IsAnswering: f.sight.isAnswering}
}

// Close closes the journal.
func (f *Following) Close() error {
	close(f.closing)
	<-f.ended
	f.line.Lock()
	defer f.line.Unlock()
	closeConn(f.conn)
	f.conn = nil
	if r := f.leader.Load(); r != nil {
		return r.Close()
	}
	return f.place.file.Close()
}
