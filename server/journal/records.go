package journal

import (
	"bufio"
	"errors"
	"io"
	"os"

	"gitpoold/frames"
	"gitpoold/regular"
)

// Records calls `use` with each record that a pool file has not, in order: those of the streams that were open when it was saved, from
// their Opens on; and all that came since.
func (j *Files) Records(pool Digest, use func(Record) error) error {
	return readOnce(j.Reader(pool, use))
}

// filesReader reads segments one after another, and the last one as it grows.
type filesReader struct {
	journal *Files
	base    int
	// older is for the records of segments before the base, and use for the others.
	older, use func(Record) error

	// at is the place of the segment that is read, file is it once it is open, and end is how far it was read.
	at   int
	file *os.File
	end  mark
}

// Reader gives what calls `use` with the same records, and then with those that come.
func (j *Files) Reader(pool Digest, use func(Record) error) (Reader, error) {
	j.mutex.Lock()
	defer j.mutex.Unlock()
	base, err := j.baseOf(pool)
	if err != nil {
		return nil, err
	}
	return &filesReader{journal: j, base: base, older: openOnly(j.segments[base].open, use), use: use}, nil
}

// now gives the segments as they are, the last one up to its last record.
func (j *Files) now() []segment {
	j.mutex.Lock()
	defer j.mutex.Unlock()
	all := append([]segment(nil), j.segments...)
	all[len(all)-1].size = j.appended.size
	return all
}

// Read reads all that the journal has now and that was not read before.
func (r *filesReader) Read() error {
	all := r.journal.now()
	for {
		use := r.use
		if r.at < r.base {
			use = r.older
		}
		if err := r.readTo(all[r.at], use); err != nil || r.at == len(all)-1 {
			return err
		}
		r.Close()
		r.at, r.end = r.at+1, mark{}
	}
}

// Close closes the segment that is read.
func (r *filesReader) Close() {
	if r.file != nil {
		r.file.Close()
		r.file = nil
	}
}

// openOnly passes on the records of the streams whose Opens have these numbers. A stream that is open has Opens and Feeds alone.
func openOnly(numbers []uint64, use func(Record) error) func(Record) error {
	opens, tenants := map[uint64]bool{}, map[string]bool{}
	for _, number := range numbers {
		opens[number] = true
	}
	return func(r Record) error {
		if r.Step.Kind == frames.Open && opens[r.Number] {
			tenants[r.Step.Tenant] = true
		}
		if !tenants[r.Step.Tenant] || r.Step.Kind != frames.Open && r.Step.Kind != frames.Feed {
			return nil
		}
		return use(r)
	}
}

// readTo reads a segment from where it was read to on, up to its size.
func (r *filesReader) readTo(it segment, use func(Record) error) (err error) {
	place := path(r.journal.folder, it.number)
	if r.file == nil {
		if r.file, err = regular.Open(place, os.O_RDONLY); err != nil {
			return err
		}
	}
	if r.end.size > it.size {
		// What was read has been taken back since.
		return ErrBroken
	}
	from := bufio.NewReaderSize(io.NewSectionReader(r.file, r.end.size, it.size-r.end.size), 1<<18)
	if r.end.size == 0 {
		var first segment
		first, err = readFirst(from, place, segment{})
		r.end = first.end
	}
	for err == nil && r.end.size < it.size {
		var record Record
		if record, err = readRecord(from, &r.end); err == nil {
			err = use(record)
		}
	}
	if err == errBad || errors.Is(err, io.EOF) {
		return &Damaged{place, r.end.size, "a record is not as it was written"}
	}
	return err
}
