package journal

import (
	"bufio"
	"encoding/binary"
	"fmt"
	"io"
	"os"
	"path/filepath"
	"sort"
	"strconv"
	"strings"
	"sync"

	"gitpoold/faultpoint"
	"gitpoold/frames"
	"gitpoold/regular"
)

// title is what each segment begins with.
const title = "gitpool journal 1\n"

const (
	// savedBytes is the body of a segment's first record where no stream was open: the digest of the pool file, and the chain before.
	savedBytes = len(Digest{}) + chainBytes
	// openBytes is what follows there for each stream that was open: the number of the record of its Open.
	openBytes = 8
	// mostOpen is more streams than a server ever has at once.
	mostOpen = 1 << 20
)

// segment is one file of a journal.
type segment struct {
	number uint64
	// pool is the digest of the pool file to which the steps are to be added, and `open` has the numbers of the Opens whose streams
	// were open when it was saved.
	pool   Digest
	open   []uint64
	before Chain
	// first is the number of the segment's first record, and start the place behind it.
	first uint64
	start int64
	end   mark
	size  int64
	// isMerged says that it has a Merged.
	isMerged bool
}

// create makes the file of a segment that goes on behind a mark and has these steps. It appears whole: it is written beside its place,
// synced, and renamed.
func (it *segment) create(folder string, before mark, steps ...frames.Step) (*os.File, error) {
	bytes := it.begin(before)
	for _, step := range steps {
		bytes = appendRecord(bytes, &it.end, step)
	}
	place := path(folder, it.number)
	faultpoint.Here("before a segment is written")
	err := writeSynced(place+".new", bytes)
	faultpoint.Here("before a segment is renamed")
	if err == nil {
		err = os.Rename(place+".new", place)
	}
	faultpoint.Here("after a segment is renamed")
	if err == nil {
		err = regular.SyncFolder(folder)
	}
	var file *os.File
	if err == nil {
		file, err = os.OpenFile(place, os.O_RDWR, 0)
	}
	if err != nil {
		os.Remove(place + ".new")
		os.Remove(place)
	}
	return file, err
}

// begin gives what stands first in a segment that goes on behind a mark.
func (it *segment) begin(before mark) []byte {
	it.before, it.first = before.chain, before.number+1
	it.end = mark{int64(len(title)), before.number, before.chain}
	bytes := appendRecord([]byte(title), &it.end, frames.Step{Kind: saved, Body: it.body()})
	it.start = it.end.size
	return bytes
}

// readable is ErrTooLarge where a start could not read a segment back that begins with these steps.
func (it *segment) readable(steps ...frames.Step) error {
	if len(it.open) > mostOpen {
		return ErrTooLarge
	}
	return readable(steps...)
}

// body is the body of a segment's first record.
func (it *segment) body() []byte {
	body := append(append([]byte(nil), it.pool[:]...), it.before[:]...)
	for _, number := range it.open {
		body = binary.BigEndian.AppendUint64(body, number)
	}
	return body
}

// readBody reads the body of a segment's first record, and tells whether it is one.
func (it *segment) readBody(body []byte) bool {
	if len(body) < savedBytes || (len(body)-savedBytes)%openBytes != 0 {
		return false
	}
	copy(it.pool[:], body)
	copy(it.before[:], body[len(it.pool):])
	for rest := body[savedBytes:]; len(rest) > 0; rest = rest[openBytes:] {
		it.open = append(it.open, binary.BigEndian.Uint64(rest))
	}
	return true
}

func writeSynced(path string, bytes []byte) error {
	file, err := os.OpenFile(path, os.O_WRONLY|os.O_CREATE|os.O_TRUNC, 0o600)
	if err != nil {
		return err
	}
	defer file.Close()
	if _, err := file.Write(bytes); err != nil {
		return err
	}
	return file.Sync()
}

// Damaged says that a journal has lost something that it had, so that the server does not start. Nothing is changed.
type Damaged struct {
	Path   string
	At     int64
	Reason string
}

func (d *Damaged) Error() string {
	return fmt.Sprintf("%s: %s at byte %d; nothing was changed (docs/SERVER-REFERENCE.md, \"A damaged journal\")", d.Path, d.Reason, d.At)
}

// lostPool says that the pool file is none that the journal goes on from.
func lostPool(folder string, pool Digest) error {
	return &Damaged{folder, 0, fmt.Sprintf("no segment goes on from the pool file with the digest %x; it is another one", pool)}
}

// Open reads a journal through, for a pool file with this digest. Where it ends in a record that a crash has cut off, that is cut and
// told: nobody was told of it. Anything else that is not as it was written is Damaged. A folder without segments begins one.
func Open(folder string, pool Digest, tell func(format string, values ...any)) (*Files, error) {
	numbers, err := list(folder)
	if err != nil {
		return nil, err
	}
	j := &Files{folder: folder, tell: tell}
	j.changed = sync.NewCond(&j.mutex)
	if len(numbers) == 0 {
		return j, j.start(pool)
	}
	if j.segments, err = readAll(folder, numbers); err != nil {
		return nil, err
	}
	if j.base, err = j.baseOf(pool); err != nil {
		return nil, err
	}
	base := j.segments[j.base]
	if isMergedSince(j.segments, j.base) {
		return nil, lostPool(folder, pool)
	}
	if len(base.open) > 0 && base.open[0] < j.segments[0].first {
		if j.base < len(j.segments)-1 {
			// A later save has dropped them.
			return nil, lostPool(folder, pool)
		}
		return nil, &Damaged{path(folder, j.segments[0].number), 0, "the segment before it is missing"}
	}
	return j, j.goOn()
}

func (j *Files) start(pool Digest) (err error) {
	first := segment{number: 1, pool: pool}
	j.file, err = first.create(j.folder, mark{})
	j.segments, j.appended, j.synced = []segment{first}, first.end, first.end
	return err
}

// goOn takes the journal up behind its last record, and removes the segments that are not needed.
func (j *Files) goOn() (err error) {
	tail := j.current()
	j.file, err = regular.Open(path(j.folder, tail.number), os.O_RDWR)
	if err != nil {
		return err
	}
	if tail.end.size < tail.size {
		j.tell("the journal ends in a record that a crash cut off: %d bytes from byte %d of %s are dropped, which nobody was told of",
			tail.size-tail.end.size, tail.end.size, path(j.folder, tail.number))
		if err := j.file.Truncate(tail.end.size); err != nil {
			return err
		}
	}
	if err := j.file.Sync(); err != nil {
		return err
	}
	j.appended, j.synced = tail.end, tail.end
	return j.dropUnneeded()
}

// list gives the numbers of the segments in order, and removes those that were never finished.
func list(folder string) (numbers []uint64, err error) {
	entries, err := os.ReadDir(folder)
	if err != nil {
		return nil, err
	}
	for _, entry := range entries {
		name := entry.Name()
		if strings.HasSuffix(name, ".new") {
			if err := os.Remove(filepath.Join(folder, name)); err != nil {
				return nil, err
			}
		} else if number, err := strconv.ParseUint(name, 10, 64); err == nil && path("", number) == name {
			numbers = append(numbers, number)
		}
	}
	sort.Slice(numbers, func(i, k int) bool { return numbers[i] < numbers[k] })
	return numbers, nil
}

// readAll reads all segments through, and compares how they follow one another.
func readAll(folder string, numbers []uint64) (all []segment, err error) {
	for i, number := range numbers {
		place := path(folder, number)
		if number != numbers[0]+uint64(i) {
			return nil, &Damaged{place, 0, "the segment before it is missing"}
		}
		it, err := readSegment(place, i == len(numbers)-1)
		if err != nil {
			return nil, err
		}
		it.number = number
		if i > 0 && all[i-1].end.chain != it.before {
			return nil, &Damaged{path(folder, number-1), all[i-1].end.size, "records are missing"}
		}
		all = append(all, it)
	}
	return all, nil
}

// readSegment reads one segment through. Only the last may end in a part of a record.
func readSegment(place string, isLast bool) (segment, error) {
	file, err := regular.Open(place, os.O_RDONLY)
	if err != nil {
		return segment{}, err
	}
	defer file.Close()
	info, err := file.Stat()
	if err != nil {
		return segment{}, err
	}
	it := segment{size: info.Size()}
	from := bufio.NewReaderSize(file, 1<<18)
	if it, err = readFirst(from, place, it); err != nil {
		return it, err
	}
	for err == nil {
		var record Record
		record, err = readRecord(from, &it.end)
		it.isMerged = it.isMerged || err == nil && record.Step.Kind == Merged
	}
	if err == io.EOF {
		return it, nil
	}
	if err == errBad {
		torn, readError := isTorn(file, it.end, it.size)
		if readError == nil && torn && isLast {
			return it, nil
		}
		err = &Damaged{place, it.end.size, "a record is not as it was written"}
	}
	return it, err
}

// readFirst reads the title and the first record, which tells what was saved before and so where the chain comes from.
func readFirst(from *bufio.Reader, place string, it segment) (segment, error) {
	bad := &Damaged{place, 0, "the segment does not begin as one does"}
	start := make([]byte, len(title)+headBytes)
	if _, err := io.ReadFull(from, start); err != nil || string(start[:len(title)]) != title {
		return it, bad
	}
	h := readHead(start[len(title):])
	if !h.isGood || h.length > frameHead+uint32(savedBytes)+mostOpen*openBytes {
		return it, bad
	}
	record := make([]byte, h.recordBytes())
	copy(record, start[len(title):])
	if _, err := io.ReadFull(from, record[headBytes:]); err != nil {
		return it, bad
	}
	if !it.takeFirst(record, int64(len(title))) {
		return it, bad
	}
	return it, nil
}

// takeFirst takes the record of a segment that stands first, behind so many bytes, and tells whether it is one.
func (it *segment) takeFirst(record []byte, behind int64) bool {
	end := len(record) - chainBytes
	h := readHead(record)
	step, whole := frames.Parse(record[headBytes:end])
	if !whole || step.Kind != saved || !it.readBody(step.Body) {
		return false
	}
	it.first, it.start = h.number, behind+h.recordBytes()
	it.end = mark{it.start, h.number, next(it.before, record[:end])}
	return string(record[end:]) == string(it.end.chain[:])
}

// neededFrom is the place of the first segment that is carried out where the pool file is that of the segment `base`.
func neededFrom(all []segment, base int) int {
	from, open := base, all[base].open
	for len(open) > 0 && from > 0 && all[from].first > open[0] {
		from--
	}
	return from
}

// bytesOf is how many bytes the records of segments have, of which the last one ends at a mark.
func bytesOf(all []segment, end mark) int64 {
	bytes := end.size
	for _, it := range all[:len(all)-1] {
		bytes += it.size
	}
	return bytes
}

// baseOf gives the place of the last segment that goes on from a pool file.
func baseOf(all []segment, pool Digest) (at int, found bool) {
	for at := len(all) - 1; at >= 0; at-- {
		if all[at].pool == pool {
			return at, true
		}
	}
	return 0, false
}

// isMergedSince tells whether tenants came from another shard after the pool file of a segment.
func isMergedSince(all []segment, base int) bool {
	for _, it := range all[base+1:] {
		if it.isMerged {
			return true
		}
	}
	return false
}

// isTorn tells whether what is behind a mark is what a crash leaves of a record: its beginning, or its beginning and zeros, to the end
// of the file. A whole record ends in a digest, which is not all zeros; so a record that was written whole and changed later is not
// torn, and neither is one that others follow, whole or torn.
func isTorn(file *os.File, end mark, size int64) (bool, error) {
	rest := size - end.size
	if rest < headBytes {
		return true, nil
	}
	var bytes [headBytes]byte
	if _, err := file.ReadAt(bytes[:], end.size); err != nil {
		return false, err
	}
	h, zeros := readHead(bytes[:]), end.size+headBytes
	switch {
	case h.isGood && h.number != end.number+1:
		return false, nil
	case h.isGood && h.recordBytes() > rest:
		return true, nil
	case h.isGood:
		zeros = end.size + h.recordBytes() - 1
	}
	return hasZeros(file, smaller(zeros, size-headBytes), size)
}

func smaller(a, b int64) int64 {
	if a < b {
		return a
	}
	return b
}

// hasZeros tells whether a file has nothing but zeros from one place to another.
func hasZeros(file *os.File, from, to int64) (bool, error) {
	in := bufio.NewReader(io.NewSectionReader(file, from, to-from))
	for {
		found, err := in.ReadByte()
		if err == io.EOF {
			return true, nil
		}
		if err != nil || found != 0 {
			return false, err
		}
	}
}
