package journal

import (
	"fmt"
	"os"
	"path/filepath"
	"sync"

	"gitpoold/faultpoint"
	"gitpoold/frames"
)

// Files is the journal of a pool as a folder of segments, `00000001` and so on: each is a file.
type Files struct {
	folder   string
	begun    string
	tell     func(format string, values ...any)
	mutex    sync.Mutex
	changed  *sync.Cond
	file     *os.File
	segments []segment
	base     int
	appended mark
	synced   mark
	syncing  bool
	broken   error
	losses   uint64
	// buffer is where records are put together before they are written.
	buffer []byte
}

// mostBuffered is how large a buffer is kept for the next records.
const mostBuffered = 1 << 20

// Append writes steps behind one another, and gives the number of the last one. They last from Sync on. On ErrFull or ErrBroken
// nothing is written.
func (j *Files) Append(steps ...frames.Step) (uint64, error) {
	if err := readable(steps...); err != nil {
		return 0, err
	}
	j.mutex.Lock()
	defer j.mutex.Unlock()
	if j.broken != nil {
		return 0, j.broken
	}
	at, bytes := j.appended, j.buffer[:0]
	for _, step := range steps {
		bytes = appendRecord(bytes, &at, step)
	}
	if cap(bytes) <= mostBuffered {
		j.buffer = bytes
	}
	faultpoint.Here("before a record is written")
	if err := j.write(bytes); err != nil {
		j.tell("the journal cannot be written: %v", err)
		return 0, j.takeBack(j.appended, ErrFull)
	}
	j.appended = at
	faultpoint.Here("after a record is written")
	return at.number, nil
}

func (j *Files) write(bytes []byte) error {
	if faultpoint.Enabled {
		half := len(bytes) / 2
		if _, err := j.file.WriteAt(bytes[:half], j.appended.size); err != nil {
			return err
		}
		faultpoint.Here("inside a record")
	}
	_, err := j.file.WriteAt(bytes, j.appended.size)
	return err
}

// takeBack drops what is behind a mark. Where that fails, the journal takes nothing until the next save.
func (j *Files) takeBack(to mark, well error) error {
	if err := j.file.Truncate(to.size); err != nil {
		j.tell("the journal cannot be cut: %v", err)
		j.broken = ErrBroken
		return ErrUnknown
	}
	j.appended = to
	return well
}

// Sync waits until the record of a number, and all before it, are on the disk. One sync of the file may serve many callers.
func (j *Files) Sync(number uint64) error {
	j.mutex.Lock()
	defer j.mutex.Unlock()
	for j.synced.number < number {
		if j.appended.number < number {
			return j.lostBy()
		}
		if j.syncing {
			j.changed.Wait()
			continue
		}
		j.syncOnce()
	}
	return nil
}

// lostBy is the error of who asks for a record that was taken back.
func (j *Files) lostBy() error {
	if j.broken != nil {
		return j.broken
	}
	return ErrBroken
}

// syncOnce syncs what is appended, without the lock meanwhile.
func (j *Files) syncOnce() {
	target := j.appended
	j.syncing = true
	j.mutex.Unlock()
	faultpoint.Here("before a sync of the journal")
	err := j.file.Sync()
	faultpoint.Here("after a sync of the journal")
	j.mutex.Lock()
	j.syncing = false
	if err == nil {
		j.synced = target
	} else {
		j.fail(err)
	}
	j.changed.Broadcast()
}

// fail takes back what was not synced: after a failed sync nobody knows what of it is on the disk.
func (j *Files) fail(err error) {
	j.tell("the journal cannot be synced: %v", err)
	j.losses++
	j.broken = j.takeBack(j.synced, ErrBroken)
	j.appended = j.synced
	if j.broken == ErrBroken && j.file.Sync() != nil {
		j.broken = ErrUnknown
	}
}

// Losses is how often records were taken back that Append had taken.
func (j *Files) Losses() uint64 {
	j.mutex.Lock()
	defer j.mutex.Unlock()
	return j.losses
}

// Bytes is how large the journal is.
func (j *Files) Bytes() int64 {
	j.mutex.Lock()
	defer j.mutex.Unlock()
	return bytesOf(j.segments, j.appended)
}

// Number is the number of the last record.
func (j *Files) Number() uint64 {
	j.mutex.Lock()
	defer j.mutex.Unlock()
	return j.appended.number
}

// Segments gives the numbers of the first and the last segment.
func (j *Files) Segments() (first, last uint64) {
	j.mutex.Lock()
	defer j.mutex.Unlock()
	return j.segments[0].number, j.current().number
}

// current is the segment that takes records.
func (j *Files) current() *segment { return &j.segments[len(j.segments)-1] }

// IsBroken tells whether the journal takes records.
func (j *Files) IsBroken() bool {
	j.mutex.Lock()
	defer j.mutex.Unlock()
	return j.broken != nil
}

// IsHealedBySave tells whether a save would let a broken journal take records again, which it does.
func (j *Files) IsHealedBySave() bool { return j.IsBroken() }

// Resume does nothing: what a child carries out is in the files at once.
func (j *Files) Resume() {}

// HasSteps tells whether there are steps since the last save.
func (j *Files) HasSteps() bool {
	j.mutex.Lock()
	defer j.mutex.Unlock()
	return j.base != len(j.segments)-1 || j.appended.size > j.current().start
}

// Close closes the journal.
func (j *Files) Close() error {
	j.mutex.Lock()
	defer j.mutex.Unlock()
	return j.file.Close()
}

func path(folder string, segment uint64) string {
	return filepath.Join(folder, fmt.Sprintf("%08d", segment))
}
