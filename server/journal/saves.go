package journal

import (
	"errors"
	"os"

	"gitpoold/faultpoint"
	"gitpoold/frames"
	"gitpoold/regular"
)

// Begin begins a segment for the steps that come after a pool file, which may become the pool file now. `open` has the numbers of the
// Opens of the streams that are open, in rising order: the pool file has what their tenants had at them. The segment is on the disk when
// Begin returns nil; else the journal goes on in the segment that it had.
func (j *Files) Begin(pool Digest, open []uint64) error {
	return j.beginWith(segment{pool: pool, open: open})
}

// Renew begins a segment that has all that is to be kept of those before, as steps: the next start carries these out, and what comes after them.
// It lasts, and the segments before are not needed any more, when Renew returns nil; else the journal is as it was. Nobody appends meanwhile.
func (j *Files) Renew(pool Digest, steps []frames.Step) error {
	if err := j.beginWith(segment{pool: pool}, steps...); err != nil {
		return err
	}
	return j.Drop()
}

// beginWith begins a segment, with steps in it.
func (j *Files) beginWith(made segment, steps ...frames.Step) error {
	j.mutex.Lock()
	defer j.mutex.Unlock()
	if err := made.readable(steps...); err != nil {
		return err
	}
	if err := j.settle(); err != nil {
		return err
	}
	made.number = j.current().number + 1
	file, err := made.create(j.folder, j.synced, steps...)
	if err != nil {
		if _, left := os.Stat(path(j.folder, made.number)); !errors.Is(left, os.ErrNotExist) {
			// Nothing may follow in this segment while another one stands behind it.
			j.broken = ErrBroken
		}
		return err
	}
	j.file.Close()
	j.current().size = j.synced.size
	j.segments = append(j.segments, made)
	j.file, j.appended, j.synced, j.broken = file, made.end, made.end, nil
	if err := j.noteBegun(); err != nil {
		j.tell("%s names an earlier segment: %v", j.begun, err)
	}
	return nil
}

// settle brings the file of the segment that takes records to its last record, and all of that to the disk: the next segment goes on from
// there, so a start would take anything behind it for damage.
func (j *Files) settle() error {
	if j.broken != nil {
		if err := j.cut(); err != nil {
			return err
		}
	}
	if err := j.file.Sync(); err != nil {
		j.fail(err)
		return j.broken
	}
	j.synced = j.appended
	return nil
}

// cut cuts the file behind the last record, through another handle where the one at hand fails.
func (j *Files) cut() error {
	if j.file.Truncate(j.appended.size) == nil {
		return nil
	}
	file, err := os.OpenFile(path(j.folder, j.current().number), os.O_RDWR, 0)
	if err != nil {
		return err
	}
	j.file.Close()
	j.file = file
	return file.Truncate(j.appended.size)
}

// Drop removes the segments that are not needed any more: the pool file that the last one names is in its place and synced.
func (j *Files) Drop() error {
	j.mutex.Lock()
	defer j.mutex.Unlock()
	j.base = len(j.segments) - 1
	return j.dropUnneeded()
}

// dropUnneeded removes the segments before the base that have no step of a stream which was open at its save.
func (j *Files) dropUnneeded() error {
	for from := j.neededFrom(); from > 0; from-- {
		faultpoint.Here("before a segment is removed")
		if err := os.Remove(path(j.folder, j.segments[0].number)); err != nil && !errors.Is(err, os.ErrNotExist) {
			return err
		}
		j.segments = j.segments[1:]
		j.base--
	}
	faultpoint.Here("after all segments are removed")
	return regular.SyncFolder(j.folder)
}

// neededFrom is the place of the first segment that is carried out.
func (j *Files) neededFrom() int { return neededFrom(j.segments, j.base) }

// baseOf gives the place of the last segment that goes on from a pool file.
func (j *Files) baseOf(pool Digest) (int, error) {
	if at, found := baseOf(j.segments, pool); found {
		return at, nil
	}
	return 0, lostPool(j.folder, pool)
}
