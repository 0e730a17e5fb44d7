// Package journal keeps the steps of a pool beside its file, so that a push lasts from the moment at which it is told.
//
// The journal is a folder of segments (Files) or a stream of Redis (Redis). A segment has the steps between two saves; its first record
// has the digest of the pool file to which they are to be added. So whichever came last at a crash, the new pool file or the new
// segment, the start finds the segment from which on to carry steps out: the last one that names the digest of the pool file.
//
// A save waits for no stream. The pool file has what the tenant of an open stream had at that stream's Open, and the first record of the
// next segment names the record of that Open. So the stream's steps from there on are kept and carried out as well.
//
// The journal is the truth, and the child a copy that is in memory: whatever the journal has is carried out at the next start.
package journal

import (
	"errors"

	"gitpoold/frames"
)

// Digest is the digest of a pool file: its last 20 bytes.
type Digest [20]byte

var (
	// ErrFull says that a record could not be written. The journal is as it was, and may take the next one.
	ErrFull = errors.New("the server cannot write its journal; nothing of this push was kept, and reading goes on")
	// ErrBroken says that a sync failed. The records since the last sync are taken back; until the next save the journal takes none.
	ErrBroken = errors.New("the server cannot sync its journal; nothing of this push was kept, and reading goes on")
	// ErrUnknown says that a sync failed and that its records could not be taken back either.
	ErrUnknown = errors.New("the server's disk failed while it kept this push; fetch to see whether it is there")
	// ErrAway says that the Redis of the journal does not answer, or writes nothing, and that the records are not in it.
	ErrAway = errors.New("the server's journal does not answer; nothing of this push was kept, and reading goes on")
	// ErrUnsure says that the Redis of the journal got the records and did not say whether it has them.
	ErrUnsure = errors.New("the server's journal did not answer while it kept this push; fetch to see whether it is there")
	// ErrTooLarge says that a record is larger than those that Records reads. Nothing is written, and the journal takes the next one.
	ErrTooLarge = errors.New("a limit is passed: a step is larger than a record of the journal may be; nothing of this push was kept (fault 25)")
)

// Journal is the journal of a pool. Append and Sync may be called by many goroutines at once; Begin, Drop, Records and Resume by one that
// lets no other in meanwhile. Others may append while a Reader reads.
type Journal interface {
	// Append writes steps behind one another, and gives the number of the last one. They last from Sync on. On an error nothing is
	// written. What Records would not read back is refused by ErrTooLarge.
	Append(steps ...frames.Step) (uint64, error)
	// Sync waits until the record of a number, and all before it, last. One sync may serve many callers.
	Sync(number uint64) error
	// Begin begins a segment for the steps that come after a pool file, which may become the pool file now. `open` has the numbers of
	// the Opens of the streams that are open, in rising order: the pool file has what their tenants had at them. The segment lasts when
	// Begin returns nil; else the journal goes on in the segment that it had.
	Begin(pool Digest, open []uint64) error
	// Drop removes the segments that are not needed any more: the pool file that the last one names is in its place and synced.
	Drop() error
	// Records calls `use` with each record that a pool file has not, in order: those of the streams that were open when it was saved,
	// from their Opens on; and all that came since.
	Records(pool Digest, use func(Record) error) error
	// Reader gives what calls `use` with the same records, and then with those that come.
	Reader(pool Digest, use func(Record) error) (Reader, error)
	// Resume lets a journal that lost records take them again: a new child is about to carry out what it has.
	Resume()
	// Losses is how often records were taken back that Append had taken. A stream of which there were records then has to be refused.
	Losses() uint64
	// Bytes is how large the journal is, and Number the number of its last record.
	Bytes() int64
	Number() uint64
	// Segments gives the numbers of the first and the last segment.
	Segments() (first, last uint64)
	// HasSteps tells whether there are steps since the last save.
	HasSteps() bool
	// IsBroken tells whether the journal takes no records, and IsHealedBySave whether a save would let it take them again.
	IsBroken() bool
	IsHealedBySave() bool
	// Close closes the journal.
	Close() error
}

// Reader reads a journal while it grows. It may be used until the next Begin.
type Reader interface {
	// Read reads all that the journal has now and that was not read before.
	Read() error
	Close()
}

// readOnce reads what a journal has now.
func readOnce(from Reader, err error) error {
	if err != nil {
		return err
	}
	defer from.Close()
	return from.Read()
}
