package journal

import (
	"bufio"
	"crypto/sha256"
	"encoding/binary"
	"errors"
	"hash/crc32"
	"io"

	"gitpoold/frames"
)

// The kinds of records, beside Open, Feed and End, and the operator's Remove, Compact and Copy.
const (
	// saved begins each segment: the digest of the pool file to which the segment's steps are to be added, the chain before it, and the
	// numbers of the Opens whose streams were open then.
	saved = frames.Save
	// GivenUp ends a stream without its End: what it did since its last checkpoint is dropped. Behind an End it takes that back.
	GivenUp = frames.Abandon
	// TakenBack says that a request of the operator, whose number its body has, did not happen.
	TakenBack frames.Kind = 32
	// TakenOver says that a server has taken a log in Redis over: what it drew at random, so that no two histories have the same chain,
	// and the name of its machine.
	TakenOver frames.Kind = 33
	// Placed says in a table of places where a tenant is; the number of the shard has 4 bytes. Moving says that it is on its way to a shard,
	// Moved that it is there and may be at its old place too, whose number follows, and Settled that it is at its place alone.
	Placed  frames.Kind = 34
	Moving  frames.Kind = 35
	Moved   frames.Kind = 36
	Settled frames.Kind = 37
	// Brought has a part of the pool file of a tenant that comes from another shard, for servers that follow the log.
	Brought frames.Kind = 38
	// Merged says that the pool file which its segment begins with is in its place, and that it has tenants that came from another shard. No step
	// tells what these have. So only a server that follows the log, and merges them too, comes here from an older pool file.
	Merged frames.Kind = 39
)

// A record is a head, a frame, and a chain: the length of the frame (4 bytes), the record's number (8), and the CRC-32C of both (4);
// the frame; and the SHA-256 of the chain before, the head and the frame (32).
const (
	headBytes  = 16
	chainBytes = sha256.Size
	// largestFrame is that of a Feed with the longest name and the largest body.
	largestFrame = frameHead + longestName + frames.LongestBody
	frameHead    = 7
	longestName  = 65535
)

var castagnoli = crc32.MakeTable(crc32.Castagnoli)

// Chain is a digest of all records up to one of them.
type Chain [chainBytes]byte

// mark is a place in the journal: the end of a record.
type mark struct {
	size   int64
	number uint64
	chain  Chain
}

// Record is one step of the journal.
type Record struct {
	Number uint64
	Step   frames.Step
}

// readable is ErrTooLarge where a start could not read the records of these steps back.
func readable(steps ...frames.Step) error {
	for _, step := range steps {
		if len(step.Tenant) > longestName || step.Size() > largestFrame {
			return ErrTooLarge
		}
	}
	return nil
}

// appendRecord appends a record to bytes, and moves the mark behind it.
func appendRecord(to []byte, at *mark, step frames.Step) []byte {
	start := len(to)
	to = binary.BigEndian.AppendUint32(to, uint32(step.Size()))
	to = binary.BigEndian.AppendUint64(to, at.number+1)
	to = binary.BigEndian.AppendUint32(to, crc32.Checksum(to[start:], castagnoli))
	to = step.AppendTo(to)
	at.chain = next(at.chain, to[start:])
	to = append(to, at.chain[:]...)
	at.number++
	at.size += int64(len(to) - start)
	return to
}

func next(before Chain, record []byte) (after Chain) {
	digest := sha256.New()
	digest.Write(before[:])
	digest.Write(record)
	digest.Sum(after[:0])
	return after
}

// errBad says that the bytes at a place are no record.
var errBad = errors.New("no record")

// head is the head of a record.
type head struct {
	length uint32
	number uint64
	isGood bool
}

func readHead(bytes []byte) head {
	h := head{binary.BigEndian.Uint32(bytes), binary.BigEndian.Uint64(bytes[4:]), true}
	sum := binary.BigEndian.Uint32(bytes[12:headBytes])
	h.isGood = h.length <= largestFrame && sum == crc32.Checksum(bytes[:12], castagnoli)
	return h
}

// recordBytes is how many bytes the record of a head has.
func (h head) recordBytes() int64 { return headBytes + int64(h.length) + chainBytes }

// readRecord reads the record behind a mark, and moves the mark. It gives io.EOF where nothing follows, and errBad where what follows
// is no record.
func readRecord(from *bufio.Reader, at *mark) (Record, error) {
	var bytes [headBytes]byte
	if _, err := io.ReadFull(from, bytes[:]); err != nil {
		return Record{}, cut(err)
	}
	h := readHead(bytes[:])
	if !h.isGood || h.number != at.number+1 {
		return Record{}, errBad
	}
	record := make([]byte, h.recordBytes())
	copy(record, bytes[:])
	if _, err := io.ReadFull(from, record[headBytes:]); err != nil {
		return Record{}, cut(unexpected(err))
	}
	end := len(record) - chainBytes
	chain := next(at.chain, record[:end])
	step, whole := frames.Parse(record[headBytes:end])
	if string(record[end:]) != string(chain[:]) || !whole {
		return Record{}, errBad
	}
	*at = mark{at.size + h.recordBytes(), h.number, chain}
	return Record{h.number, step}, nil
}

// cut gives errBad for an input that ends inside a record.
func cut(err error) error {
	if err == io.ErrUnexpectedEOF {
		return errBad
	}
	return err
}

// unexpected is for an input that may not end here.
func unexpected(err error) error {
	if err == io.EOF {
		return io.ErrUnexpectedEOF
	}
	return err
}
