package tenants

import (
	"bytes"
	"context"
	"encoding/binary"
	"fmt"
	"math/bits"
	"slices"

	"gitpoold/child"
	"gitpoold/faults"
	"gitpoold/frames"
	"gitpoold/plumbing"
)

// heldBytes is what is counted for each object of a listing: a list grows beyond its size, and what is left out of it stands beside it for a while.
const heldBytes = 64

// A history is listed in parts, so that short questions wait some milliseconds for it: about commitsAtOnce commits of its first parents at
// once, and at most mostParts parts, since the child looks at all objects for each.
const (
	commitsAtOnce = 256
	mostParts     = 64
)

// Missing lists what the wants reach and the haves do not, each object after all that it refers to. A want that the tenant has not gives
// ErrMissing; a have that it has not counts for nothing. Without haves, fetches that ask for the same at once share the listing.
func (t Tenant) Missing(ctx context.Context, wants, haves []plumbing.Name) (plumbing.Listing, error) {
	if len(wants) == 0 || len(haves) > 0 {
		return t.missing(ctx, wants, haves)
	}
	key := string(appendNames([]byte(t.name+" "), wants))
	return t.pool.listings.share(ctx, key, func(ctx context.Context) (plumbing.Listing, error) { return t.inParts(ctx, wants) })
}

// inParts lists what the wants reach. The first want's history comes in parts.
func (t Tenant) inParts(ctx context.Context, wants []plumbing.Name) (listing plumbing.Listing, err error) {
	points, err := t.points(ctx, wants[0])
	if err != nil {
		return nil, err
	}
	var haves []plumbing.Name
	for _, point := range points {
		part, err := t.missing(ctx, []plumbing.Name{point}, haves)
		if err != nil {
			return nil, err
		}
		listing, haves = append(listing, part...), []plumbing.Name{point}
	}
	rest, err := t.missing(ctx, wants, haves)
	if err != nil {
		return nil, err
	}
	return append(listing, rest...), nil
}

// points gives commits at which to part the history of an object, the oldest first: ancestors by first parents, each of which reaches the
// ones before it. An object that leads to no commit, or to a short history, has none.
func (t Tenant) points(ctx context.Context, of plumbing.Name) ([]plumbing.Name, error) {
	var distances []int
	for distance := commitsAtOnce; distance < 1<<30; distance *= 2 {
		distances = append(distances, distance)
	}
	found, err := t.ancestors(ctx, of, distances)
	if err != nil || len(found) == 0 {
		return nil, err
	}
	found, err = t.ancestors(ctx, of, partings(distances[len(found)-1]*2))
	slices.Reverse(found)
	return found, err
}

// partings gives the distances at which a history is parted that has fewer commits than `length` and at least half of that.
func partings(length int) (distances []int) {
	step := commitsAtOnce
	for step*mostParts < length {
		step *= 2
	}
	for distance := step; distance < length; distance += step {
		distances = append(distances, distance)
	}
	return distances
}

// ancestors gives the ancestors by first parents at these distances, up to the first distance at which there is none.
func (t Tenant) ancestors(ctx context.Context, of plumbing.Name, distances []int) (found []plumbing.Name, err error) {
	queries := make([]string, len(distances))
	for at, distance := range distances {
		queries[at] = fmt.Sprintf("rev-parse %v~%d", of, distance)
	}
	replies, errs, err := t.AskAll(ctx, queries)
	for at := 0; err == nil && at < len(replies) && errs[at] == nil; at++ {
		name, ok := plumbing.ParseName(string(bytes.TrimSuffix(replies[at], []byte("\n"))))
		if !ok {
			return nil, errAnswer
		}
		found = append(found, name)
	}
	return found, err
}

// missing asks the child once.
func (t Tenant) missing(ctx context.Context, wants, haves []plumbing.Name) (plumbing.Listing, error) {
	body := missingBody(wants, haves)
	if len(body) > frames.LongestBody {
		return nil, faults.Fault(25)
	}
	answers, err := t.send(ctx, child.Bulk, frames.Step{Kind: frames.Missing, Tenant: t.name, Body: body})()
	if err != nil {
		return nil, err
	}
	reply, err := checked(answers[0])
	if err == nil && len(reply)%plumbing.ListedBytes != 0 {
		err = errAnswer
	}
	if err == nil {
		err = plumbing.Hold(ctx, int64(len(reply)/plumbing.ListedBytes)*heldBytes)
	}
	return reply, err
}

func appendNames(to []byte, names []plumbing.Name) []byte {
	for _, name := range names {
		to = append(to, name[:]...)
	}
	return to
}

// entriesAtOnce is about how many bytes of entries are asked for at once: so few that short questions wait for them a millisecond or two.
const entriesAtOnce = 1 << 17

// Entries calls `use` with the entries of a pack that has these objects, an eighth of a megabyte or one object at a time; it asks for the next ones while
// `use` has those before. A larger object is counted in the memory of the context while it is held, and is asked for once it may be. An object that the
// tenant has not gives ErrMissing; an error of `use` ends the call and is given back.
func (t Tenant) Entries(ctx context.Context, objects plumbing.Listing, use func(entries []byte) error) error {
	ctx, stop := context.WithCancel(ctx)
	defer stop()
	s := sending{tenant: t, memory: plumbing.MemoryOf(ctx), rest: objects, giveBack: nothing}
	defer func() { s.giveBack() }()
	for s.wait != nil || s.rest.Len() > 0 {
		if err := s.ask(ctx); err != nil {
			return err
		}
		if err := s.send(ctx, use); err != nil {
			return err
		}
	}
	return nil
}

// sending has the entries of a pack on their way.
type sending struct {
	tenant   Tenant
	memory   plumbing.Memory
	rest     plumbing.Listing       // what was not asked for
	wait     func() ([]byte, error) // for the entries that were asked for; nil where there are none
	giveBack func()                 // counts these no more
}

func nothing() {}

// ask waits until there is memory for the next entries, and asks for them, unless that was done.
func (s *sending) ask(ctx context.Context) (err error) {
	count, size := firstEntries(s.rest)
	giveBack := nothing
	switch {
	case s.wait != nil:
		return nil
	case size > entriesAtOnce:
		giveBack, err = s.memory.Take(ctx, int64(size))
	}
	if err == nil {
		s.begin(ctx, count, size, giveBack)
	}
	return err
}

// tryAsk does not wait.
func (s *sending) tryAsk(ctx context.Context) {
	count, size := firstEntries(s.rest)
	giveBack := nothing
	if size > entriesAtOnce {
		giveBack = s.memory.TryTake(int64(size))
	}
	if count > 0 && giveBack != nil {
		s.begin(ctx, count, size, giveBack)
	}
}

// send waits for the entries that were asked for, asks for the next ones, and lets `use` have these.
func (s *sending) send(ctx context.Context, use func(entries []byte) error) error {
	wait, giveBack := s.wait, s.giveBack
	s.wait, s.giveBack = nil, nothing
	defer giveBack()
	entries, err := wait()
	if err != nil {
		return err
	}
	s.tryAsk(ctx)
	return use(entries)
}

// begin asks for the first entries of the rest.
func (s *sending) begin(ctx context.Context, count int, size uint64, giveBack func()) {
	body := binary.BigEndian.AppendUint64(make([]byte, 0, 8+len(plumbing.Name{})*count), size)
	for at := 0; at < count; at++ {
		body = append(body, s.rest[at*plumbing.ListedBytes:at*plumbing.ListedBytes+len(plumbing.Name{})]...)
	}
	answers := s.tenant.send(ctx, child.Bulk, frames.Step{Kind: frames.Entries, Tenant: s.tenant.name, Body: body})
	s.rest, s.giveBack = s.rest[count*plumbing.ListedBytes:], giveBack
	s.wait = func() ([]byte, error) {
		all, err := answers()
		if err != nil {
			return nil, err
		}
		reply, err := checked(all[0])
		if err == nil && uint64(len(reply)) != size {
			err = errAnswer
		}
		return reply, err
	}
}

// firstEntries is how many objects to ask for at once, and how many bytes their entries have.
func firstEntries(objects plumbing.Listing) (count int, size uint64) {
	for ; count < objects.Len(); count++ {
		more := entryBytes(objects.Size(count))
		if count > 0 && size+more > entriesAtOnce {
			break
		}
		size += more
	}
	return count, size
}

// entryBytes is how many bytes the entry of an object has: the kind and the size, four bits of it and then seven to a byte; two bytes of zlib;
// the contents in stored blocks of at most 65535 bytes with five bytes before each; and four bytes of Adler-32.
func entryBytes(size uint64) uint64 {
	const block = 65535
	head := uint64(1)
	if more := bits.Len64(size >> 4); more > 0 {
		head += uint64(more+6) / 7
	}
	blocks := (size + block - 1) / block
	if blocks == 0 {
		blocks = 1
	}
	return head + 2 + 5*blocks + size + 4
}
