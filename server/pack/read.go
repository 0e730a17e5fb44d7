package pack

import (
	"bytes"
	"context"
	"encoding/binary"
	"errors"
	"io"
	"sort"

	"github.com/klauspost/compress/zlib"

	"gitpoold/plumbing"
)

// The kinds of entries beside those of objects.
const (
	offsetDelta = 6
	nameDelta   = 7
)

// reading is one pack on its way into a quarantine.
type reading struct {
	*Quarantine
	in       *input
	inflater io.ReadCloser
	data     bytes.Buffer
	byEntry  map[int][]int
	byName   map[plumbing.Name][]int
	waiting  int
	work     int64
	lastBase int
	last     []byte
}

// Read reads a whole pack, and does not wait for the end of the input. An error is a sentence for the client; the objects that were read before it
// are of no use.
func (q *Quarantine) Read(ctx context.Context, from io.Reader) error {
	r := &reading{Quarantine: q, in: newInput(from, q.limits.PackBytes), byEntry: map[int][]int{}, byName: map[plumbing.Name][]int{}}
	count, err := r.head()
	if err != nil {
		return err
	}
	for ; count > 0; count-- {
		if err := r.entry(ctx); err != nil {
			return err
		}
	}
	if err := r.in.finish(); err != nil {
		return err
	}
	return r.resolve(ctx)
}

func (r *reading) head() (uint32, error) {
	var head [12]byte
	if _, err := io.ReadFull(r.in, head[:]); err != nil {
		return 0, cutOr(err)
	}
	if string(head[:4]) != "PACK" {
		return 0, wrong("it does not begin as a pack")
	}
	if version := binary.BigEndian.Uint32(head[4:]); version != 2 && version != 3 {
		return 0, wrong("its version is neither 2 nor 3")
	}
	count := binary.BigEndian.Uint32(head[8:])
	if int64(count) > r.limits.Objects {
		return 0, Refused{"the pack has more objects than a tenant can keep"}
	}
	return count, nil
}

// cutOr gives the error of a read that had to find bytes.
func cutOr(err error) error {
	if err == io.EOF || err == io.ErrUnexpectedEOF {
		return errCut
	}
	return err
}

// entry reads the next entry. A delta whose base is there is carried out at once.
func (r *reading) entry(ctx context.Context) error {
	if err := ctx.Err(); err != nil {
		return err
	}
	it := entry{start: r.in.place()}
	size, err := r.entryHead(&it)
	if err != nil {
		return err
	}
	switch it.kind {
	case offsetDelta:
		return r.offsetEntry(it, size)
	case nameDelta:
		return r.nameEntry(it, size)
	}
	data, err := r.inflate(size)
	if err != nil {
		return err
	}
	return r.keep(it, data)
}

func (r *reading) entryHead(it *entry) (size int64, err error) {
	b, err := r.in.ReadByte()
	it.kind, size = b>>4&7, int64(b&15)
	for shift := 4; err == nil && b&0x80 != 0; shift += 7 {
		if shift > 46 {
			return 0, wrong("the size of an entry has too many digits")
		}
		b, err = r.in.ReadByte()
		size |= int64(b&0x7f) << shift
	}
	switch {
	case err != nil:
		return 0, cutOr(err)
	case it.kind == 0 || it.kind == 5:
		return 0, wrong("an entry has an unknown kind")
	case size > r.limits.ObjectBytes:
		return 0, tooLong(r.limits.ObjectBytes)
	}
	return size, nil
}

// mostKept is how much memory stays for the next entry.
const mostKept = 1 << 18

// inflate reads so many bytes and the end of their stream. What is not there is not allocated. The bytes last until the next call.
func (r *reading) inflate(size int64) (data []byte, err error) {
	if r.inflater == nil {
		r.inflater, err = zlib.NewReader(r.in)
	} else {
		err = r.inflater.(zlib.Resetter).Reset(r.in, nil)
	}
	if err != nil {
		return nil, r.inflating()
	}
	if r.data.Reset(); r.data.Cap() > mostKept {
		r.data = bytes.Buffer{}
	}
	n, err := io.Copy(&r.data, io.LimitReader(r.inflater, size+1))
	if err != nil {
		return nil, r.inflating()
	}
	if n != size {
		return nil, wrong("an entry has another size than it says")
	}
	return r.data.Bytes(), r.spend(n)
}

// The work that a pack may take: so many bytes, and so many for each that it may have inflated.
var leastWork int64 = 1 << 30

const workForByte = 4

// spend counts bytes that were inflated, read as a base or made by a delta, whether or not they are kept. A small pack may ask for the
// same large object again and again.
func (r *reading) spend(bytes int64) error {
	if r.work += bytes; r.work > leastWork+workForByte*r.limits.Bytes {
		return Refused{"the deltas of the pack take more work than this server does; git repack -a -d -f makes others"}
	}
	return nil
}

// baseOf gives the contents of a base. The one of the delta before is at hand.
func (r *reading) baseOf(at int) ([]byte, error) {
	if r.last != nil && r.lastBase == at {
		return r.last, nil
	}
	contents, err := r.contents(at)
	if err == nil {
		err = r.spend(int64(len(contents)))
	}
	r.last, r.lastBase = contents, at
	return contents, err
}

// inflating tells an input that failed from bytes that cannot be inflated.
func (r *reading) inflating() error {
	if r.in.failed != nil {
		return r.in.failed
	}
	return wrong("an entry cannot be inflated")
}

// offsetEntry reads a delta against an entry that stands before it.
func (r *reading) offsetEntry(it entry, size int64) error {
	back, err := r.back()
	if err != nil {
		return err
	}
	base, found := r.entryAt(it.start - back)
	if !found {
		return wrong("a delta names a base at a place where no entry begins")
	}
	delta, err := r.inflate(size)
	if err != nil {
		return err
	}
	if r.entries[base].kind >= offsetDelta {
		at, err := r.wait(it, delta)
		r.byEntry[base] = append(r.byEntry[base], at)
		return err
	}
	return r.apply(it, base, delta)
}

func (r *reading) back() (back int64, err error) {
	b, err := r.in.ReadByte()
	back = int64(b & 0x7f)
	for err == nil && b&0x80 != 0 {
		if back > 1<<40 {
			return 0, wrong("a delta names a base before the pack")
		}
		b, err = r.in.ReadByte()
		back = (back+1)<<7 | int64(b&0x7f)
	}
	return back, cutOr(err)
}

// entryAt finds the entry that begins at a place.
func (r *reading) entryAt(start int64) (int, bool) {
	at := sort.Search(len(r.entries), func(at int) bool { return r.entries[at].start >= start })
	return at, at < len(r.entries) && r.entries[at].start == start
}

// nameEntry reads a delta against an object by its name: one of the pack, before it or after it, or one of the tenant.
func (r *reading) nameEntry(it entry, size int64) error {
	var base plumbing.Name
	if _, err := io.ReadFull(r.in, base[:]); err != nil {
		return cutOr(err)
	}
	delta, err := r.inflate(size)
	if err != nil {
		return err
	}
	if at, is := r.own[base]; is {
		return r.apply(it, int(at), delta)
	}
	at, err := r.wait(it, delta)
	r.byName[base] = append(r.byName[base], at)
	return err
}

// wait stores the instructions of a delta whose base is not there yet.
func (r *reading) wait(it entry, delta []byte) (at int, err error) {
	if r.waiting++; r.waiting > r.limits.WaitingDeltas {
		return 0, Refused{"the pack has too many deltas before their bases"}
	}
	it.size = int64(len(delta))
	if it.at, err = r.put(delta); err == nil {
		err = r.enter(it)
	}
	return len(r.entries) - 1, err
}

// apply carries out a delta whose base is an entry, and keeps what it makes as the next entry.
func (r *reading) apply(it entry, base int, delta []byte) error {
	contents, depth, err := r.patched(base, delta)
	if err != nil {
		return err
	}
	it.kind, it.depth = r.entries[base].kind, depth
	return r.keep(it, contents)
}

func (r *reading) patched(base int, delta []byte) (contents []byte, depth int32, err error) {
	depth = r.entries[base].depth + 1
	if int(depth) > r.limits.DeltaDepth {
		return nil, 0, wrong("a chain of deltas is too long")
	}
	old, err := r.baseOf(base)
	if err != nil {
		return nil, 0, err
	}
	contents, err = Patch(old, delta, r.limits.ObjectBytes)
	if err == nil {
		err = r.spend(int64(len(contents)))
	}
	return contents, depth, err
}

// resolve carries out the deltas that waited: first those whose bases the pack has, then those whose bases are the tenant's.
// A cycle of deltas has no base that is there, so it stays.
func (r *reading) resolve(ctx context.Context) error {
	for name := range r.byName {
		if at, is := r.own[name]; is {
			if err := r.resolveFrom(ctx, int(at), r.takeName(name)); err != nil {
				return err
			}
		}
	}
	for len(r.byName) > 0 {
		name, found, err := r.tenantBase(ctx)
		if err != nil {
			return err
		}
		if err := r.resolveFrom(ctx, found, r.takeName(name)); err != nil {
			return err
		}
	}
	if r.waiting > 0 {
		return wrong("a delta has no base in the end")
	}
	return nil
}

func (r *reading) takeName(name plumbing.Name) []int {
	children := r.byName[name]
	delete(r.byName, name)
	return children
}

// tenantBase stores an object of the tenant that deltas wait for. It does not become one of the pack.
func (r *reading) tenantBase(ctx context.Context) (plumbing.Name, int, error) {
	var last plumbing.Name
	for name := range r.byName {
		last = name
		o, err := r.base.Object(ctx, name)
		if errors.Is(err, plumbing.ErrMissing) {
			continue
		}
		if err != nil {
			return last, 0, err
		}
		at, err := r.put(o.Contents)
		if err == nil {
			err = r.enter(entry{name: name, kind: byte(o.Kind), size: int64(len(o.Contents)), at: at, start: -1})
		}
		return last, len(r.entries) - 1, err
	}
	return last, 0, Refused{"the pack has a delta against " + last.String() + ", which is not here"}
}

// resolveFrom carries out deltas of one base, and all that wait for what they make, as long as the context lasts.
func (r *reading) resolveFrom(ctx context.Context, base int, children []int) error {
	type step struct{ base, child int }
	var steps []step
	push := func(base int, children []int) {
		for _, child := range children {
			steps = append(steps, step{base, child})
		}
	}
	push(base, children)
	for len(steps) > 0 && ctx.Err() == nil {
		next := steps[len(steps)-1]
		steps = steps[:len(steps)-1]
		if err := r.resolveOne(next.base, next.child); err != nil {
			return err
		}
		push(next.child, r.byEntry[next.child])
		delete(r.byEntry, next.child)
		push(next.child, r.takeName(r.entries[next.child].name))
	}
	return ctx.Err()
}

func (r *reading) resolveOne(base, child int) error {
	delta, err := r.contents(child)
	if err != nil {
		return err
	}
	contents, depth, err := r.patched(base, delta)
	if err != nil {
		return err
	}
	it := &r.entries[child]
	it.kind, it.depth, it.size = r.entries[base].kind, depth, int64(len(contents))
	it.name = r.namer.name(plumbing.Kind(it.kind), contents)
	r.waiting--
	if was, is := r.own[it.name]; is {
		it.at = r.entries[was].at
		return nil
	}
	it.isOwn = true
	r.own[it.name] = int32(child)
	it.at, err = r.put(contents)
	return err
}
