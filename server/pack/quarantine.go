package pack

import (
	"context"
	"crypto/sha1"
	"hash"
	"io"
	"strconv"

	"gitpoold/plumbing"
)

// Base has the objects that a thin pack builds on: those of the tenant that it is sent to.
type Base interface {
	Object(context.Context, plumbing.Name) (plumbing.Object, error)
}

// Quarantine has the objects of one push, in a temporary file without a name. They become part of nothing until the push is
// carried out.
type Quarantine struct {
	base    Base
	limits  Limits
	spool   *spool
	own     map[plumbing.Name]int32
	entries []entry
	namer   namer
}

// entry is an object of the pack, or a delta that waits for its base.
type entry struct {
	name  plumbing.Name
	kind  byte
	isOwn bool // whether it is the first one of its object, and the object is the pack's
	depth int32
	size  int64
	at    int64
	start int64
}

// NewQuarantine makes an empty one in a folder for temporary files. Close gives its disk space back.
func NewQuarantine(folder string, base Base, limits Limits) (*Quarantine, error) {
	spool, err := newSpool(folder, limits.MayGrow)
	if err != nil {
		return nil, err
	}
	return &Quarantine{base: base, limits: limits, spool: spool, own: map[plumbing.Name]int32{}, namer: newNamer()}, nil
}

// Close drops the objects.
func (q *Quarantine) Close() error { return q.spool.file.Close() }

// Len is how many entries the pack has.
func (q *Quarantine) Len() int { return len(q.entries) }

// Bytes is how many bytes the objects of the pack have, and what they were made from.
func (q *Quarantine) Bytes() int64 { return q.spool.end }

// Find gives the place of an object of the pack among its entries.
func (q *Quarantine) Find(name plumbing.Name) (at int, isOwn bool) {
	found, isOwn := q.own[name]
	return int(found), isOwn
}

// KindAt gives the kind of the object at a place.
func (q *Quarantine) KindAt(at int) plumbing.Kind { return plumbing.Kind(q.entries[at].kind) }

// ContentsAt gives the contents of the object at a place. Who keeps them for long keeps a copy.
func (q *Quarantine) ContentsAt(at int) ([]byte, error) { return q.contents(at) }

// Each calls use with the place of each object of a kind, in the order of the pack, until it gives an error.
func (q *Quarantine) Each(kind plumbing.Kind, use func(at int) error) error {
	for at := range q.entries {
		if it := &q.entries[at]; it.isOwn && it.kind == byte(kind) {
			if err := use(at); err != nil {
				return err
			}
		}
	}
	return nil
}

// Kind tells whether the pack has an object, and of which kind.
func (q *Quarantine) Kind(name plumbing.Name) (plumbing.Kind, bool) {
	at, is := q.Find(name)
	if !is {
		return 0, false
	}
	return q.KindAt(at), true
}

// NameAt gives the name of the object at a place.
func (q *Quarantine) NameAt(at int) plumbing.Name { return q.entries[at].name }

// SizeAt gives how many bytes the object at a place has.
func (q *Quarantine) SizeAt(at int) int64 { return q.entries[at].size }

// ObjectAt gives the object at a place, as Object does.
func (q *Quarantine) ObjectAt(at int) (plumbing.Object, error) {
	contents, err := q.contents(at)
	return plumbing.Object{Name: q.NameAt(at), Kind: q.KindAt(at), Contents: contents}, err
}

// Object gives an object of the pack, or else of the tenant. Who keeps its contents for long keeps a copy.
func (q *Quarantine) Object(ctx context.Context, name plumbing.Name) (plumbing.Object, error) {
	if at, is := q.Find(name); is {
		return q.ObjectAt(at)
	}
	return q.base.Object(ctx, name)
}

// contents gives the bytes of an entry: an object, or the instructions of a delta that waits.
func (q *Quarantine) contents(at int) ([]byte, error) {
	return q.spool.read(q.entries[at].at, q.entries[at].size)
}

// put stores bytes as the next ones of the file.
func (q *Quarantine) put(data []byte) (at int64, err error) {
	at = q.spool.end
	if at+int64(len(data)) > q.limits.Bytes {
		return 0, tooMuch("what a push has inflated", q.limits.Bytes)
	}
	return at, q.spool.append(data)
}

// keep stores an object of the pack. One that is there already is not stored again.
func (q *Quarantine) keep(it entry, contents []byte) (err error) {
	it.name, it.size = q.namer.name(plumbing.Kind(it.kind), contents), int64(len(contents))
	if was, is := q.own[it.name]; is {
		it.at = q.entries[was].at
	} else if it.at, err = q.put(contents); err != nil {
		return err
	} else {
		it.isOwn = true
		q.own[it.name] = int32(len(q.entries))
	}
	return q.enter(it)
}

const (
	// entriesAsked is after how many entries it is asked whether there may be more. A pack below 64 KiB has fewer, since none takes less than
	// 9 bytes.
	entriesAsked = 1 << 13
	// entryCost is how many bytes of memory an entry takes at most: twice its own while the list of entries moves to a larger place.
	entryCost = 128
)

// enter appends an entry. Entries count as bytes of the temporary file do: duplicates and empty objects take memory and put nothing there.
func (q *Quarantine) enter(it entry) error {
	q.entries = append(q.entries, it)
	if q.limits.MayGrow == nil || len(q.entries)%entriesAsked > 0 {
		return nil
	}
	return q.limits.MayGrow(entriesAsked * entryCost)
}

// NameOf gives the name of an object.
func NameOf(kind plumbing.Kind, contents []byte) plumbing.Name {
	n := newNamer()
	return n.name(kind, contents)
}

// namer gives the names of many objects.
type namer struct {
	digest hash.Hash
	text   []byte
}

func newNamer() namer { return namer{digest: sha1.New()} }

func (n *namer) name(kind plumbing.Kind, contents []byte) (name plumbing.Name) {
	n.text = append(append(n.text[:0], kind.String()...), ' ')
	n.text = append(strconv.AppendInt(n.text, int64(len(contents)), 10), 0)
	n.digest.Reset()
	n.digest.Write(n.text)
	n.digest.Write(contents)
	n.text = n.digest.Sum(n.text[:0])
	copy(name[:], n.text)
	return name
}

var _ io.Closer = (*Quarantine)(nil)
