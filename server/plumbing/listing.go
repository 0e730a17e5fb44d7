package plumbing

import "encoding/binary"

// Listing has objects with their kinds and sizes, as the child lists them: 29 bytes for each.
type Listing []byte

// ListedBytes is how many bytes a listing has for each object.
const ListedBytes = 29

// Len is how many objects a listing has.
func (l Listing) Len() int { return len(l) / ListedBytes }

// Name gives the name of an object.
func (l Listing) Name(at int) (name Name) {
	copy(name[:], l[at*ListedBytes:])
	return name
}

// Kind gives the kind of an object.
func (l Listing) Kind(at int) Kind { return Kind(l[at*ListedBytes+len(Name{})]) }

// Size gives the bytes of an object's contents.
func (l Listing) Size(at int) uint64 {
	return binary.BigEndian.Uint64(l[at*ListedBytes+len(Name{})+1:])
}

// With gives a listing with one more object.
func (l Listing) With(name Name, kind Kind, size uint64) Listing {
	return binary.BigEndian.AppendUint64(append(append(l, name[:]...), byte(kind)), size)
}

// Keep gives a listing of those objects for which `keep` gives true.
func (l Listing) Keep(keep func(at int) bool) (kept Listing) {
	for at := 0; at < l.Len(); at++ {
		if keep(at) {
			kept = append(kept, l[at*ListedBytes:(at+1)*ListedBytes]...)
		}
	}
	return kept
}
