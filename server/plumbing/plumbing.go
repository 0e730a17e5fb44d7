// Package plumbing has Git's objects as the rest of the server knows them: names, kinds, objects, commits' heads, the entries of trees, and listings
// of objects. It stands on no other package of the server.
package plumbing

import (
	"encoding/hex"
	"errors"
)

// Name is the name of an object.
type Name [20]byte

// String gives the 40 digits of a name.
func (n Name) String() string { return hex.EncodeToString(n[:]) }

// IsZero tells whether this is the name of no object, which stands for a ref that is not there.
func (n Name) IsZero() bool { return n == Name{} }

// What the names of branches and of tags begin with.
const (
	Branches = "refs/heads/"
	Tags     = "refs/tags/"
)

// EmptyTree is the tree without entries.
var EmptyTree, _ = ParseName("4b825dc642cb6eb9a060e54bf8d69288fbee4904")

// ParseName reads 40 digits.
func ParseName(text string) (n Name, ok bool) {
	if len(text) != 2*len(n) {
		return n, false
	}
	_, err := hex.Decode(n[:], []byte(text))
	return n, err == nil
}

// Unseen gives the names that were not seen, and marks them.
func Unseen(names []Name, seen map[Name]bool) (fresh []Name) {
	for _, name := range names {
		if !seen[name] {
			seen[name] = true
			fresh = append(fresh, name)
		}
	}
	return fresh
}

// Kind is the kind of an object, as packs number it.
type Kind byte

// The kinds of objects.
const (
	Commit Kind = 1
	Tree   Kind = 2
	Blob   Kind = 3
	Tag    Kind = 4
)

var kindWords = [...]string{Commit: "commit", Tree: "tree", Blob: "blob", Tag: "tag"}

// String gives Git's word for a kind.
func (k Kind) String() string {
	if int(k) < len(kindWords) && k > 0 {
		return kindWords[k]
	}
	return "unknown"
}

// ParseKind reads Git's word for a kind.
func ParseKind(word string) (Kind, bool) {
	for kind := Commit; kind <= Tag; kind++ {
		if kindWords[kind] == word {
			return kind, true
		}
	}
	return 0, false
}

// Object is an object of a tenant. Contents are without Git's header.
type Object struct {
	Name     Name
	Kind     Kind
	Contents []byte
}

// ErrMissing says that the tenant has no object of a name.
var ErrMissing = errors.New("the repository has no object of this name")
