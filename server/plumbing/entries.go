package plumbing

import (
	"slices"
	"strings"
)

// Entry is one entry of a tree, with its mode as the tree writes it. The zero Entry stands for one that is not there.
type Entry struct {
	Mode, Path string
	Name       Name
}

// Modes of entries as git writes them.
const (
	ModeFile       = "100644"
	ModeExecutable = "100755"
	ModeLink       = "120000"
	ModeTree       = "40000"
	ModeGitlink    = "160000"
)

var usualModes = []string{ModeFile, ModeTree, ModeExecutable, ModeLink, ModeGitlink}

// The bits of a mode that say what an entry is, and those of an executable file.
const (
	formatBits    = 0o170000
	treeFormat    = 0o040000
	regularFormat = 0o100000
	linkFormat    = 0o120000
	ownerExecutes = 0o100
)

// Bits gives the mode as a number, of which Git knows sixteen bits; ok is false where it is none.
func (e Entry) Bits() (bits uint16, ok bool) {
	for _, b := range []byte(e.Mode) {
		if b < '0' || b > '7' {
			return 0, false
		}
		bits = bits<<3 + uint16(b-'0')
	}
	return bits, e.Mode != ""
}

// Format gives the bits of the mode that say what the entry is.
func (e Entry) Format() uint16 {
	bits, _ := e.Bits()
	return bits & formatBits
}

// IsTree tells whether the entry is a directory.
func (e Entry) IsTree() bool { return e.Format() == treeFormat }

// IsLink tells whether the entry is a symbolic link.
func (e Entry) IsLink() bool { return e.Format() == linkFormat }

// IsFile tells whether the entry is a file that is no link.
func (e Entry) IsFile() bool { return e.Format() == regularFormat }

// IsBlob tells whether the entry has contents of its own: a file or a symbolic link.
func (e Entry) IsBlob() bool { return e.IsFile() || e.IsLink() }

// IsExecutable tells whether the entry is a file that may be run.
func (e Entry) IsExecutable() bool {
	bits, _ := e.Bits()
	return e.IsFile() && bits&ownerExecutes != 0
}

// IsGitlink tells whether the entry names a commit of another repository. As in git, whatever has another format is one.
func (e Entry) IsGitlink() bool {
	return (e.Mode != "" || !e.Name.IsZero()) && !e.IsTree() && !e.IsBlob()
}

// IsUsual tells whether git would write the entry's mode in this way.
func (e Entry) IsUsual() bool {
	return slices.Contains(usualModes, e.Mode)
}

// NextEntry gives the first entry of a tree's contents and what comes after it; ok is false where there is no whole entry.
func NextEntry(contents string) (entry Entry, rest string, ok bool) {
	front, after, found := strings.Cut(contents, "\x00")
	if !found || len(after) < len(entry.Name) {
		return entry, contents, false
	}
	entry.Mode, entry.Path, ok = strings.Cut(front, " ")
	copy(entry.Name[:], after)
	return entry, after[len(entry.Name):], ok
}

// CompareKeys orders entries as trees do: a directory stands as if its name ended in a slash.
func CompareKeys(a, b Entry) int {
	shared := min(len(a.Path), len(b.Path))
	if order := strings.Compare(a.Path[:shared], b.Path[:shared]); order != 0 {
		return order
	}
	return int(a.KeyByte(shared)) - int(b.KeyByte(shared))
}

// KeyByte gives the byte of an entry's key at a place where its path goes on or has just ended, or 0 after the key.
func (e Entry) KeyByte(at int) byte {
	if at < len(e.Path) {
		return e.Path[at]
	}
	if e.IsTree() {
		return '/'
	}
	return 0
}
