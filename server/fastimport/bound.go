package fastimport

import "bytes"

// bound counts what bounds the objects and refs that a stream writes.
type bound struct {
	// bytes is what the stream itself has, with what each object and ref has beside that.
	bytes int64
	// trees is how many trees it writes at most, and entries how many bytes of entries it tells, of which one tree may have all.
	trees, entries int64
	// things is how many objects, refs and files the stream tells, which take the program some memory each.
	things int64
}

// What counts beside the line itself: for what begins an object or a ref, for each parent, and for an entry of a tree.
const (
	besideObject = 512
	besideParent = 64
	besideEntry  = 64
)

// takeLine counts a line that is not in data.
func (b *bound) takeLine(word string, line []byte) {
	switch word {
	case "blob":
		b.things++
	case "commit":
		b.bytes += besideObject
		b.trees++
		b.things += 2
	case "tag", "reset", "alias":
		b.bytes += besideObject
		b.things++
	case "from", "merge":
		b.bytes += besideParent
	case "author", "committer", "tagger":
		// Who committed stands for who wrote it, too.
		b.bytes += int64(len(line)) + besideParent
	case "ls":
		b.trees++
	case "M", "C", "R", "D":
		// A quoted path may have its slashes as escapes.
		directories := int64(bytes.Count(line, []byte("/")) + bytes.Count(line, []byte{'\\'}))
		b.trees += directories
		b.entries += int64(len(line)) + besideEntry
		b.things += 2 + directories
	}
}

// most is how many bytes that are, where no tree before had more than `largest`.
func (b *bound) most(largest int64) int64 {
	tree := largest + b.entries
	if b.trees > 0 && tree > (unbounded-b.bytes)/b.trees {
		return unbounded
	}
	return b.bytes + b.trees*tree
}

// unbounded is a bound that says nothing.
const unbounded = 1 << 62
