package streams

import (
	"gitpoold/child"
)

const (
	// besideThing is above the memory that the child takes for an object, a ref or a file of a branch beside its contents, which is some 250. mostBeside is
	// that of as many objects as a tenant may have.
	besideThing = 512
	mostBeside  = 1 << 30
	// workBytes is what a stream may take beside what it leaves, such as the files of its branches.
	workBytes = 32 << 20
	// jumps is how many parts do not count: those in which the memory grew most. The child doubles a table of all tenants in one of them.
	jumps = 3
)

// growth is how much of the child's memory a stream has taken. It ends a stream long before its next checkpoint, at which the child tells what the
// tenant has.
type growth struct {
	room   int64
	grown  int64
	jumped [jumps]int64
}

// add counts what the child took for a part.
func (g *growth) add(cost child.Cost) {
	grown := cost.Grown
	g.grown += grown
	for at := range g.jumped {
		if grown > g.jumped[at] {
			g.jumped[at], grown = grown, g.jumped[at]
		}
	}
}

// isBeyond tells whether the stream, which has told so many things, takes more memory than what fills the room.
func (g *growth) isBeyond(things int64) bool {
	taken := g.grown
	for _, jump := range g.jumped {
		taken -= jump
	}
	return taken > g.room+min(mostBeside, besideThing*things)+workBytes
}
