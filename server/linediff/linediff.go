// Package linediff compares two texts line by line, as diff -u does, with a bound on its work.
//
// Texts in which few lines differ are compared by Myers' algorithm. In others, lines that stand once in each, and in one order in both, hold the
// texts together, and what lies between them is compared. Where too much lies between, all old lines are shown as deleted and all new ones as
// added: that is right, though not the shortest way to say it.
package linediff

import "strings"

// Line is a line of a hunk. Mark is ' ', '-' or '+'. Old and New are its numbers in the two texts, from 1, or 0 where it is not in
// that text. Text has the line end, if there is one.
type Line struct {
	Mark     byte
	Old, New int
	Text     string
}

// Hunk is a run of changed lines with up to three lines before and after.
type Hunk struct{ Lines []Line }

const (
	// mostEdits is how many lines may come and go in what Myers' algorithm compares; it takes time and memory by the square of that.
	mostEdits = 400
	// mostDepth is how often what lies between lines is split again.
	mostDepth = 12
	context   = 3
)

// Compare gives the hunks of a comparison, in order. Equal texts have none.
func Compare(old, new string) []Hunk {
	c := compared(Lines(old), Lines(new))
	return c.hunks()
}

// Changes gives the changes of a comparison, in order.
func Changes(old, new []string) []Change { return compared(old, new).changes }

func compared(old, new []string) *comparison {
	c := &comparison{old: old, new: new}
	c.between(0, len(c.old), 0, len(c.new), mostDepth)
	return c
}

// Lines splits a text behind its line ends.
func Lines(text string) []string {
	lines := strings.SplitAfter(text, "\n")
	if lines[len(lines)-1] == "" {
		return lines[:len(lines)-1]
	}
	return lines
}

// Change says that old lines give way to new ones; positions count from 0, and ends are not included.
type Change struct{ OldFrom, OldTo, NewFrom, NewTo int }

type comparison struct {
	old, new []string
	changes  []Change
}

// between compares parts of the two texts.
func (c *comparison) between(oldFrom, oldTo, newFrom, newTo, depth int) {
	for oldFrom < oldTo && newFrom < newTo && c.old[oldFrom] == c.new[newFrom] {
		oldFrom, newFrom = oldFrom+1, newFrom+1
	}
	for oldFrom < oldTo && newFrom < newTo && c.old[oldTo-1] == c.new[newTo-1] {
		oldTo, newTo = oldTo-1, newTo-1
	}
	whole := Change{oldFrom, oldTo, newFrom, newTo}
	switch {
	case oldFrom == oldTo && newFrom == newTo:
	case oldFrom == oldTo || newFrom == newTo:
		c.add(whole)
	case c.byEdits(whole):
	default:
		c.byAnchors(whole, depth)
	}
}

// add adds a change, as a part of the one before where it follows at once.
func (c *comparison) add(it Change) {
	if last := len(c.changes) - 1; last >= 0 && c.changes[last].OldTo == it.OldFrom && c.changes[last].NewTo == it.NewFrom {
		c.changes[last].OldTo, c.changes[last].NewTo = it.OldTo, it.NewTo
		return
	}
	c.changes = append(c.changes, it)
}

// byAnchors goes from one anchor to the next.
func (c *comparison) byAnchors(it Change, depth int) {
	anchors := c.anchors(it)
	if len(anchors) == 0 || depth == 0 {
		c.add(it)
		return
	}
	oldAt, newAt := it.OldFrom, it.NewFrom
	for _, anchor := range anchors {
		c.between(oldAt, anchor.old, newAt, anchor.new, depth-1)
		oldAt, newAt = anchor.old+1, anchor.new+1
	}
	c.between(oldAt, it.OldTo, newAt, it.NewTo, depth-1)
}

// hunks puts changes together that have few lines between them.
func (c *comparison) hunks() (hunks []Hunk) {
	for at := 0; at < len(c.changes); {
		end := at + 1
		for end < len(c.changes) && c.changes[end].OldFrom-c.changes[end-1].OldTo <= 2*context {
			end++
		}
		hunks = append(hunks, c.hunk(c.changes[at:end]))
		at = end
	}
	return hunks
}

func (c *comparison) hunk(changes []Change) (h Hunk) {
	first, last := changes[0], changes[len(changes)-1]
	before := min(context, min(first.OldFrom, first.NewFrom))
	oldAt, newAt := first.OldFrom-before, first.NewFrom-before
	same := func(until int) {
		for ; oldAt < until; oldAt, newAt = oldAt+1, newAt+1 {
			h.Lines = append(h.Lines, Line{' ', oldAt + 1, newAt + 1, c.old[oldAt]})
		}
	}
	for _, it := range changes {
		same(it.OldFrom)
		for ; oldAt < it.OldTo; oldAt++ {
			h.Lines = append(h.Lines, Line{'-', oldAt + 1, 0, c.old[oldAt]})
		}
		for ; newAt < it.NewTo; newAt++ {
			h.Lines = append(h.Lines, Line{'+', 0, newAt + 1, c.new[newAt]})
		}
	}
	same(min(last.OldTo+context, len(c.old)))
	return h
}
