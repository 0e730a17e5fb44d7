package linediff

// edits is Myers' greedy algorithm ("An O(ND) difference algorithm and its variations", 1986) on a part of two texts. A point has taken x old and y
// new lines, and lies on the diagonal x - y. A step deletes an old line or inserts a new one; lines that are equal cost none.
type edits struct {
	old, new []string
	reached  []int   // the largest x on each diagonal, with that of the diagonal 0 in the middle
	before   [][]int // what `reached` was before each step, for the diagonals that the step looks at
}

// edit deletes the old line at x, or inserts the new line at y.
type edit struct {
	x, y        int
	isInsertion bool
}

// byEdits compares a part of the texts. It is false where more than mostEdits lines differ.
func (c *comparison) byEdits(it Change) bool {
	e := &edits{old: c.old[it.OldFrom:it.OldTo], new: c.new[it.NewFrom:it.NewTo], reached: make([]int, 2*mostEdits+3)}
	for step := 0; step <= mostEdits; step++ {
		if !e.step(step) {
			continue
		}
		for _, found := range e.way() {
			x, y := it.OldFrom+found.x, it.NewFrom+found.y
			if found.isInsertion {
				c.add(Change{x, x, y, y + 1})
			} else {
				c.add(Change{x, x + 1, y, y})
			}
		}
		return true
	}
	return false
}

// on gives what is reached on a diagonal.
func on(reached []int, diagonal int) int { return reached[len(reached)/2+diagonal] }

// inserts tells whether a step comes to a diagonal by an insertion.
func inserts(reached []int, diagonal, step int) bool {
	return diagonal == -step || diagonal != step && on(reached, diagonal-1) < on(reached, diagonal+1)
}

// step goes one step on, and tells whether it has come to the ends of both texts.
func (e *edits) step(step int) bool {
	middle := len(e.reached) / 2
	before := append([]int{}, e.reached[middle-step-1:middle+step+2]...)
	e.before = append(e.before, before)
	for diagonal := -step; diagonal <= step; diagonal += 2 {
		x := on(before, diagonal-1) + 1
		if inserts(before, diagonal, step) {
			x = on(before, diagonal+1)
		}
		for x < len(e.old) && x-diagonal < len(e.new) && e.old[x] == e.new[x-diagonal] {
			x++
		}
		if e.reached[middle+diagonal] = x; x == len(e.old) && x-diagonal == len(e.new) {
			return true
		}
	}
	return false
}

// way gives the edits that lead from the beginning to the ends, in their order.
func (e *edits) way() []edit {
	all := make([]edit, len(e.before)-1)
	x, y := len(e.old), len(e.new)
	for step := len(all); step > 0; step-- {
		before, diagonal := e.before[step], x-y
		it := edit{isInsertion: inserts(before, diagonal, step)}
		if it.isInsertion {
			diagonal++
		} else {
			diagonal--
		}
		it.x = on(before, diagonal)
		it.y = it.x - diagonal
		all[step-1], x, y = it, it.x, it.y
	}
	return all
}
