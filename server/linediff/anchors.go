package linediff

import "sort"

// anchor is a line that stands once in each of two parts.
type anchor struct{ old, new int }

// anchors gives the longest run of lines that stand once in each part and in one order in both.
func (c *comparison) anchors(it Change) []anchor {
	type places struct{ old, new, olds, news int }
	found := map[string]*places{}
	for at := it.OldFrom; at < it.OldTo; at++ {
		p := found[c.old[at]]
		if p == nil {
			p = &places{}
			found[c.old[at]] = p
		}
		p.old, p.olds = at, p.olds+1
	}
	for at := it.NewFrom; at < it.NewTo; at++ {
		if p := found[c.new[at]]; p != nil {
			p.new, p.news = at, p.news+1
		}
	}
	var all []anchor
	for _, p := range found {
		if p.olds == 1 && p.news == 1 {
			all = append(all, anchor{p.old, p.new})
		}
	}
	sort.Slice(all, func(i, k int) bool { return all[i].old < all[k].old })
	return rising(all)
}

// rising gives a longest part in which the places in the new text rise too.
func rising(all []anchor) []anchor {
	var ends []int // of the best run of each length, by its last place
	before := make([]int, len(all))
	for at, it := range all {
		length := sort.Search(len(ends), func(n int) bool { return all[ends[n]].new >= it.new })
		before[at] = -1
		if length > 0 {
			before[at] = ends[length-1]
		}
		if length == len(ends) {
			ends = append(ends, at)
		} else {
			ends[length] = at
		}
	}
	run := make([]anchor, len(ends))
	for n, at := len(ends)-1, last(ends); n >= 0; n, at = n-1, before[at] {
		run[n] = all[at]
	}
	return run
}

func last(of []int) int {
	if len(of) == 0 {
		return -1
	}
	return of[len(of)-1]
}
