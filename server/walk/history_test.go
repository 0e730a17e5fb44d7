package walk

import (
	"context"
	"encoding/binary"
	"fmt"
	"strings"
	"testing"

	"gitpoold/faults"
	"gitpoold/plumbing"
)

// line is a history of so many commits, each with the one before as its parent, which gives at most `most` names in a log.
type line struct {
	Source
	count, most, objects int
	logs                 []int
}

// at names a commit; the first one is 1.
func at(number int) (name plumbing.Name) {
	binary.BigEndian.PutUint64(name[:], uint64(number))
	return name
}

func (l *line) Objects(_ context.Context, names []plumbing.Name, take func(plumbing.Object) error) error {
	for _, name := range names {
		text := fmt.Sprintf("tree %v\n", plumbing.Name{})
		if number := int(binary.BigEndian.Uint64(name[:])); number > 1 {
			text += fmt.Sprintf("parent %v\n", at(number-1))
		}
		l.objects++
		if err := take(plumbing.Object{Name: name, Kind: plumbing.Commit, Contents: []byte(text + "author a\n\n")}); err != nil {
			return err
		}
	}
	return nil
}

func (l *line) Log(_ context.Context, revisions string) (names []plumbing.Name, err error) {
	first, last := 1, 0
	from, till, isRange := strings.Cut(revisions, "..")
	if isRange {
		name, back, _ := strings.Cut(from, "~")
		start, _ := plumbing.ParseName(name)
		count := 0
		fmt.Sscan(back, &count)
		if first = int(binary.BigEndian.Uint64(start[:])) - count + 1; first < 2 {
			return nil, plumbing.ErrMissing
		}
	} else {
		till = from
	}
	end, _ := plumbing.ParseName(till)
	last = int(binary.BigEndian.Uint64(end[:]))
	if l.logs = append(l.logs, last-first+1); last-first+1 > l.most {
		return nil, faults.Fault(25)
	}
	for number := last; number >= first; number-- {
		names = append(names, at(number))
	}
	return names, nil
}

// TestALongHistoryIsAskedForInParts walks histories of which one reply has no more than some commits.
func TestALongHistoryIsAskedForInParts(t *testing.T) {
	for _, of := range []struct{ most, logs, objects int }{{10_000, 1, 10_000}, {5_000, 14, 10_000}, {128, 80, 10_000}, {127, 5, 10_000}, {0, 5, 10_000}} {
		source := &line{count: 10_000, most: of.most}
		h, names := NewHistory(source), []plumbing.Name{at(10_000)}
		for len(names) > 0 {
			if err := h.Load(context.Background(), names); err != nil {
				t.Fatal(err)
			}
			names = h.parents(names[0])
		}
		if len(h.commits) != 10_000 || source.objects != of.objects || len(source.logs) > of.logs {
			t.Errorf("%d at once: %d commits, %d objects, logs %v", of.most, len(h.commits), source.objects, source.logs)
		}
	}
}
