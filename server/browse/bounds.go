package browse

import (
	"context"
	"errors"
	"time"

	"gitpoold/plumbing"
)

// Bounds are the most that one walk reads: objects, their bytes, and for how long it goes on.
type Bounds struct {
	Objects int
	Bytes   int64
	Time    time.Duration
}

// errSpent ends a walk that has read as much as it may.
var errSpent = errors.New("a walk has read as much as it may")

// metered is a source that counts what a walk reads of it.
type metered struct {
	Source
	left  Bounds
	until time.Time
}

func (b Bounds) of(s Source) *metered { return &metered{s, b, time.Now().Add(b.Time)} }

// isSpent tells whether the walk has read as much as it may.
func (m *metered) isSpent() bool {
	return m.left.Objects <= 0 || m.left.Bytes <= 0 || time.Now().After(m.until)
}

// Objects is that of the source.
func (m *metered) Objects(ctx context.Context, names []plumbing.Name, use func(plumbing.Object) error) error {
	if len(names) == 0 {
		return nil
	}
	return m.Source.Objects(ctx, names, func(o plumbing.Object) error {
		m.left.Objects--
		m.left.Bytes -= int64(len(o.Contents))
		return use(o)
	})
}
