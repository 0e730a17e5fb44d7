package tenants

import (
	"errors"
	"slices"

	"gitpoold/child"
	"gitpoold/faults"
	"gitpoold/journal"
	"gitpoold/plumbing"
	"gitpoold/store"
)

// told are the errors, beside faults, whose text is a sentence for who pushes or fetches.
var told = []error{plumbing.ErrMissing, ErrBusy, ErrFull, ErrOtherName, child.ErrGone, journal.ErrFull, journal.ErrBroken, journal.ErrUnknown,
	journal.ErrTooLarge, journal.ErrAway, journal.ErrUnsure, journal.ErrBehind, store.ErrUnknown, store.ErrClosed}

// IsSentence tells whether the text of an error of this package may stand on a user's terminal. Any other error is the server's own
// trouble, which goes to its log.
func IsSentence(err error) bool {
	var fault faults.Fault
	var follows *store.Follows
	if errors.As(err, &fault) || errors.As(err, &follows) {
		return true
	}
	return slices.ContainsFunc(told, func(it error) bool { return errors.Is(err, it) })
}
