// Package faults has the refusals by which the service answers, and what they mean.
package faults

import "fmt"

// Fault is a refusal by the service, by its number: docs/FAULTS.md.
type Fault int

// Error gives what the number means, in the words of docs/FAULTS.md, and the number under which that page has more.
func (f Fault) Error() string {
	meaning, known := meanings[f]
	if !known {
		meaning = "the service refuses this"
	}
	return fmt.Sprintf("%s (fault %d)", meaning, int(f))
}
