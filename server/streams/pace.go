package streams

import (
	"time"

	"gitpoold/fastimport"
)

const (
	// partBytes is how much of a stream goes to the child at once at most, and partHeavy how many lines that the child may be long at. The next
	// question of anybody is answered after them.
	partBytes = 64 << 10
	partHeavy = 8
	// shortest is the least of a stream that goes to the child at once, if there is more.
	shortest = 1 << 10
	// stepTime is what a part is to take.
	stepTime = 50 * time.Millisecond
)

// pace says how much of a stream goes to the child at once, by the time that the parts before took. A line that begins or ends a commit may take
// the child long, so few of them go at once, and one alone where they do.
type pace struct{ next fastimport.Part }

func newPace() pace { return pace{fastimport.Part{Bytes: partBytes, Heavy: partHeavy}} }

// adapt learns what a part took.
func (p *pace) adapt(part fastimport.Part, took time.Duration) {
	switch {
	case took > stepTime:
		share := float64(stepTime) / float64(took)
		p.next.Heavy = max(1, int(share*float64(part.Heavy)))
		p.next.Bytes = max(shortest, int(share*float64(part.Bytes)))
	case took < stepTime/2:
		p.next.Heavy = min(partHeavy, p.next.Heavy+1)
		p.next.Bytes = min(partBytes, 2*p.next.Bytes)
	}
}
