package gitrun

import (
	"strings"
	"sync"
	"time"
)

// tail keeps the last of what git says, and when.
type tail struct {
	mutex sync.Mutex
	kept  []byte
	at    time.Time
}

// mostSaid is how much of what git says is kept, and MostTold how much of a sentence is told.
const (
	mostSaid = 8 << 10
	MostTold = 400
)

func (t *tail) Write(text []byte) (int, error) {
	t.mutex.Lock()
	defer t.mutex.Unlock()
	t.at = time.Now()
	t.kept = append(t.kept, text...)
	if over := len(t.kept) - mostSaid; over > 0 {
		t.kept = append(t.kept[:0], t.kept[over:]...)
	}
	return len(text), nil
}

func (t *tail) silentFor() time.Duration {
	t.mutex.Lock()
	defer t.mutex.Unlock()
	return time.Since(t.at)
}

// words gives the line that says most of why git failed, in ASCII: another host may have written it.
func (t *tail) words() string {
	t.mutex.Lock()
	defer t.mutex.Unlock()
	var found, last string
	for _, line := range strings.FieldsFunc(string(t.kept), func(r rune) bool { return r == '\n' || r == '\r' }) {
		line = Visible(line)
		if said := telling(line); said != "" && found == "" {
			found = said
		}
		if line != "" {
			last = line
		}
	}
	if found == "" {
		found = last
	}
	return found
}

// telling gives what a line of git's says where it says why git failed, and nothing for other lines.
func telling(line string) string {
	for _, front := range []string{"fatal: ", "error: remote unpack failed: "} {
		if said := strings.TrimPrefix(line, front); said != line {
			return said
		}
	}
	return ""
}

// Visible is a line with ? for each byte that is none of ASCII's visible ones, and no longer than is told.
func Visible(line string) string {
	text := []byte(strings.TrimSpace(line))
	if len(text) > MostTold {
		text = text[:MostTold]
	}
	for at, it := range text {
		if it < ' ' || it > '~' {
			text[at] = '?'
		}
	}
	return string(text)
}
