package metrics

import (
	"bytes"
	"strings"
	"testing"
	"time"

	"gitpoold/await"
)

// slow is a client that takes nothing until it is told to.
type slow struct{ goOn chan struct{} }

func (s slow) Write(text []byte) (int, error) {
	<-s.goOn
	return len(text), nil
}

// TestACountWaitsForNoClient has a client that does not read what it has asked for, and a gauge that counts when it is read.
func TestACountWaitsForNoClient(t *testing.T) {
	m := New()
	m.Add("a_total", "A.", 2, "kind", "x")
	m.Gauge("b", "B.", func() float64 {
		m.Add("a_total", "A.", 1, "kind", "x")
		return 7
	})
	client := slow{make(chan struct{})}
	defer close(client.goOn)
	go m.Text(client)
	var text bytes.Buffer
	ended := make(chan struct{})
	go func() {
		time.Sleep(50 * time.Millisecond)
		m.Add("c_total", "C.", 1)
		m.Text(&text)
		close(ended)
	}()
	await.From(t, "a count, which waits for no client", ended)
	for _, line := range []string{"# HELP a_total A.\n# TYPE a_total counter\na_total{kind=\"x\"} 3\n", "# TYPE b gauge\nb 7\n", "\nc_total 1\n"} {
		if !strings.Contains(text.String(), line) {
			t.Errorf("no %q in %q", line, text.String())
		}
	}
}
