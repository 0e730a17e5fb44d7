// Package metrics counts what the server does, and writes the counts in Prometheus' text.
package metrics

import (
	"bytes"
	"fmt"
	"io"
	"maps"
	"slices"
	"strings"
	"sync"
)

// Metrics are the counts of one server. Its methods may be called by many goroutines at once.
type Metrics struct {
	mutex    sync.Mutex
	families map[string]*family
}

type family struct {
	help, kind string
	values     map[string]float64
	read       func() float64
}

// New gives metrics without a count.
func New() *Metrics { return &Metrics{families: map[string]*family{}} }

func (m *Metrics) family(name, kind, help string) *family {
	it := m.families[name]
	if it == nil {
		it = &family{help: help, kind: kind, values: map[string]float64{}}
		m.families[name] = it
	}
	return it
}

// Add counts something up. Labels are name and value in turns; their values may not come from clients, or there is no end of them.
func (m *Metrics) Add(name, help string, by float64, labels ...string) {
	m.mutex.Lock()
	defer m.mutex.Unlock()
	m.family(name, "counter", help).values[labelText(labels)] += by
}

// Counter lets a count be read when it is asked for.
func (m *Metrics) Counter(name, help string, read func() float64) {
	m.reader(name, "counter", help, read)
}

// Gauge does the same for a number that goes up and down.
func (m *Metrics) Gauge(name, help string, read func() float64) { m.reader(name, "gauge", help, read) }

func (m *Metrics) reader(name, kind, help string, read func() float64) {
	m.mutex.Lock()
	defer m.mutex.Unlock()
	m.family(name, kind, help).read = read
}

// buckets are the upper bounds of the times of requests, in seconds.
var buckets = [...]float64{0.001, 0.005, 0.01, 0.05, 0.1, 0.5, 1, 5, 10, 60}

// Observe counts a time in seconds into a histogram.
func (m *Metrics) Observe(name, help string, seconds float64, labels ...string) {
	m.mutex.Lock()
	defer m.mutex.Unlock()
	it := m.family(name, "histogram", help)
	for _, bound := range buckets {
		if seconds <= bound {
			it.values["_bucket"+labelText(append(labels, "le", fmt.Sprint(bound)))]++
		} else {
			it.values["_bucket"+labelText(append(labels, "le", fmt.Sprint(bound)))] += 0
		}
	}
	it.values["_bucket"+labelText(append(labels, "le", "+Inf"))]++
	it.values["_sum"+labelText(labels)] += seconds
	it.values["_count"+labelText(labels)]++
}

func labelText(labels []string) string {
	var parts []string
	for i := 0; i+1 < len(labels); i += 2 {
		parts = append(parts, fmt.Sprintf("%s=%q", labels[i], labels[i+1]))
	}
	if len(parts) == 0 {
		return ""
	}
	return "{" + strings.Join(parts, ",") + "}"
}

// Text writes all counts. It holds nothing meanwhile: a client may take its time, and what is read may count something itself.
func (m *Metrics) Text(to io.Writer) {
	var text bytes.Buffer
	for _, it := range m.now() {
		fmt.Fprintf(&text, "# HELP %s %s\n# TYPE %s %s\n", it.name, it.help, it.name, it.kind)
		if it.read != nil {
			fmt.Fprintf(&text, "%s %v\n", it.name, it.read())
		}
		for _, labels := range sorted(it.values) {
			fmt.Fprintf(&text, "%s%s %v\n", it.name, labels, it.values[labels])
		}
	}
	_, _ = to.Write(text.Bytes())
}

// named is a family with its name, and its values as they were.
type named struct {
	name string
	family
}

// now gives all families in the order of their names.
func (m *Metrics) now() (all []named) {
	m.mutex.Lock()
	defer m.mutex.Unlock()
	for _, name := range sorted(m.families) {
		it := named{name, *m.families[name]}
		it.values = map[string]float64{}
		for labels, value := range m.families[name].values {
			it.values[labels] = value
		}
		all = append(all, it)
	}
	return all
}

func sorted[T any](of map[string]T) []string {
	names := slices.Sorted(maps.Keys(of))
	return names
}
