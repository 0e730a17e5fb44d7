// Package logs writes what happens, a line an event, as `name=value` words. What clients say is quoted where it has more than plain
// characters, so that no client can write a line of its own.
package logs

import (
	"fmt"
	"io"
	"strconv"
	"strings"
	"sync"
	"time"

	"gitpoold/metrics"
)

// Log writes lines. Its methods may be called by many goroutines at once.
type Log struct {
	mutex   sync.Mutex
	to      io.Writer
	metrics *metrics.Metrics
}

// New gives a log that writes to `to`, and counts requests and changes into metrics, which may be nil.
func New(to io.Writer, m *metrics.Metrics) *Log { return &Log{to: to, metrics: m} }

// Request is one request, or one session of ssh. Status is that of http; for ssh the exit status of the command.
type Request struct {
	Protocol string
	Address  string
	User     string
	Tenant   string
	What     string
	Status   int
	In, Out  int64
	Took     time.Duration
	Err      error
}

// Request writes the line of a request that has ended.
func (l *Log) Request(r Request) {
	words := []string{"protocol", r.Protocol, "address", r.Address, "user", r.User, "tenant", r.Tenant, "what", r.What,
		"status", strconv.Itoa(r.Status), "in", strconv.FormatInt(r.In, 10), "out", strconv.FormatInt(r.Out, 10),
		"seconds", strconv.FormatFloat(r.Took.Seconds(), 'f', 3, 64)}
	if r.Err != nil {
		words = append(words, "error", r.Err.Error())
	}
	l.line("request", words)
	if l.metrics == nil {
		return
	}
	status := strconv.Itoa(r.Status)
	l.metrics.Add("gitpoold_requests_total", "Requests that have ended.", 1, "protocol", r.Protocol, "status", status)
	l.metrics.Observe("gitpoold_request_seconds", "The time of requests.", r.Took.Seconds(), "protocol", r.Protocol)
	l.metrics.Add("gitpoold_received_bytes_total", "Bytes that requests brought.", float64(r.In), "protocol", r.Protocol)
	l.metrics.Add("gitpoold_sent_bytes_total", "Bytes that requests were answered.", float64(r.Out), "protocol", r.Protocol)
}

// Change is a ref that a user changed. Old and New are names of objects, zeros where there is none.
type Change struct {
	Address, User, Tenant, Ref, Old, New string
}

// Change writes the line of a ref that has changed.
func (l *Log) Change(c Change) {
	l.line("change", []string{"address", c.Address, "user", c.User, "tenant", c.Tenant, "ref", c.Ref, "old", c.Old, "new", c.New})
	if l.metrics != nil {
		l.metrics.Add("gitpoold_ref_changes_total", "Refs that pushes changed.", 1)
	}
}

// Operator is what an operator did, who is a user of the system by its number and name, and had logged in as another one, from some place.
type Operator struct {
	ID, User, Login, From, What string
	Err                         error
}

// Operator writes the line of what an operator did.
func (l *Log) Operator(o Operator) {
	words := []string{"uid", o.ID, "user", o.User, "login", o.Login, "from", o.From, "what", o.What}
	if o.Err != nil {
		words = append(words, "error", o.Err.Error())
	}
	l.line("operator", words)
}

// Account is what a user changed of the own account, by what login, and from where.
type Account struct {
	Address, Login, What string
	Err                  error
}

// Account writes the line of what a user changed of the own account.
func (l *Log) Account(a Account) {
	words := []string{"address", a.Address, "login", a.Login, "what", a.What}
	if a.Err != nil {
		words = append(words, "error", a.Err.Error())
	}
	l.line("account", words)
}

// Printf writes a line for the operator.
func (l *Log) Printf(format string, values ...any) {
	l.line("note", []string{"text", fmt.Sprintf(format, values...)})
}

func (l *Log) line(event string, words []string) {
	var text strings.Builder
	text.WriteString(time.Now().UTC().Format("2006-01-02T15:04:05.000Z"))
	text.WriteByte(' ')
	text.WriteString(event)
	for i := 0; i+1 < len(words); i += 2 {
		text.WriteByte(' ')
		text.WriteString(words[i])
		text.WriteByte('=')
		text.WriteString(quoted(words[i+1]))
	}
	text.WriteByte('\n')
	l.mutex.Lock()
	defer l.mutex.Unlock()
	_, _ = io.WriteString(l.to, text.String())
}

// quoted gives a value as it is where it is plain, and else in quotes, with escapes for what a terminal would take for itself.
func quoted(value string) string {
	for _, it := range value {
		if it <= ' ' || it > '~' || it == '"' || it == '=' || it == '\\' {
			return strconv.QuoteToASCII(value)
		}
	}
	if value == "" {
		return "-"
	}
	return value
}
