// Package hooks lets programs judge pushes before they change anything, and tells programs and http addresses of pushes after them. No push waits for
// what is told. What addresses are told is kept until they have taken it, by the package webhooks.
//
// The operator's file `hooks` has lines `PATTERN WHERE`: the pattern names tenants as one of a grant does, and WHERE is the path of a
// program or an address that begins with http:// or https://. A line `PATTERN pre-receive WHERE`, or with `update`, has a program that judges
// (githooks(5)). The command `gitpoold hooks` changes the file, and a running server reads it again when it has changed.
package hooks

import (
	"context"
	"path/filepath"
	"slices"
	"sync"
	"time"

	"gitpoold/configfile"
	"gitpoold/fair"
	"gitpoold/metrics"
	"gitpoold/webhooks"
)

// Change is a ref that a push changed. Old and New are names of objects in digits, zeros where there is none.
type Change struct {
	Ref string `json:"ref"`
	Old string `json:"old"`
	New string `json:"new"`
}

// Push is what a hook is told of one push.
type Push struct {
	Tenant  string   `json:"tenant"`
	User    string   `json:"user"`
	Changes []Change `json:"changes"`
	Options []string `json:"options"`
}

// size is about how many bytes a push takes while it waits.
func (p Push) size() int {
	size := len(p.Tenant) + len(p.User)
	for _, it := range p.Changes {
		size += len(it.Ref) + len(it.Old) + len(it.New) + 3
	}
	for _, option := range p.Options {
		size += len(option) + 1
	}
	return size
}

// What waits for one hook has these bounds; it misses the pushes beyond them.
const (
	mostWaiting      = 1000
	mostWaitingBytes = 16 << 20
)

// Hooks tells the hooks of a folder. Its methods may be called by many goroutines at once.
type Hooks struct {
	lines   *configfile.Followed[[]line]
	within  func() time.Duration
	tell    func(format string, values ...any)
	metrics *metrics.Metrics
	ctx     context.Context
	stop    func()
	running sync.WaitGroup
	// Addresses are told over http.
	Addresses *webhooks.Sender

	mutex    sync.Mutex
	queues   map[string]*queue
	isClosed bool

	// judging are the places of hooks that judge pushes.
	judging *fair.Semaphore
}

// queue is what waits for one hook, which is told one push after another.
type queue struct {
	pushes []Push
	bytes  int
	missed int
}

// Load reads the hooks of a folder. `within` gives the time that a hook has for one push; `tell` gets lines for the operator.
func Load(folder string, within func() time.Duration, tell func(string, ...any), m *metrics.Metrics) (*Hooks, error) {
	path := filepath.Join(folder, "hooks")
	followed, err := configfile.Follow(func() ([]line, error) { return read(path) }, tell, path)
	if err != nil {
		return nil, err
	}
	h := &Hooks{lines: followed, within: within, tell: tell, metrics: m, queues: map[string]*queue{},
		judging: fair.New(judgesAtOnce)}
	h.Addresses, err = webhooks.Open(webhooks.Config{Folder: folder, Within: within, IsWanted: h.hasPlace, Tell: tell, Metrics: m})
	if err != nil {
		return nil, err
	}
	h.ctx, h.stop = context.WithCancel(context.Background())
	m.Gauge("gitpoold_hooks_waiting", "Pushes that hooks are still to be told of.", func() float64 { return float64(h.Waiting()) })
	return h, nil
}

// Tell lets each hook of the push's tenant be told, once each. It does not wait.
func (h *Hooks) Tell(p Push) {
	told := map[string]bool{}
	for _, it := range h.lines.Get() {
		if it.kind == PostReceive && it.matches(p.Tenant) && !told[it.where] {
			told[it.where] = true
			if isAddress(it.where) {
				h.Addresses.Put(it.where, event(p))
			} else {
				h.put(it.where, p)
			}
		}
	}
}

// Start tells addresses of what they were not told before the server started. The folder has to be this server's alone.
func (h *Hooks) Start() { h.Addresses.Start() }

// hasPlace tells whether a hook is in the list.
func (h *Hooks) hasPlace(where string) bool {
	return slices.ContainsFunc(h.lines.Get(), func(it line) bool { return it.where == where })
}

// Waiting is how many pushes hooks are still to be told of.
func (h *Hooks) Waiting() (count int) {
	count = h.Addresses.Waiting()
	h.mutex.Lock()
	defer h.mutex.Unlock()
	for _, q := range h.queues {
		count += len(q.pushes)
	}
	return count
}

// Close ends what is at work. Programs are not told of what waits, and addresses after the next start.
func (h *Hooks) Close() {
	h.mutex.Lock()
	h.isClosed = true
	h.mutex.Unlock()
	if waiting := h.Waiting() - h.Addresses.Waiting(); waiting > 0 {
		h.tell("the server stops; hooks are not told of %d pushes", waiting)
	}
	h.stop()
	h.Addresses.Close()
	h.running.Wait()
}

// put lets a push wait for a hook, or lets the hook miss it.
func (h *Hooks) put(where string, p Push) {
	h.mutex.Lock()
	defer h.mutex.Unlock()
	if h.isClosed {
		return
	}
	q := h.queues[where]
	if q == nil {
		q = &queue{}
		h.queues[where] = q
		h.running.Add(1)
		go h.work(where, q)
	}
	size := p.size()
	if len(q.pushes) >= mostWaiting || q.bytes+size > mostWaitingBytes {
		if q.missed++; q.missed == 1 {
			h.tell("hook %s misses pushes: too many wait for it", shown(where))
		}
		h.count("missed")
		return
	}
	q.pushes = append(q.pushes, p)
	q.bytes += size
}

// work tells a hook one push after another, until none waits.
func (h *Hooks) work(where string, q *queue) {
	defer h.running.Done()
	for {
		p, has := h.next(where, q)
		if !has {
			return
		}
		began := time.Now()
		err := h.deliver(where, p)
		h.metrics.Observe("gitpoold_hook_seconds", "The time of hooks.", time.Since(began).Seconds())
		if h.count(webhooks.ResultOf(err)); err != nil {
			h.tell("hook %s was not told of a push to %s: %v", shown(where), p.Tenant, err)
		}
		h.leave(q)
	}
}

// next gives the push that is told next. It stays in the queue until `leave`. Where there is none, the queue ends.
func (h *Hooks) next(where string, q *queue) (Push, bool) {
	h.mutex.Lock()
	defer h.mutex.Unlock()
	if len(q.pushes) > 0 && h.ctx.Err() == nil {
		return q.pushes[0], true
	}
	if q.missed > 0 {
		h.tell("hook %s has missed %d pushes", shown(where), q.missed)
	}
	delete(h.queues, where)
	return Push{}, false
}

func (h *Hooks) leave(q *queue) {
	h.mutex.Lock()
	defer h.mutex.Unlock()
	q.bytes -= q.pushes[0].size()
	q.pushes[0] = Push{}
	q.pushes = q.pushes[1:]
}

// deliver tells a program of one push, within its time.
func (h *Hooks) deliver(where string, p Push) error {
	ctx, stop := context.WithTimeout(h.ctx, h.within())
	defer stop()
	err := run(ctx, where, p)
	switch {
	case err != nil && h.ctx.Err() != nil:
		return webhooks.ErrStopped
	case err != nil && ctx.Err() != nil:
		return webhooks.ErrLate
	}
	return err
}

func (h *Hooks) count(result string) {
	h.metrics.Add("gitpoold_hooks_total", "What hooks were told of, by how it went.", 1, "result", result)
}
