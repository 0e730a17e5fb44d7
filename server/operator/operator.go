// Package operator answers at a unix socket, to whoever may open it: frames, as `gitpool host` takes them, of any tenant; and the
// commands of the operator, a line each, such as `status`.
package operator

import (
	"bufio"
	"context"
	"errors"
	"fmt"
	"io"
	"net"
	"os"
	"sort"
	"strconv"
	"strings"
	"sync"
	"time"

	"gitpoold/audit"
	"gitpoold/child"
	"gitpoold/faults"
	"gitpoold/gateway"
	"gitpoold/journal"
	"gitpoold/plumbing"
	"gitpoold/shards"
	"gitpoold/store"
	"gitpoold/tenants"
	"gitpoold/webhooks"
)

// Server answers at the server's socket.
type Server struct {
	gateway *gateway.Gateway
	store   *shards.Set
	// most is how many bytes of answers may wait for a client before no further step is taken.
	most int64
}

// New gives the server of a gateway over the shards that it serves.
func New(s *gateway.Gateway, over *shards.Set) *Server { return &Server{s, over, mostUnread} }

// Listen makes a socket that only the server's user may open, in the place of one that no server has.
func Listen(path string) (net.Listener, error) {
	if c, err := net.Dial("unix", path); err == nil {
		c.Close()
		return nil, fmt.Errorf("%s: another server answers there", path)
	}
	if err := os.Remove(path); err != nil && !errors.Is(err, os.ErrNotExist) {
		return nil, err
	}
	listener, err := net.Listen("unix", path)
	if err != nil {
		return nil, err
	}
	return listener, os.Chmod(path, 0o600)
}

// Serve answers connections until the context is done; those that are open are closed then, and their streams given up.
func (d *Server) Serve(ctx context.Context, listener net.Listener) error {
	listener = d.gateway.Limits.ListenSocket(listener)
	var all sync.WaitGroup
	defer all.Wait()
	defer listener.Close()
	defer context.AfterFunc(ctx, func() { listener.Close() })()
	for {
		conn, err := listener.Accept()
		switch {
		case err == nil:
		case ctx.Err() != nil:
			return nil
		case errors.Is(err, net.ErrClosed):
			return err
		default:
			// The process may have too many open files for the moment.
			d.gateway.Log.Printf("the socket takes no connection: %v", err)
			time.Sleep(100 * time.Millisecond)
			continue
		}
		all.Add(1)
		go func() {
			defer all.Done()
			d.answer(ctx, conn)
		}()
	}
}

// answer answers one connection. Its first byte says what it is: the kind of a frame, or a letter of a command.
func (d *Server) answer(ctx context.Context, conn net.Conn) {
	defer conn.Close()
	ctx, stop := context.WithCancel(peer(conn).With(ctx))
	defer stop()
	context.AfterFunc(ctx, func() { conn.Close() })
	in := bufio.NewReaderSize(conn, 1<<16)
	first, err := in.Peek(1)
	if err != nil {
		return
	}
	if first[0] < ' ' {
		d.speakFrames(ctx, conn, in)
		return
	}
	d.obey(ctx, conn, in)
}

const longestCommand = 4096

// obey reads a command's line, and answers `ok` or `error SENTENCE`, and what there is to tell. Before the command may stand who gives it, as Call
// writes that.
func (d *Server) obey(ctx context.Context, conn net.Conn, in *bufio.Reader) {
	if conn.SetReadDeadline(time.Now().Add(d.gateway.Limits.Get().Handshake)) != nil {
		return
	}
	line, err := bufio.NewReader(io.LimitReader(in, longestCommand)).ReadString('\n')
	if err != nil {
		return
	}
	who, words := audit.Of(ctx).Signer(strings.Fields(line))
	if len(words) == 1 && words[0] == momentCommand {
		d.lend(ctx, who, conn, in)
		return
	}
	text, err := d.command(who.With(ctx), words)
	d.gateway.Log.Operator(who.Line(saidBy(words), err))
	if err != nil {
		fmt.Fprintf(conn, "error %s\n", err)
		return
	}
	fmt.Fprintf(conn, "ok\n%s", text)
}

// saidBy gives what an operator did by a command.
func saidBy(words []string) string {
	if len(words) > 2 && words[0] == changedCommand {
		words = words[2:]
	}
	return webhooks.ShownLine(strings.Join(words, " "))
}

func (d *Server) command(ctx context.Context, words []string) (string, error) {
	if len(words) == 0 {
		return "", errors.New("there is no command")
	}
	known := map[string]struct {
		words int
		do    func(ctx context.Context, words []string) (string, error)
	}{
		"status":       {0, d.status},
		"save":         {0, d.save},
		"tenants":      {0, d.tenants},
		"copy":         {2, d.copy},
		"remove":       {1, d.remove},
		"compact":      {1, d.compact},
		"move":         {2, d.move},
		"head":         {2, d.head},
		"webhook":      {2, d.webhook},
		"mirror":       {anyWords, d.mirror},
		"push-mirror":  {anyWords, d.mirror},
		changedCommand: {anyWords, d.changed},
	}
	it, found := known[words[0]]
	if !found || it.words != anyWords && len(words)-1 != it.words {
		return "", fmt.Errorf("there is no command %q with %d words", words[0], len(words)-1)
	}
	return it.do(ctx, words)
}

// changedCommand says that a list has changed; its other words say which one, and by what, in as many words as that has.
const (
	changedCommand = "changed"
	anyWords       = -1
)

// readWithin is how long a list may be unread that a command has changed, such as while the process has too many files open.
const readWithin = 2 * time.Second

// changed reads a list again that a command has changed; the other words say how. The answer comes once what the list says holds.
func (d *Server) changed(ctx context.Context, words []string) (string, error) {
	if len(words) < 2 {
		return "", errors.New("say which list has changed")
	}
	for until := time.Now().Add(readWithin); ; time.Sleep(readWithin / 10) {
		err := d.gateway.Read(words[1])
		if err == nil || time.Now().After(until) || ctx.Err() != nil {
			return "", err
		}
	}
}

func (d *Server) save(ctx context.Context, _ []string) (string, error) {
	return "", d.store.Save(ctx)
}

func (d *Server) copy(ctx context.Context, words []string) (string, error) {
	return "", d.ofKnown(words[1], func() error { return d.copyTenant(ctx, words[1], words[2]) })
}

func (d *Server) remove(ctx context.Context, words []string) (string, error) {
	if d.gateway.LFS != nil && tenants.ValidName(words[1]) && d.gateway.LFS.Has(words[1]) {
		return "", d.removeTenant(ctx, words[1])
	}
	return "", d.ofKnown(words[1], func() error { return d.removeTenant(ctx, words[1]) })
}

func (d *Server) compact(ctx context.Context, words []string) (string, error) {
	return "", d.ofKnown(words[1], func() error { return d.compactTenant(ctx, words[1]) })
}

func (d *Server) move(ctx context.Context, words []string) (string, error) {
	shard, err := strconv.Atoi(words[2])
	if err != nil {
		return "", fmt.Errorf("%q is no number of a shard", words[2])
	}
	return "", d.operate(ctx, words, words[1:2], func() error {
		defer d.gateway.Packs.Forget(words[1])
		return d.store.Move(ctx, words[1], shard)
	})
}

// countWithin is how long the children have to say what tenants have. Where one saves for longer, the operator is told so.
const countWithin = 5 * time.Minute

// head lets HEAD of a tenant name a branch that it has. A name without `refs/` is that of a branch.
func (d *Server) head(ctx context.Context, words []string) (string, error) {
	name, ref := words[1], words[2]
	if !strings.HasPrefix(ref, "refs/") {
		ref = plumbing.Branches + ref
	}
	return "", d.ofKnown(name, func() error {
		return d.operate(ctx, words, []string{name}, func() error { return d.setHead(ctx, name, ref) })
	})
}

// setHead does so.
func (d *Server) setHead(ctx context.Context, name, ref string) error {
	tenant, err := d.gateway.Pool.Tenant(name)
	if err != nil {
		return err
	}
	soon, stop := context.WithTimeout(ctx, openPatience)
	defer stop()
	return tenant.SetHead(soon, ref)
}

// ofKnown does something to a tenant that has something. Frames are answered as the program answers them, to which each tenant is an empty one at
// least; an operator may have mistyped the name.
func (d *Server) ofKnown(name string, do func() error) error {
	if tenants.ValidName(name) && !d.store.Has(name) {
		return fmt.Errorf("there is no tenant %s", name)
	}
	return do()
}

// copyTenant copies a tenant, as it is after its last push or checkpoint, to an empty one, to which no push is at work meanwhile.
func (d *Server) copyTenant(ctx context.Context, from, to string) error {
	return d.operate(ctx, []string{"copy", from, to}, []string{to, from}, d.alone(to, func() error {
		err := d.store.Copy(ctx, from, to)
		if err == nil && d.gateway.Owners != nil {
			err = d.gateway.Owners.Put(to, d.gateway.Owners.Of(from))
		}
		if err == nil && d.gateway.LFS != nil {
			err = d.gateway.LFS.Copy(from, to)
		}
		return err
	}))
}

func (d *Server) removeTenant(ctx context.Context, name string) error {
	return d.operate(ctx, []string{"remove", name}, []string{name}, d.alone(name, func() error {
		err := d.removeFiles(name, func() error { return d.store.Remove(ctx, name) })
		d.gateway.Views.Forget(name)
		d.gateway.Packs.Removed(name)
		if err == nil && d.gateway.Owners != nil {
			err = d.gateway.Owners.Forget(name)
		}
		return err
	}))
}

// removeFiles removes a tenant from the pool by `remove`, and its large files after it. Where it is not known whether it was removed, nobody gets its
// files until the next start knows, or until it is removed again.
func (d *Server) removeFiles(name string, remove func() error) error {
	if d.gateway.LFS == nil {
		return remove()
	}
	if err := d.gateway.LFS.Leave(name); err != nil {
		return err
	}
	err := remove()
	var refused *store.Refused
	switch {
	case err == nil:
		return d.gateway.LFS.Remove(name)
	case errors.As(err, &refused):
		if stays := d.gateway.LFS.Stay(name); stays != nil {
			d.gateway.Log.Printf("%v", stays)
		}
	}
	return err
}

func (d *Server) compactTenant(ctx context.Context, name string) error {
	return d.operate(ctx, []string{"compact", name}, []string{name}, d.alone(name, func() error {
		defer d.gateway.Packs.Forget(name)
		return d.store.Compact(ctx, name)
	}))
}

// alone gives a call that does something to a tenant while no push is at work.
func (d *Server) alone(name string, do func() error) func() error {
	return func() error {
		tenant, err := d.gateway.Pool.Tenant(name)
		if err != nil {
			return err
		}
		return tenant.Alone(do)
	}
}

// operate asks something of the store about these tenants, which the audit has before. A refusal is told in a sentence.
func (d *Server) operate(ctx context.Context, what, names []string, do func() error) error {
	for _, name := range names {
		if !tenants.ValidName(name) {
			return faults.Fault(32)
		}
	}
	if err := d.note(ctx, what, nil); err != nil {
		return fmt.Errorf("the audit cannot be written, so nothing is changed: %w", err)
	}
	err := do()
	var refused *store.Refused
	if errors.As(err, &refused) {
		err = faults.Fault(refused.Number)
	}
	if err != nil {
		if unwritten := d.note(ctx, what, err); unwritten != nil {
			d.gateway.Log.Printf("the audit cannot be written: %v", unwritten)
		}
	}
	return err
}

func (d *Server) note(ctx context.Context, what []string, failed error) error {
	if d.gateway.Folder == "" {
		return nil
	}
	return audit.Note(d.gateway.Folder, audit.Of(ctx), strings.Join(what, " "), failed)
}

// tenants has a line for each tenant, as the children tell it now.
func (d *Server) tenants(ctx context.Context, _ []string) (string, error) {
	var text strings.Builder
	soon, stop := context.WithTimeout(ctx, countWithin)
	defer stop()
	if err := d.store.RecountAll(soon); err != nil {
		return "", fmt.Errorf("what tenants have cannot be counted now: %w", err)
	}
	for _, it := range d.usages() {
		fmt.Fprintf(&text, "%s objects %d refs %d bytes %d own %d since %d quota %d", it.Name, it.Objects, it.Refs, it.Bytes, it.Own,
			it.Since, d.gateway.Limits.Quota(it.Name))
		if d.gateway.LFS != nil && d.gateway.LFS.Bytes(it.Name) > 0 {
			fmt.Fprintf(&text, " lfs %d", d.gateway.LFS.Bytes(it.Name))
		}
		if d.gateway.Owners != nil {
			fmt.Fprintf(&text, " owner %s", d.gateway.Owners.Of(it.Name))
		}
		if d.store.Count() > 1 {
			fmt.Fprintf(&text, " shard %d", d.store.ShardOf(it.Name))
		}
		text.WriteString("\n")
	}
	return text.String(), nil
}

// usages gives what each tenant has in the pool, which may be nothing beside its large files.
func (d *Server) usages() []store.Usage {
	all := d.store.Usages()
	if d.gateway.LFS == nil {
		return all
	}
	for _, name := range d.gateway.LFS.Names() {
		if !d.store.Has(name) {
			all = append(all, store.Usage{Name: name})
		}
	}
	sort.Slice(all, func(i, k int) bool { return all[i].Name < all[k].Name })
	return all
}

// status has a line for each number.
func (d *Server) status(context.Context, []string) (string, error) {
	states := d.store.States()
	state := together(states)
	var text strings.Builder
	line := func(name string, value any) { fmt.Fprintf(&text, "%-18s %v\n", name, value) }
	line("version", d.gateway.Version)
	line("answering", state.IsAnswering)
	line("child", childrenOf(states))
	memory, own := memoryOf(states...), child.MemoryOf(os.Getpid())
	line("child-bytes", memory.Anonymous)
	line("child-file-bytes", memory.File)
	line("server-bytes", own.Anonymous+own.File)
	line("connections", d.gateway.Limits.Connections())
	line("streams", state.Streams)
	line("steps", state.Steps)
	line("pushes", state.Pushes)
	line("given-up", state.GivenUp)
	line("journal-bytes", state.JournalBytes)
	if len(states) == 1 {
		line("journal-segments", fmt.Sprintf("%d to %d", state.FirstSegment, state.LastSegment))
	}
	line("journal-records", state.Records)
	line("journal-broken", state.JournalBroken)
	if log := state.Log; log != nil {
		line("log-answering", log.IsAnswering)
		line("log-appends", log.Appends)
		line("log-waiting", log.WaitingBytes)
	}
	if d.store.IsReplica() {
		d.tellReplica(line)
	}
	tellSaves(line, state)
	tellEnds(line, states)
	for _, err := range d.gateway.Unread() {
		line("list-unread", err)
	}
	d.tellPacks(line)
	d.tellHooks(line)
	d.tellMirrors(line)
	if len(states) > 1 {
		tellShards(&text, states)
	}
	return text.String(), nil
}

// tellSaves tells of saves, and of children that took the place of others.
func tellSaves(line func(name string, value any), state store.State) {
	line("saves", state.Saves)
	line("failed-saves", state.FailedSaves)
	line("last-save", when(state.LastSave))
	line("children-replaced", state.Recoveries)
}

// tellPacks tells of the packs for clones, if any are kept.
func (d *Server) tellPacks(line func(name string, value any)) {
	if s := d.gateway.Packs.State(); s.IsOn {
		line("packs", s.Packs)
		line("pack-bytes", s.Bytes)
		line("pack-hits", s.Hits)
		line("pack-near", s.Near)
		line("pack-misses", s.Misses)
		line("pack-sent-bytes", s.SentBytes)
		line("packs-made", s.Made)
		line("packs-failed", s.Failed)
	}
}

// tellReplica has the lines of a server that follows another one.
func (d *Server) tellReplica(line func(name string, value any)) {
	records, seconds := d.store.Behind()
	line("following", d.store.Follows() != nil)
	line("behind-records", records)
	line("behind-seconds", fmt.Sprintf("%.1f", seconds))
}

func when(t time.Time) string {
	if t.IsZero() {
		return "-"
	}
	return t.UTC().Format(time.RFC3339)
}

// Measure lets metrics tell how the store stands.
func (d *Server) Measure() {
	m := d.gateway.Metrics
	number := func(read func(store.State) int64) func() float64 {
		return func() float64 { return float64(read(together(d.store.States()))) }
	}
	m.Counter("gitpoold_steps_total", "Steps that the child was sent.", number(func(s store.State) int64 { return s.Steps }))
	m.Counter("gitpoold_pushes_total", "Streams that ended well.", number(func(s store.State) int64 { return s.Pushes }))
	m.Counter("gitpoold_streams_given_up_total", "Streams that were given up.", number(func(s store.State) int64 { return s.GivenUp }))
	m.Counter("gitpoold_saves_total", "Saves of the pool file.", number(func(s store.State) int64 { return s.Saves }))
	m.Counter("gitpoold_failed_saves_total", "Saves that failed.", number(func(s store.State) int64 { return s.FailedSaves }))
	m.Counter("gitpoold_children_replaced_total", "Children that ended although nobody told them to.",
		number(func(s store.State) int64 { return s.Recoveries }))
	m.Gauge("gitpoold_journal_bytes", "The size of the journal.", number(func(s store.State) int64 { return s.JournalBytes }))
	m.Gauge("gitpoold_journal_broken", "1 while the journal takes no pushes.", number(func(s store.State) int64 { return one(s.JournalBroken) }))
	if together(d.store.States()).Log != nil {
		d.measureLog()
	}
	if d.store.IsReplica() {
		d.measureReplica()
	}
	m.Gauge("gitpoold_answering", "1 while questions are answered, 0 while the child is replaced, or saves without a second one.",
		number(func(s store.State) int64 { return one(s.IsAnswering) }))
	m.Gauge("gitpoold_open_streams", "Streams that are open.", number(func(s store.State) int64 { return int64(s.Streams) }))
	m.Gauge("gitpoold_connections", "Connections that are open.", func() float64 { return float64(d.gateway.Limits.Connections()) })
	m.Gauge("gitpoold_child_resident_anonymous_bytes", "The memory of the children's own.",
		func() float64 { return float64(memoryOf(d.store.States()...).Anonymous) })
	m.Gauge("gitpoold_child_resident_file_bytes", "What is in memory of the files that the children map, which the kernel may drop and read again.",
		func() float64 { return float64(memoryOf(d.store.States()...).File) })
	m.Gauge("gitpoold_lists_unread", "Lists of the operator that cannot be read; what was read before holds.",
		func() float64 { return float64(len(d.gateway.Unread())) })
	m.Gauge("gitpoold_shards", "Shards.", func() float64 { return float64(d.store.Count()) })
	m.Gauge("gitpoold_server_resident_bytes", "The memory of the server.", func() float64 {
		own := child.MemoryOf(os.Getpid())
		return float64(own.Anonymous + own.File)
	})
}

// measureLog lets metrics tell how a journal in Redis stands.
func (d *Server) measureLog() {
	number := func(read func(journal.RedisCounts) float64) func() float64 {
		return func() float64 { return read(*together(d.store.States()).Log) }
	}
	m := d.gateway.Metrics
	m.Gauge("gitpoold_log_answering", "1 while the Redis of the journal takes records.",
		number(func(c journal.RedisCounts) float64 { return float64(one(c.IsAnswering)) }))
	m.Gauge("gitpoold_log_waiting_bytes", "Bytes of records that Redis has not yet been sent.",
		number(func(c journal.RedisCounts) float64 { return float64(c.WaitingBytes) }))
	m.Counter("gitpoold_log_appends_total", "Times that records were appended to the journal in Redis, some together.",
		number(func(c journal.RedisCounts) float64 { return float64(c.Appends) }))
	m.Counter("gitpoold_log_append_seconds_total", "Seconds that these appends took.",
		number(func(c journal.RedisCounts) float64 { return c.Seconds }))
	m.Counter("gitpoold_log_connections_total", "Connections to the Redis of the journal.",
		number(func(c journal.RedisCounts) float64 { return float64(c.Connections) }))
}

// measureReplica lets metrics tell how a server stands that follows another one.
func (d *Server) measureReplica() {
	m := d.gateway.Metrics
	m.Gauge("gitpoold_following", "1 while another server writes the logs, 0 once this one does.",
		func() float64 { return float64(one(d.store.Follows() != nil)) })
	m.Gauge("gitpoold_behind_records", "Records of the logs that were not carried out yet.", func() float64 {
		records, _ := d.store.Behind()
		return float64(records)
	})
	m.Gauge("gitpoold_behind_seconds", "Seconds since which there may be records that were not carried out.", func() float64 {
		_, seconds := d.store.Behind()
		return seconds
	})
}

func one(is bool) int64 {
	if is {
		return 1
	}
	return 0
}
