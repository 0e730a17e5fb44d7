// Package mirrors keeps tenants the same as repositories of other hosts: it pulls some by the git on the machine, and pushes others.
//
// Each mirror has a bare repository in the folder `mirrored`, which may be removed at any time. A run is made of processes of git, which have
// bounds of time, memory, room and words, and speak to the tenant through two ends of a socket, as any client does.
package mirrors

import (
	"context"
	"errors"
	"fmt"
	"os"
	"path/filepath"
	"sort"
	"strings"
	"sync"
	"time"

	"gitpoold/configfile"
	"gitpoold/gateway"
)

// userOf is whom the log and hooks name for what the mirror of a tenant pushes. No user has such a name, and each mirror has limits of its own by it.
func userOf(tenant string) string { return "(mirror:" + tenant + ")" }

// Keeper runs the mirrors of one server. Its methods may be called by many goroutines at once.
type Keeper struct {
	gateway *gateway.Gateway
	folder  string
	list    *configfile.Followed[[]Mirror]
	clock   func() time.Time
	// silence is how long git may print nothing.
	silence time.Duration
	wake    chan struct{}
	all     sync.WaitGroup

	// writing is held by who writes how mirrors stand, so the file has what came last. No push waits for that.
	writing sync.Mutex
	mutex   sync.Mutex
	states  map[string]State
	running map[string]*active
	// pushed are push mirrors whose tenant was pushed to since their last run began.
	pushed map[string]bool
}

// active is a run at work. Its mirror may have failed the last time.
type active struct {
	isFailing bool
	stop      func()
}

// silence is how long git may print nothing where nothing else is said. It prints how far it has come, and hosts send signs of life.
const silence = 5 * time.Minute

// Open reads the mirrors of a server's folder.
func Open(s *gateway.Gateway) (*Keeper, error) {
	// git works in another folder.
	folder, err := filepath.Abs(s.Folder)
	if err != nil {
		return nil, err
	}
	path := filepath.Join(folder, ListName)
	followed, err := configfile.Follow(func() ([]Mirror, error) { return read(path) }, s.Log.Printf, path)
	if err != nil {
		return nil, err
	}
	states, err := readStates(s.Folder)
	if err != nil {
		s.Log.Printf("how mirrors stand cannot be read, so all of them run now: %v", err)
	}
	k := &Keeper{gateway: s, folder: filepath.Join(folder, folderName), list: followed, clock: time.Now, silence: silence,
		wake: make(chan struct{}, 1), states: states, running: map[string]*active{}, pushed: map[string]bool{}}
	// A push may have come before the server ended that a mirror was not told of.
	for _, it := range followed.Last() {
		k.pushed[it.key()] = it.Kind == Push
	}
	s.Metrics.Gauge("gitpoold_mirrors", "Mirrors.", func() float64 { return float64(len(k.list.Last())) })
	s.Metrics.Gauge("gitpoold_mirrors_failing", "Mirrors whose last run did not go well.", func() float64 { return float64(len(k.Failing())) })
	s.Metrics.Gauge("gitpoold_mirrors_oldest_seconds", "The time since the last good run of the mirror that has had none for longest.", k.oldest)
	return k, nil
}

// Unread says why the list cannot be read, so that what was read before holds. It is nil where it can.
func (k *Keeper) Unread() error { return k.list.Unread() }

// Count is how many mirrors there are.
func (k *Keeper) Count() int { return len(k.list.Last()) }

// Refuses is gateway.Mirrored for who pushes to a tenant that is pulled from elsewhere, and nil for other tenants.
func (k *Keeper) Refuses(tenant string) error {
	for _, it := range k.list.Get() {
		if it.Kind == Pull && it.Tenant == tenant {
			return gateway.Mirrored{URL: it.URL}
		}
	}
	return nil
}

// Pushed lets the push mirrors of a tenant run. It waits for nothing.
func (k *Keeper) Pushed(tenant string) {
	k.mutex.Lock()
	defer k.mutex.Unlock()
	for _, it := range k.list.Last() {
		if it.Kind == Push && it.Tenant == tenant {
			k.pushed[it.key()] = true
			k.ring()
		}
	}
}

func (k *Keeper) ring() {
	select {
	case k.wake <- struct{}{}:
	default:
	}
}

// Failing tells of each mirror whose last run did not go well.
func (k *Keeper) Failing() (rows []string) {
	k.mutex.Lock()
	defer k.mutex.Unlock()
	for _, it := range k.list.Last() {
		if state := k.states[it.key()]; state.Failures > 0 {
			rows = append(rows, fmt.Sprintf("%s %s %s %s", it.Kind, it.Tenant, it.URL, state.words()))
		}
	}
	return rows
}

// oldest is how long ago the last good run was of the mirror that has had none for longest. One that never had one counts from its last run.
func (k *Keeper) oldest() (seconds float64) {
	k.mutex.Lock()
	defer k.mutex.Unlock()
	for _, it := range k.list.Last() {
		state := k.states[it.key()]
		if state.Good.IsZero() {
			state.Good = state.Ended
		}
		if age := k.clock().Sub(state.Good).Seconds(); !state.Good.IsZero() && age > seconds {
			seconds = age
		}
	}
	return seconds
}

// lookEvery is how often mirrors are looked at for those that are due.
const lookEvery = time.Second

// Keep runs mirrors that are due until the context ends, and waits for the end of what is at work then.
func (k *Keeper) Keep(ctx context.Context) {
	defer k.all.Wait()
	endOld(k.folder)
	ticker := time.NewTicker(lookEvery)
	defer ticker.Stop()
	for {
		k.sweep()
		if k.gateway.Elsewhere == nil || k.gateway.Elsewhere() == nil {
			k.begin(ctx)
		}
		select {
		case <-ctx.Done():
			return
		case <-ticker.C:
		case <-k.wake:
		}
	}
}

// droppedName begins the names of repositories that are on their way out.
const droppedName = "dropped-"

// sweep ends runs of mirrors that the list has no more, and removes their repositories. Nobody waits for that, so these get other names before.
func (k *Keeper) sweep() {
	known := map[string]bool{stateName: true}
	for _, it := range k.list.Get() {
		known[it.key()] = true
	}
	for _, name := range k.drop(known) {
		_ = os.RemoveAll(filepath.Join(k.folder, name))
	}
}

// drop ends runs of mirrors that are not known, and gives the names of what is to be removed.
func (k *Keeper) drop(known map[string]bool) (names []string) {
	k.mutex.Lock()
	defer k.mutex.Unlock()
	for key, it := range k.running {
		if !known[key] {
			it.stop()
			known[key] = true
		}
	}
	entries, _ := os.ReadDir(k.folder)
	for _, it := range entries {
		name := it.Name()
		if known[name] {
			continue
		}
		if !strings.HasPrefix(name, droppedName) {
			name = fmt.Sprintf("%s%d", droppedName, k.clock().UnixNano())
			if os.Rename(filepath.Join(k.folder, it.Name()), filepath.Join(k.folder, name)) != nil {
				continue
			}
		}
		names = append(names, name)
	}
	return names
}

// begin begins the runs of mirrors that are due, those first that have been for longest, as far as there is room.
func (k *Keeper) begin(ctx context.Context) {
	for _, it := range k.due() {
		running, isTaken := k.take(ctx, it)
		if !isTaken {
			continue
		}
		go func(m Mirror) {
			_, _ = k.carryOut(running, m, false)
			k.ring()
		}(it)
	}
}

// due gives the mirrors that are due.
func (k *Keeper) due() (all []Mirror) {
	list := k.list.Get()
	k.mutex.Lock()
	defer k.mutex.Unlock()
	now := k.clock()
	for _, it := range list {
		state := k.states[it.key()]
		// A line may have been changed to a shorter time.
		if next := state.Ended.Add(it.Every); state.Failures == 0 && next.Before(state.Next) {
			state.Next = next
		}
		if !now.Before(state.Next) || k.pushed[it.key()] && state.Failures == 0 {
			all = append(all, it)
		}
	}
	sort.SliceStable(all, func(i, j int) bool { return k.states[all[i].key()].Next.Before(k.states[all[j].key()].Next) })
	return all
}

// take takes room for a run, and gives its context. Mirrors that failed the last time take at most half of it, so they keep no others waiting.
func (k *Keeper) take(ctx context.Context, m Mirror) (running context.Context, isTaken bool) {
	k.mutex.Lock()
	defer k.mutex.Unlock()
	key, most, failing := m.key(), k.gateway.Limits.Get().MirrorsAtOnce, 0
	for _, it := range k.running {
		if it.isFailing {
			failing++
		}
	}
	it := &active{isFailing: k.states[key].Failures > 0}
	if k.running[key] != nil || len(k.running) >= most || it.isFailing && failing >= (most+1)/2 {
		return nil, false
	}
	running, it.stop = context.WithCancel(ctx)
	k.running[key] = it
	k.pushed[key] = false
	k.all.Add(1)
	return running, true
}

// carryOut runs a mirror that take has let in, and keeps how it stands then.
func (k *Keeper) carryOut(ctx context.Context, m Mirror, mayDelete bool) (outcome, error) {
	defer k.all.Done()
	began := k.clock()
	did, err := k.run(ctx, m, mayDelete)
	isCut := ctx.Err() != nil
	k.leave(m, did, err, isCut)
	if isCut {
		return did, errors.New("the server stops, or the mirror was taken back")
	}
	result := "ok"
	if err != nil {
		result = "failed"
		k.gateway.Log.Printf("the %s mirror of %s failed: %v", m.Kind, m.Tenant, err)
	} else if did.changed > 0 {
		k.gateway.Log.Printf("the %s mirror of %s changed %d refs of %d", m.Kind, m.Tenant, did.changed, did.refs)
	}
	k.gateway.Metrics.Add("gitpoold_mirror_runs_total", "Runs of mirrors, by how they went.", 1, "kind", m.Kind, "result", result)
	k.gateway.Metrics.Observe("gitpoold_mirror_seconds", "The time of runs of mirrors.", k.clock().Sub(began).Seconds())
	return did, err
}

// leave gives the room of a run back. One that the server's end has cut off counts as none.
func (k *Keeper) leave(m Mirror, did outcome, err error, isCut bool) {
	k.writing.Lock()
	defer k.writing.Unlock()
	if now := k.left(m, did, err, isCut); now != nil {
		if err := writeStates(k.gateway.Folder, now); err != nil {
			k.gateway.Log.Printf("how mirrors stand cannot be written: %v", err)
		}
	}
}

// left gives how mirrors stand after a run, or nil where that has not changed.
func (k *Keeper) left(m Mirror, did outcome, err error, isCut bool) map[string]State {
	k.mutex.Lock()
	defer k.mutex.Unlock()
	key := m.key()
	k.running[key].stop()
	delete(k.running, key)
	if isCut {
		return nil
	}
	k.states[key] = k.states[key].after(m, k.clock(), did, err)
	return k.known()
}

// known gives the states of mirrors that the list has, and forgets those of others.
func (k *Keeper) known() map[string]State {
	kept, copied := map[string]State{}, map[string]State{}
	for _, it := range k.list.Last() {
		if state, has := k.states[it.key()]; has {
			kept[it.key()], copied[it.key()] = state, state
		}
	}
	k.states = kept
	return copied
}

// Run runs the mirrors of a tenant of one kind now, and says what became of them. A mirror that is at work is waited for, and run after it.
func (k *Keeper) Run(ctx context.Context, kind, tenant string, mayDelete bool) (string, error) {
	if k.gateway.Elsewhere != nil {
		if err := k.gateway.Elsewhere(); err != nil {
			return "", err
		}
	}
	var said strings.Builder
	for _, it := range k.list.Get() {
		if it.Kind != kind || it.Tenant != tenant {
			continue
		}
		running, err := k.await(ctx, it)
		if err != nil {
			return said.String(), err
		}
		did, err := k.carryOut(running, it, mayDelete)
		if err != nil {
			return said.String(), err
		}
		fmt.Fprintf(&said, "%s %s: %d refs, %d changed\n", it.Tenant, it.URL, did.refs, did.changed)
	}
	if said.Len() == 0 {
		return "", fmt.Errorf("there is no %s mirror of %s", kind, tenant)
	}
	return said.String(), nil
}

// await waits for room for a run, and gives its context.
func (k *Keeper) await(ctx context.Context, m Mirror) (context.Context, error) {
	for {
		if running, isTaken := k.take(ctx, m); isTaken {
			return running, nil
		}
		select {
		case <-ctx.Done():
			return nil, ctx.Err()
		case <-time.After(lookEvery / 10):
		}
	}
}
