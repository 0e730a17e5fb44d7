// Package shards keeps the tenants of a server in several pools, each with a child, a pool file and a journal of its own: a shard.
//
// Each tenant is in one shard. Which one, a table says, which is a log beside those of the shards (places.go). A tenant that the table
// does not have goes to the shard with the fewest bytes at its first push. A tenant can be moved while the server runs (move.go).
//
// With one shard there is no table, and all is as with that store.
package shards

import (
	"context"
	"errors"
	"fmt"
	"os"
	"path/filepath"
	"sort"
	"sync"
	"sync/atomic"

	"gitpoold/child"
	"gitpoold/frames"
	"gitpoold/idempotency"
	"gitpoold/journal"
	"gitpoold/store"
)

// Config says where shards are and who keeps them.
type Config struct {
	// Store is the configuration of the first shard. Its folder is the server's; its Copy is the path of the first pool file's copy.
	Store store.Config
	// Logs are the logs of the shards in Redis, in the order of their numbers; none where the journals are in files.
	Logs []journal.Options
	// Follow says that another server writes the logs, which this one follows; nil where this one takes them over at its start.
	Follow *Follow
}

// Folder gives the folder of a shard, whose number counts from 1. The first one is the server's folder itself.
func Folder(folder string, number int) string {
	if number == 1 {
		return folder
	}
	return filepath.Join(folder, fmt.Sprintf("shard-%d", number))
}

// Count tells how many shards a server's folder has.
func Count(folder string) int {
	count := 1
	for {
		if _, err := os.Stat(Folder(folder, count+1)); err != nil {
			return count
		}
		count++
	}
}

// Create makes shards until a folder has so many, and their logs in Redis where there are such. It changes nothing that is there.
func Create(folder, program string, count int, logs []journal.Options) error {
	if err := isWhole(folder); err != nil && !errors.Is(err, os.ErrNotExist) {
		return err
	}
	if has := Count(folder); count < has {
		return fmt.Errorf("the folder has %d shards, and none can be taken away", has)
	}
	for number := 1; number <= count; number++ {
		place := Folder(folder, number)
		if err := store.Create(place, program); err != nil {
			return err
		}
		if len(logs) == 0 {
			continue
		}
		if err := store.CreateLog(place, logs[number-1]); err != nil {
			return err
		}
	}
	if count == 1 {
		return nil
	}
	return createTable(folder, logs)
}

// Set is all shards of a server. Its methods may be called by many goroutines at once.
type Set struct {
	config Config
	stores []*store.Store
	table  *table
	// operator is held by what the operator asks for that changes tenants.
	operator chan struct{}

	mutex sync.Mutex
	// moving has the tenants on their way, and beginning how many streams of a tenant are being opened.
	moving    map[string]chan struct{}
	beginning map[string]int
	// settling has the tenants of which a move is being settled apart.
	settling map[string]bool
	stopping chan struct{}
	once     sync.Once
	// isFollowing is true until this server writes the logs.
	isFollowing atomic.Bool
	stopped     sync.Once
}

// ErrLogs says that a server was given another number of logs than it has shards.
var ErrLogs = errors.New("give `--log` once for each shard, in the order in which they were made")

// Open takes all shards of a folder up, and brings moves to their ends that a crash cut off.
func Open(config Config) (*Set, error) {
	if err := isWhole(config.Store.Folder); err != nil {
		return nil, err
	}
	count := Count(config.Store.Folder)
	if len(config.Logs) > 0 && len(config.Logs) != count {
		return nil, fmt.Errorf("the folder has %d shards, and there are %d logs: %w", count, len(config.Logs), ErrLogs)
	}
	config.Store.Turn = make(chan struct{}, 1)
	s := &Set{config: config, operator: make(chan struct{}, 1), moving: map[string]chan struct{}{}, beginning: map[string]int{}, settling: map[string]bool{},
		stopping: make(chan struct{})}
	s.isFollowing.Store(config.Follow != nil)
	err := s.open(count)
	if err != nil {
		for _, it := range s.stores {
			it.Abort()
		}
		if s.table != nil {
			s.table.close()
		}
		return nil, err
	}
	return s, nil
}

func (s *Set) open(count int) error {
	for number := 1; number <= count; number++ {
		opened, err := store.Open(s.storeConfig(number))
		if err != nil {
			return named(number, count, err)
		}
		s.mutex.Lock()
		s.stores = append(s.stores, opened)
		s.mutex.Unlock()
		if number == 1 && count > 1 {
			// The lock of the folder is this server's now.
			if s.table, err = s.openTable(count); err != nil {
				return err
			}
		}
	}
	if s.config.Follow != nil {
		s.follow()
		return nil
	}
	if count > 1 {
		if err := s.agree(); err != nil {
			return err
		}
	}
	s.bringCopies()
	return nil
}

// bringCopies brings the copies of the pool files to what these are, once it is known that they go together. The server starts also where
// that fails.
func (s *Set) bringCopies() {
	for _, it := range s.stores {
		if err := it.BringCopy(context.Background()); err != nil {
			s.config.Store.Tell("the pool file is not copied: %v", err)
		}
	}
}

// named says of which shard an error is, where there are several.
func named(number, count int, err error) error {
	if count == 1 {
		return err
	}
	return fmt.Errorf("shard %d: %w", number, err)
}

func (s *Set) storeConfig(number int) store.Config {
	config := s.config.Store
	config.Folder, config.Stop, config.Follows = Folder(config.Folder, number), s.stop, s.config.refusal()
	if len(s.config.Logs) > 0 {
		config.Log = &s.config.Logs[number-1]
	}
	if number == 1 {
		return config
	}
	if config.Copy != "" {
		config.Copy = fmt.Sprintf("%s-%d", config.Copy, number)
	}
	tell := config.Tell
	config.Tell = func(format string, values ...any) { tell("shard %d: "+format, append([]any{number}, values...)...) }
	return config
}

// stop ends the server at once. Where a log lost records, each shard has what it had in a file then.
func (s *Set) stop(why error) {
	s.stopped.Do(func() {
		var bad *journal.BadLog
		if !errors.As(why, &bad) || bad.IsLoss() {
			s.mutex.Lock()
			opened := append([]*store.Store(nil), s.stores...)
			s.mutex.Unlock()
			var all sync.WaitGroup
			for _, it := range opened {
				all.Add(1)
				go func(it *store.Store) {
					defer all.Done()
					it.Rescue()
				}(it)
			}
			all.Wait()
		}
		s.config.Store.Stop(why)
	})
}

// Count is how many shards there are.
func (s *Set) Count() int { return len(s.stores) }

// shardOf gives the number of a tenant's shard. One that was never pushed to has nothing in any shard, so the first one answers for it.
func (s *Set) shardOf(tenant string) int {
	if s.table == nil {
		return 1
	}
	if number := s.table.shardOf(tenant); number > 0 {
		return number
	}
	return 1
}

func (s *Set) storeOf(tenant string) *store.Store { return s.stores[s.shardOf(tenant)-1] }

// Ask sends questions to the children of the shards that their tenants are in. It waits while a child is replaced, as long as the context
// lasts.
func (s *Set) Ask(ctx context.Context, class child.Class, steps ...frames.Step) (store.Answers, error) {
	if len(s.stores) == 1 {
		return s.stores[0].Ask(ctx, class, steps...)
	}
	if err := s.freshTable(ctx); err != nil {
		return nil, err
	}
	if tenant, isOne := oneTenant(steps); isOne {
		return s.askOf(ctx, tenant, class, steps)
	}
	return s.askApart(ctx, class, steps)
}

// oneTenant tells whether all questions are of one tenant.
func oneTenant(steps []frames.Step) (tenant string, isOne bool) {
	for at, step := range steps {
		if step.Kind == frames.Sizes || at > 0 && step.Tenant != steps[0].Tenant {
			return "", false
		}
	}
	return steps[0].Tenant, true
}

// askOf asks questions of one tenant. What was sent to a shard that the tenant had left by then is asked again where it is now; what was
// sent before is answered before the tenant is removed there.
func (s *Set) askOf(ctx context.Context, tenant string, class child.Class, steps []frames.Step) (store.Answers, error) {
	for {
		number := s.shardOf(tenant)
		answers, err := s.stores[number-1].Ask(ctx, class, steps...)
		if err == nil {
			// What was read of the shard's log may be newer than what was read of the table.
			err = s.freshTable(ctx)
		}
		if err != nil || s.shardOf(tenant) == number {
			return answers, err
		}
	}
}

// apart are answers that come from several places.
type apart []store.Answers

// Wait gives all answers in their order.
func (a apart) Wait(ctx context.Context) (all []frames.Answer, err error) {
	for _, it := range a {
		answers, err := it.Wait(ctx)
		if err != nil {
			return nil, err
		}
		all = append(all, answers...)
	}
	return all, nil
}

// askApart asks questions of several tenants: questions in a row that are of one tenant go together.
func (s *Set) askApart(ctx context.Context, class child.Class, steps []frames.Step) (store.Answers, error) {
	var all apart
	for len(steps) > 0 {
		count := 1
		for count < len(steps) && steps[0].Kind != frames.Sizes && steps[count].Kind != frames.Sizes && steps[count].Tenant == steps[0].Tenant {
			count++
		}
		var answers store.Answers
		var err error
		if steps[0].Kind == frames.Sizes {
			answers, err = s.askSizes(ctx, class)
		} else {
			answers, err = s.askOf(ctx, steps[0].Tenant, class, steps[:count])
		}
		if err != nil {
			return nil, err
		}
		all, steps = append(all, answers), steps[count:]
	}
	return all, nil
}

// sizes are the answers of all shards to Sizes.
type sizes struct {
	set *Set
	of  []store.Answers
}

func (s *Set) askSizes(ctx context.Context, class child.Class) (store.Answers, error) {
	it := sizes{set: s}
	for _, from := range s.stores {
		answers, err := from.Ask(ctx, class, frames.Step{Kind: frames.Sizes})
		if err != nil {
			return nil, err
		}
		it.of = append(it.of, answers)
	}
	return it, nil
}

// Wait gives one answer with the lines of all shards, in the order of the tenants' names.
func (z sizes) Wait(ctx context.Context) ([]frames.Answer, error) {
	var all []line
	for at, it := range z.of {
		answers, err := it.Wait(ctx)
		if err != nil || answers[0].Status != frames.Ok {
			return answers, err
		}
		for _, found := range linesOf(answers[0].Reply) {
			if z.set.shardOf(found.tenant) == at+1 {
				all = append(all, found)
			}
		}
	}
	sort.Slice(all, func(i, k int) bool { return all[i].tenant < all[k].tenant })
	var reply []byte
	for _, it := range all {
		reply = append(reply, it.text...)
	}
	return []frames.Answer{{Reply: reply}}, nil
}

// Begin opens a stream of a tenant in its shard. One that has no shard gets the one with the fewest bytes. It waits while the tenant is moved.
func (s *Set) Begin(ctx context.Context, tenant string, form store.Form) (*store.Stream, error) {
	if err := s.refusal(); err != nil {
		return nil, err
	}
	if s.table == nil {
		return s.stores[0].Begin(ctx, tenant, form)
	}
	if err := s.enter(ctx, tenant); err != nil {
		return nil, err
	}
	defer s.leave(tenant)
	number, err := s.table.place(tenant, s.emptiest)
	if err != nil {
		return nil, err
	}
	return s.stores[number-1].Begin(ctx, tenant, form)
}

// enter waits until a tenant is not on its way, and keeps it where it is until leave. It is Refused under 31 where the context's time is over
// before.
func (s *Set) enter(ctx context.Context, tenant string) error {
	for {
		s.mutex.Lock()
		arrived := s.moving[tenant]
		if arrived == nil {
			s.beginning[tenant]++
		}
		s.mutex.Unlock()
		if arrived == nil {
			return nil
		}
		select {
		case <-arrived:
		case <-s.stopping:
			return store.ErrClosed
		case <-ctx.Done():
			return store.Late(ctx.Err())
		}
	}
}

func (s *Set) leave(tenant string) {
	s.mutex.Lock()
	defer s.mutex.Unlock()
	if s.beginning[tenant]--; s.beginning[tenant] == 0 {
		delete(s.beginning, tenant)
	}
}

// emptiest gives the shard with the fewest bytes; of several, the one to which the fewest tenants belong.
func (s *Set) emptiest(tenants []int) int {
	best, fewest := 0, int64(0)
	for at, it := range s.stores {
		bytes := it.Total()
		if at == 0 || bytes < fewest || bytes == fewest && tenants[at] < tenants[best] {
			best, fewest = at, bytes
		}
	}
	return best + 1
}

// Bytes tells how many bytes a tenant has.
func (s *Set) Bytes(tenant string) int64 { return s.storeOf(tenant).Bytes(tenant) }

// AtMost tells how many bytes a tenant has at most.
func (s *Set) AtMost(tenant string) int64 { return s.storeOf(tenant).AtMost(tenant) }

// Recount asks the tenant's child what it has, unless nothing of it has changed.
func (s *Set) Recount(ctx context.Context, tenant string) error {
	return s.storeOf(tenant).Recount(ctx, tenant)
}

// Kept gives what a tenant's stream with a token was answered, if it ended well and that is kept.
func (s *Set) Kept(tenant, token string) (idempotency.Answer, bool) {
	return s.storeOf(tenant).Kept(tenant, token)
}

// RecountAll asks all children what tenants have, for Usages and Bytes.
func (s *Set) RecountAll(ctx context.Context) error {
	s.freshAll()
	return s.each(func(it *store.Store) error { return it.RecountAll(ctx) })
}

// Has tells whether a tenant has something, when the children were last asked or since.
func (s *Set) Has(tenant string) bool { return s.storeOf(tenant).Has(tenant) }

// Usages gives what each tenant has, in the order of their names.
func (s *Set) Usages() (all []store.Usage) {
	s.freshAll()
	if len(s.stores) == 1 {
		return s.stores[0].Usages()
	}
	for at, it := range s.stores {
		for _, found := range it.Usages() {
			if s.shardOf(found.Name) == at+1 {
				all = append(all, found)
			}
		}
	}
	sort.Slice(all, func(i, k int) bool { return all[i].Name < all[k].Name })
	return all
}

// ShardOf gives the number of the shard in which a tenant is; 1 for one that was never pushed to.
func (s *Set) ShardOf(tenant string) int { return s.shardOf(tenant) }

// States tells how each shard stands. Where the table of places takes no records, or has not what its log has, the first one's journal is told to be
// broken.
func (s *Set) States() (all []store.State) {
	for _, it := range s.stores {
		all = append(all, it.State())
	}
	if s.table != nil && (s.table.journal.IsBroken() || s.table.isLeftUnread()) {
		all[0].JournalBroken = true
	}
	return all
}

// WantSave asks Keep for a save of all shards.
func (s *Set) WantSave() {
	for _, it := range s.stores {
		it.WantSave()
	}
}

// Save saves all shards, one after another. Where one is not saved, the others are all the same; the first error is given.
func (s *Set) Save(ctx context.Context) error {
	if s.isFollowing.Load() {
		return ErrSave
	}
	return s.each(func(it *store.Store) error { return it.Save(ctx) })
}

// each does something with each shard, and gives the first error.
func (s *Set) each(do func(*store.Store) error) (first error) {
	for at, it := range s.stores {
		if err := do(it); err != nil && first == nil {
			first = named(at+1, len(s.stores), err)
		}
	}
	return first
}

// Keep saves shards when it is time, and replaces children that do not answer, until the context ends.
func (s *Set) Keep(ctx context.Context, rhythm func() store.Rhythm) {
	var all sync.WaitGroup
	for _, it := range s.stores {
		all.Add(1)
		go func(it *store.Store) {
			defer all.Done()
			it.Keep(ctx, rhythm)
		}(it)
	}
	if s.table != nil {
		s.keepTable(ctx)
	}
	all.Wait()
}

// Close saves all shards, lets no step in any more, and ends the children. A move that is at work is brought to its end by the next start.
func (s *Set) Close(ctx context.Context) error {
	s.once.Do(func() { close(s.stopping) })
	first := s.each(func(it *store.Store) error { return it.Close(ctx) })
	if s.table != nil {
		s.table.close()
	}
	return first
}
