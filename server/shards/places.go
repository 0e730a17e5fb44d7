package shards

import (
	"encoding/binary"
	"errors"
	"fmt"
	"os"
	"path/filepath"
	"sync"

	"gitpoold/frames"
	"gitpoold/journal"
)

// The table of places stands in this file: a log that has, from its beginning on, where each tenant is. It is a journal like that of a
// shard, of which no pool file has anything, so it is read from its start. In Redis it has a key beside that of the first shard's log.

const (
	// placesName is the folder of the table's log in files, and placesMark the file of the place in its log in Redis.
	placesName = "places"
	placesMark = "places-log-place"
)

// place is where a tenant is. `number` is that of a record that is not synced yet. `step` is that of a move which is not at its end: Moving
// to the other shard, or Moved from it.
type place struct {
	shard  int
	number uint64
	step   frames.Kind
	other  int
}

// table is the table of places. Its methods may be called by many goroutines at once.
type table struct {
	journal journal.Journal
	count   int
	// writers is held by each who writes a record until the table has it too, and locked while the log is renewed or read.
	writers sync.RWMutex
	// isUnread tells that the log was away and could not be read since. Then the table is as it was before, and takes no records.
	isUnread bool
	// following is the journal where another server writes it, and `turn` is held by whoever takes its records; else it is nil.
	following *journal.Following
	turn      sync.Mutex
	followed  chan struct{}

	mutex   sync.Mutex
	places  map[string]place
	tenants []int
}

// createTable begins the log of a table, unless there is one.
func createTable(folder string, logs []journal.Options) error {
	if len(logs) == 0 {
		return os.MkdirAll(filepath.Join(folder, placesName), 0o700)
	}
	return journal.CreateRedis(tableOptions(folder, logs[0]), journal.Digest{})
}

// tableOptions are those of the table's log, by those of the first shard's.
func tableOptions(folder string, first journal.Options) journal.Options {
	first.Address = first.Address.Beside(placesName)
	first.Place = filepath.Join(folder, placesMark)
	return first
}

// openTable opens the table and reads it.
func (s *Set) openTable(count int) (*table, error) {
	t := &table{count: count}
	opened, err := s.openTableLog(t)
	if err != nil {
		return nil, fmt.Errorf("the table of places: %w", err)
	}
	t.journal = opened
	if err := t.read(); err != nil {
		opened.Close()
		return nil, fmt.Errorf("the table of places: %w", err)
	}
	return t, nil
}

func (s *Set) openTableLog(t *table) (journal.Journal, error) {
	config := s.config.Store
	if len(s.config.Logs) == 0 {
		folder := filepath.Join(config.Folder, placesName)
		if err := os.MkdirAll(folder, 0o700); err != nil {
			return nil, err
		}
		return journal.Open(folder, journal.Digest{}, config.Tell)
	}
	options := tableOptions(config.Folder, s.config.Logs[0])
	options.Tell, options.Lost = config.Tell, s.stop
	var once sync.Mutex
	options.Stale = func() {
		if once.TryLock() {
			go func() {
				defer once.Unlock()
				s.readAgain(t)
			}()
		}
	}
	if s.config.Follow == nil {
		return journal.OpenRedis(options, journal.Digest{})
	}
	var err error
	t.following, err = journal.Follow(options, journal.Digest{}, s.config.refusal())
	return t.following, err
}

// read reads the table from its log. On an error it is as it was. Who waits for a record that the log has lost is told so first: other records may
// get the same numbers.
func (t *table) read() error {
	t.writers.Lock()
	defer t.writers.Unlock()
	t.isUnread = true
	t.journal.Resume()
	again := &table{count: t.count, places: map[string]place{}, tenants: make([]int, t.count)}
	if err := t.journal.Records(journal.Digest{}, again.take); err != nil {
		return err
	}
	t.isUnread = false
	t.mutex.Lock()
	defer t.mutex.Unlock()
	t.places, t.tenants = again.places, again.tenants
	if t.following != nil {
		t.following.Arrive(t.following.Number())
	}
	return nil
}

// isReady tells whether the table has what its log has, and takes records.
func (t *table) isReady() bool {
	t.writers.RLock()
	defer t.writers.RUnlock()
	return !t.isUnread && !t.journal.IsBroken()
}

// isLeftUnread tells whether the log could not be read. It does not wait for a table that is being read.
func (t *table) isLeftUnread() bool {
	if !t.writers.TryRLock() {
		return false
	}
	defer t.writers.RUnlock()
	return t.isUnread
}

// append appends records to the log. The writers' lock is held.
func (t *table) append(steps ...frames.Step) (number uint64, err error) {
	if t.isUnread {
		return 0, journal.ErrAway
	}
	return t.journal.Append(steps...)
}

var errPlace = errors.New("a record of the table of places names a shard that there is not")

// take takes a record of the log. The mutex is held.
func (t *table) take(record journal.Record) error {
	step := record.Step
	numbers, err := t.numbersOf(step.Body)
	if err != nil {
		return err
	}
	it := t.places[step.Tenant]
	switch {
	case step.Kind == journal.Placed && len(numbers) == 1:
		it = place{shard: numbers[0]}
	case step.Kind == journal.Moving && len(numbers) == 1:
		it.step, it.other = journal.Moving, numbers[0]
	case step.Kind == journal.Moved && len(numbers) == 2:
		it = place{shard: numbers[0], step: journal.Moved, other: numbers[1]}
	case step.Kind == journal.Settled && len(numbers) == 0:
		it.step, it.other = 0, 0
	default:
		return errPlace
	}
	t.set(step.Tenant, it)
	return nil
}

// numbersOf reads the numbers of shards.
func (t *table) numbersOf(body []byte) (numbers []int, err error) {
	for ; len(body) >= 4; body = body[4:] {
		number := int(binary.BigEndian.Uint32(body))
		if number < 1 || number > t.count {
			return nil, errPlace
		}
		numbers = append(numbers, number)
	}
	if len(body) > 0 {
		err = errPlace
	}
	return numbers, err
}

// set sets the place of a tenant. The mutex is held.
func (t *table) set(tenant string, it place) {
	if before := t.places[tenant].shard; before > 0 {
		t.tenants[before-1]--
	}
	t.places[tenant] = it
	if it.shard > 0 {
		t.tenants[it.shard-1]++
	}
}

func bodyOf(numbers ...int) (body []byte) {
	for _, it := range numbers {
		body = binary.BigEndian.AppendUint32(body, uint32(it))
	}
	return body
}

// shardOf gives the number of a tenant's shard, 0 where it has none.
func (t *table) shardOf(tenant string) int {
	t.mutex.Lock()
	defer t.mutex.Unlock()
	return t.places[tenant].shard
}

func (t *table) placeOf(tenant string) place {
	t.mutex.Lock()
	defer t.mutex.Unlock()
	return t.places[tenant]
}

// pending gives the tenants of which a move is not at its end.
func (t *table) pending() (tenants []string) {
	t.mutex.Lock()
	defer t.mutex.Unlock()
	for tenant, it := range t.places {
		if it.step != 0 {
			tenants = append(tenants, tenant)
		}
	}
	return tenants
}

// place gives the shard of a tenant. One that has none gets that which `choose` names, by the numbers of tenants of all shards; the place is in
// the log and synced when place returns it.
func (t *table) place(tenant string, choose func(tenants []int) int) (int, error) {
	if it := t.placeOf(tenant); it.shard > 0 && it.number == 0 {
		return it.shard, nil
	}
	t.writers.RLock()
	defer t.writers.RUnlock()
	t.mutex.Lock()
	it := t.places[tenant]
	if it.shard == 0 {
		it.shard = choose(t.tenants)
		var err error
		if it.number, err = t.append(frames.Step{Kind: journal.Placed, Tenant: tenant, Body: bodyOf(it.shard)}); err != nil {
			t.mutex.Unlock()
			return 0, err
		}
		t.set(tenant, it)
	}
	t.mutex.Unlock()
	if it.number == 0 {
		return it.shard, nil
	}
	return it.shard, t.synced(tenant, it)
}

// synced waits until a new place is synced. On an error the tenant has no place.
func (t *table) synced(tenant string, it place) error {
	err := t.journal.Sync(it.number)
	t.mutex.Lock()
	defer t.mutex.Unlock()
	if t.places[tenant] != it {
		return err
	}
	if err == nil {
		it.number = 0
		t.set(tenant, it)
		return nil
	}
	t.tenants[it.shard-1]--
	delete(t.places, tenant)
	return err
}

// put puts a tenant that has nothing into a shard.
func (t *table) put(tenant string, shard int) error {
	return t.note(frames.Step{Kind: journal.Placed, Tenant: tenant, Body: bodyOf(shard)})
}

// putAll notes records of places, and changes the table once they are synced.
func (t *table) putAll(steps []frames.Step) error {
	const atOnce = 1000
	t.writers.RLock()
	defer t.writers.RUnlock()
	var last uint64
	for at := 0; at < len(steps); at += atOnce {
		end := at + atOnce
		end = min(end, len(steps))
		number, err := t.append(steps[at:end]...)
		if err != nil {
			return err
		}
		last = number
	}
	if err := t.journal.Sync(last); err != nil {
		return err
	}
	t.mutex.Lock()
	defer t.mutex.Unlock()
	for _, step := range steps {
		if err := t.take(journal.Record{Step: step}); err != nil {
			return err
		}
	}
	return nil
}

// note writes a record, and changes the table once that is synced. On an error the table is as it was.
func (t *table) note(step frames.Step) error {
	t.writers.RLock()
	defer t.writers.RUnlock()
	number, err := t.append(step)
	if err == nil {
		err = t.journal.Sync(number)
	}
	if err != nil {
		return err
	}
	t.mutex.Lock()
	defer t.mutex.Unlock()
	return t.take(journal.Record{Number: number, Step: step})
}

func (t *table) close() {
	if t.followed != nil {
		<-t.followed
	}
	t.journal.Close()
}
