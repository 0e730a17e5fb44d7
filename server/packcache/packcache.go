// Package packcache keeps packs of whole clones that the git on the machine has made small, beside the pool.
//
// A pack belongs to one tenant, and is for clones that want the same objects. It is made in the background after a clone for which there was none. A
// clone whose wants reach all that a pack was made for gets that pack and, behind it in the same pack, what is missing there. All others go the
// ordinary way.
//
// No clone gets what it would not get without a cache. The tenant was asked for its wants before it comes here. A pack has exactly what its roots
// reach: git makes it of objects whose names it computes itself, and their number is compared with what the tenant lists. It is sent where the wants
// reach all roots.
//
// A tenant that is removed and made anew has none of the packs of the one before. They are kept for an incarnation, which Removed ends before any push
// can make the tenant anew; and a pack that was begun for it is kept nowhere. (A tenant that has the roots has what they reach, so it would get the
// same objects anyway, but for two contents of one name.)
package packcache

import (
	"context"
	"crypto/sha256"
	"errors"
	"maps"
	"os"
	"path/filepath"
	"slices"
	"sort"
	"strconv"
	"sync"
	"sync/atomic"
	"time"

	"gitpoold/metrics"
	"gitpoold/plumbing"
	"gitpoold/tenants"
	"gitpoold/walk"
)

// Repository is what is asked of a tenant.
type Repository interface {
	walk.Source
	Name() string
	Refs(context.Context) (refs []tenants.Ref, head string, err error)
	Entries(ctx context.Context, objects plumbing.Listing, use func(entries []byte) error) error
}

// Config is what a cache is told.
type Config struct {
	// Folder is for the packs. It is made when one is made, and what is there before is removed.
	Folder string
	// Most is how many bytes the folder may take, those of a pack that is being made among them. At 0 there is no cache.
	Most func() int64
	// MayGrow is asked whether the disk has room.
	MayGrow func() error
	// IsOff tells of a tenant for which no packs are kept.
	IsOff func(tenant string) bool
	Tell  func(format string, values ...any)
	// Metrics counts packs that are made, and how long that takes.
	Metrics *metrics.Metrics
	// Clock tells the time; nil is the system's.
	Clock func() time.Time
}

// Cache has the packs of one server. Its methods may be called by many goroutines at once; those of nil do nothing.
type Cache struct {
	config Config
	wishes chan wish
	counts Counts

	mutex sync.Mutex
	of    map[string]*incarnation
	// bytes is how much room all packs take, and reserved what is kept for one that is being made.
	bytes, reserved int64
	made, uses      int
}

// Counts are what a cache has done.
type Counts struct {
	Hits, Near, Misses, SentBytes, Made, Failed atomic.Int64
}

// incarnation is a tenant from when it is known here until it is forgotten. All but isRemoved is guarded by the mutex of the cache.
type incarnation struct {
	isRemoved atomic.Bool
	isGone    bool
	packs     []*kept
	wished    map[key]bool
	// rest is until when no other pack is made, and stop ends one that is being made.
	rest time.Time
	stop func()
}

// key is a digest of what a clone wants.
type key [sha256.Size]byte

// Clone is what a clone asks for: all that Wants reach, and those of Tags that lead to some of that. Tags has what each leads to in the end.
type Clone struct {
	Wants []plumbing.Name
	Tags  map[plumbing.Name]plumbing.Name
}

// key is of the wants and of the tags that are not wanted, each in order. They are told apart by how many they are.
func (c Clone) key() (of key) {
	digest := sha256.New()
	for _, names := range [][]plumbing.Name{append([]plumbing.Name{}, c.Wants...), c.others()} {
		sort.Slice(names, func(i, k int) bool { return string(names[i][:]) < string(names[k][:]) })
		digest.Write([]byte(strconv.Itoa(len(names)) + " "))
		for _, name := range names {
			digest.Write(name[:])
		}
	}
	digest.Sum(of[:0])
	return of
}

// isOfRefs tells whether refs hold all wants: others are for who asks for them once.
func (c Clone) isOfRefs(ctx context.Context, t Repository) bool {
	refs, _, err := t.Refs(ctx)
	left := setOf(c.Wants)
	for _, ref := range refs {
		delete(left, ref.Target)
	}
	return err == nil && len(left) == 0
}

// others are the tags that are not wanted.
func (c Clone) others() (names []plumbing.Name) {
	isWanted := setOf(c.Wants)
	for tag := range c.Tags {
		if !isWanted[tag] {
			names = append(names, tag)
		}
	}
	return names
}

func setOf(names []plumbing.Name) map[plumbing.Name]bool {
	set := make(map[plumbing.Name]bool, len(names))
	for _, name := range names {
		set[name] = true
	}
	return set
}

// ErrDisk ends the making of a pack where the disk has no room for it.
var ErrDisk = errors.New("the disk has no more room than `disk-reserve` keeps for the journal")

// New gives a cache without a pack. What a server has left in the folder is removed.
func New(config Config) (*Cache, error) {
	folder, err := filepath.Abs(config.Folder)
	if err != nil {
		return nil, err
	}
	config.Folder = folder
	if config.Clock == nil {
		config.Clock = time.Now
	}
	c := &Cache{config: config, wishes: make(chan wish, mostWishes), of: map[string]*incarnation{}}
	c.measure()
	return c, os.RemoveAll(folder)
}

// isOn tells whether there may be packs of a tenant.
func (c *Cache) isOn(tenant string) bool {
	return c != nil && c.config.Most() > 0 && !c.config.IsOff(tenant)
}

// Find gives a pack for a clone, or nil where the clone is to go the ordinary way. The tenant has all wants. A pack is closed after use.
func (c *Cache) Find(ctx context.Context, t Repository, clone Clone) *Pack {
	if !c.isOn(t.Name()) {
		return nil
	}
	of := clone.key()
	found := c.known(t.Name(), of)
	if found == nil && len(clone.others()) == 0 {
		found = c.near(ctx, t, clone, of)
	}
	if (found == nil || found.isFar()) && clone.isOfRefs(ctx, t) {
		c.wish(t, clone, of, found)
	}
	c.count(found)
	return found
}

func (c *Cache) count(found *Pack) {
	switch {
	case found == nil:
		c.counts.Misses.Add(1)
	case found.beside.Len() == 0:
		c.counts.Hits.Add(1)
	default:
		c.counts.Near.Add(1)
	}
}

// Forget removes the packs of a tenant, and ends the making of one. No clone that begins later gets them; one that has begun goes on.
func (c *Cache) Forget(tenant string) { c.forget(tenant, false) }

// Removed does so for a tenant that is no more, and ends the clones too that are being sent a pack of it. Those whose pack was forgotten before go on:
// they get what was theirs when they began.
func (c *Cache) Removed(tenant string) { c.forget(tenant, true) }

func (c *Cache) forget(tenant string, isRemoved bool) {
	if c == nil {
		return
	}
	c.mutex.Lock()
	defer c.mutex.Unlock()
	it := c.of[tenant]
	if it == nil {
		return
	}
	it.isGone = true
	it.isRemoved.Store(isRemoved)
	delete(c.of, tenant)
	if it.stop != nil {
		it.stop()
	}
	for _, pack := range append([]*kept{}, it.packs...) {
		c.drop(pack)
	}
}

// drop removes a pack, and tells whether it was there; the mutex is held. Who sends it has it open still.
func (c *Cache) drop(pack *kept) (wasThere bool) {
	left := pack.of.packs[:0]
	for _, it := range pack.of.packs {
		if it != pack {
			left = append(left, it)
		}
	}
	if len(left) == len(pack.of.packs) {
		return false
	}
	pack.of.packs = left
	c.bytes -= pack.bytes
	_ = os.Remove(pack.path)
	return true
}

// dropDamaged drops a pack whose file is not what it was.
func (c *Cache) dropDamaged(pack *kept) {
	c.mutex.Lock()
	wasThere := c.drop(pack)
	c.mutex.Unlock()
	if wasThere {
		c.config.Tell("a pack for clones was damaged or removed: %s", pack.path)
	}
}

// makeRoom drops the packs that were used least lately, until there is room for so many bytes more. It tells whether there is; the mutex is held.
func (c *Cache) makeRoom(bytes int64) bool {
	for most := c.config.Most(); c.bytes+c.reserved+bytes > most; {
		oldest := c.oldest()
		if oldest == nil {
			return false
		}
		c.drop(oldest)
	}
	return true
}

// oldest is the pack that was used least lately, nil where there is none.
func (c *Cache) oldest() (oldest *kept) {
	for _, it := range c.of {
		for _, pack := range it.packs {
			if oldest == nil || pack.used < oldest.used {
				oldest = pack
			}
		}
	}
	return oldest
}

// sweepEvery is how often it is looked whether packs may stay.
const sweepEvery = time.Second

// sweep drops the packs of tenants that may have none any more, and those for which there is no room any more.
func (c *Cache) sweep() {
	for _, tenant := range c.tenants() {
		if !c.isOn(tenant) {
			c.Forget(tenant)
		}
	}
	c.mutex.Lock()
	defer c.mutex.Unlock()
	c.makeRoom(0)
	for tenant, it := range c.of {
		if len(it.packs)+len(it.wished) == 0 && c.config.Clock().After(it.rest) {
			delete(c.of, tenant)
		}
	}
}

func (c *Cache) tenants() []string {
	c.mutex.Lock()
	defer c.mutex.Unlock()
	return slices.Collect(maps.Keys(c.of))
}
