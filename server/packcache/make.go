package packcache

import (
	"context"
	"errors"
	"fmt"
	"io"
	"os"
	"path/filepath"
	"sync"
	"time"

	"gitpoold/gitrun"
	"gitpoold/pack"
	"gitpoold/plumbing"
	"gitpoold/walk"
)

// wish is a pack that is to be made, in the place of another one if `instead` is not nil.
type wish struct {
	of      *incarnation
	t       Repository
	clone   Clone
	key     key
	instead *kept
}

// least is the same clone with the tags alone that are not wanted, since it waits.
func (c Clone) least() Clone {
	tags := map[plumbing.Name]plumbing.Name{}
	for _, tag := range c.others() {
		tags[tag] = c.Tags[tag]
	}
	return Clone{c.Wants, tags}
}

// mostWishes is how many packs wait until they are made, one at a time. A later clone wishes again.
const mostWishes = 16

// wish asks for a pack for later clones, unless one is on its way or the tenant has to rest.
func (c *Cache) wish(t Repository, clone Clone, of key, found *Pack) {
	c.mutex.Lock()
	defer c.mutex.Unlock()
	it := c.of[t.Name()]
	if it == nil {
		it = &incarnation{wished: map[key]bool{}}
		c.of[t.Name()] = it
	}
	if it.wished[of] || c.config.Clock().Before(it.rest) {
		return
	}
	w := wish{of: it, t: t, clone: clone.least(), key: of}
	if found != nil {
		w.instead = found.kept
	}
	select {
	case c.wishes <- w:
		it.wished[of] = true
	default:
	}
}

// Keep makes packs that are wished for until the context ends, and drops those that may not stay. It returns when no git is at work any more.
func (c *Cache) Keep(ctx context.Context) {
	var all sync.WaitGroup
	all.Add(1)
	go func() {
		defer all.Done()
		for {
			select {
			case <-ctx.Done():
				return
			case it := <-c.wishes:
				c.carryOut(ctx, it)
			}
		}
	}()
	ticker := time.NewTicker(sweepEvery)
	defer ticker.Stop()
	for ctx.Err() == nil {
		select {
		case <-ctx.Done():
		case <-ticker.C:
			c.sweep()
		}
	}
	all.Wait()
}

const (
	// makeWithin is the time that one pack has.
	makeWithin = time.Hour
	// restFactor is how many times as long as its pack took a tenant rests before the next one, and leastRest how long after one that failed: who pushes
	// and clones again and again keeps a tenth of a core busy at most.
	restFactor = 9
	leastRest  = time.Minute
)

// carryOut makes a pack.
func (c *Cache) carryOut(ctx context.Context, w wish) {
	ctx, stop := context.WithTimeout(ctx, makeWithin)
	defer stop()
	began := c.config.Clock()
	if !c.begin(w, stop) {
		return
	}
	made, err := c.make(ctx, w)
	took := c.config.Clock().Sub(began)
	isKept := c.finish(w, made, err, took)
	if isKept {
		c.counts.Made.Add(1)
		c.config.Tell("a pack for clones of %s was made in %.1f s: %d objects, %d bytes", w.t.Name(), took.Seconds(), made.count, made.bytes)
	} else if err != nil && ctx.Err() != context.Canceled && !errors.Is(err, errSmall) {
		c.counts.Failed.Add(1)
		c.config.Tell("no pack for clones of %s was made: %v", w.t.Name(), err)
	}
	c.config.Metrics.Observe("gitpoold_pack_cache_make_seconds", "The time of making a pack for clones.", took.Seconds())
}

// begin lets a wish be carried out, unless it is void.
func (c *Cache) begin(w wish, stop func()) bool {
	c.mutex.Lock()
	defer c.mutex.Unlock()
	if w.of.isGone || c.config.Clock().Before(w.of.rest) {
		delete(w.of.wished, w.key)
		return false
	}
	w.of.stop = stop
	return true
}

// mostPacks is how many packs a tenant may have. Beyond that those go that were used least lately.
const mostPacks = 4

// finish keeps a pack that was made, unless the tenant was forgotten meanwhile, and tells whether it does.
func (c *Cache) finish(w wish, made *kept, failed error, took time.Duration) (isKept bool) {
	c.mutex.Lock()
	defer c.mutex.Unlock()
	c.reserved = 0
	delete(w.of.wished, w.key)
	w.of.stop = nil
	rest := restFactor * took
	if failed != nil && rest < leastRest {
		rest = leastRest
	}
	w.of.rest = c.config.Clock().Add(rest)
	if failed != nil {
		return false
	}
	if w.of.isGone || !c.makeRoom(made.bytes) {
		_ = os.Remove(made.path)
		return false
	}
	if w.instead != nil {
		c.drop(w.instead)
	}
	c.uses++
	made.used = c.uses
	c.bytes += made.bytes
	w.of.packs = append([]*kept{made}, w.of.packs...)
	c.thin(w.of)
	return true
}

// thin drops packs of a tenant that has too many; the mutex is held.
func (c *Cache) thin(it *incarnation) {
	for len(it.packs) > mostPacks {
		oldest := it.packs[0]
		for _, pack := range it.packs {
			if pack.used < oldest.used {
				oldest = pack
			}
		}
		c.drop(oldest)
	}
}

// Refusals of what is to be packed.
var (
	errSmall = errors.New("the clone is small as it is")
	errLarge = errors.New("the clone has more than half of the bytes that `pack-cache` allows")
)

// leastBytes is the size of a clone from which on it is packed.
const leastBytes = 64 << 10

// make lets git make a pack.
func (c *Cache) make(ctx context.Context, w wish) (*kept, error) {
	listing, err := walk.Select(ctx, w.t, walk.NewHistory(w.t), walk.Request{Wants: w.clone.Wants, Tags: w.clone.Tags, Filter: walk.All})
	if err != nil {
		return nil, err
	}
	if bytesOf(listing) < leastBytes {
		return nil, errSmall
	}
	it := making{cache: c, listing: listing, roots: w.clone.roots(listing), folder: filepath.Join(c.config.Folder, "making")}
	// Git has the objects as they are, their index, and the new pack at once.
	it.room = 2*bytesOf(listing) + 64*int64(listing.Len()) + 1<<20
	if !c.reserve(it.room) {
		return nil, errLarge
	}
	defer os.RemoveAll(it.folder)
	if err := it.take(ctx, w.t); err != nil {
		return nil, err
	}
	made, err := it.pack(ctx)
	if err != nil {
		return nil, err
	}
	made.of, made.key, made.plans = w.of, w.key, map[key]plan{}
	return made, nil
}

// reserve keeps room for a pack that is being made, which finish gives back.
func (c *Cache) reserve(bytes int64) bool {
	c.mutex.Lock()
	defer c.mutex.Unlock()
	if bytes > c.config.Most() || !c.makeRoom(bytes) {
		return false
	}
	c.reserved = bytes
	return true
}

// bytesOf is about how many bytes a pack of objects has that are as they are.
func bytesOf(listing plumbing.Listing) (bytes int64) {
	for at := 0; at < listing.Len(); at++ {
		bytes += int64(listing.Size(at)) + 32
	}
	return bytes
}

// roots are the wants, and the tags that were listed with them.
func (c Clone) roots(listing plumbing.Listing) []plumbing.Name {
	roots, isRoot := append([]plumbing.Name{}, c.Wants...), setOf(c.Wants)
	for at := 0; at < listing.Len(); at++ {
		name := listing.Name(at)
		if _, isTag := c.Tags[name]; isTag && listing.Kind(at) == plumbing.Tag && !isRoot[name] {
			roots = append(roots, name)
		}
	}
	return roots
}

// making is a pack on its way, in a bare repository of its own.
type making struct {
	cache   *Cache
	listing plumbing.Listing
	roots   []plumbing.Name
	folder  string
	room    int64
}

// settings bound what git takes. A blob of more than 16 MiB is kept as it is, and read in parts.
const settings = `[core]
	repositoryformatversion = 0
	bare = true
	packedGitWindowSize = 16m
	packedGitLimit = 128m
	bigFileThreshold = 16m
[pack]
	threads = 1
	windowMemory = 64m
	deltaCacheSize = 32m
`

// processBytes is how much memory each process of git may have.
const processBytes = 1 << 30

// git runs git in the repository.
func (m *making) git(ctx context.Context, feed func(context.Context, io.Writer) error, out io.Writer, words ...string) error {
	return gitrun.Command{Words: words, Environment: gitrun.Environment(m.folder), Folder: m.folder, Memory: processBytes, FileBytes: m.room,
		Every: time.Second, Judge: m.cache.config.MayGrow, Feed: feed, Out: out}.Run(ctx)
}

// take lets git have the objects.
func (m *making) take(ctx context.Context, t Repository) error {
	if err := os.RemoveAll(m.folder); err != nil {
		return err
	}
	for _, name := range []string{"objects/pack", "refs"} {
		if err := os.MkdirAll(filepath.Join(m.folder, name), 0o700); err != nil {
			return err
		}
	}
	for name, text := range map[string]string{"HEAD": "ref: refs/heads/main\n", "config": settings} {
		if err := os.WriteFile(filepath.Join(m.folder, name), []byte(text), 0o600); err != nil {
			return err
		}
	}
	return m.git(ctx, func(ctx context.Context, to io.Writer) error {
		w := pack.NewWriter(to)
		if err := w.Begin(m.listing.Len()); err != nil {
			return err
		}
		if err := t.Entries(ctx, m.listing, w.Entries); err != nil {
			return err
		}
		return w.Finish()
	}, io.Discard, "index-pack", "--stdin", "--threads=1")
}

// pack lets git make a pack of what the roots reach, and examines it. The file gets its name once it is whole.
func (m *making) pack(ctx context.Context) (*kept, error) {
	file, err := os.OpenFile(filepath.Join(m.folder, "next"), os.O_RDWR|os.O_CREATE|os.O_EXCL, 0o600)
	if err != nil {
		return nil, err
	}
	defer file.Close()
	err = m.git(ctx, func(_ context.Context, to io.Writer) error {
		for _, root := range m.roots {
			if _, err := fmt.Fprintln(to, root); err != nil {
				return err
			}
		}
		return nil
	}, &bounded{file, m.room}, "pack-objects", "--revs", "--no-reuse-object", "--delta-base-offset", "--stdout", "-q")
	if err != nil {
		return nil, err
	}
	made := &kept{roots: m.roots, count: m.listing.Len()}
	if made.bytes, made.blocks, err = examine(file, made.count); err != nil {
		return nil, err
	}
	made.path = m.cache.nextPath()
	return made, os.Rename(file.Name(), made.path)
}

// nextPath names the next pack.
func (c *Cache) nextPath() string {
	c.mutex.Lock()
	defer c.mutex.Unlock()
	c.made++
	return filepath.Join(c.config.Folder, fmt.Sprintf("%d.pack", c.made))
}

// bounded writes up to a bound.
type bounded struct {
	to   io.Writer
	left int64
}

func (b *bounded) Write(data []byte) (int, error) {
	if b.left -= int64(len(data)); b.left < 0 {
		return 0, errNoPack
	}
	return b.to.Write(data)
}
