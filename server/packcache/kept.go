package packcache

import (
	"context"
	"crypto/sha1"
	"encoding/binary"
	"errors"
	"hash/crc32"
	"io"
	"os"

	"gitpoold/plumbing"
)

// kept is a pack in a file. What follows `blocks` is guarded by the mutex of the cache.
type kept struct {
	of    *incarnation
	path  string
	bytes int64
	key   key
	// roots are objects that reach all of the pack, which has `count` objects.
	roots []plumbing.Name
	count int
	// blocks has a CRC-32C of each block of the entries.
	blocks []uint32
	used   int
	plans  map[key]plan
}

// plan says how a pack answers a clone: with these objects beside it, or not at all.
type plan struct {
	fits   bool
	beside plumbing.Listing
}

// Bounds of what is remembered of a pack: plans, and objects in each.
const (
	mostPlans  = 8
	mostBeside = 1024
)

// plan gives what is known of how a pack answers a clone; the mutex of the cache is held.
func (k *kept) plan(of key) (it plan, isKnown bool) {
	if k.key == of {
		return plan{fits: true}, true
	}
	it, isKnown = k.plans[of]
	return it, isKnown
}

// remember keeps a plan; the mutex of the cache is held.
func (k *kept) remember(of key, it plan) {
	if it.beside.Len() > mostBeside {
		return
	}
	for other := range k.plans {
		if len(k.plans) >= mostPlans {
			delete(k.plans, other)
		}
	}
	k.plans[of] = it
}

// known gives the pack, newest first, of which it is known that it answers a clone.
func (c *Cache) known(tenant string, of key) *Pack {
	for _, it := range c.packsOf(tenant) {
		c.mutex.Lock()
		plan, isKnown := it.plan(of)
		c.mutex.Unlock()
		if isKnown && plan.fits {
			return c.open(it, plan)
		}
	}
	return nil
}

// packsOf gives the packs of a tenant, the newest first.
func (c *Cache) packsOf(tenant string) (packs []*kept) {
	c.mutex.Lock()
	defer c.mutex.Unlock()
	if it := c.of[tenant]; it != nil {
		packs = append(packs, it.packs...)
	}
	return packs
}

// mostTried is how many packs are tried for one clone, since each asks the tenant what its roots and the wants reach.
const mostTried = 2

// near gives a pack whose roots the wants of a clone reach, with what it lacks. The clone has no tags but those that it wants.
func (c *Cache) near(ctx context.Context, t Repository, clone Clone, of key) *Pack {
	packs := c.packsOf(t.Name())
	if len(packs) > mostTried {
		packs = packs[:mostTried]
	}
	for _, it := range packs {
		c.mutex.Lock()
		found, isKnown := it.plan(of)
		c.mutex.Unlock()
		if !isKnown {
			var err error
			if found, err = planOf(ctx, t, clone.Wants, it.roots); err != nil {
				return nil
			}
			c.mutex.Lock()
			it.remember(of, found)
			c.mutex.Unlock()
		}
		if found.fits {
			return c.open(it, found)
		}
	}
	return nil
}

// planOf finds how a pack of what some roots reach answers a clone. It fits where the wants reach each root: then they reach what the pack has, and
// besides exactly what they reach and the roots do not.
func planOf(ctx context.Context, t Repository, wants, roots []plumbing.Name) (plan, error) {
	isWanted := setOf(wants)
	var others []plumbing.Name
	for _, root := range roots {
		if !isWanted[root] {
			others = append(others, root)
		}
	}
	if len(others) > 0 {
		beyond, err := t.Missing(ctx, others, wants)
		if errors.Is(err, plumbing.ErrMissing) || err == nil && beyond.Len() > 0 {
			return plan{}, nil
		}
		if err != nil {
			return plan{}, err
		}
	}
	beside, err := t.Missing(ctx, wants, roots)
	return plan{true, beside}, err
}

// Pack is a pack for a clone, whose file is open: that of a kept pack, and what is missing there.
type Pack struct {
	cache  *Cache
	kept   *kept
	file   *os.File
	beside plumbing.Listing
}

// open opens the file of a pack. It is nil where the file is not as it was made.
func (c *Cache) open(it *kept, how plan) *Pack {
	file, err := os.Open(it.path)
	if err == nil {
		info, failed := file.Stat()
		if failed == nil && info.Size() == it.bytes {
			c.mutex.Lock()
			defer c.mutex.Unlock()
			c.uses++
			it.used = c.uses
			return &Pack{c, it, file, how.beside}
		}
		file.Close()
	}
	c.dropDamaged(it)
	return nil
}

// Close closes the file.
func (p *Pack) Close() { p.file.Close() }

// Kept is how many objects the kept pack has, and Beside what is missing there.
func (p *Pack) Kept() int                { return p.kept.count }
func (p *Pack) Beside() plumbing.Listing { return p.beside }

// A pack is far from a clone where what it lacks has so many bytes, and so large a part of its own. Then another one is made.
const (
	farBytes = 64 << 10
	farPart  = 4
)

func (p *Pack) isFar() bool {
	bytes := bytesOf(p.beside)
	return bytes > farBytes && bytes > p.kept.bytes/farPart
}

// Refusals of a pack that is being sent. The client gets no whole pack, and what it got has the objects of their names or none.
var (
	ErrDamaged = errors.New("the server's pack for clones was damaged, and is dropped; try again")
	ErrGone    = errors.New("this repository was removed while it was sent")
)

// blockBytes is how much of a file is read and compared at once.
const blockBytes = 128 << 10

// Entries calls `use` with the entries of the kept pack, a block at a time, each after it was compared with what git has made. Where a block is not
// the same, the pack is dropped, and the error is ErrDamaged; where the tenant is removed meanwhile, it is ErrGone.
func (p *Pack) Entries(ctx context.Context, use func(entries []byte) error) error {
	err := eachBlock(p.file, p.kept.bytes, func(at int, block []byte) error {
		switch {
		case p.kept.of.isRemoved.Load():
			return ErrGone
		case ctx.Err() != nil:
			return ctx.Err()
		case at >= len(p.kept.blocks) || sumOf(block) != p.kept.blocks[at]:
			return ErrDamaged
		}
		p.cache.counts.SentBytes.Add(int64(len(block)))
		return use(block)
	})
	if errors.Is(err, io.ErrUnexpectedEOF) || errors.Is(err, io.EOF) {
		err = ErrDamaged
	}
	if errors.Is(err, ErrDamaged) {
		p.cache.dropDamaged(p.kept)
	}
	return err
}

var castagnoli = crc32.MakeTable(crc32.Castagnoli)

func sumOf(block []byte) uint32 { return crc32.Checksum(block, castagnoli) }

// headBytes is the head of a pack: gitformat-pack(5).
const headBytes = 12

// eachBlock reads the entries of a pack of so many bytes.
func eachBlock(file *os.File, bytes int64, use func(at int, block []byte) error) error {
	entries := io.NewSectionReader(file, headBytes, bytes-headBytes-sha1.Size)
	buffer := make([]byte, blockBytes)
	for at, left := 0, entries.Size(); left > 0; at++ {
		block := buffer
		if left < blockBytes {
			block = buffer[:left]
		}
		if _, err := io.ReadFull(entries, block); err != nil {
			return err
		}
		if err := use(at, block); err != nil {
			return err
		}
		left -= int64(len(block))
	}
	return nil
}

// errNoPack says that git has printed something else than the pack that it was asked for.
var errNoPack = errors.New("git made no whole pack of these objects")

// examine reads a file through that has to be a pack of so many objects, and gives how large it is and the sums of its blocks.
func examine(file *os.File, count int) (bytes int64, blocks []uint32, err error) {
	info, err := file.Stat()
	if err != nil {
		return 0, nil, err
	}
	bytes = info.Size()
	if bytes < headBytes+sha1.Size {
		return 0, nil, errNoPack
	}
	head, trailer := make([]byte, headBytes), make([]byte, sha1.Size)
	if _, err := file.ReadAt(head, 0); err != nil {
		return 0, nil, err
	}
	if _, err := file.ReadAt(trailer, bytes-sha1.Size); err != nil {
		return 0, nil, err
	}
	digest := sha1.New()
	digest.Write(head)
	err = eachBlock(file, bytes, func(_ int, block []byte) error {
		digest.Write(block)
		blocks = append(blocks, sumOf(block))
		return nil
	})
	isPack := string(head[:8]) == "PACK\x00\x00\x00\x02" && binary.BigEndian.Uint32(head[8:]) == uint32(count)
	if err == nil && (!isPack || string(digest.Sum(nil)) != string(trailer)) {
		err = errNoPack
	}
	return bytes, blocks, err
}
