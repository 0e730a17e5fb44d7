package store

import (
	"bytes"
	"context"
	"fmt"
	"sort"
	"sync"

	"gitpoold/child"
	"gitpoold/frames"
)

// What tenants have stands in this file. The child tells what their objects have, and how many refs there are. How long the names of refs are, it is
// asked for each tenant that has changed since.

// Size is what a tenant has at its last checkpoint: how many objects and refs; the bytes of the objects' contents, whoever else has them too, and of
// the refs; and those bytes that no other tenant has.
type Size struct{ Objects, Bytes, Own, Refs int64 }

// BesideRef is how many bytes count for each ref beside its name.
const BesideRef = 64

// refSize is how many refs a tenant had when the child was asked, and how many bytes count for them.
type refSize struct{ count, bytes int64 }

// with counts the bytes of refs too.
func (s Size) with(refs refSize) Size {
	return Size{s.Objects, s.Bytes + refs.bytes, s.Own + refs.bytes, s.Refs}
}

// had is what a tenant had when the child was last asked, if it told that, what streams have brought since, and the most that they may have.
type had struct {
	Size
	refs         refSize
	isTold       bool
	since, bound int64
}

// usage is what each tenant had.
type usage struct {
	mutex sync.Mutex
	of    map[string]had
	total int64
}

func (u *usage) get(tenant string) had {
	u.mutex.Lock()
	defer u.mutex.Unlock()
	return u.of[tenant]
}

// add notes what a stream has brought to a tenant, and the most that it may have brought.
func (u *usage) add(tenant string, brought, bound int64) {
	u.mutex.Lock()
	defer u.mutex.Unlock()
	it := u.of[tenant]
	it.since, it.bound = it.since+brought, sum(it.bound, bound)
	u.of[tenant] = it
	u.total += brought
}

// Bytes tells how many bytes a tenant has: the contents of its objects when the child was last asked, and what it was fed since.
func (u *usage) Bytes(tenant string) int64 {
	it := u.get(tenant)
	return it.Bytes + it.since
}

// AtMost tells how many bytes a tenant has at most.
func (u *usage) AtMost(tenant string) int64 {
	it := u.get(tenant)
	return sum(it.Bytes, it.bound)
}

// Has tells whether a tenant has something, when the child was last asked or since.
func (u *usage) Has(tenant string) bool {
	it := u.get(tenant)
	return it.isTold || it.since > 0
}

// Usage is what a tenant has: its size when the child was last asked, and the bytes that it was fed since.
type Usage struct {
	Name string
	Size
	Since int64
}

// Usages gives what each tenant has, in the order of their names.
func (u *usage) Usages() (all []Usage) {
	u.mutex.Lock()
	defer u.mutex.Unlock()
	for name, it := range u.of {
		all = append(all, Usage{name, it.Size, it.since})
	}
	sort.Slice(all, func(i, k int) bool { return all[i].Name < all[k].Name })
	return all
}

// Total is how many bytes all tenants have.
func (u *usage) Total() int64 {
	_, total := u.all()
	return total
}

// all tells how many tenants have something, and how many bytes they have.
func (u *usage) all() (tenants int, bytes int64) {
	u.mutex.Lock()
	defer u.mutex.Unlock()
	return len(u.of), u.total
}

// readFrom asks a child that nobody else uses what each tenant has.
func (u *usage) readFrom(process *child.Process) error {
	sizes, err := askSizes(process)
	if err != nil {
		return err
	}
	known, fed := u.knownRefs(sizes)
	if err = askRefs(process, sizes, known); err == nil {
		u.takeSizes(sizes, known, fed)
	}
	return err
}

// askSizes asks a child what each tenant has, beside the names of refs.
func askSizes(process *child.Process) (map[string]Size, error) {
	reply, err := request(process, frames.Step{Kind: frames.Sizes})
	if err != nil {
		return nil, err
	}
	sizes := map[string]Size{}
	for _, line := range bytes.Split(bytes.TrimSuffix(reply, []byte("\n")), []byte("\n")) {
		var name string
		var it Size
		if len(line) == 0 {
			continue
		}
		_, err := fmt.Sscanf(string(line), "%s objects %d bytes %d own %d refs %d", &name, &it.Objects, &it.Bytes, &it.Own, &it.Refs)
		if err != nil {
			return nil, fmt.Errorf("the child tells sizes in a line %q: %w", line, err)
		}
		sizes[name] = it
	}
	return sizes, nil
}

// knownRefs gives what is known of the refs of tenants that were fed nothing since they were asked for, and how much each was fed.
func (u *usage) knownRefs(sizes map[string]Size) (known map[string]refSize, fed map[string]int64) {
	known, fed = map[string]refSize{}, map[string]int64{}
	u.mutex.Lock()
	defer u.mutex.Unlock()
	for name, it := range sizes {
		before := u.of[name]
		if fed[name] = before.since; before.refs.count == it.Refs && before.since == 0 {
			known[name] = before.refs
		}
	}
	return known, fed
}

// What the child is asked together: so many tenants, with so many refs.
const (
	tenantsTogether = 64
	refsTogether    = 4096
)

// askRefs asks the child for the refs of all tenants of which they are not known.
func askRefs(process *child.Process, sizes map[string]Size, known map[string]refSize) error {
	var names []string
	refs := int64(0)
	for name, it := range sizes {
		if _, has := known[name]; has || it.Refs == 0 {
			continue
		}
		if names, refs = append(names, name), refs+it.Refs; len(names) < tenantsTogether && refs < refsTogether {
			continue
		}
		if err := askRefsOf(process, names, sizes, known); err != nil {
			return err
		}
		names, refs = nil, 0
	}
	return askRefsOf(process, names, sizes, known)
}

func askRefsOf(process *child.Process, names []string, sizes map[string]Size, known map[string]refSize) error {
	if len(names) == 0 {
		return nil
	}
	steps := make([]frames.Step, len(names))
	for at, name := range names {
		steps[at] = frames.Step{Kind: frames.Ask, Tenant: name, Body: []byte("refs")}
	}
	soon, stop := context.WithTimeout(context.Background(), saveWithin)
	defer stop()
	batch, err := process.Send(soon, child.Short, steps...)
	if err != nil {
		return err
	}
	answers, err := batch.Wait(soon)
	for at, answer := range answers {
		known[names[at]] = sizeOfRefs(sizes[names[at]].Refs, answer)
	}
	return err
}

// What a line of refs has beside the name of the ref, and the longest name that a ref may have.
const (
	besideName = 40 + len(" \n")
	longestRef = 1024
)

// sizeOfRefs gives what so many refs count for. Where the child had no memory to tell their names, these count as the longest ones.
func sizeOfRefs(count int64, told frames.Answer) refSize {
	if told.Status != frames.Ok {
		return refSize{-1, count * (longestRef + BesideRef)}
	}
	return refSize{count, int64(len(told.Reply)) + count*int64(BesideRef-besideName)}
}

// takeSizes takes what tenants have. A stream may have ended since the child was asked: then its tenant is asked for again.
func (u *usage) takeSizes(sizes map[string]Size, known map[string]refSize, fed map[string]int64) {
	u.mutex.Lock()
	defer u.mutex.Unlock()
	before := u.of
	u.of, u.total = map[string]had{}, 0
	for name, it := range sizes {
		now := had{Size: it.with(known[name]), isTold: true}
		if before[name].since == fed[name] {
			now.refs = known[name]
		}
		u.of[name] = now
		u.total += now.Bytes
	}
}

// unbounded is a bound that says nothing.
const unbounded = 1 << 62

// sum adds bounds.
func sum(a, b int64) int64 {
	if a >= unbounded-b {
		return unbounded
	}
	return a + b
}

// measured takes what a tenant has. Its own bytes are those that came beside the ones before, which a copy that stands aside has too.
func (u *usage) measured(tenant string, size Size, refs refSize) {
	u.mutex.Lock()
	defer u.mutex.Unlock()
	before := u.of[tenant]
	if size.Own += before.Own; size.Own > size.Bytes {
		size.Own = size.Bytes
	}
	u.total += size.Bytes - before.Bytes - before.since
	u.of[tenant] = had{Size: size, refs: refs, isTold: true}
}
