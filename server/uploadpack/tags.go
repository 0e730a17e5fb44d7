package uploadpack

import (
	"context"
	"strings"
	"sync"

	"gitpoold/plumbing"
	"gitpoold/tenants"
)

// Chain is where a name leads: a tag to its target, and over so many tags, itself among them, to what the last one is of. What is no tag
// leads to itself, over none.
type Chain struct {
	Target, Peeled plumbing.Name
	Tags           int
}

// tagEnds are the chains of names that a tenant's refs under refs/tags/ held. Requests share them, and nobody changes them.
type tagEnds struct{ chains map[plumbing.Name]Chain }

// endBytes is what is counted for each of them.
const endBytes = 128

// chainsOf gives the annotated tags that parts of a tenant's refs hold, by their names. It may give others too.
func chainsOf(ctx context.Context, t Repository, refs []tenants.Ref, parts ...[]tenants.Ref) (map[plumbing.Name]Chain, error) {
	ends := remembered.of(t.Name())
	if unknown := ends.unknown(parts); len(unknown) > 0 {
		r := reading{known: ends.chains, read: map[plumbing.Name]Chain{}}
		if err := r.follow(ctx, t, unknown); err != nil {
			return nil, err
		}
		ends = r.held(refs)
		remembered.put(t.Name(), ends)
	}
	return ends.chains, plumbing.Share(ctx, ends, endBytes*int64(len(ends.chains)))
}

// unknown gives the targets under refs/tags/ that have no chain here, once each.
func (e *tagEnds) unknown(parts [][]tenants.Ref) (names []plumbing.Name) {
	isAsked := map[plumbing.Name]bool{}
	for _, refs := range parts {
		for _, ref := range refs {
			if _, is := e.chains[ref.Target]; is || !strings.HasPrefix(ref.Name, plumbing.Tags) || isAsked[ref.Target] {
				continue
			}
			isAsked[ref.Target] = true
			names = append(names, ref.Target)
		}
	}
	return names
}

// reading has the chains that were read for one request, beside those that were known before.
type reading struct {
	known, read map[plumbing.Name]Chain
}

func (r reading) get(name plumbing.Name) (Chain, bool) {
	chain, is := r.read[name]
	if !is {
		chain, is = r.known[name]
	}
	return chain, is
}

// follow follows names whose chains it has not, all of them a step at a time, and no object twice: chains may meet, and a tag on the way of one may
// begin another. What is found on the way is kept too.
func (r reading) follow(ctx context.Context, t Repository, names []plumbing.Name) error {
	targets := map[plumbing.Name]plumbing.Name{}
	for _, name := range names {
		targets[name] = name
	}
	for wave := names; len(wave) > 0; {
		tags, others, err := t.Tags(ctx, wave)
		if err != nil {
			return err
		}
		for _, name := range others {
			r.read[name] = Chain{Target: name, Peeled: name}
		}
		if wave, err = r.step(ctx, t, tags, targets); err != nil {
			return err
		}
	}
	for _, name := range names {
		r.findEnd(name, targets)
	}
	return nil
}

// step reads tags, and gives what these lead to and nothing else has led to before.
func (r reading) step(
	ctx context.Context, t Repository, tags []plumbing.Name, targets map[plumbing.Name]plumbing.Name,
) (after []plumbing.Name, err error) {
	err = t.Objects(ctx, tags, func(o plumbing.Object) error {
		target, is := tagged(o)
		if !is {
			r.read[o.Name] = Chain{Target: o.Name, Peeled: o.Name}
			return nil
		}
		targets[o.Name] = target
		_, isFound := r.get(target)
		if _, isAsked := targets[target]; !isAsked && !isFound {
			targets[target] = target
			after = append(after, target)
		}
		return nil
	})
	return after, err
}

// findEnd goes from a name to one whose chain is found, and then keeps the chains of all names on the way. So no way is gone twice.
func (r reading) findEnd(name plumbing.Name, targets map[plumbing.Name]plumbing.Name) {
	var way []plumbing.Name
	chain, isFound := r.get(name)
	for ; !isFound; chain, isFound = r.get(name) {
		way = append(way, name)
		name = targets[name]
	}
	for at := len(way) - 1; at >= 0; at-- {
		chain = Chain{Target: targets[way[at]], Peeled: chain.Peeled, Tags: chain.Tags + 1}
		r.read[way[at]] = chain
	}
}

// held gives the chains of what refs hold.
func (r reading) held(refs []tenants.Ref) *tagEnds {
	all := map[plumbing.Name]Chain{}
	for _, ref := range refs {
		if chain, is := r.get(ref.Target); is && strings.HasPrefix(ref.Name, plumbing.Tags) {
			all[ref.Target] = chain
		}
	}
	return &tagEnds{all}
}

// What is sent with what it leads to: chains of so many tags each, and of so many in all beside their first ones. A client asks for the others
// itself. A chain is sent up to its end or not at all, since git takes a tag that it was sent for whole.
const (
	mostNested  = 64
	mostBetween = 1 << 16
)

// tagsOf gives the tags of all chains of refs that are not too long, the first ones and those between, with what each leads to in the end.
func tagsOf(ctx context.Context, t Repository, refs []tenants.Ref) (map[plumbing.Name]plumbing.Name, error) {
	chains, err := chainsOf(ctx, t, refs, refs)
	if err != nil {
		return nil, err
	}
	tags := map[plumbing.Name]plumbing.Name{}
	var wave []plumbing.Name
	between := 0
	for _, ref := range refs {
		chain := chains[ref.Target]
		_, has := tags[ref.Target]
		if has || !strings.HasPrefix(ref.Name, plumbing.Tags) || chain.Tags == 0 || chain.Tags > mostNested || between+chain.Tags-1 > mostBetween {
			continue
		}
		between += chain.Tags - 1
		tags[ref.Target] = chain.Peeled
		wave = append(wave, ref.Target)
	}
	return tags, addBetween(ctx, t, wave, chains, tags)
}

// addBetween adds the tags that chains have after their first ones. Those that no ref holds are read, since they are not remembered.
func addBetween(ctx context.Context, t Repository, wave []plumbing.Name, chains map[plumbing.Name]Chain, tags map[plumbing.Name]plumbing.Name) error {
	r := reading{known: chains, read: map[plumbing.Name]Chain{}}
	for len(wave) > 0 {
		var after, unknown []plumbing.Name
		for _, name := range wave {
			chain, _ := r.get(name)
			if _, has := tags[chain.Target]; has || chain.Tags == 1 {
				continue
			}
			tags[chain.Target] = chain.Peeled
			after = append(after, chain.Target)
			if _, isFound := r.get(chain.Target); !isFound {
				unknown = append(unknown, chain.Target)
			}
		}
		if err := r.follow(ctx, t, unknown); err != nil {
			return err
		}
		wave = after
	}
	return nil
}

// chainMemory remembers where the tags of tenants lead, for each tenant by itself: no answer is there sooner because another tenant has the same tag.
// A name says for ever where it leads. Of a chain it has the beginning and the end alone, so that each name takes the same room.
type chainMemory struct {
	mutex   sync.Mutex
	tenants map[string]*tagEnds
	names   int
}

const mostRemembered = 1 << 18

var remembered chainMemory

// of gives what is remembered of a tenant.
func (m *chainMemory) of(tenant string) *tagEnds {
	m.mutex.Lock()
	defer m.mutex.Unlock()
	if ends := m.tenants[tenant]; ends != nil {
		return ends
	}
	return &tagEnds{}
}

// put remembers the chains of a tenant in the place of those before. Those of others go where they are too many together.
func (m *chainMemory) put(tenant string, ends *tagEnds) {
	m.mutex.Lock()
	defer m.mutex.Unlock()
	m.drop(tenant)
	if len(ends.chains) > mostRemembered {
		return
	}
	for other := range m.tenants {
		if m.names+len(ends.chains) > mostRemembered {
			m.drop(other)
		}
	}
	if m.tenants == nil {
		m.tenants = map[string]*tagEnds{}
	}
	m.tenants[tenant] = ends
	m.names += len(ends.chains)
}

// drop forgets the chains of a tenant; the mutex is held.
func (m *chainMemory) drop(tenant string) {
	if ends := m.tenants[tenant]; ends != nil {
		m.names -= len(ends.chains)
		delete(m.tenants, tenant)
	}
}
