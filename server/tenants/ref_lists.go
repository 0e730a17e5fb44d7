package tenants

import (
	"context"
	"strings"
	"sync"

	"gitpoold/plumbing"
)

// refLists are the lists of refs that tenants gave last. Requests share a list as long as the refs stay the same, so those that wait for slow clients
// hold one of them together.
type refLists struct {
	mutex sync.Mutex
	lists map[string]*refList
	bytes int64
}

// refList is a list of refs, which nobody changes: the text that the child gave, and the refs, whose names are parts of it.
type refList struct {
	text string
	refs []Ref
}

const (
	// mostListed is how many bytes of lists are kept. A list that is larger, or has gone, is held by each request for itself.
	mostListed = 32 << 20
	// refBytes is what a ref takes beside the text.
	refBytes = 40
)

func (l *refList) bytes() int64 { return int64(len(l.text) + refBytes*len(l.refs)) }

// share gives the list that has this text, and counts it in the memory of the context.
func (l *refLists) share(ctx context.Context, tenant string, text []byte) ([]Ref, error) {
	it, err := l.find(tenant, text)
	if err == nil {
		err = plumbing.Share(ctx, it, it.bytes())
	}
	if err != nil {
		return nil, err
	}
	return it.refs, nil
}

// find gives the list that is kept, or keeps a new one.
func (l *refLists) find(tenant string, text []byte) (*refList, error) {
	l.mutex.Lock()
	kept := l.lists[tenant]
	l.mutex.Unlock()
	if kept != nil && kept.text == string(text) {
		return kept, nil
	}
	it := &refList{text: string(text)}
	var err error
	if it.refs, err = readRefs(it.text); err != nil {
		return nil, err
	}
	return l.keep(tenant, it), nil
}

// keep keeps a list, unless another request kept the same one meanwhile, and gives the list that is to be used.
func (l *refLists) keep(tenant string, it *refList) *refList {
	l.mutex.Lock()
	defer l.mutex.Unlock()
	if kept := l.lists[tenant]; kept != nil && kept.text == it.text {
		return kept
	}
	l.drop(tenant)
	if it.bytes() > mostListed {
		return it
	}
	for other := range l.lists {
		if l.bytes+it.bytes() > mostListed {
			l.drop(other)
		}
	}
	if l.lists == nil {
		l.lists = map[string]*refList{}
	}
	l.lists[tenant] = it
	l.bytes += it.bytes()
	return it
}

// drop forgets the list of a tenant; the mutex is held.
func (l *refLists) drop(tenant string) {
	if it := l.lists[tenant]; it != nil {
		l.bytes -= it.bytes()
		delete(l.lists, tenant)
	}
}

func readRefs(text string) ([]Ref, error) {
	refs := make([]Ref, 0, strings.Count(text, "\n"))
	for text != "" {
		line, rest, _ := strings.Cut(text, "\n")
		digits, name, found := strings.Cut(line, " ")
		target, ok := plumbing.ParseName(digits)
		if !found || !ok {
			return nil, errAnswer
		}
		refs = append(refs, Ref{name, target})
		text = rest
	}
	return refs, nil
}
