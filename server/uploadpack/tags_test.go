package uploadpack

import (
	"bufio"
	"bytes"
	"context"
	"encoding/binary"
	"fmt"
	"runtime"
	"strings"
	"testing"

	"gitpoold/pktline"
	"gitpoold/plumbing"
	"gitpoold/tenants"
)

// countingRepository counts the names that are asked for.
type countingRepository struct {
	*memoryRepository
	asked int
}

func (c *countingRepository) Objects(ctx context.Context, names []plumbing.Name, use func(plumbing.Object) error) error {
	c.asked += len(names)
	return c.memoryRepository.Objects(ctx, names, use)
}

// nestedRepository has a commit, a tag of it, a tag of that tag and so on. Nothing of it is remembered yet.
func nestedRepository(count int) (c *countingRepository, commit plumbing.Name, tags []plumbing.Name) {
	remembered = chainMemory{}
	m, commits := longRepository(1)
	target, kind := commits[0], "commit"
	for at := 1; at <= count; at++ {
		target = m.add(plumbing.Tag, fmt.Sprintf("object %v\ntype %s\ntag n%d\n\nm\n", target, kind, at))
		kind = "tag"
		tags = append(tags, target)
	}
	return &countingRepository{memoryRepository: m}, commits[0], tags
}

// hold lets a ref hold a tag.
func (c *countingRepository) hold(tag plumbing.Name) {
	c.refs = append(c.refs, tenants.Ref{Name: fmt.Sprintf("refs/tags/t%05d", len(c.refs)), Target: tag})
}

// heap is how much memory is in use.
func heap() uint64 {
	var now runtime.MemStats
	runtime.GC()
	runtime.ReadMemStats(&now)
	return now.HeapAlloc
}

// advertised is what stands before the first request, and the answer to ls-refs.
func advertised(t *testing.T, c *countingRepository) (first, second string) {
	t.Helper()
	var out, listed bytes.Buffer
	if err := Advertise(context.Background(), c, pktline.NewWriter(&out), 0); err != nil {
		t.Fatal(err)
	}
	request := bytes.NewReader(lines("command=ls-refs\n", "|", "peel\n", ""))
	if err := (Server{}).Serve(context.Background(), c, bufio.NewReader(request), pktline.NewWriter(&listed), 2, true); err != nil {
		t.Fatal(err)
	}
	return out.String(), listed.String()
}

// TestNestedTagsAreReadOnce has 2,000 tags, each of the one before and each held by a ref.
func TestNestedTagsAreReadOnce(t *testing.T) {
	c, commit, tags := nestedRepository(2000)
	for _, tag := range tags {
		c.hold(tag)
	}
	before := heap()
	var first, second string
	took := allocated(func() { first, second = advertised(t, c) })
	if c.asked != len(tags) {
		t.Errorf("%d names were asked for", c.asked)
	}
	if kept := int64(heap() - before); kept > 4<<20 || took > 32<<20 {
		t.Errorf("%d MB were taken and %d MB kept", took>>20, kept>>20)
	}
	for at, tag := range tags {
		ref := c.refs[at+1].Name
		if pair := lines(fmt.Sprintf("%v %s\n", tag, ref), fmt.Sprintf("%v %s^{}\n", commit, ref)); !strings.Contains(first, string(pair)) {
			t.Fatalf("the advert has not %q: %.600q", pair, first)
		}
		if line := lines(fmt.Sprintf("%v %s peeled:%v\n", tag, ref, commit)); !strings.Contains(second, string(line)) {
			t.Fatalf("ls-refs has not %q", line)
		}
	}
	if advertised(t, c); c.asked != len(tags) {
		t.Errorf("%d names were asked for in the end", c.asked)
	}
}

// TestChainsMeet has a long chain of which two refs hold the last tag and one between, and a ref of a commit and one of the tag of a tag of its own.
func TestChainsMeet(t *testing.T) {
	c, commit, tags := nestedRepository(500)
	apart := c.add(plumbing.Tag, fmt.Sprintf("object %v\ntype tag\ntag apart\n\nm\n", tags[300]))
	for _, name := range []plumbing.Name{tags[499], tags[200], apart, commit, tags[499]} {
		c.hold(name)
	}
	for round := 0; round < 2; round++ {
		_, answer := advertised(t, c)
		if got := strings.Count(answer, " peeled:"+commit.String()+"\n"); got != 4 {
			t.Errorf("%d tags have the right end: %s", got, answer)
		}
		if c.asked != len(tags)+1 || remembered.names != 4 {
			t.Errorf("%d names were asked for, and %d are remembered", c.asked, remembered.names)
		}
	}
}

// fetched gives how many tags a fetch of a name has, with include-tag.
func fetched(t *testing.T, c *countingRepository, want plumbing.Name) (tags int) {
	t.Helper()
	var out bytes.Buffer
	request := bytes.NewReader(lines(fmt.Sprintf("want %v include-tag ofs-delta\n", want), "", "done\n"))
	if err := (Server{}).Serve(context.Background(), c, bufio.NewReader(request), pktline.NewWriter(&out), 0, true); err != nil {
		t.Fatal(err)
	}
	_ = packIn(t, out.Bytes()).Each(plumbing.Tag, func(int) error { tags++; return nil })
	return tags
}

// TestTagsThatFollow fetches a commit and the tags that lead to it, where refs hold some of them. A chain is sent up to its end or not at all.
func TestTagsThatFollow(t *testing.T) {
	for _, it := range []struct {
		held []int // places in the chain of tags, from 1 on
		sent int
	}{
		{nil, 0}, {[]int{1}, 1}, {[]int{10}, 10}, {[]int{3, 10, 5, 10}, 10}, {[]int{mostNested}, mostNested}, {[]int{mostNested + 1}, 0},
		{[]int{mostNested + 1, 7}, 7}, {[]int{100, mostNested, 99}, mostNested}, {[]int{100, 1}, 1},
	} {
		c, commit, tags := nestedRepository(100)
		for _, place := range it.held {
			c.hold(tags[place-1])
		}
		for round := 0; round < 2; round++ {
			if got := fetched(t, c, commit); got != it.sent {
				t.Errorf("refs hold %v: round %d sends %d tags, and not %d", it.held, round, got, it.sent)
			}
		}
		if got := fetched(t, c, tags[99]); got != 100 {
			t.Errorf("a fetch of the last tag sends %d", got)
		}
	}
}

// TestFewNestedTagsFollow has more chains of the greatest length than may follow, and then a tag of the commit itself.
func TestFewNestedTagsFollow(t *testing.T) {
	c, commit, tags := nestedRepository(mostNested - 1)
	const chains = mostBetween / (mostNested - 1)
	for at := 0; at < chains+100; at++ {
		c.hold(c.add(plumbing.Tag, fmt.Sprintf("object %v\ntype tag\ntag m%d\n\nm\n", tags[mostNested-2], at)))
	}
	c.hold(c.add(plumbing.Tag, fmt.Sprintf("object %v\ntype commit\ntag last\n\nm\n", commit)))
	if got, want := fetched(t, c, commit), chains+len(tags)+1; got != want {
		t.Errorf("%d tags follow, and not %d", got, want)
	}
}

// TestWhatIsRememberedIsBounded has many refs whose tags lead to one long chain that no ref holds, and puts more names than are kept.
func TestWhatIsRememberedIsBounded(t *testing.T) {
	c, commit, tags := nestedRepository(1000)
	const refs = 2000
	for at := 0; at < refs; at++ {
		c.hold(c.add(plumbing.Tag, fmt.Sprintf("object %v\ntype tag\ntag m%d\n\nm\n", tags[999], at)))
	}
	before := heap()
	advertised(t, c)
	fetched(t, c, commit)
	if kept := int64(heap() - before); kept > 4<<20 || remembered.names != refs {
		t.Errorf("%d MB are kept, of %d names", kept>>20, remembered.names)
	}
	chain := Chain{Target: commit, Peeled: commit, Tags: 1}
	for at := uint32(0); at < 2*mostRemembered/1000; at++ {
		remembered.put(fmt.Sprintf("tenant%d", at), ofNames(1000, chain))
	}
	names := 0
	for _, ends := range remembered.tenants {
		names += len(ends.chains)
	}
	if kept := remembered.names; kept > mostRemembered || kept < mostRemembered-refs || kept != names {
		t.Errorf("%d names are remembered, and %d counted", names, kept)
	}
	remembered.put("large", ofNames(mostRemembered+1, chain))
	if remembered.tenants["large"] != nil || remembered.names == 0 {
		t.Errorf("%d names are remembered", remembered.names)
	}
	remembered = chainMemory{}
}

// ofNames has so many names that lead to the same.
func ofNames(count uint32, chain Chain) *tagEnds {
	ends := &tagEnds{map[plumbing.Name]Chain{}}
	for at := uint32(0); at < count; at++ {
		var name plumbing.Name
		binary.BigEndian.PutUint32(name[:], at)
		ends.chains[name] = chain
	}
	return ends
}

// TestTenantsRememberTagsApart has two tenants with the same tags. The second one's are read as the first one's were.
func TestTenantsRememberTagsApart(t *testing.T) {
	c, _, tags := nestedRepository(100)
	for _, tag := range tags {
		c.hold(tag)
	}
	advertised(t, c)
	first := c.asked
	c.name = "acme/other"
	if advertised(t, c); first != len(tags) || c.asked != 2*first {
		t.Errorf("%d names were asked for, and then %d", first, c.asked-first)
	}
	for _, name := range []string{"", "acme/other"} {
		c.name = name
		if advertised(t, c); c.asked != 2*first {
			t.Errorf("%q has forgotten its tags", name)
		}
	}
}
