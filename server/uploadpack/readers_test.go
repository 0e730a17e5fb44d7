package uploadpack

import (
	"bufio"
	"bytes"
	"context"
	"fmt"
	"io"
	"sync"
	"testing"

	"gitpoold/pktline"
	"gitpoold/plumbing"
	"gitpoold/tenants"
)

// stopped is a client that takes nothing until it is let go.
type stopped struct{ waits, goOn chan struct{} }

func (s stopped) Write([]byte) (int, error) {
	s.waits <- struct{}{}
	<-s.goOn
	return 0, io.ErrClosedPipe
}

// TestReadersOfRefsThatStop has 40 clients that ask for 25,000 refs, a fifth of which are tags, and take none of them. Each holds its buffers, and all
// of them together the list.
func TestReadersOfRefsThatStop(t *testing.T) {
	c, commit, _ := nestedRepository(1)
	for at := 0; at < 5_000; at++ {
		c.hold(c.add(plumbing.Tag, fmt.Sprintf("object %v\ntype commit\ntag m%d\n\nm\n", commit, at)))
	}
	branches := make([]tenants.Ref, 20_000)
	for at := range branches {
		branches[at] = tenants.Ref{Name: fmt.Sprintf("refs/heads/b%05d", at), Target: commit}
	}
	c.refs, c.head = append(branches, c.refs...), "refs/heads/b00000"
	advertised(t, c)
	const readers = 20
	waits, goOn := make(chan struct{}), make(chan struct{})
	var all sync.WaitGroup
	before := heap()
	for at := 0; at < readers; at++ {
		out := pktline.NewWriter(stopped{waits, goOn})
		all.Add(2)
		go func() {
			defer all.Done()
			_ = Advertise(context.Background(), c, out, 0)
		}()
		go func() {
			defer all.Done()
			request := bytes.NewReader(lines("command=ls-refs\n", "|", "peel\n", "ref-prefix refs/heads/\n", "ref-prefix refs/tags/\n", ""))
			_ = Server{}.Serve(context.Background(), c, bufio.NewReader(request), pktline.NewWriter(stopped{waits, goOn}), 2, true)
		}()
	}
	for at := 0; at < 2*readers; at++ {
		<-waits
	}
	held := int64(heap() - before)
	close(goOn)
	all.Wait()
	if held > 2*readers*(256<<10) {
		t.Errorf("%d clients hold %d MB", 2*readers, held>>20)
	}
}

// TestListsOfRefsAreCounted asks for refs in each protocol, with room for the list and without.
func TestListsOfRefsAreCounted(t *testing.T) {
	c, commit, tags := nestedRepository(1)
	c.hold(tags[0])
	for _, isRefused := range []bool{false, true} {
		b := &bounded{most: 1000}
		if isRefused {
			b.most = endBytes - 1
		}
		var out bytes.Buffer
		err := Advertise(plumbing.Counted(context.Background(), b), c, pktline.NewWriter(&out), 0)
		if (err != nil) != isRefused || out.Len() == 0 != isRefused {
			t.Errorf("%v: %v, %q", b, err, out.Bytes())
		}
		b.held = 0
		s := Server{Memory: func() Memory { return b }}
		for _, request := range [][]byte{
			lines("command=ls-refs\n", "|", "peel\n", ""),
			lines("command=fetch\n", "|", fmt.Sprintf("want %v\n", commit), "include-tag\n", "done\n", ""),
		} {
			out.Reset()
			b.held, b.frees = 0, 0
			_ = s.Serve(context.Background(), c, bufio.NewReader(bytes.NewReader(request)), pktline.NewWriter(&out), 2, true)
			if bytes.Contains(out.Bytes(), []byte("too much is held")) != isRefused || b.frees == 0 || b.held == 0 {
				t.Errorf("%+v: %.200q", b, out.Bytes())
			}
		}
	}
}
