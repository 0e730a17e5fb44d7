package uploadpack

import (
	"bufio"
	"bytes"
	"context"
	"fmt"
	"io"
	"strings"
	"testing"

	"gitpoold/pktline"
	"gitpoold/plumbing"
)

// readingRepository counts how often the contents of each object are read.
type readingRepository struct {
	*memoryRepository
	reads map[plumbing.Name]int
}

func (r *readingRepository) Objects(ctx context.Context, names []plumbing.Name, use func(plumbing.Object) error) error {
	for _, name := range names {
		r.reads[name]++
	}
	return r.memoryRepository.Objects(ctx, names, use)
}

// session gives the answer to a whole session.
func (r *readingRepository) session(version int, request []byte) string {
	var out bytes.Buffer
	r.reads = map[plumbing.Name]int{}
	_ = Server{}.Serve(context.Background(), r, bufio.NewReader(bytes.NewReader(request)), pktline.NewWriter(&out), version, false)
	return out.String()
}

// total is how many objects were read.
func (r *readingRepository) total() (sum int) {
	for _, count := range r.reads {
		sum += count
	}
	return sum
}

// TestWhatAClientHasIsNotRead has a client that tells a blob, a tree and the tag of a tag again and again, in one round and in many, and wants the
// blob too. The contents of a blob or a tree are never read for that, and those of a tag once.
func TestWhatAClientHasIsNotRead(t *testing.T) {
	m, commits := smallRepository()
	blob, tree := m.add(plumbing.Blob, strings.Repeat("large", 1000)), m.add(plumbing.Tree, "")
	outer := m.add(plumbing.Tag, fmt.Sprintf("object %v\ntype tag\ntag w\n\nm\n", m.refs[1].Target))
	r := &readingRepository{memoryRepository: m}
	var once, often, told []byte
	for at := 0; at < 200; at++ {
		for _, name := range []plumbing.Name{blob, tree, outer, commits[0]} {
			have := lines(fmt.Sprintf("have %v\n", name))
			told = append(told, have...)
			once = append(once, have...)
			often = append(append(often, have...), lines("")...)
		}
	}
	want := fmt.Sprintf("want %v multi_ack_detailed ofs-delta\n", commits[4])
	wanted := lines(want, fmt.Sprintf("want %v\n", blob), "")
	asked := lines("command=fetch\n", "|", fmt.Sprintf("want %v\n", commits[4]), fmt.Sprintf("want %v\n", blob))
	for what, it := range map[string]struct {
		version int
		request []byte
	}{
		"one round":           {0, bytes.Join([][]byte{wanted, once, lines("done\n")}, nil)},
		"many rounds":         {0, bytes.Join([][]byte{wanted, often, lines("done\n")}, nil)},
		"the second protocol": {2, bytes.Join([][]byte{asked, told, lines("")}, nil)},
	} {
		answer := r.session(it.version, it.request)
		for _, name := range []plumbing.Name{blob, tree, outer, commits[0]} {
			if !strings.Contains(answer, "ACK "+name.String()) {
				t.Errorf("%s: %v is not acknowledged: %.300q", what, name, answer)
			}
		}
		if !strings.Contains(answer, "PACK") || r.reads[blob]+r.reads[tree] != 0 || r.reads[outer] != 1 || r.reads[m.refs[1].Target] != 1 {
			t.Errorf("%s: the blob was read %d times, the tree %d, the tags %d and %d: %.100q", what, r.reads[blob], r.reads[tree], r.reads[outer],
				r.reads[m.refs[1].Target], answer)
		}
	}
}

// TestAChainOfTagsIsFollowedOnce has a client that tells each tag of a long chain, from the first to the last, in a round each and all at once.
func TestAChainOfTagsIsFollowedOnce(t *testing.T) {
	c, commit, tags := nestedRepository(300)
	r := &readingRepository{memoryRepository: c.memoryRepository}
	apart := r.add(plumbing.Commit, fmt.Sprintf("tree %v\nauthor A <a@b> 5 +0000\ncommitter A <a@b> 5 +0000\n\nm\n", r.add(plumbing.Tree, "")))
	var rounds, together []byte
	for _, tag := range tags {
		have := lines(fmt.Sprintf("have %v\n", tag))
		together = append(together, have...)
		rounds = append(append(rounds, have...), lines("")...)
	}
	want := fmt.Sprintf("want %v multi_ack_detailed\n", apart)
	for what, told := range map[string][]byte{"rounds": rounds, "together": append(together, lines("")...)} {
		request := append(lines(want, ""), told...)
		answer := r.session(0, request)
		// (beside the tags, the walk reads the two commits)
		if strings.Count(answer, " common\n") != len(tags) || r.total() > len(tags)+2 {
			t.Errorf("%s: %d names are common, and %d objects were read; the commit is %v", what, strings.Count(answer, " common\n"), r.total(), commit)
		}
	}
}

// TestHavesAreHeldAsNames has a client that tells 200,000 names in one request of protocol 2. Before the request ends, the server has the names and
// nothing else of their lines.
func TestHavesAreHeldAsNames(t *testing.T) {
	const count = 200_000
	m, _ := smallRepository()
	in, sent := io.Pipe()
	before := heap()
	told := make(chan int64, 1)
	go func() {
		_, _ = sent.Write(lines("command=fetch\n", "|", "wait-for-done\n"))
		for at := uint32(1); at <= count; at++ {
			_, _ = sent.Write(lines(fmt.Sprintf("have %040x\n", at)))
		}
		told <- int64(heap() - before)
		_, _ = sent.Write(lines(""))
		_ = sent.Close()
	}()
	var out bytes.Buffer
	if err := (Server{}).Serve(background, m, bufio.NewReader(in), pktline.NewWriter(&out), 2, true); err != nil {
		t.Fatal(err)
	}
	held := <-told / count
	if held > 40 || !strings.Contains(out.String(), "NAK") {
		t.Errorf("%d bytes are held for each name: %q", held, out.String())
	}
}
