package receivepack

import (
	"bufio"
	"bytes"
	"compress/zlib"
	"context"
	"encoding/binary"
	"fmt"
	"reflect"
	"runtime"
	"sort"
	"strings"
	"testing"

	"gitpoold/objects"
	"gitpoold/pack"
	"gitpoold/pktline"
	"gitpoold/plumbing"
	"gitpoold/tenants"
	"gitpoold/uploadpack"
)

func readText(text string) (*request, error) {
	return readRequest(pktline.NewReader(bufio.NewReader(strings.NewReader(text)), mostLines))
}

func lines(texts ...string) (out string) {
	for _, text := range texts {
		if text == "" {
			out += "0000"
		} else {
			out += fmt.Sprintf("%04x%s", len(text)+4, text)
		}
	}
	return out
}

var (
	zeros = strings.Repeat("0", 40)
	ones  = strings.Repeat("1", 40)
)

func TestRequests(t *testing.T) {
	q, err := readText(lines("shallow "+ones, zeros+" "+ones+" refs/heads/a\x00report-status push-options object-format=sha1",
		ones+" "+zeros+" refs/heads/b c\n", "", "one", "two 2", "") + "PACK")
	if err != nil || len(q.changes) != 2 || q.changes[1].Ref != "refs/heads/b c" || !q.changes[1].New.IsZero() || !q.can["report-status"] ||
		!reflect.DeepEqual(q.options, []string{"one", "two 2"}) || !q.hasPack || q.refusal != nil {
		t.Fatalf("%+v, %v", q, err)
	}
	for text, want := range map[string]error{"": errHungUp, "0000": nil} {
		if q, err := readText(text); err != want || len(q.changes) != 0 {
			t.Errorf("%q: %v", text, err)
		}
	}
	for text, says := range map[string]string{
		lines(zeros + " " + ones + " refs/heads/a"):                    "cut off",
		lines(zeros+" "+ones+" refs/heads/a\x00push-options", "", "a"): "cut off",
		lines(zeros+" "+ones, ""):                                      "malformed",
		lines(zeros+" "+ones[1:]+" refs/heads/a", ""):                  "malformed",
		lines(zeros+" "+ones+" r\x00object-format=sha256", ""):         "sha1 alone",
		lines("push-cert\x00push-cert"):                                "signed pushes",
		"0001":                                                         "no pkt-line",
	} {
		q, err := readText(text)
		if err == nil {
			err = q.refusal
		}
		if err == nil || !strings.Contains(sentence(err), says) {
			t.Errorf("%q: %v", text, err)
		}
	}
}

// budget lets a push hold so many bytes of lines.
type budget struct{ left, most int64 }

func (b *budget) Hold(bytes int64) error {
	if b.left -= bytes; b.left < 0 {
		return uploadpack.Refused{Why: "the lines are too many"}
	}
	return nil
}

func (b *budget) Free() { b.left = b.most }

// answered gives what the client of a push reads, which ends where it came to.
func answered(s Server, text string) (report, rest string, err error) {
	in, out := bufio.NewReader(strings.NewReader(text)), &bytes.Buffer{}
	_, err = s.Serve(context.Background(), tenants.Tenant{}, in, pktline.NewWriter(out))
	left, _ := in.Peek(1)
	return out.String(), string(left), err
}

// TestARefusedPushIsReported has pushes whose lines are refused: the rest of them is read, and the report says why and comes whole.
func TestARefusedPushIsReported(t *testing.T) {
	change := zeros + " " + ones + " refs/heads/a"
	first := change + "\x00report-status push-options"
	long := strings.Repeat("x", 60_000)
	for says, text := range map[string]string{
		"the lines are too many": lines(first, change+long, change+long, "", "option", "") + "PACK",
		"malformed line":         lines(first, "hello", change+long, "", long, "") + "PACK",
		"more than 1024 options": lines(append(append([]string{first, ""}, strings.Split(strings.Repeat("o", 1025), "")...), "")...) + "PACK",
		"signed pushes":          lines(first, "push-cert\x00x", change+long, "", "") + "PACK",
	} {
		report, rest, err := answered(Server{Lines: &budget{100_000, 100_000}, EndsItself: true}, text)
		reader := pktline.NewReader(bufio.NewReader(strings.NewReader(report)), mostLines)
		head, bad := reader.Next()
		if err == nil || bad != nil || !strings.HasPrefix(string(head.Text), "unpack ") || !strings.Contains(string(head.Text), says) || rest != "" {
			t.Errorf("%s: %q %v, %q", says, report, err, rest)
		}
		if ng, _ := reader.Next(); string(ng.Text) != "ng refs/heads/a unpacker error" {
			t.Errorf("%s: %q", says, ng.Text)
		}
	}
	// A push without a pack leaves what stands after its lines.
	gone := ones + " " + zeros + " refs/heads/a\x00report-status"
	report, rest, err := answered(Server{EndsItself: true}, lines(gone, "hello", "")+"next")
	if err == nil || rest == "" || !strings.Contains(report, "malformed") {
		t.Error(report, rest, err)
	}
}

// TestALongNameSpoilsNoReport has refs that are nearly as long as a packet: the report has a line for each ref, and each of them fits.
func TestALongNameSpoilsNoReport(t *testing.T) {
	long := strings.Repeat("x", pktline.LongestData-85)
	names := []string{"refs/heads/a", "refs/heads/b", long, "refs/" + long[5:], "refs/" + long[5:], "refs/heads/c"}
	text := ""
	for _, it := range names {
		text += lines(ones + " " + zeros + " " + it)
	}
	q, err := readText(text + "0000")
	if err != nil || len(q.changes) != len(names) {
		t.Fatal(q, err)
	}
	for _, whole := range []error{nil, pktline.ErrTooMuch} {
		p := newPush(Server{}, tenants.Tenant{}, q)
		if err := p.examineRefs(context.Background()); err != nil {
			t.Fatal(err)
		}
		copy(p.bad, p.unfit)
		var text bytes.Buffer
		p.status(&text, whole)
		report := pktline.NewReader(bufio.NewReader(&text), mostLines)
		head, err := report.Next()
		if err != nil || !strings.HasPrefix(string(head.Text), "unpack ") {
			t.Fatal(head, err)
		}
		for _, it := range names {
			want := "ng " + it + " "
			if whole == nil && len(it) < 100 {
				want = "ok " + it
			}
			if packet, err := report.Next(); err != nil || !strings.HasPrefix(string(packet.Text), want) {
				t.Fatal(len(packet.Text), err)
			}
		}
		if last, err := report.Next(); err != nil || last.Kind != pktline.Flush {
			t.Fatal(last, err)
		}
	}
}

// TestLinesOfAPushAreBounded has lines of more bytes than one push may have: little of them is held.
func TestLinesOfAPushAreBounded(t *testing.T) {
	change := zeros + " " + ones + " refs/heads/" + strings.Repeat("x", 60_000)
	text := lines(change+"\x00report-status") + strings.Repeat(lines(change), 700) + "0000"
	before := held()
	q, err := readText(text)
	if err != nil || q.refusal != pktline.ErrTooMuch || !q.hasPack {
		t.Fatal(q, err)
	}
	if more := int64(held()) - int64(before); more > 40<<20 {
		t.Fatal(more)
	}
	runtime.KeepAlive(q)
}

func name(digit byte) (n plumbing.Name) {
	n[0] = digit
	return n
}

func TestCommitsAreSortedParentsFirst(t *testing.T) {
	heads := map[plumbing.Name]plumbing.Head{}
	for at, parents := range map[byte][]byte{1: nil, 2: {1}, 3: {1, 9}, 4: {3, 2}, 5: {4}, 6: {1}} {
		head := plumbing.Head{}
		for _, parent := range parents {
			head.Parents = append(head.Parents, name(parent))
		}
		heads[name(at)] = head
	}
	w := topology{heads: heads, state: map[plumbing.Name]int8{}}
	w.from(name(5))
	w.from(name(4))
	place := map[plumbing.Name]int{}
	for at, it := range w.order {
		place[it] = at + 1
	}
	if len(w.order) != 5 || place[name(6)] != 0 {
		t.Fatalf("%v", w.order)
	}
	for _, it := range w.order {
		for _, parent := range heads[it].Parents {
			if place[parent] > place[it] {
				t.Fatalf("%v comes before its parent", it)
			}
		}
	}
}

// noBase is a tenant without objects.
type noBase struct{}

func (noBase) Object(context.Context, plumbing.Name) (plumbing.Object, error) {
	return plumbing.Object{}, plumbing.ErrMissing
}

// packOfTags is a pack of so many tags, each with a message of so many bytes, which deflate to nearly nothing.
func packOfTags(count, bytesOfEach int) []byte {
	var to, entry bytes.Buffer
	w := pack.NewWriter(&to)
	_ = w.Begin(count)
	for at := 0; at < count; at++ {
		text := fmt.Sprintf("object %s\ntype commit\ntag v%d\n\n%s", ones, at, strings.Repeat("m", bytesOfEach))
		entry.Reset()
		entry.Write(binary.AppendUvarint([]byte{byte(plumbing.Tag)<<4 | byte(len(text)&15) | 0x80}, uint64(len(text)>>4)))
		deflater := zlib.NewWriter(&entry)
		_, _ = deflater.Write([]byte(text))
		_ = deflater.Close()
		_ = w.Entries(entry.Bytes())
	}
	_ = w.Finish()
	return to.Bytes()
}

// TestTagsAreNotHeldInMemory has a pack of a hundred kilobytes with tags of 96 MiB.
func TestTagsAreNotHeldInMemory(t *testing.T) {
	const count, each = 24, 4 << 20
	q, err := pack.NewQuarantine(t.TempDir(), noBase{}, pack.Usual)
	if err != nil {
		t.Fatal(err)
	}
	defer q.Close()
	if err := q.Read(context.Background(), bytes.NewReader(packOfTags(count, each))); err != nil {
		t.Fatal(err)
	}
	p := &push{own: q, tags: map[plumbing.Name]*objects.Tag{}}
	before := held()
	if err := p.examineTags(context.Background()); err != nil || len(p.tags) != count {
		t.Fatal(len(p.tags), err)
	}
	if more := int64(held()) - int64(before); more > each*4 {
		t.Fatalf("%d tags of %d bytes are held in %d bytes", count, each, more)
	}
	runtime.KeepAlive(p)
}

// held is how many bytes of memory are in use.
func held() uint64 {
	var memory runtime.MemStats
	runtime.GC()
	runtime.ReadMemStats(&memory)
	return memory.HeapAlloc
}

func tree(entries ...string) (contents []byte) {
	for _, entry := range entries {
		mode, path, _ := strings.Cut(entry[:len(entry)-1], " ")
		id := name(entry[len(entry)-1])
		contents = append(append(append(contents, mode+" "+path...), 0), id[:]...)
	}
	return contents
}

func TestPairs(t *testing.T) {
	before := tree("100644 a1", "40000 b2", "100644 b.c3", "100644 d4")
	after := tree("100644 a9", "100644 b2", "100644 b.c3", "40000 d4", "100644 e5")
	var got []string
	err := pair(sorted(before), sorted(after), func(old, new *plumbing.Entry) error {
		text := ""
		for _, it := range []*plumbing.Entry{old, new} {
			if it == nil {
				text += "- "
			} else {
				text += it.Mode + it.Path + string(it.Name[:1]) + " "
			}
		}
		got = append(got, text)
		return nil
	})
	want := []string{"100644a1 100644a9 ", "- 100644b2 ", "40000b2 - ", "100644d4 - ", "- 40000d4 ", "- 100644e5 "}
	if err != nil || !reflect.DeepEqual(got, want) {
		t.Fatalf("%q", got)
	}
}

// sorted puts entries into the order of trees.
func sorted(contents []byte) (out string) {
	var entries []plumbing.Entry
	for entry, rest, ok := plumbing.NextEntry(string(contents)); ok; entry, rest, ok = plumbing.NextEntry(rest) {
		entries = append(entries, entry)
	}
	sort.Slice(entries, func(i, j int) bool { return plumbing.CompareKeys(entries[i], entries[j]) < 0 })
	for _, entry := range entries {
		out += entry.Mode + " " + entry.Path + "\x00" + string(entry.Name[:])
	}
	return out
}

func FuzzRequest(f *testing.F) {
	f.Add([]byte(lines(zeros+" "+ones+" refs/heads/a\x00report-status push-options", "", "one", "")))
	f.Add([]byte(lines("shallow "+ones, ones+" "+zeros+" refs/heads/a\x00atomic", "")))
	f.Fuzz(func(t *testing.T, text []byte) {
		q, err := readRequest(pktline.NewReader(bufio.NewReader(bytes.NewReader(text)), 1<<20))
		if err == nil && len(q.changes) > mostChanges {
			t.Fatal("too many")
		}
		if err != nil && sentence(err) == "" {
			t.Fatal("no sentence")
		}
	})
}

func FuzzPair(f *testing.F) {
	f.Add(tree("100644 a1", "40000 b2"), tree("100644 b2"))
	f.Fuzz(func(t *testing.T, before, after []byte) {
		_ = pair(string(before), string(after), func(old, new *plumbing.Entry) error {
			if old == nil && new == nil {
				t.Fatal("a pair of nothing")
			}
			return nil
		})
	})
}

// TestWhoAsksForNothingIsToldNothing has a client that ends the session, and one that asks for no change.
func TestWhoAsksForNothingIsToldNothing(t *testing.T) {
	for text, want := range map[string]error{"": errHungUp, lines(""): nil} {
		if report, _, err := answered(Server{}, text); report != "" || err != want {
			t.Errorf("%q: %q %v", text, report, err)
		}
	}
}
