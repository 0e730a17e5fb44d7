package fastimport

import (
	"bytes"
	"context"
	"errors"
	"fmt"
	"math/rand"
	"strings"
	"testing"

	"gitpoold/fsck"
	"gitpoold/pack"
	"gitpoold/plumbing"
)

var all = Part{Bytes: 1 << 20, Heavy: 1 << 20}

// harmful is the contents of a .gitmodules that git refuses.
const harmful = "[submodule \"../x\"]\n\turl = x\n"

// repository is what was there before the streams of the tests.
type repository map[plumbing.Name]plumbing.Object

func (r repository) look(_ context.Context, name plumbing.Name) (plumbing.Object, error) {
	if object, has := r[name]; has {
		return object, nil
	}
	return plumbing.Object{}, plumbing.ErrMissing
}

func (r repository) add(kind plumbing.Kind, contents string) string {
	name := pack.NameOf(kind, []byte(contents))
	r[name] = plumbing.Object{Name: name, Kind: kind, Contents: []byte(contents)}
	return name.String()
}

// read reads a stream in pieces of so many bytes, and gives how many bytes were let through and the refusal.
func read(before repository, text []byte, size int, most Part) (through int, parts []Part, err error) {
	r := New(fsck.Strict(), before.look)
	for len(text) > 0 {
		if size > len(text) {
			size = len(text)
		}
		for piece := text[:size]; len(piece) > 0; {
			part, err := r.Next(context.Background(), piece, most)
			through += part.Bytes
			parts = append(parts, part)
			if err != nil {
				return through, parts, err
			}
			piece = piece[part.Bytes:]
		}
		text = text[size:]
	}
	return through, parts, nil
}

const head = "commit refs/heads/main\ncommitter a <b> 1 +0000\ndata 0\n"

func data(text string) string { return fmt.Sprintf("data %d\n%s\n", len(text), text) }

func blobOf(mark int, text string) string { return fmt.Sprintf("blob\nmark :%d\n%s", mark, data(text)) }

var long = strings.Repeat("x", fsck.LongestAttributesLine)

var good = []string{
	head + "M 100644 inline .gitignore\n" + data("x"),
	head + "M 100644 inline git/hooks/x.git\n" + data("x"),
	head + "M 100644 inline \".git\n" + data("the program refuses it"),
	head + "M 100644 inline .gitmodules\n" + data("[submodule \"x\"]\n\tpath = x\n\turl = https://h/x\n"),
	head + "M 120000 inline .gitattributes\n" + data("x"),
	head + "M 160000 " + strings.Repeat("1", 40) + " sub\n",
	head + "M 160000 " + strings.Repeat("1", 40) + " .gitmodules\n",
	head + "M 100644 inline x\n" + data("M 100644 inline .git/x\n"),
	head + "D .git/x\n",
	head + "C .gitmodules a/.gitmodules\n",
	head + "R \".gitattributes\" .GITATTRIBUTES\n",
	"# M 100644 :1 .git\nprogress M 100644 :1 .git\n",
	"blob\ndata <<M 100644 :1 .git\nM 100644 :1 .gi\nM 100644 :1 .git/x\nM 100644 :1 .git\n" + head,
	blobOf(1, harmful) + head + "M 100644 :1 gitmodules\n",
	blobOf(1, harmful) + blobOf(1, "fine") + head + "M 100644 :1 .gitmodules\n",
	blobOf(1, harmful) + "commit refs/heads/a\nmark :1\ncommitter a <b> 1 +0000\ndata 0\n\n" + head + "M 100644 :1 .gitmodules\n",
	blobOf(1, harmful) + "alias\nmark :1\nto refs/heads/x\n" + head + "M 100644 :1 .gitmodules\n",
	blobOf(1, long) + head + "M 100644 :1 .gitmodules\n",
	blobOf(1, strings.Repeat("x", fsck.LongestAttributesLine-1)+"\n"+strings.Repeat("y", 2047)) + head + "M 100644 :1 .gitattributes\n",
	blobOf(1, strings.Repeat("x\n", heldBlob)) + head + "M 100644 :1 .gitmodules\n",
	"tag v1\nfrom :1\ntagger a <b> 1 +0000\ndata 1\n\x00\n",
	"commit refs/heads/main\nauthor <b> 0 +0000\ncommitter a <b> 9223372036854775807 +0000\ndata 0\n",
	"commit refs/heads/main\ncommitter a<b> 01 +0000\ndata 0\n",
	"feature done\n" + head + "done\nM 100644 inline .git/x\n",
	"data x\n" + head + "M 100644 inline .git/x\n",
	"data 67108865\n" + head + "M 100644 inline .git/x\n",
	"data 18446744073709551616\n" + head + "M 100644 inline .git/x\n",
	"data <<\n" + head + "M 100644 inline .git/x\n",
}

var bad = []string{
	head + "M 100644 inline |.git/hooks/x\n" + data("x"),
	head + "M 644 :1 a/|.GIT\n",
	head + "M 644 :1 a/|git~1/x\n",
	head + "M 644 :1 |\".gi\\164/x\"\n",
	head + "M 644 :1 |\"a\\\\.git\"\n",
	head + "M 644 :1 |.g\u200cit\n",
	head + "M 040000 " + strings.Repeat("1", 40) + " |.git\n",
	head + "M 040000 " + strings.Repeat("1", 40) + " |.gitmodules\n",
	head + "M 120000 inline |.gitmodules\n",
	head + "M 120000 :1 a/|gitmod~1\n",
	head + "M 160000 |" + strings.Repeat("0", 40) + " sub\n",
	head + "M 160000 :1 |.gitmodules\n",
	head + "M 100644 :1 |.gitmodules/x\n",
	head + "M 100644 :1 |.gitattributes/x\n",
	head + "C a |.git\n", head + "R a b/|.git/c\n", head + "R \"a b\" |\".git\"\n",
	head + "C a |.gitmodules\n", head + "R .gitattributes |.gitmodules\n", head + "R a |.gitattributes\n",
	head + "M 100644 inline .gitmodules\n" + "data 28\n|" + harmful,
	head + "M 100644 inline .gitmodules\ndata <<E\n|" + harmful + "E\n",
	head + "M 100644 inline .gitattributes\n" + "data 2048\n|" + long,
	blobOf(1, harmful) + head + "M 100644 :1 |.gitmodules\n",
	blobOf(1, harmful) + head + "M 100644 :01 |.gitmodules\n",
	blobOf(1, harmful) + "commit refs/heads/a\nmark :1\ncommitter a <b> 1 +0000\ndata 0\n\nM 100644 :1 |.gitmodules\n",
	"blob\nmark :1\ndata <<E\n" + harmful + "E\n" + head + "M 100644 :1 |.gitmodules\n",
	"blob\n" + data(harmful) + head + "M 100644 " + pack.NameOf(plumbing.Blob, []byte(harmful)).String() + " |.gitmodules\n",
	head + "M 100644 inline x\n" + data(harmful) + "M 755 " + pack.NameOf(plumbing.Blob, []byte(harmful)).String() + " |.gitmodules\n",
	blobOf(1, strings.Repeat("x\n", heldBlob/2-2)+"[SubModule \"x\"]\n"+strings.Repeat("x\n", heldBlob)) + head + "M 100644 :1 |.gitmodules\n",
	blobOf(1, "x\n"+long+"\ny\n") + head + "M 100644 :1 |.gitattributes\n",
	"commit refs/heads/main\n|committer a <b> 01 +0000\ndata 0\n",
	"commit refs/heads/main\n|committer <b> 01 +0000\ndata 0\n",
	"commit refs/heads/main\n|author a <b> 9223372036854775808 +0000\ncommitter a <b> 1 +0000\ndata 0\n",
	"commit refs/heads/main\n|author a\x00 <b> 1 +0000\ncommitter a <b> 1 +0000\ndata 0\n",
	"commit refs/heads/main\ncommitter a <b> 1 +0000\n|encoding a\x00\ndata 0\n",
	"commit refs/heads/main\ncommitter a <b> 1 +0000\ndata 3\n|a\x00b\n",
	"tag v1\nfrom :1\n|tagger a <b> 00 +0000\ndata 0\n",
}

// TestStreams cuts each stream at each byte. What is refused is refused at the same place: nothing from the item on is let through but a part that
// the program does not carry out.
func TestStreams(t *testing.T) {
	for _, text := range good {
		for size := 1; size <= len(text); size += step(text) {
			if through, _, err := read(repository{}, []byte(text), size, all); err != nil || through != len(text) {
				t.Fatalf("%.300q in pieces of %d: %d of %d bytes, %v", text, size, through, len(text), err)
			}
		}
	}
	for _, marked := range bad {
		text := strings.Replace(marked, "|", "", 1)
		item := strings.Index(marked, "|")
		if line := strings.LastIndex(text[:item], "\n") + 1; !strings.HasPrefix(text[line:], harmful) && !strings.HasPrefix(text[line:], long) {
			item = line
		}
		for size := 1; size <= len(text); size += step(text) {
			through, _, err := read(repository{}, []byte(text), size, all)
			var refused *Refused
			if !errors.As(err, &refused) || through < item || through >= len(text) {
				t.Fatalf("%.300q in pieces of %d: %d of %d bytes, %v", text, size, through, len(text), err)
			}
			if isCounted := !strings.Contains(text, "<<"); isCounted && size == len(text) && through != item {
				t.Fatalf("%.300q: let through %d, wanted %d", text, through, item)
			}
		}
	}
}

// step lets long streams be cut at some bytes.
func step(text string) int { return 1 + len(text)/4000*200 }

// TestStoredObjects puts what was there before where git reads a file.
func TestStoredObjects(t *testing.T) {
	before := repository{}
	for name, want := range map[string]bool{before.add(plumbing.Blob, harmful): true, before.add(plumbing.Blob, "fine"): false,
		before.add(plumbing.Commit, "tree"): true, strings.Repeat("2", 40): false} {
		for _, mode := range []string{"100644", plumbing.ModeGitlink} {
			_, _, err := read(before, []byte(head+"M "+mode+" "+name+" .gitmodules\n"), 7, all)
			if isRefused := mode == plumbing.ModeGitlink && want || want; (err != nil) != isRefused {
				t.Errorf("%s %s: %v", mode, name, err)
			}
		}
	}
	broken := errors.New("broken")
	r := New(fsck.Rules{}, func(context.Context, plumbing.Name) (plumbing.Object, error) { return plumbing.Object{}, broken })
	if _, err := r.Next(context.Background(), []byte(head+"M 644 "+strings.Repeat("2", 40)+" .gitmodules\n"), all); err != broken {
		t.Error(err)
	}
}

// TestUnnamed has a large blob with a delimiter, whose name nobody knows before it is over.
func TestUnnamed(t *testing.T) {
	text := strings.Repeat("x\n", heldBlob) + harmful
	name := pack.NameOf(plumbing.Blob, []byte(text)).String()
	for at, want := range map[string]bool{".gitmodules": true, "x": false} {
		_, _, err := read(repository{}, []byte("blob\ndata <<E\n"+text+"E\n"+head+"M 644 "+name+" "+at+"\n"), 1000, all)
		if (err != nil) != want {
			t.Errorf("%s: %v", at, err)
		}
	}
}

// TestParts bounds what goes to the program at once.
func TestParts(t *testing.T) {
	commits := strings.Repeat(head+"M 644 inline x\n"+data("from :1\nC a b\ncat-blob :1\n"), 20)
	prints := strings.Repeat("cat-blob :1\n", 20)
	for _, it := range []struct {
		text        string
		most        Part
		size, parts int
	}{{commits, Part{Bytes: 1 << 20, Heavy: 8}, 1 << 20, 3}, {commits, Part{Bytes: 1 << 20, Heavy: 1}, 1 << 20, 21},
		{prints, all, 1 << 20, 20}, {"blob\n" + data(prints), all, 1 << 20, 1}, {"checkpoint\ncheckpoint\nx\n", all, 1 << 20, 3},
		{commits, Part{Bytes: 10, Heavy: 100}, 1 << 20, (len(commits) + 9) / 10}} {
		through, parts, err := read(repository{}, []byte(it.text), it.size, it.most)
		if err != nil || through != len(it.text) || len(parts) != it.parts {
			t.Errorf("%.40q: %d parts, wanted %d: %v", it.text, len(parts), it.parts, err)
		}
		for _, part := range parts {
			if part.Bytes < 1 || part.Bytes > it.most.Bytes || part.Heavy > it.most.Heavy {
				t.Errorf("%.40q: %v", it.text, part)
			}
		}
	}
	_, parts, _ := read(repository{}, []byte("progress x\ncheckpoint\nprogress y\n"), 1<<20, all)
	if len(parts) != 2 || !parts[0].HasCheckpoint || parts[1].HasCheckpoint {
		t.Error(parts)
	}
}

// TestMemory lets many lines, blobs and marks pass: what is held is bounded.
func TestMemory(t *testing.T) {
	r := New(fsck.Rules{}, repository{}.look)
	next := func(text string) {
		if part, err := r.Next(context.Background(), []byte(text), all); err != nil || part.Bytes != len(text) {
			t.Fatalf("%d bytes: %v", part.Bytes, err)
		}
	}
	next("progress " + long)
	next(long + "\n")
	next("blob\ndata 60000000\n")
	for at := 0; at < 60; at++ {
		next(strings.Repeat("bsubmodulb\n", 100_000)[:1_000_000])
	}
	fill(&r.judge.others)
	next(blobOf(1<<40, long))
	if held := cap(r.lexer.line) + cap(r.judge.data.head); held > 2*heldBlob+heldLine {
		t.Errorf("%d bytes are held", held)
	}
	if count := len(r.judge.others.marks); count > mostBad || len(r.judge.others.names) > mostBad {
		t.Errorf("%d marks are held", count)
	}
}

// TestTooManyModules refuses a stream whose blobs cannot all be remembered.
func TestTooManyModules(t *testing.T) {
	r := New(fsck.Rules{}, repository{}.look)
	fill(&r.judge.modules)
	for text, want := range map[string]bool{harmful: true, "fine": false, long: false} {
		if _, err := r.Next(context.Background(), []byte(blobOf(1<<40, text)), all); (err != nil) != want {
			t.Errorf("%.30q: %v", text, err)
		}
	}
}

// fill remembers as many blobs as may be.
func fill(bad *badBlobs) {
	for mark := uint64(1); bad.add(mark, plumbing.Name{byte(mark), byte(mark >> 8), byte(mark >> 16), 1}); mark++ {
	}
}

// TestLines compares what a lexer finds with what a plain reading of the whole stream finds.
func TestLines(t *testing.T) {
	random := rand.New(rand.NewSource(1))
	words := []string{"blob\n", "data 3\n", "data 0\n", "data <<E\n", "data <<EE\n", "E\n", "EE\n", "EEE\n", "x", "\n", "#c\n", "data 12\n", "data",
		" ", "done\n"}
	for round := 0; round < 20000; round++ {
		var text []byte
		for count := random.Intn(12); count > 0; count-- {
			text = append(text, words[random.Intn(len(words))]...)
		}
		want := plainly(text)
		for size := 1; size <= len(text); size++ {
			if got := pieceByPiece(text, size); got != want {
				t.Fatalf("%q in pieces of %d: %q, wanted %q", text, size, got, want)
			}
		}
	}
}

// noted writes down what a lexer finds.
type noted struct{ text strings.Builder }

func (n *noted) takeLine(line []byte) error { fmt.Fprintf(&n.text, "[%s]", line); return nil }
func (n *noted) beginData(int64)            { n.text.WriteString("(") }
func (n *noted) takeData(part []byte)       { n.text.Write(part) }
func (n *noted) endData() error             { n.text.WriteString(")"); return nil }

func pieceByPiece(text []byte, size int) string {
	var l lexer
	var n noted
	for len(text) > 0 {
		piece := text
		if len(piece) > size {
			piece = piece[:size]
		}
		taken, _ := l.next(piece, &n)
		text = text[taken:]
	}
	if l.delimiter == nil {
		return n.text.String()
	}
	// What is held back may be the delimiter.
	return n.text.String() + string(l.delimiter[:atLeast0(l.matched)])
}

func atLeast0(value int) int {
	if value < 0 {
		return 0
	}
	return value
}

func plainly(text []byte) string {
	var found strings.Builder
	for {
		line, rest, isWhole := bytes.Cut(text, []byte("\n"))
		if !isWhole {
			return found.String()
		}
		text = rest
		var count int
		switch scanned, _ := fmt.Sscanf(string(line), "data %d", &count); {
		case bytes.HasPrefix(line, []byte("#")):
		case bytes.HasPrefix(line, []byte("data <<")):
			end := bytes.Index(append([]byte("\n"), text...), append(append([]byte("\n"), line[7:]...), '\n'))
			if end < 0 {
				return found.String() + "(" + string(text)
			}
			found.WriteString("(" + string(text[:end]) + ")")
			text = text[end+len(line[7:])+1:]
		case scanned == 1 && string(line) == fmt.Sprint("data ", count):
			if count > len(text) {
				return found.String() + "(" + string(text)
			}
			found.WriteString("(" + string(text[:count]) + ")")
			text = text[count:]
		case bytes.HasPrefix(line, []byte("data ")):
			return found.String()
		default:
			fmt.Fprintf(&found, "[%s]", line)
		}
	}
}

// FuzzStreams cuts a stream in two ways: they are judged alike.
func FuzzStreams(f *testing.F) {
	for _, text := range append(append([]string{}, good...), bad...) {
		f.Add([]byte(strings.Replace(text, "|", "", 1)), 3)
	}
	f.Fuzz(func(t *testing.T, text []byte, size int) {
		if size < 1 || len(text) > 1<<16 {
			return
		}
		_, _, whole := read(repository{}, text, len(text)+1, all)
		through, parts, cut := read(repository{}, text, size, Part{Bytes: 1000, Heavy: 2})
		if (whole == nil) != (cut == nil) || whole != nil && whole.Error() != cut.Error() {
			t.Fatalf("%v, and in pieces of %d %v", whole, size, cut)
		}
		if cut == nil && through != len(text) {
			t.Fatal(through)
		}
		for _, part := range parts[:atLeast0(len(parts)-1)] {
			if part.Bytes < 1 || part.Bytes > 1000 || part.Heavy > 2 {
				t.Fatal(part)
			}
		}
	})
}
