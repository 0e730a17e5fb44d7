package receivepack

import (
	"bufio"
	"bytes"
	"compress/zlib"
	"context"
	"encoding/binary"
	"fmt"
	"io"
	"os"
	"strings"
	"testing"
	"time"

	"gitpoold/await"
	"gitpoold/pack"
	"gitpoold/pktline"
	"gitpoold/plumbing"
	"gitpoold/store"
	"gitpoold/tenants"
)

var background = context.Background()

// tenant gives an empty tenant of a new store.
func tenant(t *testing.T) tenants.Tenant {
	t.Helper()
	program := os.Getenv("GITPOOL")
	if program == "" {
		t.Skip("GITPOOL names no program")
	}
	folder := t.TempDir()
	if err := store.Create(folder, program); err != nil {
		t.Fatal(err)
	}
	s, err := store.Open(store.Config{Folder: folder, Program: program, Tell: func(string, ...any) {}})
	if err != nil {
		t.Fatal(err)
	}
	t.Cleanup(func() { s.Close(background) })
	it, err := tenants.New(s, func(string) int64 { return 0 }).Tenant("acme/site")
	if err != nil {
		t.Fatal(err)
	}
	return it
}

// object is an object of a pack that a test makes.
type object struct {
	kind     plumbing.Kind
	contents string
}

func (o object) name() plumbing.Name { return pack.NameOf(o.kind, []byte(o.contents)) }

// packed is a pack of objects.
func packed(objects ...object) string {
	var to, entry bytes.Buffer
	w := pack.NewWriter(&to)
	_ = w.Begin(len(objects))
	for _, it := range objects {
		size := len(it.contents)
		entry.Reset()
		entry.Write(binary.AppendUvarint([]byte{byte(it.kind)<<4 | byte(size&15) | 0x80}, uint64(size>>4)))
		deflater := zlib.NewWriter(&entry)
		_, _ = deflater.Write([]byte(it.contents))
		_ = deflater.Close()
		_ = w.Entries(entry.Bytes())
	}
	_ = w.Finish()
	return to.String()
}

const people = "author A <a@b> 1 +0000\ncommitter A <a@b> 1 +0000\n"

var (
	file     = object{plumbing.Blob, "contents\n"}
	files    = object{plumbing.Tree, entryOf("100644", "f", file)}
	root     = commitOf(files, "root")
	signed   = object{plumbing.Commit, fmt.Sprintf("tree %v\n%sgpgsig x\n\nsigned\n", files.name(), people)}
	nameless = object{plumbing.Blob, "of no tree\n"}
)

func entryOf(mode, path string, o object) string {
	name := o.name()
	return mode + " " + path + "\x00" + string(name[:])
}

func commitOf(tree object, message string, parents ...object) object {
	text := fmt.Sprintf("tree %v\n", tree.name())
	for _, it := range parents {
		text += fmt.Sprintf("parent %v\n", it.name())
	}
	return object{plumbing.Commit, text + people + "\n" + message + "\n"}
}

// creates is the line of a change that makes a ref, and deletes that of one that takes it away.
func creates(ref string, o object) string { return changes(ref, plumbing.Name{}, o.name()) }

func deletes(ref string, o object) string { return changes(ref, o.name(), plumbing.Name{}) }

func changes(ref string, old, new plumbing.Name) string {
	return fmt.Sprintf("%v %v %s", old, new, ref)
}

// asking is a request with capabilities, up to its pack.
func asking(can string, first string, more ...string) string {
	return lines(append(append([]string{first + "\x00" + can}, more...), "")...)
}

// pushed gives the answer to a push: what stands on the band of progress, and the lines of the report.
func pushed(t *testing.T, it tenants.Tenant, text string) (progress string, report []string) {
	t.Helper()
	var out bytes.Buffer
	_, _ = Server{Folder: t.TempDir(), Limits: pack.Usual}.Serve(background, it, bufio.NewReader(strings.NewReader(text)), pktline.NewWriter(&out))
	return answerOf(t, &out)
}

func answerOf(t *testing.T, from io.Reader) (progress string, report []string) {
	t.Helper()
	bands := pktline.NewReader(bufio.NewReader(from), 1<<30)
	var data bytes.Buffer
	for {
		packet, err := bands.Next()
		if err != nil {
			t.Fatal("the answer is cut off", err)
		}
		if packet.Kind == pktline.Flush {
			break
		}
		if text := packet.Text[1:]; packet.Text[0] == pktline.ProgressChannel {
			progress += string(text) + "\n"
		} else {
			data.Write(text)
		}
	}
	inner := pktline.NewReader(bufio.NewReader(&data), 1<<30)
	for {
		packet, err := inner.Next()
		if err != nil || packet.Kind != pktline.Data {
			return progress, report
		}
		report = append(report, string(packet.Text))
	}
}

// TestAClientMayKeepItsSideOpen has clients that send nothing after their push and wait for the report before they close their side, as libgit2,
// dulwich and JGit do over ssh. Nothing waits for them any more.
func TestAClientMayKeepItsSideOpen(t *testing.T) {
	const can = "report-status side-band-64k"
	it := tenant(t)
	for says, text := range map[string]string{
		"unpack ok":      asking(can, creates("refs/heads/main", root)) + packed(root, files, file),
		"a signature":    asking(can, creates("refs/heads/bad", signed)) + packed(signed, files, file),
		"malformed line": asking(can, creates("refs/heads/bad", root), "hello") + packed(root, files, file)[:30],
		"unknown kind":   asking(can, creates("refs/heads/bad", root)) + "PACK\x00\x00\x00\x02\x00\x00\x00\x02\x00",
	} {
		reader, writer := io.Pipe()
		out, answer := io.Pipe()
		ended := make(chan struct{})
		go func() {
			s := Server{Folder: t.TempDir(), Limits: pack.Usual}
			_, _ = s.Serve(background, it, bufio.NewReader(reader), pktline.NewWriter(answer))
			close(ended)
		}()
		go func() { _, _ = io.WriteString(writer, text) }()
		told := make(chan []string, 1)
		go func() {
			_, report := answerOf(t, out)
			told <- report
		}()
		if report := await.From(t, "the report", told); len(report) != 2 || !strings.Contains(report[0], says) {
			t.Errorf("%s: %q", says, report)
		}
		await.From(t, "the end, for which the server waits for no client", ended)
		writer.Close()
	}
	if refs, _, err := it.Refs(background); err != nil || len(refs) != 1 {
		t.Fatal(refs, err)
	}
}

// TestARefusedPackIsReadOn has a client over http that sends all of its pack before it reads anything, and a pack that is refused at once.
func TestARefusedPackIsReadOn(t *testing.T) {
	reader, writer := io.Pipe()
	sent := make(chan error, 1)
	go func() {
		_, err := io.WriteString(writer, asking("report-status side-band-64k", creates("refs/heads/bad", root))+"PACK\x00\x00\x00\x09")
		for left := 512; left > 0 && err == nil; left-- {
			_, err = writer.Write(make([]byte, 1<<14))
		}
		sent <- err
		writer.Close()
	}()
	var out bytes.Buffer
	s := Server{Folder: t.TempDir(), Limits: pack.Usual, EndsItself: true}
	_, err := s.Serve(background, tenant(t), bufio.NewReader(reader), pktline.NewWriter(&out))
	reader.Close()
	if failed := <-sent; failed != nil || err == nil {
		t.Fatal("the client could not send its pack", failed, err)
	}
	if _, report := answerOf(t, &out); !strings.Contains(report[0], "version is neither 2 nor 3") {
		t.Fatal(report)
	}
}

// measured notes how much memory is in use while a report is written.
type measured struct {
	writes int
	most   uint64
}

func (m *measured) Write(text []byte) (int, error) {
	if m.writes++; m.writes == 100 {
		m.most = held()
	}
	return len(text), nil
}

// TestAReportIsNotHeld has a report of 30 megabytes.
func TestAReportIsNotHeld(t *testing.T) {
	q := &request{can: map[string]bool{"report-status": true, "report-status-v2": true, "side-band-64k": true}}
	long := "refs/heads/" + strings.Repeat("x", 60_000)
	for at := 0; at < 500; at++ {
		q.changes = append(q.changes, Change{Ref: long})
	}
	p := newPush(Server{}, tenants.Tenant{}, q)
	if err := p.examineRefs(background); err != nil {
		t.Fatal(err)
	}
	copy(p.bad, p.unfit)
	before, out := held(), &measured{}
	p.out = pktline.NewWriter(out)
	if err := p.report(nil); err != nil || out.writes < 400 {
		t.Fatal(out.writes, err)
	}
	if more := int64(out.most) - int64(before); more > 4<<20 {
		t.Errorf("%d bytes are held", more)
	}
}

// TestAClientThatWaitsHearsSomething has a push that waits for the tenant: its client gets empty packets meanwhile, and then its report.
func TestAClientThatWaitsHearsSomething(t *testing.T) {
	aliveEvery = 5 * time.Millisecond
	defer func() { aliveEvery = 5 * time.Second }()
	it := tenant(t)
	out, answer := io.Pipe()
	err := it.Alone(func() error {
		text := asking("report-status side-band-64k", creates("refs/heads/main", root)) + packed(root, files, file)
		go func() {
			s := Server{Folder: t.TempDir(), Limits: pack.Usual}
			_, _ = s.Serve(background, it, bufio.NewReader(strings.NewReader(text)), pktline.NewWriter(answer))
		}()
		var first [10]byte
		if _, err := io.ReadFull(out, first[:]); err != nil || string(first[:]) != "0005\x010005\x01" {
			t.Errorf("%q %v", first, err)
		}
		return nil
	})
	if _, report := answerOf(t, out); err != nil || len(report) != 2 || report[0] != "unpack ok" {
		t.Fatal(report, err)
	}
}
