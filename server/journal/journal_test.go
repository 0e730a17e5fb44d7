package journal

import (
	"bytes"
	"errors"
	"fmt"
	"os"
	"path/filepath"
	"strings"
	"sync"
	"syscall"
	"testing"

	"gitpoold/frames"
)

var pools = [...]Digest{{1}, {2}, {3}}

// emptySegment is the size of a segment without steps that begins where no stream is open.
const emptySegment = len(title) + headBytes + frameHead + savedBytes + chainBytes

func quiet(string, ...any) {}

func opened(t testing.TB, folder string, pool Digest) *Files {
	t.Helper()
	j, err := Open(folder, pool, quiet)
	if err != nil {
		t.Fatal(err)
	}
	t.Cleanup(func() { j.Close() })
	return j
}

func step(i int) frames.Step {
	return frames.Step{Kind: frames.Feed, Tenant: "acme/site", Body: bytes.Repeat([]byte{byte(i)}, i*37%900)}
}

func filled(t testing.TB, j *Files, from, to int) {
	t.Helper()
	for i := from; i < to; i++ {
		number, err := j.Append(step(i))
		if err != nil {
			t.Fatal(err)
		}
		if i%3 == 0 {
			if err := j.Sync(number); err != nil {
				t.Fatal(err)
			}
		}
	}
}

func hasSteps(t testing.TB, j *Files, from, to int) {
	t.Helper()
	hasStepsAfter(t, j, j.segments[0].pool, from, to)
}

func hasStepsAfter(t testing.TB, j *Files, pool Digest, from, to int) {
	t.Helper()
	i := from
	err := j.Records(pool, func(r Record) error {
		want := step(i)
		if r.Step.Tenant != want.Tenant || r.Step.Kind != want.Kind || !bytes.Equal(r.Step.Body, want.Body) {
			return fmt.Errorf("record %d is another", i)
		}
		i++
		return nil
	})
	if err != nil || i != to {
		t.Fatalf("records %d to %d, wanted to %d: %v", from, i, to, err)
	}
}

func TestAJournalComesBack(t *testing.T) {
	folder := t.TempDir()
	j := opened(t, folder, pools[0])
	filled(t, j, 0, 100)
	hasSteps(t, j, 0, 100)
	j = opened(t, folder, pools[0])
	hasSteps(t, j, 0, 100)
	filled(t, j, 100, 120)
	hasSteps(t, opened(t, folder, pools[0]), 0, 120)
}

// TestASaveMayStopAnywhere has both orders in which a crash leaves the pool file and the segment.
func TestASaveMayStopAnywhere(t *testing.T) {
	folder := t.TempDir()
	j := opened(t, folder, pools[0])
	filled(t, j, 0, 10)
	if err := j.Begin(pools[1], nil); err != nil {
		t.Fatal(err)
	}
	filled(t, j, 10, 15)
	hasStepsAfter(t, j, pools[0], 0, 15)
	hasStepsAfter(t, j, pools[1], 10, 15)
	hasSteps(t, opened(t, folder, pools[0]), 0, 15)
	j = opened(t, folder, pools[1])
	hasSteps(t, j, 10, 15)
	if _, err := os.Stat(path(folder, 1)); !os.IsNotExist(err) {
		t.Fatal("the first segment is there still")
	}
	if err := j.Begin(pools[2], nil); err != nil {
		t.Fatal(err)
	}
	if err := j.Drop(); err != nil {
		t.Fatal(err)
	}
	hasSteps(t, opened(t, folder, pools[2]), 15, 15)
}

// TestOpenStreamsAreKept has two streams that are open at saves: their steps are kept from their Opens on, and those of others are not.
func TestOpenStreamsAreKept(t *testing.T) {
	folder := t.TempDir()
	j := opened(t, folder, pools[0])
	add := func(kind frames.Kind, tenant, body string) uint64 {
		number, err := j.Append(frames.Step{Kind: kind, Tenant: tenant, Body: []byte(body)})
		if err != nil {
			t.Fatal(err)
		}
		return number
	}
	save := func(pool Digest, open ...uint64) {
		for _, err := range []error{j.Begin(pool, open), j.Drop()} {
			if err != nil {
				t.Fatal(err)
			}
		}
	}
	add(frames.Open, "a", "")
	add(frames.End, "a", "")
	a := add(frames.Open, "a", "")
	add(frames.Feed, "a", "1")
	add(frames.Copy, "a", "c")
	save(pools[1], a)
	b := add(frames.Open, "b", "")
	add(frames.Feed, "a", "2")
	add(frames.Feed, "b", "3")
	save(pools[2], a, b)
	add(frames.Feed, "a", "4")
	hasBodies(t, j, pools[2], "a:", "a:1", "b:", "a:2", "b:3", "a:4")
	j = opened(t, folder, pools[2])
	hasBodies(t, j, pools[2], "a:", "a:1", "b:", "a:2", "b:3", "a:4")
	add(frames.End, "a", "")
	save(pools[0], b)
	hasBodies(t, j, pools[0], "b:", "b:3")
	if first, last := j.Segments(); first != 2 || last != 4 || j.HasSteps() {
		t.Fatal(first, last)
	}
	os.Remove(path(folder, 2))
	var damaged *Damaged
	if _, err := Open(folder, pools[0], quiet); !errors.As(err, &damaged) {
		t.Fatal("a segment with an Open is missing:", err)
	}
}

func hasBodies(t testing.TB, j *Files, pool Digest, want ...string) {
	t.Helper()
	var got []string
	err := j.Records(pool, func(r Record) error {
		got = append(got, r.Step.Tenant+":"+string(r.Step.Body))
		return nil
	})
	if err != nil || strings.Join(got, " ") != strings.Join(want, " ") {
		t.Fatalf("%q, wanted %q: %v", got, want, err)
	}
}

func TestAnotherPoolFileIsRefused(t *testing.T) {
	folder := t.TempDir()
	filled(t, opened(t, folder, pools[0]), 0, 3)
	var damaged *Damaged
	if _, err := Open(folder, pools[1], quiet); !errors.As(err, &damaged) {
		t.Fatal(err)
	}
}

// TestEachCutIsTorn cuts the last segment at each byte: what is whole before comes back, and is told what was dropped.
func TestEachCutIsTorn(t *testing.T) {
	folder := t.TempDir()
	filled(t, opened(t, folder, pools[0]), 0, 6)
	whole, _ := os.ReadFile(path(folder, 1))
	ends := []int{emptySegment}
	for i := 0; i < 6; i++ {
		ends = append(ends, ends[i]+headBytes+step(i).Size()+chainBytes)
	}
	for at := emptySegment; at <= len(whole); at++ {
		count := 0
		for count < 6 && ends[count+1] <= at {
			count++
		}
		for _, text := range [][]byte{whole[:at], append(append([]byte(nil), whole[:at]...), make([]byte, 100)...)} {
			hasAfterCrash(t, text, count, at == ends[count] && len(text) == at)
		}
	}
}

func hasAfterCrash(t *testing.T, text []byte, count int, silent bool) {
	t.Helper()
	folder := t.TempDir()
	os.WriteFile(path(folder, 1), text, 0o600)
	told := ""
	j, err := Open(folder, pools[0], func(format string, values ...any) { told += fmt.Sprintf(format, values...) })
	if err != nil {
		t.Fatal(len(text), err)
	}
	defer j.Close()
	hasSteps(t, j, 0, count)
	if silent != (told == "") {
		t.Fatalf("at %d: told %q", len(text), told)
	}
	filled(t, j, count, count+1)
	hasSteps(t, j, 0, count+1)
}

// TestEachFlippedByteStopsTheStart flips each byte of two segments: nothing is dropped and nothing is changed.
func TestEachFlippedByteStopsTheStart(t *testing.T) {
	folder := t.TempDir()
	j := opened(t, folder, pools[0])
	filled(t, j, 0, 5)
	if err := j.Begin(pools[1], nil); err != nil {
		t.Fatal(err)
	}
	filled(t, j, 5, 9)
	for number := uint64(1); number <= 2; number++ {
		whole, _ := os.ReadFile(path(folder, number))
		for at := range whole {
			bad := append([]byte(nil), whole...)
			bad[at] ^= 0x40
			os.WriteFile(path(folder, number), bad, 0o600)
			var damaged *Damaged
			if _, err := Open(folder, pools[0], quiet); !errors.As(err, &damaged) {
				t.Fatalf("segment %d, byte %d: %v", number, at, err)
			}
			if left, _ := os.ReadFile(path(folder, number)); !bytes.Equal(left, bad) {
				t.Fatalf("segment %d, byte %d: changed", number, at)
			}
		}
		os.WriteFile(path(folder, number), whole, 0o600)
	}
	hasSteps(t, opened(t, folder, pools[0]), 0, 9)
}

// TestAFlippedByteBeforeATornEndStopsTheStart has both: records that were told stand behind the flipped byte, so nothing is dropped.
func TestAFlippedByteBeforeATornEndStopsTheStart(t *testing.T) {
	folder := t.TempDir()
	filled(t, opened(t, folder, pools[0]), 0, 6)
	whole, _ := os.ReadFile(path(folder, 1))
	last := len(whole) - headBytes - step(5).Size() - chainBytes
	torn := append(append([]byte(nil), whole[:len(whole)-chainBytes]...), make([]byte, 100)...)
	for at := emptySegment; at < last; at++ {
		bad := append([]byte(nil), torn...)
		bad[at] ^= 0x40
		os.WriteFile(path(folder, 1), bad, 0o600)
		var damaged *Damaged
		if _, err := Open(folder, pools[0], quiet); !errors.As(err, &damaged) {
			t.Fatalf("byte %d: %v", at, err)
		}
		if left, _ := os.ReadFile(path(folder, 1)); !bytes.Equal(left, bad) {
			t.Fatalf("byte %d: changed", at)
		}
	}
	hasAfterCrash(t, torn, 5, false)
}

func TestHolesAndMissingSegmentsStopTheStart(t *testing.T) {
	folder := t.TempDir()
	j := opened(t, folder, pools[0])
	filled(t, j, 0, 9)
	whole, _ := os.ReadFile(path(folder, 1))
	hole := append([]byte(nil), whole...)
	copy(hole[300:], make([]byte, 600))
	cases := map[string][]byte{"a hole": hole, "a record is missing": append(append([]byte(nil), whole[:int64(emptySegment)]...),
		whole[emptySegment+headBytes+step(0).Size()+chainBytes:]...)}
	for name, text := range cases {
		os.WriteFile(path(folder, 1), text, 0o600)
		var damaged *Damaged
		if _, err := Open(folder, pools[0], quiet); !errors.As(err, &damaged) {
			t.Fatal(name, err)
		}
	}
	os.WriteFile(path(folder, 1), whole, 0o600)
	for i := 0; i < 2; i++ {
		if err := j.Begin(pools[0], nil); err != nil {
			t.Fatal(err)
		}
	}
	os.Remove(path(folder, 2))
	var damaged *Damaged
	if _, err := Open(folder, pools[0], quiet); !errors.As(err, &damaged) {
		t.Fatal("a segment is missing:", err)
	}
}

// TestAnEarlierSegmentMayNotBeCut has a segment that lost its end although another follows it.
func TestAnEarlierSegmentMayNotBeCut(t *testing.T) {
	folder := t.TempDir()
	j := opened(t, folder, pools[0])
	filled(t, j, 0, 5)
	j.Begin(pools[1], nil)
	whole, _ := os.ReadFile(path(folder, 1))
	for _, size := range []int{len(whole) - 1, len(whole) - headBytes - step(4).Size() - chainBytes, emptySegment} {
		os.WriteFile(path(folder, 1), whole[:size], 0o600)
		var damaged *Damaged
		if _, err := Open(folder, pools[0], quiet); !errors.As(err, &damaged) {
			t.Fatal(size, err)
		}
	}
}

// TestAFullDiskRefusesAndTakesUpAgain lets the file's size be limited, as a full disk limits it.
func TestAFullDiskRefusesAndTakesUpAgain(t *testing.T) {
	folder := t.TempDir()
	j := opened(t, folder, pools[0])
	filled(t, j, 0, 4)
	free := limitFiles(t, uint64(j.Bytes())+100)
	before, _ := os.ReadFile(path(folder, 1))
	_, err := j.Append(frames.Step{Kind: frames.Feed, Tenant: "a", Body: make([]byte, 5000)})
	if !errors.Is(err, ErrFull) {
		t.Fatal(err)
	}
	if after, _ := os.ReadFile(path(folder, 1)); !bytes.Equal(before, after) {
		t.Fatal("a part of the record was left")
	}
	free()
	filled(t, j, 4, 8)
	hasSteps(t, opened(t, folder, pools[0]), 0, 8)
}

// limitFiles bounds the size of files that this process writes, and gives the call that takes the bound away.
func limitFiles(t *testing.T, bytes uint64) func() {
	t.Helper()
	var was syscall.Rlimit
	syscall.Getrlimit(syscall.RLIMIT_FSIZE, &was)
	if err := syscall.Setrlimit(syscall.RLIMIT_FSIZE, &syscall.Rlimit{Cur: bytes, Max: was.Max}); err != nil {
		t.Skip(err)
	}
	free := func() { syscall.Setrlimit(syscall.RLIMIT_FSIZE, &was) }
	t.Cleanup(free)
	return free
}

// TestAFailedSyncTakesRecordsBack closes the file under the journal, so that it can neither be synced nor cut.
func TestAFailedSyncTakesRecordsBack(t *testing.T) {
	folder := t.TempDir()
	j := opened(t, folder, pools[0])
	filled(t, j, 0, 4)
	number, _ := j.Append(step(4))
	j.file.Close()
	if err := j.Sync(number); !errors.Is(err, ErrUnknown) {
		t.Fatal(err)
	}
	if _, err := j.Append(step(5)); err == nil || !j.IsBroken() {
		t.Fatal("the journal went on")
	}
	if err := j.Begin(pools[1], nil); err != nil {
		t.Fatal(err)
	}
	if _, err := j.Append(step(4)); err != nil || j.IsBroken() {
		t.Fatal(err)
	}
	// The next start finds either pool file.
	hasStepsAfter(t, opened(t, folder, pools[0]), pools[0], 0, 5)
	hasStepsAfter(t, opened(t, folder, pools[1]), pools[1], 4, 5)
}

// TestARecordThatCannotBeCutSpoilsNoOther has a record that can neither be written nor cut. Those before it last, as is told, and a save
// lets the journal go on behind them.
func TestARecordThatCannotBeCutSpoilsNoOther(t *testing.T) {
	folder := t.TempDir()
	j := opened(t, folder, pools[0])
	filled(t, j, 0, 4)
	number, _ := j.Append(step(4))
	writable := j.file
	j.file, _ = os.Open(path(folder, 1))
	if _, err := j.Append(step(5)); !errors.Is(err, ErrUnknown) || !j.IsBroken() {
		t.Fatal(err)
	}
	writable.WriteAt([]byte("a part of it"), j.appended.size)
	writable.Close()
	if err := j.Sync(number); err != nil {
		t.Fatal("a record that is there is told to be lost:", err)
	}
	if err := j.Begin(pools[1], nil); err != nil {
		t.Fatal(err)
	}
	filled(t, j, 5, 6)
	hasStepsAfter(t, opened(t, folder, pools[0]), pools[0], 0, 6)
}

func TestOneSyncServesMany(t *testing.T) {
	j := opened(t, t.TempDir(), pools[0])
	var all sync.WaitGroup
	for i := 0; i < 50; i++ {
		all.Add(1)
		go func(i int) {
			defer all.Done()
			number, err := j.Append(step(i))
			if err == nil {
				err = j.Sync(number)
			}
			if err != nil {
				t.Error(err)
			}
		}(i)
	}
	all.Wait()
	if j.synced.number != j.appended.number || j.synced.number < 50 {
		t.Fatal(j.synced, j.appended)
	}
}

func TestLeftoversAreRemoved(t *testing.T) {
	folder := t.TempDir()
	os.WriteFile(filepath.Join(folder, "00000007.new"), []byte("x"), 0o600)
	opened(t, folder, pools[0])
	entries, _ := os.ReadDir(folder)
	if len(entries) != 1 || entries[0].Name() != "00000001" {
		t.Fatal(entries)
	}
}

// readsOn asks that a reader of a journal is told what came, once each, also while others append.
func readsOn(t *testing.T, j Journal) {
	t.Helper()
	appendAll(t, j, 0, 3)
	var read []string
	reader, err := j.Reader(pools[0], func(r Record) error {
		read = append(read, string(r.Step.Body))
		return nil
	})
	if err != nil {
		t.Fatal(err)
	}
	defer reader.Close()
	for turn := 0; turn < 2; turn++ {
		if err := reader.Read(); err != nil || fmt.Sprint(read) != "[0 1 2]" {
			t.Fatal(read, err)
		}
	}
	done := make(chan struct{})
	go func() {
		defer close(done)
		for i := 3; i < 300; i++ {
			if err := append1(j, i); err != nil {
				t.Error(err)
			}
		}
	}()
	for isOver := false; !isOver; {
		select {
		case <-done:
			isOver = true
		default:
		}
		if err := reader.Read(); err != nil {
			t.Fatal(err)
		}
	}
	for i, body := range read {
		if len(read) != 300 || body != fmt.Sprint(i) {
			t.Fatalf("record %d of %d is %s", i, len(read), body)
		}
	}
}

func TestAReaderReadsOn(t *testing.T) { readsOn(t, opened(t, t.TempDir(), pools[0])) }

// TestAReaderOfRecordsThatAreTakenBack has a sync that fails behind what was read.
func TestAReaderOfRecordsThatAreTakenBack(t *testing.T) {
	j := opened(t, t.TempDir(), pools[0])
	if _, err := j.Append(numbered(0)); err != nil {
		t.Fatal(err)
	}
	reader, err := j.Reader(pools[0], func(Record) error { return nil })
	if err == nil {
		err = reader.Read()
	}
	if err != nil {
		t.Fatal(err)
	}
	defer reader.Close()
	j.fail(errors.New("the disk failed"))
	if err := reader.Read(); err != ErrBroken {
		t.Fatal(err)
	}
}

func FuzzSegment(f *testing.F) {
	folder := f.TempDir()
	j, _ := Open(folder, pools[0], quiet)
	filled(f, j, 0, 4)
	whole, _ := os.ReadFile(path(folder, 1))
	f.Add(whole)
	f.Add(whole[:len(whole)-3])
	f.Add([]byte(title))
	f.Fuzz(func(t *testing.T, text []byte) {
		folder := t.TempDir()
		os.WriteFile(path(folder, 1), text, 0o600)
		j, err := Open(folder, pools[0], quiet)
		if err != nil {
			return
		}
		defer j.Close()
		if err := j.Records(pools[0], func(Record) error { return nil }); err != nil {
			t.Fatal(err)
		}
		if left, _ := os.ReadFile(path(folder, 1)); !strings.HasPrefix(string(text), string(left)) {
			t.Fatal("more than a cut")
		}
	})
}

// sized is a step whose frame has so many bytes, behind a name of 9.
func sized(bytes int) frames.Step {
	step := frames.Step{Kind: frames.Feed, Tenant: "acme/site"}
	step.Body = make([]byte, bytes-step.Size())
	return step
}

// takesWhatItReads asks of a journal without steps that it takes what can be read back, and refuses what cannot, with all that comes together with
// that.
func takesWhatItReads(t *testing.T, j Journal) {
	t.Helper()
	longest := frames.Step{Kind: frames.Feed, Tenant: strings.Repeat("n", 65535), Body: make([]byte, frames.LongestBody)}
	for _, it := range []frames.Step{longest, sized(largestFrame)} {
		if _, err := j.Append(it); err != nil {
			t.Fatalf("a record of %d bytes is refused: %v", it.Size(), err)
		}
	}
	named := frames.Step{Kind: frames.Open, Tenant: strings.Repeat("n", 65536)}
	for _, it := range []frames.Step{sized(largestFrame + 1), named} {
		if _, err := j.Append(step(1), it, step(2)); !errors.Is(err, ErrTooLarge) {
			t.Fatalf("a record of %d bytes with a name of %d: %v", it.Size(), len(it.Tenant), err)
		}
	}
	number, err := j.Append(sized(7 + len("acme/site")))
	if err != nil || number != j.Number() {
		t.Fatalf("the journal takes nothing after it has refused a record: %v", err)
	}
	if err := j.Sync(number); err != nil {
		t.Fatal(err)
	}
}

// hasLargest asks that a journal has what takesWhatItReads has appended.
func hasLargest(t *testing.T, j Journal, pool Digest) {
	t.Helper()
	var sizes []int
	err := j.Records(pool, func(r Record) error {
		sizes = append(sizes, r.Step.Size())
		return nil
	})
	if err != nil || fmt.Sprint(sizes) != fmt.Sprint([]int{largestFrame, largestFrame, 16}) {
		t.Fatalf("records of %v bytes: %v", sizes, err)
	}
}

func TestEveryRecordCanBeReadBack(t *testing.T) {
	folder := t.TempDir()
	j := opened(t, folder, pools[0])
	takesWhatItReads(t, j)
	hasLargest(t, j, pools[0])
	hasLargest(t, opened(t, folder, pools[0]), pools[0])
}

// TestASegmentThatCouldNotBeReadIsNotBegun has more open streams than the first record of a segment may name, and as many.
func TestASegmentThatCouldNotBeReadIsNotBegun(t *testing.T) {
	folder := t.TempDir()
	j := opened(t, folder, pools[0])
	filled(t, j, 0, 3)
	open := make([]uint64, mostOpen+1)
	for at := range open {
		open[at] = uint64(2 + at)
	}
	if err := j.Begin(pools[1], open); !errors.Is(err, ErrTooLarge) {
		t.Fatal(err)
	}
	if err := j.Renew(pools[1], []frames.Step{sized(largestFrame + 1)}); !errors.Is(err, ErrTooLarge) {
		t.Fatal(err)
	}
	hasSteps(t, opened(t, folder, pools[0]), 0, 3)
	if err := j.Begin(pools[1], open[:mostOpen]); err != nil {
		t.Fatal(err)
	}
	hasStepsAfter(t, opened(t, folder, pools[0]), pools[0], 0, 3)
}

// begun opens a journal that keeps the number of its newest segment.
func begun(t testing.TB, folder string, pool Digest) (*Files, error) {
	t.Helper()
	j, err := OpenBegun(folder, folder+"-begun", pool, quiet)
	if err == nil {
		t.Cleanup(func() { j.Close() })
	}
	return j, err
}

// isMissing asks that a journal is not opened because it lacks a segment, and that nothing is changed.
func isMissing(t testing.TB, folder string, pool Digest, segment uint64) {
	t.Helper()
	before, _ := os.ReadDir(folder)
	mark, _ := os.ReadFile(folder + "-begun")
	_, err := begun(t, folder, pool)
	var damaged *Damaged
	if !errors.As(err, &damaged) || damaged.Path != path(folder, segment) {
		t.Fatalf("the journal is opened without segment %d: %v", segment, err)
	}
	after, _ := os.ReadDir(folder)
	if again, _ := os.ReadFile(folder + "-begun"); len(after) != len(before) || string(again) != string(mark) {
		t.Fatal("something was changed")
	}
}

func mustDo(t testing.TB, err error) {
	t.Helper()
	if err != nil {
		t.Fatal(err)
	}
}

func TestALostJournalIsNoNewOne(t *testing.T) {
	folder := filepath.Join(t.TempDir(), "journal")
	mustDo(t, os.Mkdir(folder, 0o700))
	j, err := begun(t, folder, pools[0])
	mustDo(t, err)
	filled(t, j, 0, 10)
	mustDo(t, j.Begin(pools[1], nil))
	filled(t, j, 10, 15)
	// The newest one is lost, and the pool file is that of the one before: its save ended before the file was in its place.
	mustDo(t, os.Remove(path(folder, 2)))
	isMissing(t, folder, pools[0], 2)
	mustDo(t, os.Remove(path(folder, 1)))
	isMissing(t, folder, pools[1], 2)
	mustDo(t, os.WriteFile(folder+"-begun", nil, 0o600))
	isMissing(t, folder, pools[1], 1)
	mustDo(t, os.Remove(folder+"-begun"))
	j, err = begun(t, folder, pools[1])
	mustDo(t, err)
	hasStepsAfter(t, j, pools[1], 0, 0)
}

// TestAJournalOfAnEarlierVersionIsTaken has segments and no file that names the newest one, or one that a crash has emptied, or that is behind.
func TestAJournalOfAnEarlierVersionIsTaken(t *testing.T) {
	folder := filepath.Join(t.TempDir(), "journal")
	mustDo(t, os.Mkdir(folder, 0o700))
	j := opened(t, folder, pools[0])
	filled(t, j, 0, 10)
	for _, mark := range []string{"", "1\n"} {
		j, err := begun(t, folder, pools[0])
		mustDo(t, err)
		hasSteps(t, j, 0, 10)
		if text, err := os.ReadFile(folder + "-begun"); err != nil || string(text) != "1\n" {
			t.Fatalf("%q %v", text, err)
		}
		mustDo(t, os.WriteFile(folder+"-begun", []byte(mark), 0o600))
	}
	j, err := begun(t, folder, pools[0])
	mustDo(t, err)
	mustDo(t, j.Begin(pools[1], nil))
	mustDo(t, j.Drop())
	if text, err := os.ReadFile(folder + "-begun"); err != nil || string(text) != "2\n" {
		t.Fatalf("%q %v", text, err)
	}
	mustDo(t, os.WriteFile(folder+"-begun", []byte("1\n"), 0o600))
	j, err = begun(t, folder, pools[1])
	mustDo(t, err)
	hasStepsAfter(t, j, pools[1], 10, 10)
}
