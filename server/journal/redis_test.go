package journal

import (
	"errors"
	"fmt"
	"os"
	"path/filepath"
	"strings"
	"sync"
	"syscall"
	"testing"
	"time"

	"github.com/gomodule/redigo/redis"

	"gitpoold/await"
	"gitpoold/frames"
	"gitpoold/redistest"
)

// watched is a journal in Redis, and what it called.
type watched struct {
	*Redis
	stale chan struct{}
	lost  chan error
}

// options are those of a server with a folder of its own.
func options(t testing.TB, server *redistest.Server) Options {
	t.Helper()
	address, err := ParseAddress(server.Address("site"), "")
	if err != nil {
		t.Fatal(err)
	}
	return Options{Address: address, Wait: 20 * time.Second, Place: filepath.Join(t.TempDir(), "log-place"), Tell: quiet}
}

func openRedis(o Options, pool Digest) (*watched, error) {
	w := &watched{stale: make(chan struct{}, 100), lost: make(chan error, 1)}
	o.Stale = func() { w.stale <- struct{}{} }
	o.Lost = func(err error) { w.lost <- err }
	var err error
	w.Redis, err = OpenRedis(o, pool)
	return w, err
}

func openedRedis(t testing.TB, o Options, pool Digest) *watched {
	t.Helper()
	w, err := openRedis(o, pool)
	if err != nil {
		t.Fatal(err)
	}
	t.Cleanup(func() { w.Close() })
	return w
}

// created begins a log, and opens it.
func created(t testing.TB, o Options) *watched {
	t.Helper()
	if err := CreateRedis(o, pools[0]); err != nil {
		t.Fatal(err)
	}
	return openedRedis(t, o, pools[0])
}

// numbered is a step whose body is its number.
func numbered(i int) frames.Step {
	return frames.Step{Kind: frames.Feed, Tenant: "acme/site", Body: []byte(fmt.Sprint(i))}
}

// append1 appends a step and syncs it.
func append1(j Journal, i int) error {
	number, err := j.Append(numbered(i))
	if err == nil {
		err = j.Sync(number)
	}
	return err
}

func appendAll(t testing.TB, j Journal, from, to int) {
	t.Helper()
	for i := from; i < to; i++ {
		if err := append1(j, i); err != nil {
			t.Fatalf("step %d: %v", i, err)
		}
	}
}

// hasNumbers asks that a journal has these steps after a pool file.
func hasNumbers(t testing.TB, j Journal, pool Digest, from, to int) {
	t.Helper()
	var want []string
	for i := from; i < to; i++ {
		want = append(want, fmt.Sprint(i))
	}
	hasTexts(t, j, pool, want...)
}

func hasTexts(t testing.TB, j Journal, pool Digest, want ...string) {
	t.Helper()
	var found []string
	err := j.Records(pool, func(r Record) error {
		found = append(found, string(r.Step.Body))
		return nil
	})
	if err != nil || strings.Join(found, " ") != strings.Join(want, " ") {
		t.Fatalf("the journal has %v, and should have %v: %v", found, want, err)
	}
}

// isLost waits until a journal has told that its server may go on no more.
func isLost(t testing.TB, w *watched, says string, isTaken bool) {
	t.Helper()
	select {
	case err := <-w.lost:
		var bad *BadLog
		if !errors.As(err, &bad) || bad.IsTaken != isTaken || !strings.Contains(err.Error(), says) {
			t.Fatalf("it is lost by %v", err)
		}
	case <-time.After(await.Longest):
		t.Fatal("the journal has noticed nothing")
	}
}

// isStale waits until a journal calls for another child.
func isStale(t testing.TB, w *watched) {
	t.Helper()
	select {
	case <-w.stale:
	case err := <-w.lost:
		t.Fatal(err)
	case <-time.After(await.Longest):
		t.Fatal("the journal takes no records")
	}
}

// isRefused asks that a start is refused in these words, and that the log stays as it is.
func isRefused(t testing.TB, server *redistest.Server, o Options, pool Digest, says string) {
	t.Helper()
	before := fmt.Sprint(server.Do("XRANGE", "site", "-", "+"))
	place, _ := os.ReadFile(o.Place)
	w, err := openRedis(o, pool)
	if err == nil {
		w.Close()
		t.Fatalf("the start is not refused, which should say %q", says)
	}
	var bad *BadLog
	if !errors.As(err, &bad) || !strings.Contains(err.Error(), says) {
		t.Fatalf("the start is refused by %v, which should say %q", err, says)
	}
	after, _ := os.ReadFile(o.Place)
	if before != fmt.Sprint(server.Do("XRANGE", "site", "-", "+")) || string(place) != string(after) {
		t.Fatal("the start has changed something")
	}
}

func TestALogComesBack(t *testing.T) {
	t.Parallel()
	server := redistest.Start(t)
	o := options(t, server)
	if _, err := openRedis(o, pools[0]); err == nil || !strings.Contains(err.Error(), "there is no log") {
		t.Fatalf("a log that is not there: %v", err)
	}
	j := created(t, o)
	appendAll(t, j, 0, 100)
	hasNumbers(t, j, pools[0], 0, 100)
	j.Close()
	server.Kill()
	server.Restart()
	if err := CreateRedis(o, pools[1]); err != nil {
		t.Fatal(err)
	}
	j = openedRedis(t, o, pools[0])
	hasNumbers(t, j, pools[0], 0, 100)
	appendAll(t, j, 100, 120)
	hasNumbers(t, openedRedis(t, o, pools[0]), pools[0], 0, 120)
}

// TestASaveMayStopAnywhereInRedis has both orders in which a crash leaves the pool file and the segment.
func TestASaveMayStopAnywhereInRedis(t *testing.T) {
	t.Parallel()
	server := redistest.Start(t)
	o := options(t, server)
	j := created(t, o)
	appendAll(t, j, 0, 10)
	if err := j.Begin(pools[1], nil); err != nil {
		t.Fatal(err)
	}
	if j.HasSteps() != true {
		t.Fatal("the save is in its place before Drop")
	}
	appendAll(t, j, 10, 15)
	hasNumbers(t, j, pools[0], 0, 15)
	hasNumbers(t, j, pools[1], 10, 15)
	hasNumbers(t, openedRedis(t, o, pools[0]), pools[0], 0, 15)
	j = openedRedis(t, o, pools[1])
	hasNumbers(t, j, pools[1], 10, 15)
	bytes := j.Bytes()
	if err := j.Begin(pools[2], nil); err != nil {
		t.Fatal(err)
	}
	if err := j.Drop(); err != nil {
		t.Fatal(err)
	}
	if j.HasSteps() || j.Bytes() >= bytes || len(server.Do("XRANGE", "site", "-", "+").([]any)) != 1 {
		t.Fatalf("the log keeps what was saved: %d bytes of %d", j.Bytes(), bytes)
	}
	hasNumbers(t, openedRedis(t, o, pools[2]), pools[2], 15, 15)
	isRefused(t, server, o, pools[1], "no record goes on from the pool file")
}

// TestOpenStreamsAreKeptInRedis has two streams that are open at saves: their steps are kept, and those of others are not.
func TestOpenStreamsAreKeptInRedis(t *testing.T) {
	t.Parallel()
	server := redistest.Start(t)
	o := options(t, server)
	j := created(t, o)
	add := func(kind frames.Kind, tenant, body string) uint64 {
		number, err := j.Append(frames.Step{Kind: kind, Tenant: tenant, Body: []byte(body)})
		if err != nil {
			t.Fatal(err)
		}
		return number
	}
	add(frames.Feed, "c", "saved")
	open := add(frames.Open, "a", "a0")
	add(frames.Feed, "c", "saved")
	add(frames.Feed, "a", "a1")
	save := func(pool Digest, open ...uint64) {
		if err := j.Begin(pool, open); err != nil {
			t.Fatal(err)
		}
		if err := j.Drop(); err != nil {
			t.Fatal(err)
		}
	}
	save(pools[1], open)
	add(frames.Feed, "a", "a2")
	add(frames.Feed, "c", "c1")
	hasTexts(t, j, pools[1], "a0", "a1", "a2", "c1")
	j.Close()
	j = openedRedis(t, o, pools[1])
	hasTexts(t, j, pools[1], "a0", "a1", "a2", "c1")
	save(pools[2], open)
	add(frames.End, "a", "a3")
	hasTexts(t, j, pools[2], "a0", "a1", "a2", "a3")
	save(pools[0])
	hasTexts(t, j, pools[0])
	if count := len(server.Do("XRANGE", "site", "-", "+").([]any)); count != 1 {
		t.Fatalf("the log keeps %d records", count)
	}
}

func TestAReaderReadsOnInRedis(t *testing.T) { readsOn(t, created(t, options(t, redistest.Start(t)))) }

// TestAnOlderPoolFileIsTold has the pool file of the save before the last: the log has what came after it, but not all of a stream that was open.
func TestAnOlderPoolFileIsTold(t *testing.T) {
	t.Parallel()
	server := redistest.Start(t)
	o := options(t, server)
	inRedis := created(t, o)
	folder := t.TempDir()
	inFiles := opened(t, folder, pools[0])
	for _, j := range []Journal{inRedis, inFiles} {
		for at, tenant := range []string{"a", "b"} {
			number, err := j.Append(frames.Step{Kind: frames.Open, Tenant: tenant})
			if err == nil {
				err = j.Begin(pools[at+1], []uint64{number})
			}
			if err == nil {
				err = j.Drop()
			}
			if err != nil {
				t.Fatal(err)
			}
		}
	}
	isRefused(t, server, o, pools[1], "no record goes on from the pool file")
	if _, err := Open(folder, pools[1], quiet); err == nil || !strings.Contains(err.Error(), "no segment goes on from the pool file") {
		t.Fatal(err)
	}
}

// TestWhatIsMergedIsNotInTheLog has pool files from before a tenant came from another shard, of which the log keeps the records: a server that writes
// the log may not go on from them, and one that follows may.
func TestWhatIsMergedIsNotInTheLog(t *testing.T) {
	t.Parallel()
	server := redistest.Start(t)
	o := options(t, server)
	inRedis, folder := created(t, o), t.TempDir()
	for _, j := range []Journal{inRedis, opened(t, folder, pools[0])} {
		for number := 1; number < len(pools); number++ {
			if err := j.Begin(pools[number], nil); err != nil {
				t.Fatal(err)
			}
			step := numbered(number)
			if number == 2 {
				step = frames.Step{Kind: Merged}
			}
			last, err := j.Append(step)
			if err == nil {
				err = j.Sync(last)
			}
			if err != nil {
				t.Fatal(err)
			}
		}
	}
	for number := range pools {
		if number < 2 {
			isRefused(t, server, o, pools[number], "no record goes on from the pool file")
		} else {
			openedRedis(t, o, pools[number])
		}
		if _, err := Open(folder, pools[number], quiet); (err == nil) != (number >= 2) {
			t.Fatal(number, err)
		}
	}
	follower, err := Follow(o, pools[1], errors.New("it follows"))
	if err != nil {
		t.Fatal(err)
	}
	follower.Close()
}

// TestALogThatIsTrimmedWhileItIsRead saves, and so removes records, while the log is read through: the read begins again. What is missing although
// nobody trims is lost.
func TestALogThatIsTrimmedWhileItIsRead(t *testing.T) {
	t.Parallel()
	server := redistest.Start(t)
	o := options(t, server)
	j := created(t, o)
	appendAll(t, j, 0, 3*fewestAtOnce)
	conn, err := o.connect()
	if err == nil {
		err = j.Sync(j.Number())
	}
	if err != nil {
		t.Fatal(err)
	}
	defer conn.Close()
	reads := 0
	through := func() error {
		reads++
		w := walk{address: o.Address, use: func(_ int, r Record) error {
			if reads > 1 || r.Number > 3 {
				return nil
			}
			if err := j.Begin(pools[1], nil); err != nil {
				return err
			}
			return j.Drop()
		}}
		return w.all(conn, 1, 0)
	}
	if err := unlessTrimmed(conn, o.Address, through); err != nil || reads != 2 {
		t.Fatal(reads, err)
	}
	appendAll(t, j, 0, 3)
	if err := j.Sync(j.Number()); err != nil {
		t.Fatal(err)
	}
	server.Do("XDEL", "site", idOf(j.Number()-1))
	if err := unlessTrimmed(conn, o.Address, through); err == nil || reads != 3 {
		t.Fatal(reads, err)
	}
}

func TestASecondServerTakesTheLogOver(t *testing.T) {
	t.Parallel()
	server := redistest.Start(t)
	first := created(t, options(t, server))
	appendAll(t, first, 0, 10)
	// The first one is told a step before it looks at the log again.
	first.line.Lock()
	second := openedRedis(t, options(t, server), pools[0])
	hasNumbers(t, second, pools[0], 0, 10)
	number, err := first.Append(numbered(10))
	first.line.Unlock()
	if err == nil {
		err = first.Sync(number)
	}
	if err != ErrUnsure {
		t.Fatalf("the first server appends still: %v", err)
	}
	isLost(t, first, "another server has taken the log over", true)
	if _, err := first.Append(numbered(11)); err != ErrAway {
		t.Fatalf("the first server goes on: %v", err)
	}
	if err := first.Drop(); err == nil {
		t.Fatal("the first server removes records")
	}
	appendAll(t, second, 10, 20)
	hasNumbers(t, openedRedis(t, options(t, server), pools[0]), pools[0], 0, 20)
	isLost(t, second, "another server has taken the log over", true)
}

// TestAServerIsCutOffWhileAnotherOneSaves has a server that comes back to a log which another one has taken over and trimmed.
func TestAServerIsCutOffWhileAnotherOneSaves(t *testing.T) {
	t.Parallel()
	server := redistest.Start(t)
	first := created(t, options(t, server))
	appendAll(t, first, 0, 10)
	first.line.Lock()
	second := openedRedis(t, options(t, server), pools[0])
	if err := second.Begin(pools[1], nil); err != nil {
		t.Fatal(err)
	}
	err := second.Drop()
	first.line.Unlock()
	if err != nil {
		t.Fatal(err)
	}
	select {
	case err := <-first.lost:
		var bad *BadLog
		if !errors.As(err, &bad) || !bad.IsTaken || !bad.IsLoss() || !strings.Contains(err.Error(), "another server has taken the log over") {
			t.Fatal(err)
		}
	case <-time.After(await.Longest):
		t.Fatal("the journal has noticed nothing")
	}
}

// TestALeaderThatWaitsForReplicasLives has a replica of Redis that is silent while a server waits for it: who follows does not take the log over.
func TestALeaderThatWaitsForReplicasLives(t *testing.T) {
	t.Parallel()
	primary := redistest.Start(t, "--repl-diskless-sync-delay", "0")
	host, port, _ := strings.Cut(primary.Host(), ":")
	replica := redistest.Start(t, "--replicaof", host+" "+port)
	o := options(t, primary)
	o.Replicas, o.Wait = 1, await.Longest
	j := created(t, o)
	appendAll(t, j, 0, 3)
	f := follows(t, options(t, primary))
	if err := f.takes(j.Number()); err != nil {
		t.Fatal(err)
	}
	replica.Signal(syscall.SIGSTOP)
	result := make(chan error, 1)
	go func() { result <- append1(j, 3) }()
	most := longestSilence(f, 12*time.Second)
	replica.Signal(syscall.SIGCONT)
	if err := <-result; err != nil || most > 8*time.Second {
		t.Fatalf("a server that waits for replicas was silent for %v: %v", most, err)
	}
}

// TestAppendsOfTwoServers lets two servers take the log from one another while both append: each told step is there, in order.
func TestAppendsOfTwoServers(t *testing.T) {
	t.Parallel()
	server := redistest.Start(t)
	j := created(t, options(t, server))
	var told []string
	for turn := 0; turn < 5; turn++ {
		var all sync.WaitGroup
		all.Add(1)
		isTold := make(chan struct{}, 1)
		go func(j *watched) {
			defer all.Done()
			for i := 0; append1(j, 100*turn+i) == nil; i++ {
				told = append(told, fmt.Sprint(100*turn+i))
				if i == 0 {
					isTold <- struct{}{}
				}
			}
		}(j)
		await.From(t, "a step that is told", isTold)
		time.Sleep(20 * time.Millisecond)
		j = openedRedis(t, options(t, server), pools[0])
		all.Wait()
	}
	isPart(t, j, told)
}

// isPart asks that a journal has what was told, in order.
func isPart(t testing.TB, j Journal, told []string) {
	t.Helper()
	err := j.Records(pools[0], func(r Record) error {
		if len(told) > 0 && string(r.Step.Body) == told[0] {
			told = told[1:]
		}
		return nil
	})
	if err != nil || len(told) > 0 {
		t.Fatalf("the journal lacks %v: %v", told, err)
	}
}

// TestALogThatLosesItsEnd cuts the file of Redis, as a failover to a replica that lagged behind would cut the log.
func TestALogThatLosesItsEnd(t *testing.T) {
	t.Parallel()
	server := redistest.Start(t)
	o := options(t, server)
	j := created(t, o)
	appendAll(t, j, 0, 10)
	size := server.LogBytes()
	appendAll(t, j, 10, 20)
	server.Lose(size)
	isLost(t, j, "the log lost its end", false)
	j.Close()
	isRefused(t, server, o, pools[0], "the log lost its end")
	// Another server that never had the end goes on; then the first one finds other records where its own were.
	other := openedRedis(t, options(t, server), pools[0])
	hasNumbers(t, other, pools[0], 0, 10)
	appendAll(t, other, 30, 50)
	isRefused(t, server, o, pools[0], "another one than this server had")
	if err := os.Remove(o.Place); err != nil {
		t.Fatal(err)
	}
	openedRedis(t, o, pools[0])
	isLost(t, other, "another server", true)
}

// TestALogThatLostRecordsAndWentOn has a server that finds records at places that it had others at.
func TestALogThatLostRecordsAndWentOn(t *testing.T) {
	t.Parallel()
	server := redistest.Start(t)
	first := created(t, options(t, server))
	appendAll(t, first, 0, 10)
	size := server.LogBytes()
	appendAll(t, first, 10, 20)
	server.Signal(syscall.SIGSTOP)
	first.line.Lock()
	server.Signal(syscall.SIGCONT)
	server.Lose(size)
	appendAll(t, openedRedis(t, options(t, server), pools[0]), 30, 60)
	first.line.Unlock()
	isLost(t, first, "the log lost records and went on", false)
}

func TestALogThatIsGone(t *testing.T) {
	t.Parallel()
	server := redistest.Start(t)
	o := options(t, server)
	j := created(t, o)
	appendAll(t, j, 0, 3)
	server.Do("DEL", "site")
	isLost(t, j, "the log is gone", false)
	j.Close()
	if err := CreateRedis(o, pools[0]); err == nil || !strings.Contains(err.Error(), "remove ") {
		t.Fatalf("another log is begun: %v", err)
	}
	if _, err := openRedis(o, pools[0]); err == nil || !strings.Contains(err.Error(), "there is no log") {
		t.Fatalf("the start is not refused: %v", err)
	}
}

// rewrite writes the log again with some of its records changed, as nobody but a damage would.
func rewrite(server *redistest.Server, change func(at int, record []byte) []byte) {
	entries := server.Do("XRANGE", "site", "-", "+").([]any)
	server.Do("DEL", "site")
	for at, it := range entries {
		id, record, _ := entryOf(it)
		if record = change(at, record); record != nil {
			server.Do("XADD", "site", id, recordField, record)
		}
	}
}

func TestADamagedRecordStopsTheStart(t *testing.T) {
	t.Parallel()
	server := redistest.Start(t)
	o := options(t, server)
	j := created(t, o)
	appendAll(t, j, 0, 4)
	j.Close()
	whole := server.Do("DUMP", "site").([]byte)
	entries := server.Do("XRANGE", "site", "-", "+").([]any)
	for at := range entries {
		_, record, _ := entryOf(entries[at])
		for _, flipped := range []int{0, 5, 13, headBytes + 2, len(record) / 2, len(record) - 1} {
			server.Do("RESTORE", "site", 0, whole, "REPLACE")
			rewrite(server, func(k int, record []byte) []byte {
				if k == at {
					record[flipped] ^= 1
				}
				return record
			})
			isRefused(t, server, o, pools[0], "nothing was changed")
		}
		if at > 0 {
			server.Do("RESTORE", "site", 0, whole, "REPLACE")
			rewrite(server, func(k int, record []byte) []byte {
				if k == at {
					return nil
				}
				return record
			})
			isRefused(t, server, o, pools[0], "nothing was changed")
		}
	}
	server.Do("RESTORE", "site", 0, whole, "REPLACE")
	server.Do("XADD", "site", "9-0", "something", "else")
	isRefused(t, server, o, pools[0], "the entry 9-0 is not one of this service")
	server.Do("RESTORE", "site", 0, whole, "REPLACE")
	hasNumbers(t, openedRedis(t, o, pools[0]), pools[0], 0, 4)
}

// TestAKilledRedisIsWaitedFor kills Redis again and again while two append: each step is there once, in order, and none is refused.
func TestAKilledRedisIsWaitedFor(t *testing.T) {
	t.Parallel()
	server := redistest.Start(t)
	o := options(t, server)
	o.Wait = await.Longest
	j := created(t, o)
	over := make(chan struct{})
	var all sync.WaitGroup
	count := 0
	all.Add(1)
	go func() {
		defer all.Done()
		for ; ; count++ {
			if err := append1(j, count); err != nil {
				t.Errorf("step %d: %v", count, err)
				return
			}
			select {
			case <-over:
				return
			default:
			}
		}
	}()
	for turn := 0; turn < 4; turn++ {
		time.Sleep(time.Duration(20+10*turn) * time.Millisecond)
		server.Kill()
		server.Restart()
	}
	close(over)
	all.Wait()
	hasNumbers(t, j, pools[0], 0, count+1)
	hasNumbers(t, openedRedis(t, o, pools[0]), pools[0], 0, count+1)
}

// TestASilentRedis stops Redis: a step waits, and nobody is told that it is there or that it is not. What Redis has read already it carries
// out when it goes on, after this server has given that connection up.
func TestASilentRedis(t *testing.T) {
	t.Parallel()
	server := redistest.Start(t)
	o := options(t, server)
	o.Wait = 3 * time.Second
	j := created(t, o)
	appendAll(t, j, 0, 3)
	server.Signal(syscall.SIGSTOP)
	began := time.Now()
	if err := append1(j, 3); err != ErrUnsure {
		t.Fatalf("a silent Redis: %v", err)
	}
	if waited := time.Since(began); waited < o.Wait {
		t.Fatalf("the step has waited for %v", waited)
	}
	if _, err := j.Append(numbered(4)); err != ErrAway {
		t.Fatalf("a journal that is away takes records: %v", err)
	}
	if !j.IsBroken() || j.IsHealedBySave() {
		t.Fatal("a save would heal the journal")
	}
	server.Signal(syscall.SIGCONT)
	isStale(t, j)
	if _, err := j.Append(numbered(5)); err != ErrAway {
		t.Fatalf("the journal takes records before a child has what it has: %v", err)
	}
	j.Resume()
	hasTexts(t, j, pools[0], "0", "1", "2", "3")
	appendAll(t, j, 4, 8)
	hasNumbers(t, openedRedis(t, o, pools[0]), pools[0], 0, 8)
}

// TestARedisThatDiesWithARecord kills Redis before it has read a record: when it is back, the record is not there, and it is not later on.
func TestARedisThatDiesWithARecord(t *testing.T) {
	t.Parallel()
	server := redistest.Start(t)
	o := options(t, server)
	o.Wait = 3 * time.Second
	j := created(t, o)
	appendAll(t, j, 0, 3)
	server.Signal(syscall.SIGSTOP)
	if err := append1(j, 3); err != ErrUnsure {
		t.Fatalf("a silent Redis: %v", err)
	}
	server.Kill()
	server.Restart()
	isStale(t, j)
	j.Resume()
	hasNumbers(t, j, pools[0], 0, 3)
	appendAll(t, j, 3, 6)
	hasNumbers(t, openedRedis(t, o, pools[0]), pools[0], 0, 6)
}

// TestAFullRedis has a Redis that may take no more memory: a step is refused, and nothing of it is there.
func TestAFullRedis(t *testing.T) {
	t.Parallel()
	server := redistest.Start(t)
	o := options(t, server)
	j := created(t, o)
	appendAll(t, j, 0, 3)
	server.Do("CONFIG", "SET", "maxmemory", "1")
	if err := append1(j, 3); err != ErrFull {
		t.Fatalf("a full Redis: %v", err)
	}
	if _, err := j.Append(numbered(3)); err != ErrFull {
		t.Fatalf("a full Redis: %v", err)
	}
	server.Do("CONFIG", "SET", "maxmemory", "0")
	isStale(t, j)
	j.Resume()
	hasNumbers(t, j, pools[0], 0, 3)
	appendAll(t, j, 3, 6)
	hasNumbers(t, openedRedis(t, o, pools[0]), pools[0], 0, 6)
}

// TestAFullDiskUnderRedis lets the file of Redis grow no more: Redis ends, and a step waits until it is back. The file ends inside a record
// then, which Redis cuts.
func TestAFullDiskUnderRedis(t *testing.T) {
	t.Parallel()
	server := redistest.Start(t)
	o := options(t, server)
	o.Wait = await.Longest
	j := created(t, o)
	appendAll(t, j, 0, 3)
	server.LimitFiles(server.LogBytes() + 100)
	result := make(chan error)
	go func() { result <- append1(j, 3) }()
	server.Wait()
	select {
	case err := <-result:
		t.Fatalf("a step is told although the disk is full: %v", err)
	case <-time.After(100 * time.Millisecond):
	}
	server.Restart()
	if err := <-result; err != nil {
		t.Fatal(err)
	}
	appendAll(t, j, 4, 6)
	hasNumbers(t, openedRedis(t, o, pools[0]), pools[0], 0, 6)
}

func TestARedisThatDoesNotSync(t *testing.T) {
	t.Parallel()
	for _, setting := range [][2]string{{"appendfsync", "everysec"}, {"appendonly", "no"}, {"maxmemory-policy", "allkeys-lru"}} {
		server := redistest.Start(t, "--"+setting[0], setting[1])
		o := options(t, server)
		if err := CreateRedis(o, pools[0]); !errors.Is(err, ErrUnsynced) || !strings.Contains(err.Error(), setting[0]) {
			t.Fatalf("%v: %v", setting, err)
		}
		o.IsUnsynced = true
		appendAll(t, created(t, o), 0, 3)
		o.IsUnsynced = false
		if _, err := openRedis(o, pools[0]); !errors.Is(err, ErrUnsynced) {
			t.Fatalf("%v: %v", setting, err)
		}
	}
}

// TestReplicas has a replica that stops: a step waits for it, and lasts when it is back.
func TestReplicas(t *testing.T) {
	t.Parallel()
	server := redistest.Start(t, "--repl-diskless-sync-delay", "0")
	host, port, _ := strings.Cut(server.Host(), ":")
	replica := redistest.Start(t, "--replicaof", host+" "+port)
	o := options(t, server)
	o.Replicas, o.Wait = 1, await.Longest
	j := created(t, o)
	appendAll(t, j, 0, 3)
	replica.Signal(syscall.SIGSTOP)
	result := make(chan error)
	go func() { result <- append1(j, 3) }()
	select {
	case err := <-result:
		t.Fatalf("a step is told that no replica has: %v", err)
	case <-time.After(200 * time.Millisecond):
	}
	replica.Signal(syscall.SIGCONT)
	if err := <-result; err != nil {
		t.Fatal(err)
	}
	hasNumbers(t, j, pools[0], 0, 4)
	if count, err := redis.Int(replica.Do("XLEN", "site"), nil); err != nil || count != 6 {
		t.Fatalf("the replica has %d records: %v", count, err)
	}
	address, _ := ParseAddress(replica.Address("site"), "")
	o.Address, o.Wait = address, 100*time.Millisecond
	if _, err := openRedis(o, pools[0]); err == nil || !strings.Contains(err.Error(), "is a replica") {
		t.Fatalf("a server starts on a replica: %v", err)
	}
}

// TestAStartWaitsForReplicas has a replica that is away for longer than a push would wait, as after a failover: the start waits for it, and
// appends one record.
func TestAStartWaitsForReplicas(t *testing.T) {
	t.Parallel()
	primary := redistest.Start(t, "--repl-diskless-sync-delay", "0")
	host, port, _ := strings.Cut(primary.Host(), ":")
	replica := redistest.Start(t, "--replicaof", host+" "+port)
	o := options(t, primary)
	if err := CreateRedis(o, pools[0]); err != nil {
		t.Fatal(err)
	}
	o.Wait, o.Replicas = 6*time.Second, 1
	replica.Kill()
	time.AfterFunc(10*time.Second, replica.Restart)
	began := time.Now()
	j := openedRedis(t, o, pools[0])
	if took := time.Since(began); took < 9*time.Second {
		t.Fatalf("the start did not wait: %v", took)
	}
	// A record for each connection: on a busy machine one may break.
	if count := len(replica.Do("XRANGE", "site", "-", "+").([]any)); count < 2 || count > 3 {
		t.Fatalf("the log has %d records", count)
	}
	hasNumbers(t, j, pools[0], 0, 0)
}

// TestALogWithoutReplicasDoesNotGrow has replicas that are away for long: the server tries again and again, and appends one record.
func TestALogWithoutReplicasDoesNotGrow(t *testing.T) {
	t.Parallel()
	primary := redistest.Start(t, "--repl-diskless-sync-delay", "0")
	host, port, _ := strings.Cut(primary.Host(), ":")
	replica := redistest.Start(t, "--replicaof", host+" "+port)
	o := options(t, primary)
	o.Replicas, o.Wait = 1, 5*time.Second
	j := created(t, o)
	appendAll(t, j, 0, 3)
	replica.Signal(syscall.SIGSTOP)
	if err := append1(j, 3); err != ErrUnsure {
		t.Fatal(err)
	}
	length := func() int { return len(primary.Do("XRANGE", "site", "-", "+").([]any)) }
	before := length()
	time.Sleep(5 * time.Second)
	if more := length() - before; more > 1 {
		t.Errorf("the log has %d more records", more)
	}
	replica.Signal(syscall.SIGCONT)
	isStale(t, j)
	j.Resume()
	hasTexts(t, j, pools[0], "0", "1", "2", "3")
	appendAll(t, j, 4, 8)
	hasNumbers(t, openedRedis(t, o, pools[0]), pools[0], 0, 8)
}

func TestAddresses(t *testing.T) {
	for text, want := range map[string]string{
		"redis://h:1/k": "redis://h:1/k", "redis://u@h:1/k/l": "redis://h:1/k/l", "rediss://h:1/k": "rediss://h:1/k",
		"sentinel://h:1,i:2/main/k": "sentinel://h:1,i:2/main/k",
	} {
		it, err := ParseAddress(text, "")
		if err != nil || it.String() != want {
			t.Errorf("%s is read as %v: %v", text, it, err)
		}
	}
	for _, text := range []string{"", "redis://h:1", "redis://h:1/", "redis:///k", "http://h/k", "redis://h:1,i:2/k", "sentinel://h:1/main",
		"sentinel://h:1//k", "redis://u:secret@h:1/k"} {
		if it, err := ParseAddress(text, ""); err == nil {
			t.Errorf("%s is read as %v", text, it)
		}
	}
}

// TestAPassword has a Redis that asks for one.
func TestAPassword(t *testing.T) {
	t.Parallel()
	server := redistest.Start(t)
	server.Do("CONFIG", "SET", "requirepass", "secret")
	o := options(t, server)
	if err := CreateRedis(o, pools[0]); err == nil || !strings.Contains(err.Error(), "NOAUTH") {
		t.Fatalf("without a password: %v", err)
	}
	o.Address.password = "secret"
	appendAll(t, created(t, o), 0, 3)
	o.Address.user = "default"
	hasNumbers(t, openedRedis(t, o, pools[0]), pools[0], 0, 3)
}

// TestSentinel kills a primary: the journal goes on with the replica that Sentinel puts in its place.
func TestSentinel(t *testing.T) {
	t.Parallel()
	primary := redistest.Start(t, "--repl-diskless-sync-delay", "0")
	host, port, _ := strings.Cut(primary.Host(), ":")
	replica := redistest.Start(t, "--replicaof", host+" "+port)
	sentinel := redistest.StartSentinel(t, "main", primary)
	o := options(t, primary)
	var err error
	if o.Address, err = ParseAddress("sentinel://"+sentinel.Host()+"/main/site", ""); err != nil {
		t.Fatal(err)
	}
	o.Wait = await.Longest
	j := created(t, o)
	appendAll(t, j, 0, 5)
	isThere := func() bool {
		count, err := redis.Int(replica.Do("XLEN", "site"), nil)
		return err == nil && count == 7 && len(sentinel.Do("SENTINEL", "REPLICAS", "main").([]any)) == 1
	}
	await.Until(t, "a replica", isThere)
	f := follows(t, o)
	primary.Kill()
	appendAll(t, j, 5, 8)
	hasNumbers(t, j, pools[0], 0, 8)
	if err := f.takes(j.Number()); err != nil || strings.Join(f.texts, " ") != "0 1 2 3 4 5 6 7" {
		t.Fatal(f.texts, err)
	}
	if number, err := f.Fresh(background); err != nil || number != j.Number() {
		t.Fatal(number, err)
	}
	if count, err := redis.Int(replica.Do("XLEN", "site"), nil); err != nil || count != 10 {
		t.Fatalf("the replica has %d records: %v", count, err)
	}
}

func TestEveryRecordInRedisCanBeReadBack(t *testing.T) {
	o := options(t, redistest.Start(t))
	// Each answer of Redis is waited for a third of that: it takes and gives a hundred megabytes and more.
	o.Wait = 5 * await.Longest
	j := created(t, o)
	takesWhatItReads(t, j)
	hasLargest(t, j, pools[0])
	open := make([]uint64, mostOpen+1)
	if err := j.Begin(pools[1], open); !errors.Is(err, ErrTooLarge) {
		t.Fatal(err)
	}
	j.Close()
	hasLargest(t, openedRedis(t, o, pools[0]), pools[0])
}
