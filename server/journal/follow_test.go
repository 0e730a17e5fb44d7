package journal

import (
	"context"
	"errors"
	"fmt"
	"path/filepath"
	"strings"
	"sync"
	"testing"
	"time"

	"gitpoold/await"
	"gitpoold/redistest"
)

var (
	errRefused = errors.New("refused")
	background = context.Background()
)

// followed is a log that is followed, with the texts of the records that came, and what it was lost by.
type followed struct {
	*Following
	texts []string
	saves []Digest
	lost  chan error
}

func follows(t testing.TB, o Options) *followed {
	t.Helper()
	o.Place = filepath.Join(t.TempDir(), "log-place")
	it := &followed{lost: make(chan error, 1)}
	o.Lost = func(err error) { it.lost <- err }
	o.Stale = func() {}
	opened, err := Follow(o, pools[0], errRefused)
	if err != nil {
		t.Fatal(err)
	}
	it.Following = opened
	if err := it.Rewind(pools[0]); err != nil {
		t.Fatal(err)
	}
	t.Cleanup(func() { it.Close() })
	return it
}

// takes takes what comes until the record of a number is there, or an error.
func (f *followed) takes(number uint64) error {
	for until := time.Now().Add(await.Longest); f.Number() < number; {
		entries, err := f.Read()
		if err != nil && !errors.Is(err, ErrUnread) || time.Now().After(until) || f.isClosed() {
			return fmt.Errorf("record %d does not come: %v", number, err)
		}
		for f.HasNext(&entries) {
			it, err := f.Take(&entries)
			if err != nil {
				return err
			}
			if it.IsSave {
				f.saves = append(f.saves, it.Pool)
			} else if it.Step.Kind != TakenOver {
				f.texts = append(f.texts, string(it.Step.Body))
			}
			f.Arrive(it.Number)
		}
	}
	return nil
}

func TestALogIsFollowed(t *testing.T) {
	t.Parallel()
	server := redistest.Start(t)
	o := options(t, server)
	j := created(t, o)
	appendAll(t, j, 0, 5)
	f := follows(t, o)
	appendAll(t, j, 5, 8)
	if err := j.Begin(pools[1], nil); err != nil {
		t.Fatal(err)
	}
	appendAll(t, j, 8, 10)
	f.has(t, j)
	if strings.Join(f.texts, " ") != "0 1 2 3 4 5 6 7 8 9" || len(f.saves) != 1 || f.saves[0] != pools[1] {
		t.Fatal(f.texts, f.saves)
	}
	if number, err := f.Fresh(background); err != nil || number != j.Number() {
		t.Fatal(number, err)
	}
	hasNumbers(t, f, pools[0], 0, 10)
	if err := append1(f, 1); err != errRefused || f.Begin(pools[2], nil) != errRefused || f.Drop() != errRefused {
		t.Fatal("the log takes changes")
	}
	if records, _ := f.Behind(); records != 0 {
		t.Fatalf("%d records behind", records)
	}
}

// TestALogIsRewound takes a log again from a save on, and goes on after its Redis was killed.
func TestALogIsRewound(t *testing.T) {
	t.Parallel()
	server := redistest.Start(t)
	o := options(t, server)
	j := created(t, o)
	appendAll(t, j, 0, 3)
	if err := j.Begin(pools[1], nil); err != nil {
		t.Fatal(err)
	}
	appendAll(t, j, 3, 5)
	f := follows(t, o)
	f.has(t, j)
	if err := f.Rewind(pools[1]); err != nil || f.HasCome(j.Number()) {
		t.Fatal(err)
	}
	f.texts = nil
	f.has(t, j)
	server.Kill()
	server.Restart()
	appendAll(t, j, 5, 7)
	f.has(t, j)
	if strings.Join(f.texts, " ") != "3 4 5 6" {
		t.Fatal(f.texts)
	}
}

// has takes all that a journal has.
func (f *followed) has(t testing.TB, j Journal) {
	t.Helper()
	if err := f.takes(j.Number()); err != nil {
		t.Fatal(err)
	}
}

// TestATrimKeepsSavesForFollowers has a log of which some saves more are kept once somebody follows it.
func TestATrimKeepsSavesForFollowers(t *testing.T) {
	t.Parallel()
	server := redistest.Start(t)
	o := options(t, server)
	j := created(t, o)
	savesAndDrops(t, server, j, pools[0], 1)
	f := follows(t, o)
	f.has(t, j)
	for saves := 1; saves <= mostKept+2; saves++ {
		kept := saves
		if kept > mostKept {
			kept = mostKept
		}
		savesAndDrops(t, server, j, Digest{byte(saves)}, 1+4*kept)
	}
	j.Close()
	last := Digest{mostKept + 2}
	j = openedRedis(t, o, last)
	if j.HasSteps() || j.Bytes() > 300 {
		t.Fatalf("a start would need %d bytes", j.Bytes())
	}
	appendAll(t, j, 0, 1)
	hasNumbers(t, j, last, 0, 1)
	var bad *BadLog
	if err := f.takes(j.Number()); !errors.As(err, &bad) || !bad.NeedsCopy || bad.IsLoss() {
		t.Fatal(err)
	}
	o.Place += "-late"
	if _, err := Follow(o, pools[0], errRefused); !errors.As(err, &bad) || !strings.Contains(err.Error(), "no record goes on from the pool file") {
		t.Fatal(err)
	}
	server.Do("DEL", "site/followers")
	savesAndDrops(t, server, j, pools[0], 1)
}

// TestFollowersOutliveAClockThatJumps has a Redis whose clock jumps by a day, so that what is kept there for a time ends a day earlier: the log is
// still one that is followed.
func TestFollowersOutliveAClockThatJumps(t *testing.T) {
	t.Parallel()
	server := redistest.Start(t)
	o := options(t, server)
	j := created(t, o)
	f := follows(t, o)
	left := server.Do("PTTL", "site/followers").(int64)
	server.Do("PEXPIRE", "site/followers", left-(24*time.Hour).Milliseconds())
	if !j.IsFollowed() {
		t.Fatal("the log is followed no more")
	}
	f.has(t, j)
}

// TestALogThatIsAwayMayBeFollowed asks whether a log is followed while its Redis is there, which says that it is not, and while that is away.
func TestALogThatIsAwayMayBeFollowed(t *testing.T) {
	t.Parallel()
	server := redistest.Start(t)
	j := created(t, options(t, server))
	if j.IsFollowed() {
		t.Fatal("a log that nobody follows is followed")
	}
	server.Kill()
	for looks := 0; looks < 3; looks++ {
		if !j.IsFollowed() {
			t.Fatal("nobody follows a log of which Redis says nothing")
		}
		time.Sleep(lookEvery)
	}
}

// TestHowMuchIsKept has segments of which only the last ones are kept, because they are large, or many.
func TestHowMuchIsKept(t *testing.T) {
	large := segment{size: keptBytes - 10}
	small := segment{size: 10}
	for _, it := range []struct {
		all  []segment
		want int
	}{
		{[]segment{small}, 0}, {[]segment{large, small}, 0}, {[]segment{large, large, small}, 1}, {[]segment{small, small, large, small}, 1},
		{[]segment{small, small, small, small, small, small, small, small, small, small}, 1}, {[]segment{large, small, small}, 0},
	} {
		if got := followedFrom(it.all); got != it.want {
			t.Errorf("of %d segments those from %d on are kept, and should be from %d on", len(it.all), got, it.want)
		}
	}
}

// savesAndDrops appends three steps and saves, after which the log has so many entries.
func savesAndDrops(t testing.TB, server *redistest.Server, j *watched, pool Digest, entries int) {
	t.Helper()
	appendAll(t, j, 0, 3)
	if err := j.Begin(pool, nil); err != nil {
		t.Fatal(err)
	}
	if err := j.Drop(); err != nil {
		t.Fatal(err)
	}
	if j.HasSteps() || j.Bytes() > 200 {
		t.Fatalf("a start would need %d bytes", j.Bytes())
	}
	if count := len(server.Do("XRANGE", "site", "-", "+").([]any)); count != entries {
		t.Fatalf("the log has %d entries, and should have %d", count, entries)
	}
}

// TestOneOfManyTakesALogOver has servers that try at once to take a log over: one comes to it, the others follow it, and the one before ends.
func TestOneOfManyTakesALogOver(t *testing.T) {
	t.Parallel()
	server := redistest.Start(t)
	o := options(t, server)
	j := created(t, o)
	appendAll(t, j, 0, 3)
	var all []*followed
	for i := 0; i < 4; i++ {
		all = append(all, follows(t, o))
		all[i].has(t, j)
	}
	appendAll(t, j, 3, 4)
	if err := all[0].TakeOver(pools[0], 0); err != ErrNotAtEnd {
		t.Fatalf("a log is taken over of which a record was not taken: %v", err)
	}
	for _, it := range all {
		it.has(t, j)
	}
	leader := takenByOne(t, all)
	if append1(j, 9) == nil {
		t.Fatal("the server before tells a step")
	}
	isLost(t, j, "another server has taken the log over", true)
	appendAll(t, leader, 4, 6)
	for _, it := range all {
		if it != leader && it.IsLeading() {
			t.Fatal("two lead")
		}
		it.has(t, leader)
		if it != leader && strings.Join(it.texts, " ") != "0 1 2 3 4 5" {
			t.Fatal(it.texts)
		}
	}
	hasNumbers(t, leader, pools[0], 0, 6)
}

// takenByOne lets all try at once to take a log over, and gives the one that came to it.
func takenByOne(t testing.TB, all []*followed) *followed {
	t.Helper()
	won := make(chan *followed, len(all))
	var tries sync.WaitGroup
	for _, it := range all {
		tries.Add(1)
		go func(it *followed) {
			defer tries.Done()
			err := it.TakeOver(pools[0], 0)
			if err == nil {
				won <- it
			} else if err != ErrNotAtEnd {
				t.Error(err)
			}
		}(it)
	}
	tries.Wait()
	if len(won) != 1 {
		t.Fatalf("%d take the log over", len(won))
	}
	return <-won
}

// longestSilence looks at a server for a while.
func longestSilence(f *followed, while time.Duration) (most time.Duration) {
	for until := time.Now().Add(while); time.Now().Before(until); time.Sleep(50 * time.Millisecond) {
		if now := f.Silence(); now > most {
			most = now
		}
	}
	return most
}

// TestSignsOfLife has a server that writes nothing, one that is closed, and a Redis that is away.
func TestSignsOfLife(t *testing.T) {
	t.Parallel()
	server := redistest.Start(t)
	o := options(t, server)
	j := created(t, o)
	f := follows(t, o)
	if err := f.takes(j.Number()); err != nil {
		t.Fatal(err)
	}
	// A server that lives writes something each second, or some seconds later on a busy machine.
	const silence = 8 * time.Second
	if most := longestSilence(f, silence+2*time.Second); most > silence {
		t.Fatalf("a server that lives was silent for %v", most)
	}
	j.Close()
	if err := f.TakeOver(pools[0], silence); err != ErrNotAtEnd {
		t.Fatal(err)
	}
	await.Until(t, "the silence of a server that is gone", func() bool { return f.Silence() >= silence })
	server.Kill()
	await.Until(t, "a Redis that is away, which says of no server that it is silent", func() bool { return f.Silence() == 0 })
	server.Restart()
	if _, err := f.Fresh(background); err != nil || f.Silence() > silence {
		t.Fatal(err, f.Silence())
	}
}

// TestAFollowedLogLosesRecords has logs that lost records, went on from others, or were damaged: who follows notices each.
func TestAFollowedLogLosesRecords(t *testing.T) {
	t.Parallel()
	for what, it := range map[string]struct {
		does func(server *redistest.Server, o Options, j *watched)
		says string
	}{
		"lost its end": {func(server *redistest.Server, _ Options, j *watched) {
			server.Do("XDEL", "site", idOf(j.Number()))
		}, "the log lost its end"},
		"is gone": {func(server *redistest.Server, _ Options, _ *watched) { server.Do("DEL", "site") }, "the log is gone"},
		"went on": {func(server *redistest.Server, o Options, _ *watched) {
			again(t, server, o, 9)
		}, "record 7 is another one than this server had"},
		"has other records": {func(server *redistest.Server, o Options, _ *watched) {
			again(t, server, o, 5)
		}, "record 7 is another one than this server had"},
		"is damaged": {func(server *redistest.Server, _ Options, j *watched) {
			server.Do("XADD", "site", idOf(j.Number()+1), "record", "x")
		}, "record 8 is not as it was written"},
	} {
		it := it
		t.Run(what, func(t *testing.T) {
			t.Parallel()
			losesRecords(t, it.does, it.says)
		})
	}
}

// losesRecords follows a log to its end, lets something happen to it, and asks that this is noticed.
func losesRecords(t *testing.T, does func(server *redistest.Server, o Options, j *watched), says string) {
	server := redistest.Start(t)
	o := options(t, server)
	j := created(t, o)
	appendAll(t, j, 0, 5)
	impatient := o
	impatient.Wait = 2 * time.Second
	f := follows(t, impatient)
	f.has(t, j)
	j.Close()
	does(server, o, j)
	taken := make(chan error, 1)
	go func() { taken <- f.takes(100) }()
	var err error
	select {
	case err = <-f.lost:
	case err = <-taken:
	}
	var bad *BadLog
	if !errors.As(err, &bad) || !strings.Contains(err.Error(), says) || !bad.IsLoss() {
		t.Fatal(err)
	}
}

// again puts another log in the place of one.
func again(t testing.TB, server *redistest.Server, o Options, steps int) {
	o.Place += "-again"
	var err error
	if o.Address, err = ParseAddress(server.Address("other"), ""); err != nil {
		t.Fatal(err)
	}
	other := created(t, o)
	appendAll(t, other, 20, 20+steps)
	other.Close()
	server.Do("RENAME", "other", "site")
}

// TestARedisThatWasReplaced has a Redis that is a replica of another one by now: nobody is answered by what it has.
func TestARedisThatWasReplaced(t *testing.T) {
	t.Parallel()
	server, other := redistest.Start(t), redistest.Start(t)
	o := options(t, server)
	j := created(t, o)
	o.Wait = 2 * time.Second
	f := follows(t, o)
	if err := f.takes(j.Number()); err != nil {
		t.Fatal(err)
	}
	host, port, _ := strings.Cut(other.Host(), ":")
	other.Do("REPLICAOF", "NO", "ONE")
	j.Close()
	server.Do("REPLICAOF", host, port)
	if _, err := f.Fresh(background); err != ErrBehind {
		t.Fatal(err)
	}
	server.Do("REPLICAOF", "NO", "ONE")
}
