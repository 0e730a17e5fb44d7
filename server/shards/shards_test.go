package shards

import (
	"bytes"
	"context"
	"errors"
	"fmt"
	"os"
	"os/exec"
	"path/filepath"
	"strings"
	"sync"
	"sync/atomic"
	"testing"
	"time"

	"gitpoold/await"
	"gitpoold/child"
	"gitpoold/frames"
	"gitpoold/journal"
	"gitpoold/redistest"
	"gitpoold/store"
)

var background = context.Background()

func program(t testing.TB) string {
	t.Helper()
	found := os.Getenv("GITPOOL")
	if found == "" {
		t.Skip("GITPOOL names no program")
	}
	return found
}

// inFiles makes a folder with shards whose journals are in files.
func inFiles(t testing.TB, count int) Config {
	t.Helper()
	c := Config{Store: store.Config{Folder: t.TempDir(), Program: program(t), Tell: func(form string, values ...any) {
		if testing.Verbose() {
			fmt.Printf(form+"\n", values...)
		}
	}, Stop: func(why error) { t.Errorf("the server stops: %v", why) }}}
	must(t, Create(c.Store.Folder, c.Store.Program, count, nil))
	return c
}

// inRedis makes a folder with shards, each with a log in a Redis of its own.
func inRedis(t testing.TB, servers ...*redistest.Server) Config {
	t.Helper()
	c := inFiles(t, 1)
	for at, it := range servers {
		address, err := journal.ParseAddress(it.Address(fmt.Sprint("log", at+1)), "")
		must(t, err)
		c.Logs = append(c.Logs, journal.Options{Address: address, Wait: 3 * time.Second})
	}
	must(t, Create(c.Store.Folder, c.Store.Program, len(servers), c.Logs))
	return c
}

func must(t testing.TB, err error) {
	t.Helper()
	if err != nil {
		t.Fatal(err)
	}
}

func opened(t testing.TB, c Config) *Set {
	t.Helper()
	s, err := Open(c)
	must(t, err)
	return s
}

// crash ends all shards without a save.
func crash(s *Set) {
	s.once.Do(func() { close(s.stopping) })
	for _, it := range s.stores {
		it.Abort()
	}
	if s.table != nil {
		s.table.close()
	}
}

const header = "feature force\nfeature done\n"

// push adds a commit with this message to the branch main of a tenant.
func push(s *Set, tenant, text string) error {
	from := ""
	if answer, err := asked(s, tenant, "rev-parse refs/heads/main"); err != nil {
		return err
	} else if answer.Status == frames.Ok {
		from = "from refs/heads/main^0\n"
	}
	st, err := s.Begin(background, tenant, store.Whole)
	if err != nil {
		return err
	}
	defer st.GiveUp()
	body := fmt.Sprintf("%scommit refs/heads/main\ncommitter a <a@b> 1 +0000\ndata %d\n%s\n%sdone\n", header, len(text), text, from)
	_, err = st.Commit(background, []byte(body))
	return err
}

func asked(s *Set, tenant, query string) (frames.Answer, error) {
	answers, err := s.Ask(background, child.Short, frames.Step{Kind: frames.Ask, Tenant: tenant, Body: []byte(query)})
	if err != nil {
		return frames.Answer{}, err
	}
	all, err := answers.Wait(background)
	if err != nil {
		return frames.Answer{}, err
	}
	return all[0], nil
}

// messages gives the messages of a tenant's branch main, from new to old.
func messages(t testing.TB, s *Set, tenant string) (all []string) {
	t.Helper()
	answer, err := asked(s, tenant, "log refs/heads/main")
	must(t, err)
	for _, line := range strings.Split(string(answer.Reply), "\n") {
		if len(line) > 41 {
			all = append(all, line[41:])
		}
	}
	return all
}

func hasMessages(t testing.TB, s *Set, tenant string, want ...string) {
	t.Helper()
	got := messages(t, s, tenant)
	if len(got) != len(want) {
		t.Fatalf("%s has %q, wanted %q", tenant, got, want)
	}
	have := map[string]bool{}
	for _, it := range got {
		have[it] = true
	}
	for _, it := range want {
		if !have[it] {
			t.Fatalf("%s has %q and lacks %q", tenant, got, it)
		}
	}
}

// isIn asks that a tenant is in a shard, and in no other one.
func isIn(t testing.TB, s *Set, tenant string, number int) {
	t.Helper()
	if s.ShardOf(tenant) != number {
		t.Fatalf("%s is in shard %d, wanted %d", tenant, s.ShardOf(tenant), number)
	}
	for at, it := range s.stores {
		answers, err := it.Ask(background, child.Short, frames.Step{Kind: frames.Ask, Tenant: tenant, Body: []byte("refs")})
		must(t, err)
		all, err := answers.Wait(background)
		must(t, err)
		if has := len(all[0].Reply) > 0; has != (at+1 == number) {
			t.Fatalf("shard %d has %s: %v", at+1, tenant, has)
		}
	}
}

func TestTenantsAreSpreadAndStayWhereTheyAre(t *testing.T) {
	c := inFiles(t, 3)
	s := opened(t, c)
	places := map[string]int{}
	counts := make([]int, 3)
	for i := 0; i < 9; i++ {
		tenant := fmt.Sprint("t", i)
		must(t, push(s, tenant, "m0"))
		places[tenant] = s.ShardOf(tenant)
		counts[places[tenant]-1]++
	}
	for at, count := range counts {
		if count != 3 {
			t.Errorf("shard %d has %d tenants", at+1, count)
		}
	}
	for round := 1; round < 3; round++ {
		if round == 1 {
			crash(s)
		} else {
			must(t, s.Close(background))
		}
		s = opened(t, c)
		for tenant, number := range places {
			isIn(t, s, tenant, number)
			must(t, push(s, tenant, fmt.Sprint("m", round)))
		}
	}
	hasMessages(t, s, "t4", "m0", "m1", "m2")
	if all := s.Usages(); len(all) != 9 || all[0].Name != "t0" || all[8].Name != "t8" {
		t.Fatal(all)
	}
	must(t, s.Close(background))
}

// TestCopiesAreThereAtTheStart has copies of pool files that are gone, or of another time: a start brings them to what the pool files are.
func TestCopiesAreThereAtTheStart(t *testing.T) {
	c := inFiles(t, 2)
	c.Store.Copy = filepath.Join(t.TempDir(), "shared.pool")
	must(t, opened(t, c).Close(background))
	first, err := os.ReadFile(c.Store.Copy)
	must(t, err)
	s := opened(t, c)
	must(t, push(s, "a", "m0"))
	must(t, push(s, "b", "m0"))
	must(t, s.Close(background))
	must(t, os.WriteFile(c.Store.Copy, first, 0o600))
	must(t, os.Remove(c.Store.Copy+"-2"))
	s = opened(t, c)
	defer s.Close(background)
	for number, path := range []string{c.Store.Copy, c.Store.Copy + "-2"} {
		copied, err := os.ReadFile(path)
		must(t, err)
		pool, err := os.ReadFile(filepath.Join(Folder(c.Store.Folder, number+1), "pool"))
		must(t, err)
		if !bytes.Equal(copied, pool) || bytes.Equal(copied, first) {
			t.Fatalf("%s is not the copy of the pool file", path)
		}
	}
}

// TestTheTableOfPlacesHeals has a log of the table that can neither be written nor cut: tenants that have a place are served meanwhile, and what was
// told of places is there after it.
func TestTheTableOfPlacesHeals(t *testing.T) {
	c := inFiles(t, 2)
	s := opened(t, c)
	must(t, push(s, "a", "m0"))
	must(t, push(s, "b", "m0"))
	must(t, s.Move(background, "a", 3-s.ShardOf("a")))
	must(t, s.table.note(frames.Step{Kind: journal.Moving, Tenant: "b", Body: bodyOf(3 - s.ShardOf("b"))}))
	places := map[string]int{"a": s.ShardOf("a"), "b": s.ShardOf("b")}
	must(t, s.table.journal.Close())
	if err := push(s, "c", "m0"); err == nil || !s.States()[0].JournalBroken {
		t.Fatalf("a new tenant has a place: %v", err)
	}
	must(t, push(s, "a", "m1"))
	if isHealed, err := s.table.heal(); !isHealed {
		t.Fatal(err)
	}
	must(t, push(s, "c", "m0"))
	places["c"] = s.ShardOf("c")
	if first, last := s.table.journal.Segments(); first != 2 || last != 2 {
		t.Fatalf("the log has segments %d to %d", first, last)
	}
	crash(s)
	s = opened(t, c)
	for tenant, number := range places {
		isIn(t, s, tenant, number)
	}
	hasMessages(t, s, "a", "m0", "m1")
	must(t, s.Close(background))
}

// pushTwo lets two refs of a tenant hold a new commit, in several pieces of one push.
func pushTwo(s *Set, tenant string, at int) error {
	st, err := s.Begin(background, tenant, store.Whole)
	if err != nil {
		return err
	}
	defer st.GiveUp()
	for _, piece := range []string{header, fmt.Sprintf("commit refs/heads/main\ncommitter a <a@b> %d +0000\ndata 1\nx\n", at+1),
		"reset refs/heads/other\nfrom refs/heads/main\n\n"} {
		if _, err := st.Feed(background, []byte(piece)); err != nil {
			return err
		}
	}
	_, err = st.Commit(background, []byte("done\n"))
	return err
}

// TestACopyIsOfOneState copies a tenant again and again while pushes change two of its refs together.
func TestACopyIsOfOneState(t *testing.T) {
	s := opened(t, inFiles(t, 2))
	defer s.Close(background)
	must(t, pushTwo(s, "a", 0))
	pushed := make(chan error, 1)
	go func() {
		for at := 1; at < 40; at++ {
			if err := pushTwo(s, "a", at); err != nil {
				pushed <- err
				return
			}
		}
		pushed <- nil
	}()
	states := map[string]bool{}
	for at := 0; at < 40; at++ {
		name := fmt.Sprint("copy", at)
		must(t, s.Copy(background, "a", name))
		answer, err := asked(s, name, "refs")
		must(t, err)
		words := strings.Fields(string(answer.Reply))
		if len(words) != 4 || words[0] != words[2] {
			t.Fatalf("%s has %q", name, answer.Reply)
		}
		states[words[0]] = true
	}
	must(t, <-pushed)
	if len(states) < 2 {
		t.Fatal("no push came between two copies")
	}
}

// late is a journal that syncs when it is told to, and counts how often it was resumed.
type late struct {
	journal.Journal
	begun   chan struct{}
	syncs   chan error
	resumed atomic.Int64
}

func (l *late) Sync(uint64) error {
	l.begun <- struct{}{}
	return <-l.syncs
}

func (l *late) Resume() { l.resumed.Add(1) }

// TestATableIsReadAgainAfterItsWriters has a writer that is not told yet that its record is lost: the log takes no others under its number before.
func TestATableIsReadAgainAfterItsWriters(t *testing.T) {
	s := opened(t, inFiles(t, 2))
	defer s.Close(background)
	log := &late{Journal: s.table.journal, begun: make(chan struct{}, 1), syncs: make(chan error)}
	s.table.journal = log
	defer func() { s.table.journal = log.Journal }()
	told, read := make(chan error, 1), make(chan struct{})
	go func() { told <- s.table.put("a", 1) }()
	await.From(t, "a writer that syncs", log.begun)
	go func() {
		s.readAgain(s.table)
		close(read)
	}()
	time.Sleep(50 * time.Millisecond)
	if log.resumed.Load() > 0 {
		t.Fatal("the log takes records while a writer waits for one that it has lost")
	}
	log.syncs <- journal.ErrUnsure
	if err := <-told; err != journal.ErrUnsure {
		t.Fatal(err)
	}
	<-read
}

// unread is a journal that cannot be read so many times.
type unread struct {
	journal.Journal
	left int
}

func (u *unread) Records(pool journal.Digest, take func(journal.Record) error) error {
	if u.left--; u.left >= 0 {
		return journal.ErrUnread
	}
	return u.Journal.Records(pool, take)
}

// TestATableThatCannotBeReadStays has a table whose log is away once more when it is to be read again: all tenants are where they were.
func TestATableThatCannotBeReadStays(t *testing.T) {
	s := opened(t, inFiles(t, 2))
	defer s.Close(background)
	must(t, push(s, "a", "m0"))
	must(t, push(s, "b", "m0"))
	log := &unread{Journal: s.table.journal, left: 1}
	s.table.journal = log
	defer func() { s.table.journal = log.Journal }()
	was := s.ShardOf("a") + 10*s.ShardOf("b")
	if err := s.table.read(); err != journal.ErrUnread {
		t.Fatal(err)
	}
	if is := s.ShardOf("a") + 10*s.ShardOf("b"); is != was || s.table.isReady() || !s.States()[0].JournalBroken {
		t.Fatal("the table has other places, or takes records, or nothing tells of it:", is)
	}
	if err := push(s, "c", "m0"); !errors.Is(err, journal.ErrAway) {
		t.Fatal("a tenant has a place in a table that was not read:", err)
	}
	must(t, push(s, "b", "m1"))
	log.left = 1
	s.readAgain(s.table)
	if is := s.ShardOf("a") + 10*s.ShardOf("b"); is != was || !s.table.isReady() || s.States()[0].JournalBroken {
		t.Fatal("the table is not read again:", is)
	}
	must(t, push(s, "c", "m0"))
	hasMessages(t, s, "b", "m1", "m0")
}

// unsure is a journal that has a record by which a tenant was moved, and does not say so.
type unsure struct {
	journal.Journal
	isMoved, isBroken atomic.Bool
}

func (u *unsure) Append(steps ...frames.Step) (uint64, error) {
	u.isMoved.Store(steps[0].Kind == journal.Moved)
	return u.Journal.Append(steps...)
}

func (u *unsure) Sync(number uint64) error {
	err := u.Journal.Sync(number)
	if err == nil && u.isMoved.Load() {
		u.isBroken.Store(true)
		return journal.ErrUnsure
	}
	return err
}

func (u *unsure) IsBroken() bool { return u.isBroken.Load() || u.Journal.IsBroken() }

func (u *unsure) Resume() {
	u.isBroken.Store(false)
	u.Journal.Resume()
}

// TestATenantOfUnknownPlaceStays has a move of which nobody knows whether the table has it. Until that is known, the tenant is removed nowhere.
func TestATenantOfUnknownPlaceStays(t *testing.T) {
	s := opened(t, inFiles(t, 2))
	defer s.Close(background)
	must(t, push(s, "a", "m0"))
	log := &unsure{Journal: s.table.journal}
	s.table.journal = log
	from := s.ShardOf("a")
	if err := s.Move(background, "a", 3-from); !errors.Is(err, journal.ErrUnsure) {
		t.Fatal(err)
	}
	for _, err := range []error{s.Remove(background, "a"), s.Compact(background, "a"), s.settle("a")} {
		if !errors.Is(err, journal.ErrAway) {
			t.Fatal("a tenant is changed of which nobody knows where it is:", err)
		}
	}
	s.readAgain(s.table)
	await.Until(t, "the end of the move", func() bool { return len(s.table.pending()) == 0 })
	if s.ShardOf("a") != 3-from {
		t.Fatal("the tenant was not moved")
	}
	hasMessages(t, s, "a", "m0")
	must(t, push(s, "a", "m1"))
}

// TestAShardThatIsMissingIsTold has folders of shards that are gone, as where a disk is not mounted: neither a start nor an init takes what is left
// for all.
func TestAShardThatIsMissingIsTold(t *testing.T) {
	c := inFiles(t, 3)
	s := opened(t, c)
	for _, tenant := range []string{"a", "b", "c"} {
		must(t, push(s, tenant, "m0"))
	}
	must(t, s.Close(background))
	away := t.TempDir()
	for _, gone := range [][]int{{2}, {2, 3}} {
		for _, number := range gone {
			must(t, os.Rename(Folder(c.Store.Folder, number), Folder(away, number)))
		}
		var missing *Missing
		if _, err := Open(c); !errors.As(err, &missing) || missing.Folder != Folder(c.Store.Folder, 2) {
			t.Fatalf("a start without the shards %v: %v", gone, err)
		}
		if err := Create(c.Store.Folder, c.Store.Program, 3, nil); !errors.As(err, &missing) {
			t.Fatalf("an init without the shards %v: %v", gone, err)
		}
		for _, number := range gone {
			must(t, os.Rename(Folder(away, number), Folder(c.Store.Folder, number)))
		}
	}
	s = opened(t, c)
	defer s.Close(background)
	for _, tenant := range []string{"a", "b", "c"} {
		hasMessages(t, s, tenant, "m0")
	}
}

// TestATenantIsSettledByOne has a table that is read again many times while a move cannot be settled.
func TestATenantIsSettledByOne(t *testing.T) {
	s := opened(t, inFiles(t, 2))
	must(t, push(s, "a", "m0"))
	must(t, s.table.note(frames.Step{Kind: journal.Moving, Tenant: "a", Body: bodyOf(3 - s.ShardOf("a"))}))
	s.operator <- struct{}{}
	before := await.Goroutines()
	for range make([]int, 50) {
		s.readAgain(s.table)
	}
	// One of them settles the tenant, and waits for the operator's turn.
	await.NoMore(t, before+1)
	<-s.operator
	await.Until(t, "the end of the move", func() bool { return len(s.table.pending()) == 0 })
	must(t, s.Close(background))
}

// placing gives places to new tenants until it is stopped and has been told of one, and gives those that were told.
func placing(s *Set, at int, stop <-chan struct{}) map[string]int {
	told := map[string]int{}
	for count := 0; ; count++ {
		select {
		case <-stop:
			if len(told) > 0 {
				return told
			}
		default:
		}
		tenant := fmt.Sprintf("t%d-%d", at, count)
		if number, err := s.table.place(tenant, func([]int) int { return 1 + count%2 }); err == nil {
			told[tenant] = number
		}
	}
}

// TestPlacesThatAreToldOutliveManyFailures gives places to tenants while the log of the table fails and heals again and again.
func TestPlacesThatAreToldOutliveManyFailures(t *testing.T) {
	const writers = 4
	c := inFiles(t, 2)
	s := opened(t, c)
	told, stop := make(chan map[string]int, writers), make(chan struct{})
	for at := 0; at < writers; at++ {
		go func(at int) { told <- placing(s, at, stop) }(at)
	}
	for round := 0; round < 10; round++ {
		time.Sleep(10 * time.Millisecond)
		must(t, s.table.journal.Close())
		for isHealed := false; !isHealed; {
			isHealed, _ = s.table.heal()
		}
	}
	close(stop)
	var all []map[string]int
	for at := 0; at < writers; at++ {
		all = append(all, <-told)
	}
	crash(s)
	s = opened(t, c)
	defer s.Close(background)
	for _, places := range all {
		if len(places) == 0 {
			t.Fatal("no place was told")
		}
		for tenant, number := range places {
			if found := s.ShardOf(tenant); found != number {
				t.Fatalf("%s is in shard %d, and was told to be in %d", tenant, found, number)
			}
		}
	}
}

// TestAnEmptyShardIsFilledFirst adds a shard to a server that had one: its tenants stay, and new ones go to the new one.
func TestAnEmptyShardIsFilledFirst(t *testing.T) {
	c := inFiles(t, 1)
	s := opened(t, c)
	must(t, push(s, "old", strings.Repeat("x", 5000)))
	crash(s)
	must(t, Create(c.Store.Folder, c.Store.Program, 2, nil))
	s = opened(t, c)
	defer s.Close(background)
	isIn(t, s, "old", 1)
	must(t, push(s, "new", "m"))
	isIn(t, s, "new", 2)
	must(t, push(s, "old", "m"))
	isIn(t, s, "old", 1)
	if err := Create(c.Store.Folder, c.Store.Program, 1, nil); err == nil {
		t.Fatal("a shard is taken away")
	}
}

// TestQuestionsOfManyTenantsAreAnsweredInOrder asks shards in one batch, and for sizes among the questions.
func TestQuestionsOfManyTenantsAreAnsweredInOrder(t *testing.T) {
	s := opened(t, inFiles(t, 2))
	defer s.Close(background)
	var steps []frames.Step
	for _, tenant := range []string{"b", "a", "d", "c"} {
		must(t, push(s, tenant, "of "+tenant))
	}
	for _, tenant := range []string{"a", "b", "b", "c", "a", "d"} {
		steps = append(steps, frames.Step{Kind: frames.Ask, Tenant: tenant, Body: []byte("log refs/heads/main")})
	}
	steps = append(steps, frames.Step{Kind: frames.Sizes}, steps[0])
	answers, err := s.Ask(background, child.Short, steps...)
	must(t, err)
	all, err := answers.Wait(background)
	must(t, err)
	for at, tenant := range []string{"a", "b", "b", "c", "a", "d", "", "a"} {
		if tenant != "" && !strings.HasSuffix(strings.TrimSpace(string(all[at].Reply)), "of "+tenant) {
			t.Errorf("answer %d is %q", at, all[at].Reply)
		}
	}
	var names []string
	for _, it := range linesOf(all[6].Reply) {
		names = append(names, it.tenant)
	}
	if strings.Join(names, " ") != "a b c d" {
		t.Fatalf("%q", all[6].Reply)
	}
}

func TestTheOperatorReachesEachShard(t *testing.T) {
	c := inFiles(t, 2)
	s := opened(t, c)
	for _, tenant := range []string{"a", "b"} {
		must(t, push(s, tenant, "of "+tenant))
	}
	from := s.ShardOf("b")
	must(t, s.Copy(background, "b", "fork"))
	isIn(t, s, "fork", from)
	var refused *store.Refused
	if err := s.Copy(background, "a", "b"); !errors.As(err, &refused) || refused.Number != 33 {
		t.Fatal(err)
	}
	must(t, s.Remove(background, "fork"))
	must(t, s.Compact(background, "b"))
	// A name that was removed may be that of a copy in another shard.
	must(t, s.Copy(background, "a", "fork"))
	isIn(t, s, "fork", s.ShardOf("a"))
	must(t, s.Save(background))
	crash(s)
	s = opened(t, c)
	defer s.Close(background)
	hasMessages(t, s, "fork", "of a")
	isIn(t, s, "fork", s.ShardOf("a"))
}

func TestATenantMoves(t *testing.T) {
	c := inFiles(t, 2)
	s := opened(t, c)
	must(t, push(s, "a", "m0"))
	must(t, push(s, "b", "of b"))
	from, to := s.ShardOf("a"), s.ShardOf("b")
	if from == to {
		t.Fatal("both are in one shard")
	}
	must(t, s.Save(background))
	must(t, push(s, "a", "m1"))
	must(t, s.Move(background, "a", to))
	isIn(t, s, "a", to)
	hasMessages(t, s, "a", "m0", "m1")
	must(t, push(s, "a", "m2"))
	if bytes := s.Bytes("a"); bytes == 0 {
		t.Fatal("the tenant has no bytes")
	}
	crash(s)
	s = opened(t, c)
	isIn(t, s, "a", to)
	hasMessages(t, s, "a", "m0", "m1", "m2")
	hasMessages(t, s, "b", "of b")
	must(t, s.Move(background, "a", from))
	must(t, s.Close(background))
	s = opened(t, c)
	defer s.Close(background)
	isIn(t, s, "a", from)
	hasMessages(t, s, "a", "m0", "m1", "m2")
}

func TestAMoveIsRefused(t *testing.T) {
	s := opened(t, inFiles(t, 2))
	defer s.Close(background)
	must(t, push(s, "a", "m0"))
	for want, err := range map[string]error{
		"there is no shard 3":        s.Move(background, "a", 3),
		"there is no shard 0":        s.Move(background, "a", 0),
		"there is no such":           s.Move(background, "none", 2),
		"the repository is there al": s.Move(background, "a", s.ShardOf("a")),
	} {
		if err == nil || !strings.Contains(err.Error(), want) {
			t.Errorf("%q: %v", want, err)
		}
	}
	one := opened(t, inFiles(t, 1))
	defer one.Close(background)
	if err := one.Move(background, "a", 1); err != errOneShard {
		t.Error(err)
	}
	must(t, push(s, "a", "m1"))
}

// TestPushesAndReadsGoOnWhileTenantsMove moves two tenants to and fro while they are pushed to and read: nothing that was told is lost,
// and no answer is older than what its asker was told before.
func TestPushesAndReadsGoOnWhileTenantsMove(t *testing.T) {
	c := inFiles(t, 2)
	s := opened(t, c)
	names := []string{"a", "b", "c"}
	told := make([][]string, len(names))
	over := make(chan struct{})
	var all sync.WaitGroup
	for at, tenant := range names {
		must(t, push(s, tenant, "m0"))
		told[at] = []string{"m0"}
		all.Add(1)
		go func(at int, tenant string) {
			defer all.Done()
			for k := 1; ; k++ {
				select {
				case <-over:
					return
				default:
				}
				if got := messages(t, s, tenant); len(got) != len(told[at]) {
					t.Errorf("%s has %d messages of %d", tenant, len(got), len(told[at]))
				}
				text := fmt.Sprint("m", k)
				if err := push(s, tenant, text); err != nil {
					t.Error(err)
					return
				}
				told[at] = append(told[at], text)
			}
		}(at, tenant)
	}
	for round := 0; round < 6; round++ {
		tenant := names[round%2]
		must(t, s.Move(background, tenant, 3-s.ShardOf(tenant)))
	}
	close(over)
	all.Wait()
	for round := 0; round < 2; round++ {
		for at, tenant := range names {
			hasMessages(t, s, tenant, told[at]...)
			isIn(t, s, tenant, s.ShardOf(tenant))
		}
		crash(s)
		s = opened(t, c)
	}
	must(t, s.Close(background))
}

// TestATenantInTwoShardsIsForTheOperator has a pool file from before a move: the server does not start, and changes nothing.
func TestATenantInTwoShardsIsForTheOperator(t *testing.T) {
	c := inFiles(t, 2)
	s := opened(t, c)
	must(t, push(s, "a", "m0"))
	from := s.ShardOf("a")
	must(t, s.Close(background))
	kept := filepath.Join(t.TempDir(), "kept")
	must(t, os.Link(filepath.Join(Folder(c.Store.Folder, from), "pool"), kept))
	s = opened(t, c)
	must(t, s.Move(background, "a", 3-from))
	must(t, s.Close(background))
	place := Folder(c.Store.Folder, from)
	must(t, os.Rename(kept, filepath.Join(place, "pool")))
	must(t, os.RemoveAll(filepath.Join(place, "journal")))
	must(t, os.Remove(filepath.Join(place, "journal-begun")))
	var two *TwoPlaces
	if _, err := Open(c); !errors.As(err, &two) || two.Tenant != "a" {
		t.Fatal(err)
	}
}

func TestShardsWithLogsInRedis(t *testing.T) {
	servers := []*redistest.Server{redistest.Start(t), redistest.Start(t)}
	c := inRedis(t, servers...)
	s := opened(t, c)
	for _, tenant := range []string{"a", "b"} {
		must(t, push(s, tenant, "m0"))
	}
	to := s.ShardOf("b")
	must(t, s.Move(background, "a", to))
	must(t, push(s, "a", "m1"))
	crash(s)
	s = opened(t, c)
	isIn(t, s, "a", to)
	hasMessages(t, s, "a", "m0", "m1")
	must(t, s.Close(background))
	swapped := c
	swapped.Logs = []journal.Options{c.Logs[1], c.Logs[0]}
	if _, err := Open(swapped); err == nil {
		t.Fatal("the logs are swapped")
	}
	fewer := c
	fewer.Logs = c.Logs[:1]
	if _, err := Open(fewer); !errors.Is(err, ErrLogs) {
		t.Fatal(err)
	}
	s = opened(t, c)
	hasMessages(t, s, "a", "m0", "m1")
	must(t, s.Close(background))
}

// TestShardsGoFromFilesToRedisAndBack takes the journals of shards from files to Redis and back, by stops that save.
func TestShardsGoFromFilesToRedisAndBack(t *testing.T) {
	server := redistest.Start(t)
	c := inFiles(t, 2)
	s := opened(t, c)
	for _, tenant := range []string{"a", "b"} {
		must(t, push(s, tenant, "m0"))
	}
	there := s.ShardOf("a")
	must(t, s.Close(background))
	over := c
	for number := 1; number < 3; number++ {
		address, err := journal.ParseAddress(server.Address(fmt.Sprint("log", number)), "")
		must(t, err)
		over.Logs = append(over.Logs, journal.Options{Address: address, Wait: 3 * time.Second})
	}
	must(t, Create(c.Store.Folder, c.Store.Program, 2, over.Logs))
	s = opened(t, over)
	isIn(t, s, "a", there)
	must(t, s.Move(background, "a", 3-there))
	must(t, push(s, "a", "m1"))
	must(t, s.Close(background))
	for number := 1; number < 3; number++ {
		must(t, os.Remove(filepath.Join(Folder(c.Store.Folder, number), "log-place")))
	}
	s = opened(t, c)
	defer s.Close(background)
	isIn(t, s, "a", 3-there)
	hasMessages(t, s, "a", "m0", "m1")
	hasMessages(t, s, "b", "m0")
}

// TestALostEndStopsAllShards has a Redis that loses what was told: the server stops, and leaves a file of each shard that has it.
func TestALostEndStopsAllShards(t *testing.T) {
	servers := []*redistest.Server{redistest.Start(t), redistest.Start(t)}
	c := inRedis(t, servers...)
	why := make(chan error, 1)
	c.Store.Stop = func(err error) { why <- err }
	s := opened(t, c)
	must(t, push(s, "a", "m0"))
	size := servers[0].LogBytes()
	must(t, push(s, "b", "m0"))
	must(t, push(s, "a", "m1"))
	servers[0].Lose(size)
	var bad *journal.BadLog
	select {
	case err := <-why:
		if !errors.As(err, &bad) || bad.IsTaken {
			t.Fatal(err)
		}
	case <-time.After(await.Longest):
		t.Fatal("the server goes on")
	}
	for number, tenant := range map[int]string{s.ShardOf("a"): "a", s.ShardOf("b"): "b"} {
		file := filepath.Join(Folder(c.Store.Folder, number), "pool.rescued")
		said, err := exec.Command(program(t), "sizes", "--pool", file).Output()
		if err != nil || !strings.HasPrefix(string(said), tenant+" ") {
			t.Errorf("shard %d has saved %q (%v)", number, said, err)
		}
	}
	crash(s)
}

// TestATableWhoseRedisIsAwayComesBack kills the Redis of the table: tenants that have a place in the other one are pushed to, new ones and
// moves are refused, and all is well when it is back.
func TestATableWhoseRedisIsAwayComesBack(t *testing.T) {
	servers := []*redistest.Server{redistest.Start(t), redistest.Start(t)}
	c := inRedis(t, servers...)
	s := opened(t, c)
	for _, tenant := range []string{"a", "b"} {
		must(t, push(s, tenant, "m0"))
	}
	there := "a"
	if s.ShardOf("b") == 2 {
		there = "b"
	}
	servers[0].Kill()
	if err := s.Move(background, there, 1); err == nil {
		t.Fatal("moved without a table")
	}
	must(t, push(s, there, "m1"))
	if err := push(s, "new", "m0"); err == nil {
		t.Fatal("a new tenant without a table")
	}
	servers[0].Restart()
	await.Until(t, "a table that is back", func() bool { return push(s, "new", "m0") == nil })
	await.Until(t, "a move", func() bool { return s.Move(background, there, 1) == nil })
	isIn(t, s, there, 1)
	hasMessages(t, s, there, "m0", "m1")
	must(t, push(s, there, "m2"))
	crash(s)
	s = opened(t, c)
	isIn(t, s, there, 1)
	hasMessages(t, s, there, "m0", "m1", "m2")
	must(t, s.Close(background))
}
