// Package store keeps one pool: a child that has it in memory, a pool file, and the journal beside the file.
//
// The journal is the truth. A stream's steps are written to it before the child gets them, and the end of a push is synced before
// the child gets it. So the child is at every moment what the pool file and the journal come to, or behind that; when it dies,
// another one is started and carries the journal out.
//
// The child works on a link of the pool file in a room of its own, so that nothing it writes becomes the pool file by itself: a save
// counts from the moment at which the store takes the file out of that room (save.go).
package store

import (
	"context"
	"errors"
	"fmt"
	"os"
	"path/filepath"
	"sync"
	"sync/atomic"
	"syscall"
	"time"

	"gitpoold/child"
	"gitpoold/frames"
	"gitpoold/idempotency"
	"gitpoold/journal"
	"gitpoold/poolfile"
	"gitpoold/regular"
)

var (
	// ErrUnknown says that the end of a push is in the journal, and that the server stopped before it was carried out. It is carried
	// out at the next start.
	ErrUnknown = errors.New("the server stopped while it kept this push; fetch to see whether it is there")
	// ErrClosed says that the server stops.
	ErrClosed = errors.New("the server stops; try again")
	// ErrLoad says that the child cannot load the pool file or carry the journal out.
	ErrLoad = errors.New("the pool cannot be loaded")
	// ErrInHand says that another server has the folder, or another run its pool file.
	ErrInHand = errors.New("another server or run has this in hand")
)

// Refused is a step that the child refused, by the number of its fault.
type Refused struct{ Number int }

func (r *Refused) Error() string { return fmt.Sprintf("fault %d", r.Number) }

// Config says where a pool is and who keeps it.
type Config struct {
	// Folder has `pool` and `journal`.
	Folder string
	// Program is the path of `gitpool`.
	Program string
	// ChildMemory is the most bytes of its own that the child may take, without the files that it maps; 0 for no limit.
	ChildMemory int64
	// Log says which log in Redis has the journal; without it, the journal is in the folder's files.
	Log *journal.Options
	// Copy is a path to which each save copies the pool file before the journal drops what the file has; empty for none.
	Copy string
	// Follows is what a change is told while the store follows a log in Redis that another server writes; nil where this server takes the log
	// over at its start.
	Follows error
	// SecondChild gives the size of a pool file from which on a second child answers questions while the first one saves, 0 for never; nil is never.
	SecondChild func() int64
	// Turn has room for one: the shard whose save has a second child, so that there is one at a time. It is nil for a store alone.
	Turn chan struct{}
	// Stop ends the server at once: the log in Redis is another server's now, or lost records. It does not return.
	Stop func(why error)
	// Tell writes a line for the operator.
	Tell func(format string, values ...any)
}

// Store is one pool. Its methods may be called by many goroutines at once.
type Store struct {
	config   *Config
	pool     poolFile
	locks    locks
	journal  *wal
	child    *childGate
	streams  openStreams
	maintain chan *upkeep
	stopping chan struct{}
	closing  chan struct{}
	once     sync.Once

	*follower
	keptAnswers
	recovery
	saver
	usage
	counters
	inDoubt inDoubt
}

// Counts are what a store did since its start.
type Counts struct {
	Steps, Pushes, Refused, GivenUp, Saves, FailedSaves, Recoveries int64
	LastSave                                                        time.Time
	// LastEnd says how the last child ended that nobody told to end, and EndedAt when; both are empty where none did.
	LastEnd string
	EndedAt time.Time
}

// counters count what a store does.
type counters struct {
	mutex  sync.Mutex
	counts Counts
	steps  atomic.Int64
}

func (c *counters) count(change func(*Counts)) {
	c.mutex.Lock()
	defer c.mutex.Unlock()
	change(&c.counts)
}

// Counts gives what the store did.
func (c *counters) Counts() Counts {
	c.mutex.Lock()
	defer c.mutex.Unlock()
	counts := c.counts
	counts.Steps = c.steps.Load()
	return counts
}

// Open takes a pool up: it reads the journal through, starts the child, and carries out what the pool file has not.
func Open(config Config) (*Store, error) {
	held, pool, err := lockAll(config.Folder)
	if err != nil {
		return nil, err
	}
	s := newStore(&config, held, pool)
	if err := s.begin(); err != nil {
		held.close()
		return nil, err
	}
	s.maintain <- &upkeep{}
	return s, nil
}

// newStore gives a store that has no child. Nobody has the turn of maintenance until it has one: a log may report a loss before.
func newStore(config *Config, held locks, pool string) *Store {
	closing := make(chan struct{})
	s := &Store{config: config, pool: poolFile{config: config, path: pool}, locks: held, journal: &wal{tell: config.Tell},
		child: &childGate{gate: newGate(), closing: closing}, streams: openStreams{gate: newGate(), of: map[string]*Stream{}},
		maintain: make(chan *upkeep, 1), stopping: make(chan struct{}), closing: closing,
		inDoubt: inDoubt{ends: map[uint64]end{}, closing: closing}, saver: saver{wanted: make(chan struct{}, 1)},
		recovery: recovery{rescuing: make(chan struct{})}}
	s.saver.store, s.recovery.store, s.keptAnswers.log = s, s, s.journal
	return s
}

func (s *Store) begin() error {
	for _, folder := range []string{s.config.work(), s.config.file("journal")} {
		if err := os.MkdirAll(folder, 0o700); err != nil {
			return err
		}
	}
	if err := sweep(s.config.work()); err != nil {
		return err
	}
	if err := dropUnfinished(s.config.file(rescuedName)); err != nil {
		return err
	}
	if err := os.RemoveAll(s.pool.beside()); err != nil {
		return err
	}
	digest, err := s.pool.digest()
	if err != nil {
		return err
	}
	if s.answers, err = idempotency.Open(s.config.Folder, s.config.Tell); err != nil {
		return err
	}
	if s.journal.Journal, err = s.openJournal(digest); err != nil {
		return err
	}
	// Nobody else has the store yet.
	if err := (exclusive{maintenance{Store: s}}).start(); err != nil {
		s.journal.Close()
		return err
	}
	if s.follower != nil {
		go s.follower.followOn()
	}
	return nil
}

// locks keep others out for as long as they are open: a second server of the folder, and a run of the program on its pool file, by the name that it
// has in the folder and by the one to which a link leads.
type locks struct{ folder, pool, linked *os.File }

// lockAll locks a folder, and finds where its pool file is.
func lockAll(folder string) (l locks, pool string, err error) {
	named := filepath.Join(folder, "pool")
	if pool, err = poolfile.Find(named); err != nil {
		return l, "", err
	}
	if l.folder, err = lockFile(filepath.Join(folder, "lock")); err != nil {
		return locks{}, "", fmt.Errorf("%s: %w", folder, err)
	}
	if l.pool, err = lockFile(named + ".new"); err == nil && !isSameFolder(pool, named) {
		l.linked, err = lockFile(pool + ".new")
	}
	if err != nil {
		l.close()
		return locks{}, "", fmt.Errorf("%s: %w", named, err)
	}
	return l, pool, nil
}

// isSameFolder tells whether two paths have the same name in the same folder, whatever that folder is called.
func isSameFolder(one, other string) bool {
	real, err := filepath.EvalSymlinks(filepath.Dir(other))
	return err == nil && one == filepath.Join(real, filepath.Base(other))
}

// Hold keeps servers from a folder, in which none runs, until the call that it gives. It is ErrInHand where one runs.
func Hold(folder string) (release func(), err error) {
	held, _, err := lockAll(folder)
	if err != nil {
		return nil, err
	}
	if err := regular.Own(held.folder, folder); err != nil {
		held.close()
		return nil, err
	}
	return held.close, nil
}

// lockWait is how long a lock is waited for. A server that is killed while it starts a process leaves its locks to that process, which has them
// until it executes its program.
const lockWait = 2 * time.Second

// lockFile locks a file, and waits for at most lockWait while another has the lock.
func lockFile(path string) (*os.File, error) {
	for until := time.Now().Add(lockWait); ; time.Sleep(10 * time.Millisecond) {
		file, err := tryLockFile(path)
		if !errors.Is(err, ErrInHand) || time.Now().After(until) {
			return file, err
		}
	}
}

// tryLockFile makes a file and locks it, as `gitpool` does with the lock file of a pool file.
func tryLockFile(path string) (*os.File, error) {
	file, err := os.OpenFile(path, os.O_RDWR|os.O_CREATE|syscall.O_NOFOLLOW|syscall.O_NONBLOCK, 0o600)
	if err != nil {
		return nil, err
	}
	if syscall.Flock(int(file.Fd()), syscall.LOCK_EX|syscall.LOCK_NB) == nil {
		// Whoever has the lock takes the name away.
		mine, err := file.Stat()
		named, errNamed := os.Lstat(path)
		if err == nil && errNamed == nil && os.SameFile(mine, named) {
			return file, nil
		}
	}
	file.Close()
	return nil, ErrInHand
}

func (l locks) close() {
	for _, it := range []*os.File{l.linked, l.pool} {
		if it != nil {
			os.Remove(it.Name())
			it.Close()
		}
	}
	l.folder.Close()
}

// Answers are those to questions that were asked together. They may be waited for.
type Answers interface {
	// Wait gives the answers in the order of the questions, child.ErrGone, or the context's error.
	Wait(ctx context.Context) ([]frames.Answer, error)
}

// Ask sends questions to the child in one batch, or to the second one while the first one saves. It waits while the child is replaced, as long as
// the context lasts. A store that follows a log first comes to what the log has; else it is journal.ErrBehind.
func (s *Store) Ask(ctx context.Context, class child.Class, steps ...frames.Step) (Answers, error) {
	for {
		in, err := s.enterFresh(ctx)
		if err != nil {
			return nil, err
		}
		batch, err := in.process.Send(ctx, class, steps...)
		in.leave()
		if !in.isBeside || !errors.Is(err, child.ErrGone) {
			s.counters.steps.Add(int64(len(steps)))
			return batch, err
		}
		// It has ended, or is about to.
		s.child.dropBeside(in.process)
	}
}

// RecountAll asks the child what tenants have at their last checkpoints, for Usages and Bytes. It waits for its turn as long as the context lasts.
func (s *Store) RecountAll(ctx context.Context) error {
	if s.child.isClosing() {
		return ErrClosed
	}
	m, err := s.beginMaintenance(ctx)
	if err != nil {
		return err
	}
	defer m.done()
	turn, err := s.follower.holdTurn(ctx)
	if err != nil {
		return err
	}
	defer turn.end()
	x, err := m.shut(ctx)
	if err != nil {
		return err
	}
	defer x.open()
	return s.usage.readFrom(s.child.process)
}

// State is how a store stands now.
type State struct {
	Counts
	Streams       int
	JournalBytes  int64
	JournalBroken bool
	IsAnswering   bool
	// Records is the number of the last record.
	FirstSegment, LastSegment, Records uint64
	// SecondPid is the process of the second child, which there is for the time of a save.
	ChildPid, SecondPid int
	// Tenants is how many tenants have something, and TenantBytes how much all of them have.
	Tenants     int
	TenantBytes int64
	// Log is nil where the journal is in files.
	Log *journal.RedisCounts
}

// State tells how the store stands. While the child is replaced, or saves without a second one, its process is 0.
func (s *Store) State() State {
	state := State{Counts: s.Counts(), JournalBytes: s.journal.Bytes(), JournalBroken: s.journal.IsBroken(),
		Records: s.journal.Number()}
	state.FirstSegment, state.LastSegment = s.journal.Segments()
	if log, isRedis := s.journal.Journal.(interface{ Counts() journal.RedisCounts }); isRedis {
		counts := log.Counts()
		state.Log = &counts
	}
	state.Tenants, state.TenantBytes = s.usage.all()
	state.Streams = len(s.streams.those(func(*Stream) bool { return true }))
	if second := s.child.second.Load(); second != nil {
		state.SecondPid = second.Pid()
	}
	if newest := s.child.newest.Load(); s.child.isAnswering() {
		state.IsAnswering, state.ChildPid = true, newest.Pid()
	}
	return state
}

// Close saves, lets no step in any more, and ends the child. Where the save fails, the journal has what the pool file lacks.
func (s *Store) Close(ctx context.Context) error {
	close(s.stopping)
	err := s.Save(ctx)
	s.end()
	return err
}

// Abort ends the store without a save. The journal has what the pool file lacks.
func (s *Store) Abort() {
	close(s.stopping)
	s.end()
}

func (s *Store) end() {
	s.once.Do(func() { close(s.closing) })
	m, _ := s.beginMaintenance(context.Background())
	s.child.process.Kill()
	// Whoever waits inside for the child has been told that it is gone.
	m.alone()
	os.RemoveAll(s.child.room)
	if s.follower != nil {
		<-s.ended
	}
	s.journal.Close()
	s.locks.close()
}
