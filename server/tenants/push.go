package tenants

import (
	"context"
	"errors"
	"fmt"
	"sort"
	"strings"

	"gitpoold/faults"
	"gitpoold/plumbing"
	"gitpoold/store"
)

// Refs are the refs of a tenant while its lock is held, in the order of their names.
type Refs []Ref

// Target gives what a ref holds: the zero Name where it is not there.
func (r Refs) Target(ref string) plumbing.Name {
	if at := r.from(ref); at < len(r) && r[at].Name == ref {
		return r[at].Target
	}
	return plumbing.Name{}
}

// Below gives the refs that stand below a name: those that begin with it and a slash.
func (r Refs) Below(name string) Refs {
	// The byte after a slash is the zero.
	return r[r.from(name+"/"):r.from(name+"0")]
}

// from is the place of the first ref that is not before a name.
func (r Refs) from(name string) int {
	return sort.Search(len(r), func(at int) bool { return r[at].Name >= name })
}

// Head gives the ref that HEAD names, which may hold nothing.
func (t Tenant) Head(ctx context.Context) (string, error) {
	reply, err := t.Ask(ctx, "head")
	return strings.TrimSuffix(string(reply), "\n"), err
}

// ErrOtherName says that an object of a push would get another name than it has, so it is not kept as it is.
var ErrOtherName = errors.New("an object would come to another name, so gitpool does not keep it as it is")

// pieceBytes is how much of a stream goes to the child at once: a piece this small holds up nobody's question for long.
const pieceBytes = 64 << 10

// piecesAhead is how many pieces of one stream are with the child at once.
const piecesAhead = 8

// Push changes a tenant by one stream of git-fast-import(1).
//
// It takes the tenant's lock, waiting for it as long as `ctx` lasts (then ErrBusy), and calls `judge` with the refs as they are:
// there old values are compared, and an error of `judge` is given back before anything is sent. Then it opens a stream, which begins
// with `feature force` and `feature done`, and calls `feed`, which writes the other commands to it, without `done`, `checkpoint` or a
// feature. When `feed` returns nil, the stream's end is written to the journal and synced, and only then the stream ends with `done`:
// all refs change together, and nobody sees a change that a crash could take back. Push returns nil once that is so.
//
// On any error the stream is given up and nothing has changed, save for store.ErrUnknown. `feed` may not wait for the network: the
// tenant's lock is held meanwhile, and a save waits too. Whatever a push brings has to be on this machine before.
func (t Tenant) Push(ctx context.Context, judge func(Refs) error, feed func(*Stream) error) error {
	unlock, err := t.pool.locks.take(ctx, t.name)
	if err != nil {
		return ErrBusy
	}
	defer unlock()
	if err := t.judged(ctx, judge); err != nil {
		return err
	}
	room, err := t.Room()
	if err != nil {
		return err
	}
	share, err := t.Enter()
	if err != nil {
		return err
	}
	s := &Stream{ctx: ctx, room: room, share: share}
	defer func() { share.Leave(s.isEnding) }()
	inner, err := t.pool.store.Begin(ctx, t.name, store.Whole)
	if err != nil {
		return fromStore(err)
	}
	// A stream that has ended is not given up; one whose `feed` fails, or panics, is.
	defer inner.GiveUp()
	s.inner = inner
	return fromStore(s.run(feed))
}

// Alone does something that changes the tenant while no push does: a push that has compared the refs it is about to change would change
// others than it has seen. It is refused under 31 where a push or a stream of frames is at work; a push that comes meanwhile waits.
func (t Tenant) Alone(do func() error) error {
	unlock, isTaken := t.pool.locks.try(t.name)
	if !isTaken {
		return faults.Fault(31)
	}
	defer unlock()
	return do()
}

func (t Tenant) judged(ctx context.Context, judge func(Refs) error) error {
	list, _, err := t.Refs(ctx)
	if err != nil {
		return err
	}
	return judge(list)
}

func fromStore(err error) error {
	var refused *store.Refused
	if errors.As(err, &refused) {
		return faults.Fault(refused.Number)
	}
	return err
}

// Stream is the stream of a push while `feed` runs. It belongs to one goroutine.
type Stream struct {
	ctx      context.Context
	inner    *store.Stream
	waiting  []byte
	pending  []store.Pending
	expected []expectation
	room     int64
	share    Reservation
	fed      int64
	last     string
	lasts    func()
	// isEnding says that the stream may have ended, whatever is known of that.
	isEnding bool
}

// expectation is what the next get-mark has to print, or where to put it.
type expectation struct {
	name  plumbing.Name
	given *plumbing.Name
}

// Write appends commands, or any part of one: a stream may be cut anywhere. What is written goes to the child in pieces; so an
// error, which is final, may be about what was written before.
func (s *Stream) Write(text []byte) (int, error) {
	return write(s, text)
}

// WriteString appends commands, as Write does.
func (s *Stream) WriteString(text string) (int, error) { return write(s, text) }

func write[T string | []byte](s *Stream, text T) (written int, err error) {
	for written < len(text) {
		if s.waiting == nil {
			s.waiting = make([]byte, 0, pieceBytes)
		}
		take := min(pieceBytes-len(s.waiting), len(text)-written)
		s.waiting = append(s.waiting, text[written:written+take]...)
		written += take
		if len(s.waiting) == pieceBytes {
			if err := s.flush(); err != nil {
				return written, err
			}
		}
	}
	return written, nil
}

// Expect asks for the name of the object that a mark holds, by `get-mark`, and lets the push fail with ErrOtherName where it is not
// this one. It waits for no answer, so use it for each object of a long push. It stands between commands.
func (s *Stream) Expect(mark string, name plumbing.Name) error {
	s.expected = append(s.expected, expectation{name: name})
	_, err := s.WriteString("get-mark " + mark + "\n")
	return err
}

// Name asks for the name of the object that a mark holds, such as `:1`, and waits for the answer. It stands between commands.
func (s *Stream) Name(mark string) (name plumbing.Name, err error) {
	s.expected = append(s.expected, expectation{given: &name})
	if _, err := fmt.Fprintf(s, "get-mark %s\n", mark); err != nil {
		return name, err
	}
	return name, s.drain()
}

// Last sets the commands that go to the child in one piece with `done`, after all others. Among them a `checkpoint` may stand: nobody
// sees the refs that it sets without what follows it.
func (s *Stream) Last(commands string) { s.last = commands }

func (s *Stream) run(feed func(*Stream) error) error {
	if _, err := s.WriteString("feature force\nfeature done\n"); err != nil {
		return err
	}
	if err := feed(s); err != nil {
		return err
	}
	if err := s.drain(); err != nil {
		return err
	}
	if len(s.expected) > 0 {
		return errAnswer
	}
	s.isEnding = true
	reply, err := s.inner.Commit(s.ctx, []byte(s.last+"done\n"))
	if err == nil && strings.Contains(string(reply), "kept ") {
		return errAnswer
	}
	if err == nil && s.lasts != nil {
		s.lasts()
	}
	return err
}

// WhenItLasts lets `do` be called when the push lasts, before another push of the tenant begins.
func (s *Stream) WhenItLasts(do func()) { s.lasts = do }

// drain sends what was written, and waits until all of it is answered.
func (s *Stream) drain() error {
	if err := s.flush(); err != nil {
		return err
	}
	return s.settle(0)
}

func (s *Stream) flush() error {
	if len(s.waiting) == 0 {
		return nil
	}
	s.fed += int64(len(s.waiting))
	if s.fed > s.room {
		return ErrFull
	}
	if err := s.share.Take(int64(len(s.waiting))); err != nil {
		return err
	}
	pending, err := s.inner.Feed(s.ctx, s.waiting)
	if err != nil {
		return err
	}
	s.waiting = nil
	s.pending = append(s.pending, pending)
	return s.settle(piecesAhead)
}

// settle waits until at most so many pieces are without an answer.
func (s *Stream) settle(most int) error {
	for len(s.pending) > most {
		reply, err := s.pending[0].Wait(s.ctx)
		if err != nil {
			return err
		}
		s.pending = s.pending[1:]
		if err := s.compare(strings.Fields(string(reply))); err != nil {
			return err
		}
	}
	return nil
}

// compare takes the names that a piece printed.
func (s *Stream) compare(printed []string) error {
	for _, word := range printed {
		name, ok := plumbing.ParseName(word)
		if !ok || len(s.expected) == 0 {
			return errAnswer
		}
		if next := s.expected[0]; next.given != nil {
			*next.given = name
		} else if next.name != name {
			return fmt.Errorf("%w: %v", ErrOtherName, next.name)
		}
		s.expected = s.expected[1:]
	}
	return nil
}
