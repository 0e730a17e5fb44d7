package limits

import (
	"context"

	"golang.org/x/sync/semaphore"
)

// ErrFetches is why a fetch is refused that would hold too much.
const ErrFetches = Passed("this user's fetches hold as many bytes as `fetch-bytes` says; try again when they have ended")

// Fetch counts what one fetch holds, for its user: lists of objects and commits as `fetch-bytes` says, and lists of refs and large entries of packs as
// `answer-bytes` says.
type Fetch struct {
	*Held
	lists *refLists
}

// Fetch counts for a fetch that begins. The user "" is a visitor, who is counted by its address.
func (l *Limits) Fetch(user, address string) Fetch {
	held := &Held{limits: l, who: whoIs(user, address), of: l.fetches, most: func(v Values) int64 { return v.FetchBytes }, refusal: ErrFetches}
	return Fetch{held, &refLists{limits: l, who: whoTakes(user, address)}}
}

// Share counts bytes of a list of refs, once for all requests of the user that hold it, or is ErrAnswers where too many bytes wait until the user
// takes them.
func (f Fetch) Share(list any, bytes int64) error { return f.lists.share(list, bytes) }

// Free counts no more what the fetch holds.
func (f Fetch) Free() {
	f.Held.Free()
	f.lists.free()
}

// room is what the entries may have that one user's fetches hold. It is dropped when nobody uses it.
type room struct {
	places *semaphore.Weighted
	bytes  int64
	uses   int
}

// Take waits for room for so many bytes, first come, first served, as long as the context lasts. It gives the call that gives the room back. What is
// larger than all of the room has to itself all that there is.
func (f Fetch) Take(ctx context.Context, bytes int64) (giveBack func(), err error) {
	it, leave := f.limits.enterRoom(f.who)
	bytes = min(bytes, it.bytes)
	if err := it.places.Acquire(ctx, bytes); err != nil {
		leave()
		return nil, err
	}
	return func() { it.places.Release(bytes); leave() }, nil
}

// TryTake does not wait. It is nil where there is no room now.
func (f Fetch) TryTake(bytes int64) (giveBack func()) {
	it, leave := f.limits.enterRoom(f.who)
	bytes = min(bytes, it.bytes)
	if !it.places.TryAcquire(bytes) {
		leave()
		return nil
	}
	return func() { it.places.Release(bytes); leave() }
}

// enterRoom gives the room of a user's fetches, and the call after which this one uses it no more.
func (l *Limits) enterRoom(who string) (it *room, leave func()) {
	most := l.Get().AnswerBytes
	if most == 0 {
		// One at a time: no room at all would let nobody have anything.
		most = 1
	}
	l.mutex.Lock()
	defer l.mutex.Unlock()
	if it = l.rooms[who]; it == nil {
		it = &room{places: semaphore.NewWeighted(most), bytes: most}
		l.rooms[who] = it
	}
	it.uses++
	return it, func() { l.leaveRoom(who, it) }
}

func (l *Limits) leaveRoom(who string, it *room) {
	l.mutex.Lock()
	defer l.mutex.Unlock()
	if it.uses--; it.uses == 0 {
		delete(l.rooms, who)
	}
}
