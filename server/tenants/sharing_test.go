package tenants

import (
	"context"
	"errors"
	"sync"
	"testing"
	"time"

	"gitpoold/plumbing"
)

// made is what a call of share gave.
type made struct {
	listing plumbing.Listing
	err     error
}

// sharing asks for a listing of one key from a goroutine of its own.
func sharing(ctx context.Context, l *listings, list func(context.Context) (plumbing.Listing, error)) <-chan made {
	told := make(chan made, 1)
	go func() {
		listing, err := l.share(ctx, "key", list)
		told <- made{listing, err}
	}()
	return told
}

// waitFor waits until so many callers wait for the listing of the key.
func waitFor(l *listings, count int) {
	for found := -1; found != count; time.Sleep(time.Millisecond) {
		l.mutex.Lock()
		if it := l.made["key"]; it != nil {
			found = len(it.waiting)
		}
		l.mutex.Unlock()
	}
}

func TestFetchesShareAListing(t *testing.T) {
	var l listings
	one := plumbing.Listing{}.With(plumbing.Name{1}, plumbing.Blob, 1)
	begun, goOn := make(chan struct{}), make(chan struct{})
	first := sharing(background, &l, func(context.Context) (plumbing.Listing, error) { close(begun); <-goOn; return one, nil })
	<-begun
	second := sharing(background, &l, func(context.Context) (plumbing.Listing, error) { return nil, errors.New("asked twice") })
	waitFor(&l, 2)
	close(goOn)
	for _, told := range []<-chan made{first, second} {
		if it := <-told; it.err != nil || it.listing.Len() != 1 {
			t.Fatal(it)
		}
	}
	if it := <-sharing(background, &l, func(context.Context) (plumbing.Listing, error) { return nil, nil }); it.err != nil || it.listing.Len() != 0 {
		t.Fatal("a listing stays after it was made", it)
	}
}

func TestASharedListingOutlivesWhoBeganIt(t *testing.T) {
	var l listings
	begun, goOn := make(chan struct{}), make(chan struct{})
	list := func(ctx context.Context) (plumbing.Listing, error) { close(begun); <-goOn; return nil, ctx.Err() }
	ctx, stop := context.WithCancel(background)
	first := sharing(ctx, &l, list)
	<-begun
	second := sharing(background, &l, list)
	waitFor(&l, 2)
	stop()
	if it := <-first; it.err != context.Canceled {
		t.Fatal(it)
	}
	close(goOn)
	if it := <-second; it.err != nil {
		t.Fatal(it)
	}
}

func TestAListingForNobodyEnds(t *testing.T) {
	var l listings
	ended := make(chan error)
	begun := make(chan struct{})
	ctx, stop := context.WithCancel(background)
	told := sharing(ctx, &l, func(ctx context.Context) (plumbing.Listing, error) {
		close(begun)
		<-ctx.Done()
		ended <- ctx.Err()
		return nil, ctx.Err()
	})
	<-begun
	stop()
	if it := <-told; it.err != context.Canceled {
		t.Fatal(it)
	}
	if err := <-ended; err != context.Canceled {
		t.Fatal(err)
	}
}

func TestAFaultOfASharedListingIsItsFirstCallersAlone(t *testing.T) {
	var l listings
	begun, goOn := make(chan struct{}), make(chan struct{})
	first := sharing(background, &l, func(context.Context) (plumbing.Listing, error) { close(begun); <-goOn; return nil, plumbing.ErrMissing })
	<-begun
	second := sharing(background, &l, func(context.Context) (plumbing.Listing, error) {
		return plumbing.Listing{}.With(plumbing.Name{2}, plumbing.Blob, 1), nil
	})
	waitFor(&l, 2)
	close(goOn)
	if it := <-first; it.err != plumbing.ErrMissing {
		t.Fatal(it)
	}
	if it := <-second; it.err != nil || it.listing.Len() != 1 {
		t.Fatal(it)
	}
}

// limited is a memory of so many bytes.
type limited struct {
	plumbing.Endless
	mutex      sync.Mutex
	held, most int64
}

var errFull = errors.New("the memory is full")

func (l *limited) Hold(bytes int64) error {
	l.mutex.Lock()
	defer l.mutex.Unlock()
	if l.held+bytes > l.most {
		return errFull
	}
	l.held += bytes
	return nil
}

// TestWhoMayNotHoldASharedListingIsRefused has three fetches wait for a listing: one may not hold its second part, one comes later and may not hold
// what has come, and one has it all.
func TestWhoMayNotHoldASharedListingIsRefused(t *testing.T) {
	var l listings
	first, second, late := &limited{most: 150}, &limited{most: 200}, &limited{most: 99}
	begun, goOn := make(chan struct{}), make(chan struct{})
	list := func(ctx context.Context) (plumbing.Listing, error) {
		for part := 0; part < 2; part++ {
			if err := plumbing.Hold(ctx, 100); err != nil {
				return nil, err
			}
			begun <- struct{}{}
			<-goOn
		}
		return plumbing.Listing{}.With(plumbing.Name{1}, plumbing.Blob, 1), ctx.Err()
	}
	firsts := sharing(plumbing.Counted(background, first), &l, list)
	<-begun
	seconds := sharing(plumbing.Counted(background, second), &l, list)
	waitFor(&l, 2)
	if it := <-sharing(plumbing.Counted(background, late), &l, list); it.err != errFull {
		t.Fatal(it)
	}
	goOn <- struct{}{}
	<-begun
	if it := <-firsts; it.err != errFull {
		t.Fatal(it)
	}
	goOn <- struct{}{}
	if it := <-seconds; it.err != nil || it.listing.Len() != 1 {
		t.Fatal(it)
	}
	if first.held != 100 || second.held != 200 || late.held != 0 {
		t.Fatal(first.held, second.held, late.held)
	}
}

func TestAListingThatNobodyMayHoldEnds(t *testing.T) {
	var l listings
	ended := make(chan error)
	told := sharing(plumbing.Counted(background, &limited{most: 99}), &l, func(ctx context.Context) (plumbing.Listing, error) {
		if err := plumbing.Hold(ctx, 100); err != nil {
			return nil, err
		}
		<-ctx.Done()
		ended <- ctx.Err()
		return nil, ctx.Err()
	})
	if it := <-told; it.err != errFull {
		t.Fatal(it)
	}
	if err := <-ended; err != context.Canceled || len(l.made) != 0 {
		t.Fatal(err)
	}
}
