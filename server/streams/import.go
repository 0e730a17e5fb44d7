package streams

import (
	"context"
	"io"

	"gitpoold/idempotency"
	"gitpoold/limits"
)

// Import carries out the stream that comes, and writes what it prints as it comes. It returns nil when the stream has ended well and lasts. A
// stream whose connection breaks off is given up; it is not taken for one that ended there.
//
// With a token it carries a stream out once: where one with that token has ended well before, it writes what that one printed, reads what comes to
// its end, and changes nothing.
func (u Use) Import(ctx context.Context, token string) error {
	s, kept, err := u.open(ctx, token)
	if err != nil {
		return err
	}
	stop := make(chan struct{})
	defer close(stop)
	in := arrivals(pieces(u.In), stop)
	if kept != nil {
		return u.tellAgain(ctx, in, *kept)
	}
	defer s.giveUp()
	if err := s.takeAll(ctx, in); err != nil {
		return err
	}
	if !u.IsThere(ctx) {
		return errLost
	}
	answer, err := s.end(ctx)
	if err != nil {
		return err
	}
	if err := u.writeInAnyCase(answer.Reply, u.within(nil)); err != nil {
		return err
	}
	return faultOf(answer)
}

// pieces gives the call that reads the next piece. A piece holds until the one after the next is read.
func pieces(from io.Reader) func() ([]byte, error) {
	var both [2][partBytes]byte
	turn := 0
	return func() ([]byte, error) {
		turn = 1 - turn
		count, err := from.Read(both[turn][:])
		if count > 0 {
			// An error comes again.
			err = nil
		}
		return both[turn][:count], err
	}
}

// takeAll feeds what comes up to its end, and writes what that prints.
func (s *stream) takeAll(ctx context.Context, in <-chan arrival[[]byte]) error {
	for {
		piece, err := next(ctx, s.Use, in, s)
		if err == io.EOF {
			return nil
		}
		if err != nil {
			return err
		}
		answer, err := s.feed(ctx, piece, func(printed []byte) error { return s.write(printed, s.within(s)) })
		if err == nil {
			err = faultOf(answer)
		}
		if err != nil {
			return err
		}
	}
}

// errDropped is for an answer of which it is known only that it was there.
const errDropped = limits.Passed("the stream with this token has ended and lasts, and what it printed was too long to be kept")

// tellAgain writes what a stream with the same token was answered, and reads the stream to its end.
func (u Use) tellAgain(ctx context.Context, in <-chan arrival[[]byte], kept idempotency.Answer) error {
	if err := u.write(kept.Reply, u.within(nil)); err != nil {
		return err
	}
	for taken, most := int64(0), u.Gateway.Limits.Get().StreamBytes; ; {
		piece, err := next(ctx, u, in, nil)
		if err == io.EOF {
			break
		}
		if taken += int64(len(piece)); err == nil && taken > most {
			err = limits.ErrStreamBytes
		}
		if err != nil {
			return err
		}
	}
	if kept.IsDropped {
		return errDropped
	}
	return nil
}
