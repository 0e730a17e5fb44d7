package streams

import (
	"bufio"
	"context"
	"errors"
	"io"

	"gitpoold/access"
	"gitpoold/faults"
	"gitpoold/frames"
	"gitpoold/limits"
	"gitpoold/tenants"
)

// framed is a client that speaks frames of one tenant.
type framed struct {
	Use
	stream *stream
	// dead is why the stream was given up before its End, which is then answered by that.
	dead error
	told map[string]bool
}

// Frames answers frames of the tenant, each before the next one is read: Open, Feed, End, Abandon and Ask, as `gitpool host` does. Another tenant
// is answered by 32, and another kind by 50. It returns nil where the client ends between frames; a stream that is open then is given up.
//
// What a limit or a right refuses is answered by 25, and told to the user's terminal once. A stream that a limit refuses is given up; its Feeds
// and its End are answered by 25 then, as those of any stream that was refused.
func (u Use) Frames(ctx context.Context) error {
	f := &framed{Use: u, told: map[string]bool{}}
	defer f.giveUp()
	stop := make(chan struct{})
	defer close(stop)
	in := bufio.NewReaderSize(u.In, 1<<16)
	steps := arrivals(func() (frames.Step, error) { return frames.ReadStep(in) }, stop)
	for {
		step, err := next(ctx, u, steps, f.stream)
		var blocked *access.Blocked
		switch {
		case err == io.EOF:
			return nil
		case errors.Is(err, limits.ErrStreamAge), errors.As(err, &blocked):
			f.kill(err)
			continue
		case err != nil:
			return err
		}
		if err := f.take(ctx, step); err != nil {
			return err
		}
	}
}

// take carries out a step and writes its answer. An error ends the session.
func (f *framed) take(ctx context.Context, step frames.Step) error {
	answer, err := f.carryOut(ctx, step)
	if err == nil && step.Kind != frames.End {
		var taken func()
		if taken, err = f.Gateway.Limits.Wait(f.User, len(answer.Reply)); err == nil {
			defer taken()
		} else if f.stream != nil && step.Kind == frames.Feed {
			f.kill(err)
		}
	}
	if err != nil {
		if answer, err = f.refusal(err); err != nil {
			return err
		}
	}
	return f.writeInAnyCase(answer.AppendTo(nil), f.within(f.stream))
}

// refusal gives the answer that tells an error, or the error where it ends the session.
func (f *framed) refusal(err error) (frames.Answer, error) {
	number := NumberOf(err)
	if number == 68 && tenants.ErrorNumber(err) != 68 {
		return frames.Answer{}, err
	}
	if number == 25 {
		f.tellOnce(err)
	}
	return frames.Answer{Status: frames.Fault, Value: uint64(number)}, nil
}

// tellOnce tells a sentence that was not told before: a client need not read them.
func (f *framed) tellOnce(err error) {
	if sentence := Sentence(err); !f.told[sentence] {
		f.told[sentence] = true
		f.Tell(sentence)
	}
}

// carryOut gives the answer to a step. An error is its refusal.
func (f *framed) carryOut(ctx context.Context, step frames.Step) (frames.Answer, error) {
	carry := map[frames.Kind]func(context.Context, []byte) (frames.Answer, error){frames.Open: f.open, frames.Feed: f.feed, frames.End: f.end,
		frames.Abandon: f.abandon, frames.Ask: f.ask}[step.Kind]
	switch {
	case carry == nil:
		return frames.Answer{}, frames.ErrWrong
	case step.Tenant != f.Tenant.Name():
		return frames.Answer{}, faults.Fault(32)
	}
	return carry(ctx, step.Body)
}

// mayStill asks again whether the user is let in and has a right: a session may last for long.
func (f *framed) mayStill(right access.Right) error {
	if err := f.IsLetIn(); err != nil {
		return err
	}
	_, err := f.Gateway.Open(f.User, f.Tenant.Name(), right)
	return err
}

func (f *framed) ask(ctx context.Context, query []byte) (frames.Answer, error) {
	if err := f.mayStill(access.Read); err != nil {
		return frames.Answer{}, err
	}
	return f.question(ctx, query)
}

func (f *framed) open(ctx context.Context, _ []byte) (frames.Answer, error) {
	if f.stream != nil || f.dead != nil {
		return frames.Answer{}, faults.Fault(31)
	}
	if err := f.mayStill(access.Write); err != nil {
		return frames.Answer{}, err
	}
	stream, _, err := f.Use.open(ctx, "")
	f.stream = stream
	return frames.Answer{}, err
}

func (f *framed) feed(ctx context.Context, piece []byte) (frames.Answer, error) {
	if f.stream == nil {
		return frames.Answer{}, f.withoutStream()
	}
	var all []byte
	answer, err := f.stream.feed(ctx, piece, func(printed []byte) error {
		if all = append(all, printed...); int64(len(all)) > f.Gateway.Limits.Get().AnswerBytes {
			return limits.ErrAnswer
		}
		return nil
	})
	if err != nil {
		f.stream, f.dead = nil, err
	}
	answer.Reply = all
	return answer, err
}

func (f *framed) end(ctx context.Context, _ []byte) (frames.Answer, error) {
	if f.stream == nil {
		err := f.withoutStream()
		f.dead = nil
		return frames.Answer{}, err
	}
	answer, err := f.stream.end(ctx)
	f.stream = nil
	return answer, err
}

func (f *framed) abandon(context.Context, []byte) (frames.Answer, error) {
	if f.stream == nil && f.dead == nil {
		return frames.Answer{}, f.withoutStream()
	}
	f.giveUp()
	f.dead = nil
	return frames.Answer{}, nil
}

// withoutStream is the refusal of a step that needs a stream: why that was given up, or 30.
func (f *framed) withoutStream() error {
	if f.dead != nil {
		return f.dead
	}
	return faults.Fault(30)
}

// kill gives the stream up because of a limit.
func (f *framed) kill(why error) {
	f.giveUp()
	f.dead = why
	f.tellOnce(why)
}

func (f *framed) giveUp() {
	if f.stream != nil {
		f.stream.giveUp()
		f.stream = nil
	}
}
