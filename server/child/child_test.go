package child

import (
	"bufio"
	"context"
	"errors"
	"fmt"
	"io"
	"os"
	"strconv"
	"sync"
	"testing"
	"time"

	"gitpoold/frames"
)

// TestMain makes this program its own child. It answers an Ask by its tenant and its body, ends after so many steps, or stops.
func TestMain(m *testing.M) {
	if len(os.Args) > 2 && os.Args[1] == "echo" {
		left, _ := strconv.Atoi(os.Args[2])
		os.Exit(echo(left))
	}
	os.Exit(m.Run())
}

func echo(left int) int {
	in, out := bufio.NewReader(os.Stdin), bufio.NewWriter(os.Stdout)
	for ; left > 0; left-- {
		step, err := frames.ReadStep(in)
		if err == io.EOF {
			return 0
		}
		switch string(step.Body) {
		case "stop":
			time.Sleep(time.Hour)
		case "slow":
			time.Sleep(slow)
		}
		out.Write(frames.Answer{Reply: []byte(step.Tenant + ":" + string(step.Body))}.AppendTo(nil))
		out.Flush()
	}
	return 3
}

const slow = 500 * time.Millisecond

var background = context.Background()

func started(t *testing.T, lasts int) *Process {
	t.Helper()
	p, err := Start([]string{os.Args[0], "echo", fmt.Sprint(lasts)}, os.Stderr)
	if err != nil {
		t.Fatal(err)
	}
	t.Cleanup(p.Kill)
	return p
}

// asked asks in batches of three, and counts wrong answers and those that did not come.
func asked(p *Process, class Class, count int, who string) (wrong, gone int) {
	for k := 0; k < count; k++ {
		var steps []frames.Step
		for i := 0; i < 3; i++ {
			steps = append(steps, frames.Step{Kind: frames.Ask, Tenant: who, Body: []byte(fmt.Sprint(k, i, string(make([]byte, k%3000))))})
		}
		var answers []frames.Answer
		batch, err := p.Send(background, class, steps...)
		if err == nil {
			answers, err = batch.Wait(background)
		}
		if errors.Is(err, ErrGone) {
			gone++
			continue
		}
		for i, step := range steps {
			if err != nil || len(answers) != 3 || string(answers[i].Reply) != who+":"+string(step.Body) {
				wrong++
			}
		}
	}
	return wrong, gone
}

func askedByMany(p *Process) (wrong, gone int) {
	var all sync.WaitGroup
	var mutex sync.Mutex
	for c := 0; c < 16; c++ {
		all.Add(1)
		go func(c int) {
			defer all.Done()
			w, g := asked(p, Class(c%2), 200, fmt.Sprint("tenant", c))
			mutex.Lock()
			defer mutex.Unlock()
			wrong, gone = wrong+w, gone+g
		}(c)
	}
	all.Wait()
	return wrong, gone
}

func TestEachAskerGetsItsOwnAnswers(t *testing.T) {
	p := started(t, 1<<30)
	if wrong, gone := askedByMany(p); wrong+gone > 0 {
		t.Fatal(wrong, gone)
	}
	if err := p.Close(); err != nil {
		t.Fatal(err)
	}
	if _, err := p.Send(background, Short, frames.Step{Kind: frames.Ask}); !errors.Is(err, ErrGone) {
		t.Fatal(err)
	}
}

func TestEveryoneIsToldThatTheChildEnded(t *testing.T) {
	p := started(t, 4321)
	wrong, gone := askedByMany(p)
	if wrong != 0 || gone < 16*200-4321/3-1 || gone > 16*200-4321/3+1 {
		t.Fatal(wrong, gone)
	}
	<-p.Gone()
	if p.Err() == nil {
		t.Fatal("the child ended well")
	}
}

func TestAKilledChildTellsEveryone(t *testing.T) {
	p := started(t, 1<<30)
	go func() {
		asked(p, Short, 10, "a")
		p.Kill()
	}()
	if wrong, gone := askedByMany(p); wrong != 0 || gone == 0 {
		t.Fatal(wrong, gone)
	}
}

// TestADismissedChildAnswersFirst dismisses a child that is asked by many: each is answered, or told that it has to ask elsewhere before it was sent.
func TestADismissedChildAnswersFirst(t *testing.T) {
	p := started(t, 1<<30)
	slowly, err := p.Send(background, Short, frames.Step{Kind: frames.Ask, Tenant: "a", Body: []byte("slow")})
	if err != nil {
		t.Fatal(err)
	}
	var all sync.WaitGroup
	for c := 0; c < 16; c++ {
		all.Add(1)
		go func(c int) {
			defer all.Done()
			for {
				batch, err := p.Send(background, Class(c%2), frames.Step{Kind: frames.Ask, Tenant: "a"})
				if err != nil {
					return
				}
				if _, err := batch.Wait(background); err != nil {
					t.Error("what was sent is not answered:", err)
				}
			}
		}(c)
	}
	p.Dismiss(time.Minute)
	all.Wait()
	if answers, err := slowly.Wait(background); err != nil || string(answers[0].Reply) != "a:slow" {
		t.Fatal(answers, err)
	}
	<-p.Gone()
}

// TestADismissedChildThatIsSilent has one that does not answer: it is ended all the same.
func TestADismissedChildThatIsSilent(t *testing.T) {
	p := started(t, 1<<30)
	stop, err := p.Send(background, Short, frames.Step{Kind: frames.Ask, Tenant: "a", Body: []byte("stop")})
	if err != nil {
		t.Fatal(err)
	}
	began := time.Now()
	p.Dismiss(50 * time.Millisecond)
	if _, err := stop.Wait(background); !errors.Is(err, ErrGone) || time.Since(began) > 20*time.Second {
		t.Fatal(err, time.Since(began))
	}
}

func TestAnAskerMayLeave(t *testing.T) {
	p := started(t, 1<<30)
	stop, err := p.Send(background, Short, frames.Step{Kind: frames.Ask, Tenant: "a", Body: []byte("stop")})
	if err != nil {
		t.Fatal(err)
	}
	ctx, leave := context.WithTimeout(background, 30*time.Millisecond)
	defer leave()
	if _, err := stop.Wait(ctx); !errors.Is(err, context.DeadlineExceeded) {
		t.Fatal(err)
	}
	if p.Stalled() < 20*time.Millisecond {
		t.Fatal(p.Stalled())
	}
	// (a context that has ended may lose against a sender that is ready: so the program is sent more than a pipe holds)
	soon, leaveSoon := context.WithTimeout(background, 100*time.Millisecond)
	defer leaveSoon()
	large := frames.Step{Kind: frames.Ask, Tenant: "a", Body: make([]byte, 8<<20)}
	for i := 0; i < 64 && !errors.Is(err, context.DeadlineExceeded); i++ {
		_, err = p.Send(soon, Short, large)
	}
	if !errors.Is(err, context.DeadlineExceeded) {
		t.Fatal("a child that stopped takes more and more:", err)
	}
	if p.Stalled() < 100*time.Millisecond {
		t.Fatal("a child that stopped has answered, since an asker has left:", p.Stalled())
	}
}

func TestAnIdleChildIsNotStalled(t *testing.T) {
	p := started(t, 1<<30)
	asked(p, Short, 1, "a")
	time.Sleep(20 * time.Millisecond)
	if p.Stalled() != 0 {
		t.Fatal(p.Stalled())
	}
}

func TestAProgramThatIsNotThere(t *testing.T) {
	if _, err := Start([]string{"/no/such/program"}, nil); err == nil {
		t.Fatal("started")
	}
}
