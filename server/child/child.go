// Package child runs one `gitpool host` and passes the steps of many askers over it.
//
// The steps of all askers go to the child in one order, and many are on their way at once. Each asker sends a batch of steps, and
// gets its answers together, in the order of its steps. Answers are taken from the child into memory at once, so an asker that
// takes its time holds up nobody else.
package child

import (
	"bufio"
	"context"
	"errors"
	"io"
	"os"
	"os/exec"
	"runtime"
	"sync"
	"syscall"
	"time"

	"gitpoold/frames"
)

// ErrGone says that the child ended before it answered. Whether it carried the steps out is not known.
var ErrGone = errors.New("the program that keeps the pool ended; try again")

const (
	pipeBytes  = 1 << 20
	queueSteps = 1 << 12
)

// Class says which batches wait for which: at most one bulk batch is with the child at once, so that a short question soon has
// its turn.
type Class int

// The classes of batches.
const (
	Short Class = iota
	Bulk
)

const bulkAtOnce = 1

// Process is one run of the program. Its methods may be called by many goroutines at once.
type Process struct {
	command *exec.Cmd
	in      *os.File
	out     *os.File
	queue   chan *Batch
	sent    chan *Batch
	bulk    chan struct{}
	closing chan struct{}
	once    sync.Once
	// sending is closed once nothing is sent any more.
	sending chan struct{}
	gone    chan struct{}
	result  error

	mutex    sync.Mutex
	waiting  int
	answered time.Time
	// measured is how many of the batches that wait are measured. While there are any, `memory` is the child's at the last answer.
	measured int
	memory   Memory
}

// Batch is a run of steps that were sent together.
type Batch struct {
	frames  []byte
	count   int
	class   Class
	charge  func(time.Duration)
	measure func(Cost)
	room    int64
	longest int64
	answers []frames.Answer
	done    chan struct{}
	err     error
}

// Start runs the program with these words, `program host --pool FILE`. What it prints on standard error goes to `said`.
func Start(words []string, said io.Writer) (*Process, error) {
	childIn, in, err := os.Pipe()
	if err != nil {
		return nil, err
	}
	out, childOut, err := os.Pipe()
	if err != nil {
		childIn.Close()
		in.Close()
		return nil, err
	}
	defer childIn.Close()
	defer childOut.Close()
	widen(in)
	widen(out)
	command := exec.Command(words[0], words[1:]...)
	command.Stdin, command.Stdout, command.Stderr = childIn, childOut, said
	// A signal for the server's group is not for the child: the end of its input is what ends it, and makes it save.
	if err := StartTied(command); err != nil {
		in.Close()
		out.Close()
		return nil, err
	}
	return follow(command, in, out), nil
}

// StartTied starts a command in a process group of its own. A server that is killed takes the command with it.
func StartTied(command *exec.Cmd) error {
	command.SysProcAttr = &syscall.SysProcAttr{Setpgid: true, Pdeathsig: syscall.SIGKILL}
	return onStarter(command.Start)
}

var (
	starterOnce sync.Once
	starts      = make(chan func())
)

// onStarter calls a function on a thread that lives as long as this process: the kernel takes the end of the thread that started a
// child for the end of its parent.
func onStarter(start func() error) error {
	starterOnce.Do(func() {
		go func() {
			runtime.LockOSThread()
			for it := range starts {
				it()
			}
		}()
	})
	result := make(chan error)
	starts <- func() { result <- start() }
	return <-result
}

// widen lets a pipe hold more. Not every kernel grants it, and it only saves switches.
func widen(end *os.File) {
	raw, err := end.SyscallConn()
	if err != nil {
		return
	}
	const setPipeSize = 1031
	_ = raw.Control(func(fd uintptr) { _, _, _ = syscall.Syscall(syscall.SYS_FCNTL, fd, setPipeSize, pipeBytes) })
}

func follow(command *exec.Cmd, in, out *os.File) *Process {
	p := &Process{command: command, in: in, out: out, queue: make(chan *Batch), sent: make(chan *Batch, queueSteps),
		bulk: make(chan struct{}, bulkAtOnce), closing: make(chan struct{}), sending: make(chan struct{}), gone: make(chan struct{})}
	go p.send()
	go p.receive()
	return p
}

// Pid is the child's process.
func (p *Process) Pid() int { return p.command.Process.Pid }

// Gone is closed once the child has ended and everyone who waited for an answer has been told.
func (p *Process) Gone() <-chan struct{} { return p.gone }

// Err says how the child ended; it may be called once Gone is closed.
func (p *Process) Err() error { return p.result }

// Close ends the child's input and waits until it has answered what was sent, has saved and has ended. It gives an error where the
// child ended with another status than 0.
func (p *Process) Close() error {
	p.once.Do(func() { close(p.closing) })
	<-p.gone
	return p.result
}

// Kill ends the child at once, without a save.
func (p *Process) Kill() {
	_ = p.command.Process.Kill()
	<-p.gone
}

// Dismiss takes no steps any more, waits for at most so long until what was sent is answered, and ends the child without a save.
func (p *Process) Dismiss(within time.Duration) {
	p.once.Do(func() { close(p.closing) })
	late := time.NewTimer(within)
	defer late.Stop()
	select {
	case <-p.sending:
		p.settle(late.C)
	case <-late.C:
	}
	p.Kill()
}

// settle waits until what was sent is answered, or it is late. Nothing more is sent.
func (p *Process) settle(late <-chan time.Time) {
	for p.isAwaited() {
		select {
		case <-late:
			return
		case <-time.After(time.Millisecond):
		}
	}
}

func (p *Process) isAwaited() bool {
	p.mutex.Lock()
	defer p.mutex.Unlock()
	return p.waiting > 0
}

// Memory is how much memory the child has.
func (p *Process) Memory() Memory { return MemoryOf(p.Pid()) }

// Resident is how much memory the child has with all that it maps of files, which it would need where nothing were mapped.
func (p *Process) Resident() int64 { return p.Memory().Held() }

// Send sends steps, and gives the batch to which their answers come. It waits while the child has no room for more, and gives the
// context's error, or ErrGone where the child has ended or was told to end.
func (p *Process) Send(ctx context.Context, class Class, steps ...frames.Step) (*Batch, error) {
	size := 0
	for _, step := range steps {
		size += step.Size()
	}
	b := &Batch{frames: make([]byte, 0, size), count: len(steps), class: class, charge: chargeOf(ctx), measure: measureOf(ctx),
		room: boundOf(ctx, roomKey{}), longest: boundOf(ctx, longestKey{}), done: make(chan struct{})}
	for _, step := range steps {
		b.frames = step.AppendTo(b.frames)
	}
	if class == Bulk {
		if err := p.put(ctx, nil); err != nil {
			return nil, err
		}
	}
	p.wait(b)
	if err := p.put(ctx, b); err != nil {
		p.leave(class)
		p.forgo(b)
		return nil, err
	}
	return b, nil
}

// forgo counts a batch no more that was not sent. The child has answered nothing meanwhile.
func (p *Process) forgo(b *Batch) {
	p.mutex.Lock()
	defer p.mutex.Unlock()
	p.waiting--
	if b.measure != nil {
		p.measured--
	}
}

// wait counts a batch that waits for its answers, for Stalled and for what is measured.
func (p *Process) wait(b *Batch) {
	p.mutex.Lock()
	defer p.mutex.Unlock()
	if p.waiting == 0 {
		p.answered = time.Now()
	}
	p.waiting++
	if b.measure == nil {
		return
	}
	if p.measured++; p.measured == 1 {
		p.memory = p.Memory()
	}
}

// unwait counts it no more, and gives what the child took since the batch before was answered, or since this one came if none waited before it.
func (p *Process) unwait(b *Batch) (cost Cost) {
	p.mutex.Lock()
	defer p.mutex.Unlock()
	if p.measured > 0 {
		now := p.Memory()
		cost.Resident, cost.Grown = now.Held(), now.Anonymous-p.memory.Anonymous
		p.memory = now
	}
	if b.measure != nil {
		p.measured--
	}
	now := time.Now()
	cost.Took = now.Sub(p.answered)
	p.waiting--
	p.answered = now
	return cost
}

// Stalled is for how long the child has worked without an answer.
func (p *Process) Stalled() time.Duration {
	p.mutex.Lock()
	defer p.mutex.Unlock()
	if p.waiting == 0 {
		return 0
	}
	return time.Since(p.answered)
}

// put takes a place among the bulk batches, or hands a batch to the sender.
func (p *Process) put(ctx context.Context, b *Batch) error {
	place, queue := p.bulk, p.queue
	if b != nil {
		place = nil
	} else {
		queue = nil
	}
	select {
	case place <- struct{}{}:
	case queue <- b:
	case <-ctx.Done():
		return ctx.Err()
	case <-p.closing:
		return ErrGone
	case <-p.gone:
		return ErrGone
	}
	return nil
}

func (p *Process) leave(class Class) {
	if class == Bulk {
		<-p.bulk
	}
}

// Wait gives the answers of a batch in the order of its steps, ErrGone, or the context's error; then the answers are dropped when
// they come. Of a batch that was sent InRoom the last answers may be missing.
func (b *Batch) Wait(ctx context.Context) ([]frames.Answer, error) {
	select {
	case <-b.done:
		return b.answers, b.err
	case <-ctx.Done():
		return nil, ctx.Err()
	}
}

func (p *Process) finish(b *Batch, err error) {
	b.err = err
	p.leave(b.class)
	cost := p.unwait(b)
	if b.charge != nil && err == nil {
		b.charge(cost.Took)
	}
	if b.measure != nil && err == nil {
		b.measure(cost)
	}
	close(b.done)
}

// send writes batches to the child until it is told to close, or until the child is gone.
func (p *Process) send() {
	defer close(p.sending)
	defer p.in.Close()
	for {
		select {
		case b := <-p.queue:
			if _, err := p.in.Write(p.together(p.passOn(nil, b))); err != nil {
				_ = p.command.Process.Kill()
				return
			}
		case <-p.closing:
			return
		}
	}
}

// togetherBytes is how much is written at once where many wait.
const togetherBytes = 64 << 10

// together appends the frames of batches that wait already, so that one write serves all of them.
func (p *Process) together(text []byte) []byte {
	for len(text) < togetherBytes && len(p.sent) < cap(p.sent)/2 {
		select {
		case b := <-p.queue:
			text = p.passOn(text, b)
		default:
			return text
		}
	}
	return text
}

// passOn appends the frames of a batch, which keeps them no longer, and lets its answers come.
func (p *Process) passOn(text []byte, b *Batch) []byte {
	own := b.frames
	b.frames = nil
	p.sent <- b
	if text == nil {
		return own
	}
	return append(text, own...)
}

// receive gives each batch its answers until the child's output ends, and then tells everyone who still waits.
func (p *Process) receive() {
	from := bufio.NewReaderSize(p.out, 1<<18)
	var err error
	for err == nil {
		// An answer is there before its batch is taken, so that the child's end is seen without a batch.
		if _, err = from.Peek(1); err != nil {
			break
		}
		b := <-p.sent
		err = receiveBatch(from, b)
		p.finish(b, gone(err))
	}
	p.once.Do(func() { close(p.closing) })
	p.end(err)
}

func gone(err error) error {
	if err == nil {
		return nil
	}
	return ErrGone
}

// receiveBatch takes the answers to a batch. What comes once there is no room any more is passed over.
func receiveBatch(from *bufio.Reader, b *Batch) error {
	b.answers = make([]frames.Answer, 0, b.count)
	for left := b.count; left > 0; left-- {
		if b.room <= 0 {
			if err := frames.PassAnswer(from); err != nil {
				return err
			}
			continue
		}
		answer, err := frames.ReadAnswerWithin(from, b.longest)
		if err != nil {
			return err
		}
		b.answers = append(b.answers, answer)
		b.room -= int64(len(answer.Reply))
	}
	return nil
}

// end waits for the child, and tells everyone whose answer will not come.
func (p *Process) end(reading error) {
	if reading != io.EOF {
		_ = p.command.Process.Kill()
	}
	p.out.Close()
	for open := true; open; {
		select {
		case b := <-p.sent:
			p.finish(b, ErrGone)
		case <-p.sending:
			open = false
		}
	}
	p.result = p.command.Wait()
	for len(p.sent) > 0 {
		p.finish(<-p.sent, ErrGone)
	}
	if p.result == nil && reading != io.EOF {
		p.result = reading
	}
	close(p.gone)
}

// Lost is a batch that could not be sent.
func Lost(err error) *Batch {
	b := &Batch{done: make(chan struct{}), err: err}
	close(b.done)
	return b
}
