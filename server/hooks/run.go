package hooks

import (
	"bytes"
	"context"
	"errors"
	"fmt"
	"io"
	"os"
	"os/exec"
	"strconv"
	"strings"
	"syscall"
	"time"

	"gitpoold/child"
)

// run starts a program and waits until it has ended. What it has started and left in its process group ends with it. All of them are
// killed when the context ends.
func run(ctx context.Context, path string, p Push) error {
	command := exec.Command(path)
	command.Dir = "/"
	command.Env = append(os.Environ(), p.variables()...)
	in, out, err := start(command)
	if err != nil {
		return err
	}
	defer in.Close()
	defer out.Close()
	said := make(chan []byte, 1)
	go func() { said <- firstOf(out) }()
	go feed(in, p.lines())
	awaitEnd(ctx, command.Process.Pid)
	err = command.Wait()
	// What it printed is in the pipe. Who has left its group may have the pipe open still.
	_ = out.SetReadDeadline(time.Now().Add(afterEnd))
	if text := <-said; err != nil && len(text) > 0 {
		return fmt.Errorf("%w: %s", err, text)
	}
	return err
}

// feed lets a program read a text to its end.
func feed(in *os.File, text string) {
	_, _ = io.WriteString(in, text)
	in.Close()
}

// start starts a command, and gives the pipes to what it reads and from what it prints.
func start(command *exec.Cmd) (in, out *os.File, err error) {
	from, in, err := os.Pipe()
	if err != nil {
		return nil, nil, err
	}
	defer from.Close()
	out, to, err := os.Pipe()
	if err != nil {
		in.Close()
		return nil, nil, err
	}
	defer to.Close()
	command.Stdin, command.Stdout, command.Stderr = from, to, to
	if err := child.StartTied(command); err != nil {
		in.Close()
		out.Close()
		return nil, nil, err
	}
	return in, out, nil
}

// awaitEnd waits until a process has ended or the context has, and kills its group. The process is not yet reaped then, so nobody else has
// the number of its group.
func awaitEnd(ctx context.Context, pid int) {
	ended := make(chan struct{})
	go func() {
		defer close(ended)
		const process = 1
		for again := true; again; {
			_, _, number := syscall.Syscall6(syscall.SYS_WAITID, process, uintptr(pid), 0, syscall.WEXITED|syscall.WNOWAIT, 0, 0)
			again = number == syscall.EINTR
		}
	}()
	select {
	case <-ended:
	case <-ctx.Done():
	}
	_ = syscall.Kill(-pid, syscall.SIGKILL)
	<-ended
}

// afterEnd is how long what a program printed is read after its end.
const afterEnd = 100 * time.Millisecond

// mostSaid is how much of what a program prints is kept for the log; the rest is dropped.
const mostSaid = 500

// firstOf reads what a program prints, until the pipe ends or its deadline passes, and gives the first of it.
func firstOf(out *os.File) []byte {
	var kept bytes.Buffer
	_, err := io.CopyN(&kept, out, mostSaid)
	if errors.Is(err, os.ErrDeadlineExceeded) {
		kept.Write(atHand(out, mostSaid-kept.Len()))
		return bytes.TrimSpace(kept.Bytes())
	}
	_, _ = io.Copy(io.Discard, out)
	return bytes.TrimSpace(kept.Bytes())
}

// atHand gives what is in a pipe, and waits for nothing. On a busy machine a deadline may pass before what is there was read.
func atHand(out *os.File, most int) []byte {
	text, count := make([]byte, most), 0
	raw, err := out.SyscallConn()
	if err != nil || out.SetReadDeadline(time.Time{}) != nil {
		return nil
	}
	_ = raw.Read(func(fd uintptr) bool {
		count, _ = syscall.Read(int(fd), text)
		return true
	})
	if count < 0 {
		return nil
	}
	return text[:count]
}

// lines are what a program reads: the lines of a post-receive of githooks(5).
func (p Push) lines() string {
	var text strings.Builder
	for _, it := range p.Changes {
		text.WriteString(it.Old + " " + it.New + " " + it.Ref + "\n")
	}
	return text.String()
}

// mostVariables is how many bytes of options go into the environment; the kernel takes no more than two megabytes of it.
const mostVariables = 64 << 10

// variables say who pushed to whom. The options of a push have the variables of githooks(5); where they are too long for that, or have a
// byte 0, they are left out together.
func (p Push) variables() []string {
	all := []string{"GITPOOLD_TENANT=" + p.Tenant, "GITPOOLD_USER=" + p.User}
	options, size := []string{"GIT_PUSH_OPTION_COUNT=" + strconv.Itoa(len(p.Options))}, 0
	for at, option := range p.Options {
		if size += len(option); size > mostVariables || strings.Contains(option, "\x00") {
			return all
		}
		options = append(options, fmt.Sprintf("GIT_PUSH_OPTION_%d=%s", at, option))
	}
	if len(p.Options) == 0 {
		return all
	}
	return append(all, options...)
}
