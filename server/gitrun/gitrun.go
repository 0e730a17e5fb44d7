// Package gitrun runs the git on the machine beside a server: with low priority, within bounds, and with nothing of the system's and the user's
// settings.
package gitrun

import (
	"context"
	"errors"
	"fmt"
	"io"
	"os"
	"os/exec"
	"sync"
	"syscall"
	"time"

	"gitpoold/child"
	"gitpoold/hooks"
)

// Command is one run of git.
type Command struct {
	Words, Environment []string
	// Folder is where git works.
	Folder string
	// Memory is how many bytes each process of git may have, and FileBytes how many each file that it writes.
	Memory, FileBytes int64
	// Silence is how long git may print nothing on standard error, 0 for as long as it likes.
	Silence time.Duration
	// Judge is asked each time that Every has passed. An error of it ends the run.
	Every time.Duration
	Judge func() error
	// Feed writes what git reads; nil writes nothing.
	Feed func(ctx context.Context, to io.Writer) error
	// Out gets what git prints. An error of it ends the run.
	Out io.Writer
	// Local is the first further file that git has; nil is none.
	Local *os.File
}

// ErrSilent ends a run that printed nothing for longer than it may.
var ErrSilent = errors.New("the other host said nothing for too long")

// Environment are the variables that keep git to a folder: it reads no settings of the system's and the user's, and asks nobody. Of the server's own
// it has those with these names.
func Environment(folder string, passed ...string) (all []string) {
	for _, name := range append([]string{"PATH", "TMPDIR"}, passed...) {
		if value, has := os.LookupEnv(name); has {
			all = append(all, name+"="+value)
		}
	}
	return append(all, "LC_ALL=C", "HOME="+folder, "GIT_DIR=.", "GIT_CONFIG_NOSYSTEM=1", "GIT_CONFIG_GLOBAL=/dev/null", "GIT_TERMINAL_PROMPT=0",
		"GIT_ASKPASS=", "SSH_ASKPASS=")
}

// Run runs git until it ends, a bound is passed or the context ends; its process group is killed then. The error says why git did not go well: the
// context's, one of the bounds, that of Feed or Out, or what git said.
func (c Command) Run(ctx context.Context) error {
	for _, needed := range []string{"git", "nice", "ionice", "prlimit"} {
		if _, err := exec.LookPath(needed); err != nil {
			return fmt.Errorf("this needs the program %s, which is not on the PATH", needed)
		}
	}
	r := &running{Command: c, said: &tail{at: time.Now()}, out: &judged{to: c.Out}}
	r.process = exec.Command("nice", append([]string{"-n", "10", "ionice", "-t", "-c", "2", "-n", "7", "prlimit", "--core=0",
		fmt.Sprintf("--data=%d", c.Memory), fmt.Sprintf("--fsize=%d", c.FileBytes), "git"}, c.Words...)...)
	r.process.Dir, r.process.Env = c.Folder, c.Environment
	r.process.Stderr = r.said
	if c.Out != nil {
		r.process.Stdout = r.out
	}
	if err := r.start(); err != nil {
		return err
	}
	return r.await(ctx)
}

// running is a run of git that has begun.
type running struct {
	Command
	process *exec.Cmd
	in      io.WriteCloser
	said    *tail
	out     *judged
}

// start starts git, and leaves it alone with its further file.
func (r *running) start() (err error) {
	if r.Local != nil {
		defer r.Local.Close()
		r.process.ExtraFiles = []*os.File{r.Local}
	}
	if r.Feed != nil {
		if r.in, err = r.process.StdinPipe(); err != nil {
			return err
		}
	}
	return child.StartTied(r.process)
}

// await waits for the end of git, and says why it did not go well.
func (r *running) await(ctx context.Context) error {
	watched, stop := context.WithCancel(ctx)
	defer stop()
	why, fed := r.watch(watched, stop), r.feed(watched, stop)
	hooks.AwaitEnd(watched, r.process.Process.Pid)
	err := r.process.Wait()
	stop()
	if bound := <-why; bound != nil && ctx.Err() == nil {
		return bound
	}
	return r.reason(ctx, err, <-fed)
}

// errUnread says that git did not read all. Why it ended says more.
var errUnread = errors.New("git ended before it had read what it was to read")

// reason says why git did not go well, or nothing.
func (r *running) reason(ctx context.Context, err, fed error) error {
	switch failed := r.out.err(); {
	case failed != nil && ctx.Err() == nil:
		return failed
	case err == nil && fed == nil:
		return nil
	case ctx.Err() != nil:
		return ctx.Err()
	case fed != nil && !errors.Is(fed, errUnread):
		return fed
	}
	if words := r.said.words(); words != "" {
		return errors.New(words)
	}
	if err == nil {
		return errUnread
	}
	return fmt.Errorf("git ended: %w", err)
}

// feed lets git read, and gives the error of that. Where what it is to read cannot be had, git is ended: it would take the part for all.
func (r *running) feed(ctx context.Context, stop func()) <-chan error {
	fed := make(chan error, 1)
	if r.Feed == nil {
		fed <- nil
		return fed
	}
	go func() {
		err := r.Feed(ctx, r.in)
		switch hasEnded := ctx.Err() != nil || errors.Is(err, syscall.EPIPE) || errors.Is(err, os.ErrClosed); {
		case err != nil && hasEnded:
			err = errUnread
		case err != nil:
			stop()
		}
		r.in.Close()
		fed <- err
	}()
	return fed
}

// watch looks at the run again and again, and stops it where a bound is passed. It gives the reason, nil where there was none.
func (r *running) watch(ctx context.Context, stop func()) <-chan error {
	why := make(chan error, 1)
	go func() {
		for {
			select {
			case <-ctx.Done():
				why <- nil
				return
			case <-time.After(r.Every):
			}
			if err := r.judge(); err != nil {
				why <- err
				stop()
				return
			}
		}
	}()
	return why
}

func (r *running) judge() error {
	if r.Silence > 0 && r.said.silentFor() > r.Silence {
		return ErrSilent
	}
	return r.Judge()
}

// judged keeps the first error of a writer.
type judged struct {
	to     io.Writer
	mutex  sync.Mutex
	failed error
}

func (j *judged) Write(data []byte) (int, error) {
	count, err := j.to.Write(data)
	j.mutex.Lock()
	defer j.mutex.Unlock()
	if j.failed == nil {
		j.failed = err
	}
	return count, err
}

func (j *judged) err() error {
	j.mutex.Lock()
	defer j.mutex.Unlock()
	return j.failed
}
