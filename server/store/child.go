package store

import (
	"bytes"
	"context"
	"fmt"
	"io"
	"os"
	"os/exec"
	"path/filepath"
	"strconv"
	"strings"
	"sync"

	"gitpoold/child"
	"gitpoold/faultpoint"
	"gitpoold/frames"
)

// How the program is run that a store stands on stands in this file: as a child that has a pool file, and as a command about one.

// file is the path of something in the folder, and work that of the folder of what is unfinished, which a start empties.
func (c *Config) file(name string) string { return filepath.Join(c.Folder, name) }

func (c *Config) work() string { return c.file("work") }

// started is a child and its room.
type started struct {
	process *child.Process
	room    string
}

// startChild starts a child in a room of its own, on a link of a pool file.
func (c *Config) startChild(pool string, said io.Writer) (it started, err error) {
	if it.room, err = os.MkdirTemp(c.work(), "child-"); err != nil {
		return started{}, err
	}
	words := child.Behind(c.Program, "host", "--pool", it.file())
	if c.ChildMemory > 0 {
		kilobytes := strconv.FormatInt(c.ChildMemory/1024, 10)
		words = append([]string{"sh", "-c", `ulimit -d "$0" && exec "$@"`, kilobytes}, words...)
	}
	if err = linkOrCopy(pool, it.file()); err == nil {
		it.process, err = child.Start(words, said)
	}
	if err != nil {
		os.RemoveAll(it.room)
		return started{}, err
	}
	return it, nil
}

// startOn starts a child on a pool file, and waits until it has loaded that, as `load` says.
func (c *Config) startOn(file string, load func(started) error) (started, error) {
	said := &lines{tell: c.Tell}
	it, err := c.startChild(file, said)
	if err != nil {
		return it, err
	}
	faultpoint.SetChild(it.process.Pid())
	if err := load(it); err != nil {
		it.end()
		return it, &loadError{err, said.last()}
	}
	return it, nil
}

func (s started) end() {
	s.process.Kill()
	os.RemoveAll(s.room)
}

// retire ends a child that nobody asks any more, once it has answered what it was asked before.
func (s started) retire() {
	_, _ = sendAndWait(context.Background(), s.process, frames.Step{Kind: frames.Sizes})
	s.end()
}

// hasLoaded waits until the child has loaded its pool file: it answers then.
func (s started) hasLoaded() error {
	_, err := request(s.process, frames.Step{Kind: frames.Sizes})
	return err
}

// file is where the pool file of the child is.
func (s started) file() string { return filepath.Join(s.room, "pool") }

// save has the child write its pool file.
func (s started) save() error {
	_, err := request(s.process, frames.Step{Kind: frames.Save, Body: frames.AsOpened})
	return err
}

// request asks something of a child that nobody else uses meanwhile, and gives the reply. It may be Refused.
func request(process *child.Process, step frames.Step) ([]byte, error) {
	soon, stop := context.WithTimeout(context.Background(), saveWithin)
	defer stop()
	answers, err := sendAndWait(soon, process, step)
	if err != nil {
		if soon.Err() != nil {
			process.Kill()
		}
		return nil, err
	}
	return replies(answers)
}

// runProgram runs a subcommand of the program to its end.
func (c *Config) runProgram(ctx context.Context, words ...string) error {
	behind := child.Behind(c.Program, words...)
	command := exec.CommandContext(ctx, behind[0], behind[1:]...)
	var said strings.Builder
	command.Stdout, command.Stderr = &said, &said
	if err := child.StartTied(command); err != nil {
		return err
	}
	if err := command.Wait(); err != nil {
		return fmt.Errorf("gitpool %s: %w (%s)", words[0], err, strings.TrimSpace(said.String()))
	}
	return nil
}

// lines tells the operator what the child prints on standard error, and keeps the last of it.
type lines struct {
	tell  func(format string, values ...any)
	mutex sync.Mutex
	text  string
}

// Write takes what the child printed.
func (l *lines) Write(text []byte) (int, error) {
	l.mutex.Lock()
	defer l.mutex.Unlock()
	for _, line := range bytes.Split(bytes.TrimSpace(text), []byte("\n")) {
		l.text = strings.ToValidUTF8(string(line), "?")
		l.tell("the child says: %s", l.text)
	}
	return len(text), nil
}

func (l *lines) last() string {
	l.mutex.Lock()
	defer l.mutex.Unlock()
	return l.text
}
