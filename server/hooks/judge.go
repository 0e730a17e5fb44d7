package hooks

import (
	"context"
	"errors"
	"fmt"
	"os"
	"os/exec"
	"strings"
	"sync"
	"time"

	"gitpoold/access"
	"gitpoold/fair"
)

// judgesAtOnce bounds how many pushes are judged by hooks at once: in all, and of one user, whose hooks may hang without keeping others.
var judgesAtOnce = fair.Limits{Places: 64, OfKind: [2]int{64, 64}, OfOneOfIt: [2]int{4, 4}}

// MostShown is how many bytes of what the hooks of one push print its user is shown.
const MostShown = 64 << 10

// Judged is a push that has changed nothing yet.
type Judged struct {
	Push
	// Folder is a bare repository that has the refs as they are; Objects has the objects of the push, and Shared those of the tenant.
	Folder, Objects, Shared string
	// Say shows the user what hooks print.
	Say func(text []byte)
}

// Judges tells whether a tenant has hooks that judge its pushes.
func (h *Hooks) Judges(tenant string) bool {
	return len(h.of(tenant, PreReceive)) > 0 || len(h.of(tenant, Update)) > 0
}

// of gives the hooks of one kind for a tenant, each once.
func (h *Hooks) of(tenant, kind string) (all []string) {
	has := map[string]bool{}
	for _, it := range h.lines.Get() {
		if it.kind == kind && it.matches(tenant) && !has[it.where] {
			has[it.where] = true
			all = append(all, it.where)
		}
	}
	return all
}

// judging is one push on its way through the hooks.
type judging struct {
	*Hooks
	Judged
	limit time.Duration
	mutex sync.Mutex
	shown int
}

// Judge runs the hooks of a push, and says of each change why it may not be made, or nothing. All hooks of a push have the time of one together.
func (h *Hooks) Judge(ctx context.Context, push Judged) []string {
	limit := h.within()
	ctx, stop := context.WithTimeout(ctx, limit)
	defer stop()
	defer context.AfterFunc(h.ctx, stop)()
	j := &judging{Hooks: h, Judged: push, limit: limit}
	reasons := make([]string, len(push.Changes))
	leave, err := h.judging.Acquire(ctx, fair.First, access.Person(push.User), push.Tenant)
	if err != nil {
		return filled(reasons, "the hooks of this repository have as many pushes to judge as they may; try again")
	}
	defer leave()
	for _, path := range h.of(push.Tenant, PreReceive) {
		if why := j.run(ctx, PreReceive, path, push.lines()); why != "" {
			return filled(reasons, why)
		}
	}
	for _, path := range h.of(push.Tenant, Update) {
		for at, it := range push.Changes {
			if reasons[at] == "" {
				reasons[at] = j.run(ctx, Update, path, "", it.Ref, it.Old, it.New)
			}
		}
	}
	return reasons
}

func filled(reasons []string, why string) []string {
	for at := range reasons {
		reasons[at] = why
	}
	return reasons
}

// run runs one hook, and says why it refuses, or nothing.
func (j *judging) run(ctx context.Context, kind, path, input string, words ...string) (why string) {
	began := time.Now()
	err := j.carryOut(ctx, path, input, words)
	j.metrics.Observe("gitpoold_hook_seconds", "The time of hooks.", time.Since(began).Seconds())
	var ended *exec.ExitError
	declines := errors.As(err, &ended) && ended.Exited() && ctx.Err() == nil
	switch {
	case err == nil:
		j.count("ok")
		return ""
	case declines && kind == PreReceive:
		j.count("declined")
		return "pre-receive hook declined"
	case declines:
		j.count("declined")
		return "hook declined"
	}
	why = j.trouble(ctx, kind, err)
	j.tell("the %s hook %s of a push by %q to %s: %s (%v)", kind, path, j.User, j.Tenant, why, err)
	return why
}

// trouble says what has become of a hook that has not ended by itself.
func (j *judging) trouble(ctx context.Context, kind string, err error) string {
	var ended *exec.ExitError
	switch {
	case errors.Is(ctx.Err(), context.DeadlineExceeded):
		j.count("late")
		return fmt.Sprintf("the %s hook took longer than %v, and was ended", kind, j.limit)
	case ctx.Err() != nil:
		j.count("failed")
		return fmt.Sprintf("the %s hook was ended with its push", kind)
	case errors.As(err, &ended):
		j.count("failed")
		return fmt.Sprintf("the %s hook died: %v", kind, ended)
	}
	j.count("failed")
	return fmt.Sprintf("the %s hook cannot be run; the server's log says why", kind)
}

// carryOut starts a hook in the repository of the push, and waits for it as `run` of a hook that is told.
func (j *judging) carryOut(ctx context.Context, path, input string, words []string) error {
	command := exec.Command(path, words...)
	command.Dir = j.Folder
	command.Env = append(withoutGit(os.Environ()), j.variables()...)
	command.Env = append(command.Env, "GIT_DIR=.", "GIT_QUARANTINE_PATH="+j.Objects, "GIT_OBJECT_DIRECTORY="+j.Objects,
		"GIT_ALTERNATE_OBJECT_DIRECTORIES="+j.Shared)
	in, out, err := start(command)
	if err != nil {
		return err
	}
	defer in.Close()
	defer out.Close()
	said := make(chan struct{})
	go func() { defer close(said); j.show(out) }()
	go feed(in, input)
	awaitEnd(ctx, command.Process.Pid)
	err = command.Wait()
	// What it printed is in the pipe. Who has left its group may have the pipe open still.
	_ = out.SetReadDeadline(time.Now().Add(afterEnd))
	<-said
	return err
}

// show lets the user see what a hook prints, up to MostShown of the whole push. What is beyond is read and dropped, so the hook goes on.
func (j *judging) show(out *os.File) {
	part := make([]byte, 64<<10)
	for {
		count, err := out.Read(part)
		j.shownPart(part[:count])
		if errors.Is(err, os.ErrDeadlineExceeded) {
			j.shownPart(atHand(out, MostShown))
		}
		if err != nil {
			return
		}
	}
}

func (j *judging) shownPart(text []byte) {
	j.mutex.Lock()
	defer j.mutex.Unlock()
	left := MostShown - j.shown
	j.shown += len(text)
	switch {
	case left < 0 || len(text) == 0:
	case len(text) <= left:
		j.Say(text)
	default:
		j.Say(append(append([]byte{}, text[:left]...), fmt.Sprintf("\n.. what the hook says beyond %d bytes is left out\n", MostShown)...))
	}
}

// withoutGit leaves out of an environment what would lead git to another repository.
func withoutGit(all []string) (left []string) {
	for _, it := range all {
		if !strings.HasPrefix(it, "GIT_") {
			left = append(left, it)
		}
	}
	return left
}
