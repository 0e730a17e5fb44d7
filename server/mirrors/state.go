package mirrors

import (
	"crypto/sha256"
	"encoding/json"
	"errors"
	"fmt"
	"os"
	"path/filepath"
	"strings"
	"time"
)

// folderName is the folder of the mirrors' repositories, and of how they stand.
const (
	folderName = "mirrored"
	stateName  = "state"
)

// State is how a mirror stands.
type State struct {
	Ended    time.Time `json:"ended"`    // its last run
	Good     time.Time `json:"good"`     // its last run that went well
	Failures int       `json:"failures"` // runs since then that did not
	Why      string    `json:"why"`      // why the last one did not
	Next     time.Time `json:"next"`
	Refs     int       `json:"refs"`    // of the last run that went well
	Changed  int       `json:"changed"` // refs that it changed
}

// key names a mirror in the file of states, and its repository.
func (m Mirror) key() string {
	sum := sha256.Sum256([]byte(strings.Join([]string{m.Kind, m.Tenant, m.URL}, "\n")))
	return fmt.Sprintf("%s-%x", m.Kind, sum[:12])
}

// How a mirror is tried again that failed: after firstWait, then after twice as long each time, up to longestWait or what its line says, if that is
// longer. What its line says is the first wait if that is shorter.
const (
	firstWait   = time.Minute
	longestWait = 6 * time.Hour
)

func waitAfter(failures int, every time.Duration) time.Duration {
	wait, most := firstWait, longestWait
	wait = min(wait, every)
	most = max(most, every)
	for ; failures > 1 && wait < most; failures-- {
		wait *= 2
	}
	return min(most, wait)
}

// after gives how a mirror stands after a run.
func (s State) after(m Mirror, now time.Time, did outcome, err error) State {
	s.Ended = now
	if err != nil {
		s.Failures++
		s.Why = err.Error()
		s.Next = now.Add(waitAfter(s.Failures, m.Every))
		return s
	}
	return State{Ended: now, Good: now, Next: now.Add(m.Every), Refs: did.refs, Changed: did.changed}
}

// readStates gives how the mirrors of a folder stand. A file that cannot be read lets all of them run now.
func readStates(folder string) (map[string]State, error) {
	all := map[string]State{}
	text, err := os.ReadFile(filepath.Join(folder, folderName, stateName))
	if errors.Is(err, os.ErrNotExist) {
		return all, nil
	}
	if err == nil {
		err = json.Unmarshal(text, &all)
	}
	if err != nil {
		return map[string]State{}, err
	}
	return all, nil
}

func writeStates(folder string, all map[string]State) error {
	path := filepath.Join(folder, folderName, stateName)
	text, err := json.Marshal(all)
	if err != nil {
		return err
	}
	if err := os.MkdirAll(filepath.Dir(path), 0o700); err != nil {
		return err
	}
	if err := os.WriteFile(path+".new", text, 0o600); err != nil {
		return err
	}
	return os.Rename(path+".new", path)
}

// Rows tells of each mirror of a kind in a folder, without its password, and how it stands.
func Rows(folder, kind string) (rows []string, err error) {
	all, err := read(filepath.Join(folder, ListName))
	if err != nil {
		return nil, err
	}
	states, err := readStates(folder)
	for _, it := range all {
		if it.Kind == kind {
			rows = append(rows, fmt.Sprintf("%s %s every %v %s", it.Tenant, it.URL, it.Every, states[it.key()].words()))
		}
	}
	return rows, err
}

// words says how a mirror stands.
func (s State) words() string {
	switch {
	case s.Ended.IsZero():
		return "has not run yet"
	case s.Failures > 0:
		return fmt.Sprintf("failed %d times, last at %s, next at %s: %s", s.Failures, when(s.Ended), when(s.Next), s.Why)
	}
	return fmt.Sprintf("went well at %s, next at %s: %d refs, %d changed", when(s.Good), when(s.Next), s.Refs, s.Changed)
}

func when(t time.Time) string { return t.UTC().Format(time.RFC3339) }
