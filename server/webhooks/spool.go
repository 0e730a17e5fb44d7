package webhooks

import (
	"encoding/json"
	"errors"
	"os"
	"path/filepath"
	"regexp"
	"sort"
	"time"

	"gitpoold/regular"
)

// folderName is the folder of what waits, and of the log of deliveries.
const folderName = "deliveries"

// delivery is one event on its way to one address. Next is when it is tried, and no time where it is tried no more.
type delivery struct {
	ID      string    `json:"id"`
	Event   string    `json:"event"`
	Tenant  string    `json:"tenant"`
	Address string    `json:"address"`
	Made    time.Time `json:"made"`
	Tries   int       `json:"tries"`
	Next    time.Time `json:"next"`
	size    int64
}

// spool keeps deliveries: of each a file with its body, and one that says for whom it is and how often it was tried. The second one is written after
// the first one, and removed before it, so a body alone is of no delivery.
type spool struct{ folder string }

var spooled = regexp.MustCompile(`^[0-9a-f-]{36}\.json$`)

func (s spool) about(d delivery) string { return filepath.Join(s.folder, d.ID+".json") }
func (s spool) text(d delivery) string  { return filepath.Join(s.folder, d.ID+".body") }

// write keeps a delivery so that it outlives this process and the machine.
func (s spool) write(d delivery, body []byte) error {
	if err := os.MkdirAll(s.folder, 0o700); err != nil {
		return err
	}
	err := replace(s.text(d), body, true)
	if err == nil {
		err = s.keep(d, true)
	}
	if err == nil {
		err = regular.SyncFolder(s.folder)
	}
	if err != nil {
		s.remove(d)
	}
	return err
}

func (s spool) keep(d delivery, isSynced bool) error {
	text, err := json.Marshal(d)
	if err != nil {
		return err
	}
	return replace(s.about(d), text, isSynced)
}

// update keeps how often a delivery was tried. Where that cannot be written, it is tried sooner after the next start.
func (s spool) update(d delivery) { _ = s.keep(d, false) }

func (s spool) remove(d delivery) {
	_ = os.Remove(s.about(d))
	_ = os.Remove(s.text(d))
}

func (s spool) body(d delivery) ([]byte, error) { return os.ReadFile(s.text(d)) }

// read gives what the spool has, in the order in which it was made, and removes what is of no delivery.
func (s spool) read(tell func(string, ...any)) (all []delivery, err error) {
	entries, err := os.ReadDir(s.folder)
	if errors.Is(err, os.ErrNotExist) {
		return nil, nil
	}
	known := map[string]bool{logName: true, logName + olderSuffix: true}
	for _, it := range entries {
		if !spooled.MatchString(it.Name()) {
			continue
		}
		d, err := s.readOne(it.Name())
		if err != nil {
			tell("a delivery of a hook cannot be read, and is not made: %v", err)
			continue
		}
		known[filepath.Base(s.about(d))], known[filepath.Base(s.text(d))] = true, true
		all = append(all, d)
	}
	for _, it := range entries {
		if !known[it.Name()] {
			_ = os.Remove(filepath.Join(s.folder, it.Name()))
		}
	}
	sort.SliceStable(all, func(i, k int) bool { return all[i].Made.Before(all[k].Made) })
	return all, err
}

func (s spool) readOne(name string) (d delivery, err error) {
	text, err := os.ReadFile(filepath.Join(s.folder, name))
	if err == nil {
		err = json.Unmarshal(text, &d)
	}
	if err == nil && d.ID+".json" != name {
		err = errors.New(name + " names another delivery")
	}
	if err != nil {
		return d, err
	}
	info, err := os.Stat(s.text(d))
	if err == nil {
		d.size = info.Size()
	}
	return d, err
}

// replace puts a file in its place in one step.
func replace(path string, text []byte, isSynced bool) error {
	file, err := os.OpenFile(path+".new", os.O_WRONLY|os.O_CREATE|os.O_TRUNC, 0o600)
	if err != nil {
		return err
	}
	_, err = file.Write(text)
	if err == nil && isSynced {
		err = file.Sync()
	}
	if closing := file.Close(); err == nil {
		err = closing
	}
	if err == nil {
		err = os.Rename(path+".new", path)
	}
	return err
}
