package webhooks

import (
	"errors"
	"fmt"
	"os"
	"path/filepath"
	"sync"
	"time"
)

const (
	logName     = "log"
	olderSuffix = ".1"
	// mostLog is how long the log of deliveries grows before it becomes the older one, in whose place it comes.
	mostLog = 1 << 20
	// mostWhy is how much of a reason the log has.
	mostWhy = 300
)

// history is the log of deliveries: a line for each attempt.
type history struct {
	folder string
	mutex  sync.Mutex
	silent bool
}

// note writes the line of one attempt.
func (h *history) note(d delivery, began time.Time, took time.Duration, failed error, tell func(string, ...any)) {
	h.mutex.Lock()
	defer h.mutex.Unlock()
	err := h.append(historyLine(d, began, took, failed))
	if err != nil && !h.silent {
		tell("the log of deliveries cannot be written: %v", err)
	}
	h.silent = err != nil
}

func historyLine(d delivery, began time.Time, took time.Duration, failed error) string {
	result := "ok"
	if failed != nil {
		result = fmt.Sprintf("%.*q", mostWhy, failed.Error())
	}
	line := fmt.Sprintf("%s delivery=%s event=%s tenant=%s to=%q try=%d seconds=%.3f result=%s", began.UTC().Format(time.RFC3339), d.ID, d.Event,
		d.Tenant, Shown(d.Address), d.Tries, took.Seconds(), result)
	if failed != nil && !d.Next.IsZero() {
		line += " again=" + d.Next.UTC().Format(time.RFC3339)
	}
	return line + "\n"
}

func (h *history) append(line string) error {
	if err := os.MkdirAll(h.folder, 0o700); err != nil {
		return err
	}
	path := filepath.Join(h.folder, logName)
	if info, err := os.Stat(path); err == nil && info.Size()+int64(len(line)) > mostLog {
		if err := os.Rename(path, path+olderSuffix); err != nil {
			return err
		}
	}
	file, err := os.OpenFile(path, os.O_WRONLY|os.O_CREATE|os.O_APPEND, 0o600)
	if err != nil {
		return err
	}
	_, err = file.WriteString(line)
	if closing := file.Close(); err == nil {
		err = closing
	}
	return err
}

// Log gives the log of deliveries of a folder, the oldest line first.
func Log(folder string) (text []byte, err error) {
	for _, name := range []string{logName + olderSuffix, logName} {
		part, err := os.ReadFile(filepath.Join(folder, folderName, name))
		if err != nil && !errors.Is(err, os.ErrNotExist) {
			return nil, err
		}
		text = append(text, part...)
	}
	return text, nil
}
