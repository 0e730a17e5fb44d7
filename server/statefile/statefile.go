// Package statefile writes what the server counts to a file of its own, from time to time and at the end.
package statefile

import (
	"os"
	"sync"
	"sync/atomic"
	"time"
)

// Writer writes one file. Its methods may be called by many goroutines at once.
type Writer struct {
	Path string
	// Text gives what the file is to say.
	Text func() []byte
	// Tell gets a line for the operator where the file cannot be written. It begins with What.
	Tell func(format string, values ...any)
	What string

	saving    sync.Mutex
	isChanged atomic.Bool
}

// Changed says that the file is to be written.
func (w *Writer) Changed() { w.isChanged.Store(true) }

// Save writes the file, if that is to be done.
func (w *Writer) Save() {
	w.saving.Lock()
	defer w.saving.Unlock()
	if !w.isChanged.Swap(false) {
		return
	}
	err := os.WriteFile(w.Path+".new", w.Text(), 0o600)
	if err == nil {
		err = os.Rename(w.Path+".new", w.Path)
	}
	if err != nil {
		w.Tell("%s: %v", w.What, err)
		w.Changed()
	}
}

const saveEvery = 10 * time.Second

// Keep calls Save from time to time, until `done` is closed.
func (w *Writer) Keep(done <-chan struct{}) {
	ticker := time.NewTicker(saveEvery)
	defer ticker.Stop()
	for {
		select {
		case <-done:
			return
		case <-ticker.C:
			w.Save()
		}
	}
}
