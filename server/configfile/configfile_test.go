package configfile

import (
	"errors"
	"fmt"
	"io/fs"
	"os"
	"path/filepath"
	"reflect"
	"runtime"
	"sync"
	"sync/atomic"
	"syscall"
	"testing"
	"time"

	"gitpoold/await"
)

func TestChangesOfManyAreAllThere(t *testing.T) {
	path := filepath.Join(t.TempDir(), "list")
	var all sync.WaitGroup
	for i := 0; i < 20; i++ {
		all.Add(1)
		go func() {
			defer all.Done()
			if err := Change(path, func(lines []string) ([]string, error) { return append(lines, "a line"), nil }); err != nil {
				t.Error(err)
			}
		}()
	}
	all.Wait()
	lines, err := Read(path)
	if err != nil || len(lines) != 20 || !reflect.DeepEqual(lines[19], []string{"a", "line"}) {
		t.Fatal(lines, err)
	}
}

func TestARefusedChangeChangesNothing(t *testing.T) {
	path := filepath.Join(t.TempDir(), "list")
	os.WriteFile(path, []byte("# kept\n\n a  b \n"), 0o600)
	refused := errors.New("refused")
	if err := Change(path, func([]string) ([]string, error) { return nil, refused }); err != refused {
		t.Fatal(err)
	}
	lines, err := Read(path)
	if err != nil || !reflect.DeepEqual(lines, [][]string{{"a", "b"}}) {
		t.Fatal(lines, err)
	}
	if text, _ := os.ReadFile(path); string(text) != "# kept\n\n a  b \n" {
		t.Fatalf("%q", text)
	}
}

func TestAFileThatIsNotThereHasNoLines(t *testing.T) {
	if lines, err := Read(filepath.Join(t.TempDir(), "none")); lines != nil || err != nil {
		t.Fatal(lines, err)
	}
}

func TestFollowedFilesAreReadWhenTheyChange(t *testing.T) {
	path := filepath.Join(t.TempDir(), "list")
	var reads, told atomic.Int64
	f, err := Follow(func() (string, error) {
		reads.Add(1)
		text, err := os.ReadFile(path)
		if string(text) == "a bad one" {
			err = errors.New("bad")
		}
		return string(text), err
	}, func(string, ...any) { told.Add(1) }, path)
	if err == nil {
		t.Fatal("the file is not there")
	}
	os.WriteFile(path, []byte("one"), 0o600)
	if f.Get() != "one" || f.Get() != "one" || reads.Load() != 2 {
		t.Fatal(f.Get(), reads.Load())
	}
	// The clock of a file system may be coarse: a change within its tick is seen by the length.
	os.WriteFile(path, []byte("a bad one"), 0o600)
	if f.Get() != "one" || told.Load() != 1 || f.Get() != "one" || reads.Load() != 3 {
		t.Fatal(f.Get(), reads.Load(), told.Load())
	}
}

// TestFilesThatCannotBeReadAreReadLater has a grant taken back while the process has too many files open.
func TestFilesThatCannotBeReadAreReadLater(t *testing.T) {
	path := filepath.Join(t.TempDir(), "access")
	os.WriteFile(path, []byte("granted"), 0o600)
	var isFull atomic.Bool
	var told atomic.Int64
	f, err := Follow(func() (string, error) {
		if isFull.Load() {
			return "", &fs.PathError{Op: "open", Path: path, Err: syscall.EMFILE}
		}
		text, err := os.ReadFile(path)
		return string(text), err
	}, func(string, ...any) { told.Add(1) }, path)
	if err != nil {
		t.Fatal(err)
	}
	isFull.Store(true)
	os.WriteFile(path, []byte("taken back"), 0o600)
	began := time.Now()
	// They are tried again after a second, and a slow machine may take as long for two looks.
	if f.Get() != "granted" || f.Get() != "granted" || told.Load() < 1 || told.Load() > 1 && time.Since(began) < tryAgainAfter {
		t.Fatalf("%q, told %d times", f.Get(), told.Load())
	}
	isFull.Store(false)
	await.Until(t, "what was taken back", func() bool { return f.Get() == "taken back" })
}

// hung lets the file system not answer, until it is released.
func hung(t *testing.T) (asked *atomic.Int64, release func()) {
	t.Helper()
	var count atomic.Int64
	var once sync.Once
	before, beforePatience, released := Stat, patience, make(chan struct{})
	release = func() { once.Do(func() { close(released) }) }
	Stat, patience = func(path string) (fs.FileInfo, error) {
		count.Add(1)
		<-released
		return before(path)
	}, 50*time.Millisecond
	t.Cleanup(func() {
		release()
		Stat, patience = before, beforePatience
	})
	return &count, release
}

// TestAFileSystemThatDoesNotAnswer keeps one goroutine, and nobody who asks for what files come to. What has changed meanwhile is seen once it
// answers.
func TestAFileSystemThatDoesNotAnswer(t *testing.T) {
	path := filepath.Join(t.TempDir(), "list")
	os.WriteFile(path, []byte("one"), 0o600)
	f, err := Follow(func() (string, error) {
		text, err := os.ReadFile(path)
		return string(text), err
	}, t.Logf, path)
	if err != nil {
		t.Fatal(err)
	}
	asked, release := hung(t)
	os.WriteFile(path, []byte("another"), 0o600)
	before := runtime.NumGoroutine()
	began := time.Now()
	for i := 0; i < 2000; i++ {
		if f.Last() != "one" || f.Get() != "one" || f.Within(time.Hour) != "one" {
			t.Fatal("what was read before does not hold")
		}
	}
	if took := time.Since(began); took > 20*time.Second {
		t.Fatalf("it took %v", took)
	}
	if asked.Load() != 1 || runtime.NumGoroutine() > before+1 {
		t.Fatalf("asked %d times, by %d goroutines", asked.Load(), runtime.NumGoroutine()-before)
	}
	release()
	await.Until(t, "what has changed meanwhile", func() bool { return f.Get() == "another" })
}

// TestManyShareOneLook has many that ask at once, each after a change of its own: each sees that change.
func TestManyShareOneLook(t *testing.T) {
	path := filepath.Join(t.TempDir(), "list")
	if err := Change(path, func([]string) ([]string, error) { return nil, nil }); err != nil {
		t.Fatal(err)
	}
	defer func(was time.Duration) { patience = was }(patience)
	patience = await.Longest
	f, err := Follow(func() ([][]string, error) { return Read(path) }, t.Logf, path)
	if err != nil {
		t.Fatal(err)
	}
	var all sync.WaitGroup
	for i := 0; i < 20; i++ {
		all.Add(1)
		go func(mine string) {
			defer all.Done()
			if err := added(path, mine); err != nil {
				t.Error(err)
			}
			for _, words := range f.Get() {
				if words[0] == mine {
					return
				}
			}
			t.Errorf("%s is not there", mine)
		}(fmt.Sprint("line-", i))
	}
	all.Wait()
	if f.Err() != nil || len(f.Last()) != 20 {
		t.Fatal(f.Err(), f.Last())
	}
}
