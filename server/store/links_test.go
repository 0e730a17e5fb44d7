package store

import (
	"errors"
	"os"
	"path/filepath"
	"syscall"
	"testing"

	"gitpoold/await"
	"gitpoold/poolfile"
	"gitpoold/regular"
)

// behindALink moves the pool file of a folder to a place, and leaves a link.
func behindALink(t *testing.T, c Config, place, link string) {
	t.Helper()
	must(t, copyFile(filepath.Join(c.Folder, "pool"), place))
	must(t, os.Remove(filepath.Join(c.Folder, "pool")))
	must(t, os.Symlink(link, filepath.Join(c.Folder, "pool")))
}

// TestAPoolFileBehindALink has the pool file elsewhere, by a relative and by an absolute link, and on another file system. What it has is served, and
// each save replaces it where it is.
func TestAPoolFileBehindALink(t *testing.T) {
	far, err := os.MkdirTemp("/tmp", "gitpoold-far-")
	must(t, err)
	defer os.RemoveAll(far)
	for _, it := range []struct{ place, link string }{
		{"../elsewhere-1", "../elsewhere-1"}, {"../elsewhere-2", ""}, {filepath.Join(far, "pool"), ""},
	} {
		c := plain(t, folder(t))
		if !filepath.IsAbs(it.place) {
			it.place = filepath.Join(c.Folder, it.place)
		}
		if it.link == "" {
			it.link = it.place
		}
		s := opened(t, c)
		pushAll(t, s, "m0")
		must(t, s.Close(background))
		behindALink(t, c, it.place, it.link)
		for _, message := range []string{"m1", "m2"} {
			s = opened(t, c)
			for _, path := range []string{it.place, filepath.Join(c.Folder, "pool")} {
				if _, err := os.Lstat(path + ".new"); err != nil {
					t.Fatalf("another run may write %s", path)
				}
			}
			before := read(t, it.place)
			pushAll(t, s, message)
			if read(t, it.place) != before {
				t.Fatal("the child writes the file itself")
			}
			must(t, s.Close(background))
			if read(t, it.place) == before {
				t.Fatal("the save did not come to the file that the link names")
			}
		}
		if to, err := os.Readlink(filepath.Join(c.Folder, "pool")); err != nil || to != it.link {
			t.Fatalf("the link became %q: %v", to, err)
		}
		s = opened(t, c)
		hasMessages(t, s, "a", "refs/heads/main", []string{"m0", "m1", "m2"})
		must(t, s.Close(background))
		os.Remove(it.place)
		if _, err := Open(c); !errors.Is(err, os.ErrNotExist) {
			t.Fatalf("a link to nothing: %v", err)
		}
		if err := Create(c.Folder, c.Program); err != nil {
			t.Fatal(err)
		}
		if _, err := os.Stat(it.place); err == nil {
			t.Fatal("a pool was made where the link leads")
		}
	}
}

func read(t *testing.T, path string) string {
	t.Helper()
	text, err := os.ReadFile(path)
	must(t, err)
	return string(text)
}

// TestWhatIsNoFileStopsTheStart has a named pipe, and a folder, in the place of the pool file and of a segment.
func TestWhatIsNoFileStopsTheStart(t *testing.T) {
	c := plain(t, folder(t))
	s := opened(t, c)
	pushAll(t, s, "m0")
	crash(s)
	for _, name := range []string{"pool", "journal/00000001", "journal/00000002", "journal-begun", "answers"} {
		path := filepath.Join(c.Folder, name)
		_, errThere := os.Stat(path)
		if errThere == nil {
			must(t, os.Rename(path, c.Folder+"/aside"))
		}
		for _, make := range []func() error{func() error { return syscall.Mkfifo(path, 0o600) }, func() error { return os.Mkdir(path, 0o700) }} {
			must(t, make())
			isRefusedSoon(t, c, name)
			must(t, os.Remove(path))
		}
		if errThere == nil {
			must(t, os.Rename(c.Folder+"/aside", path))
		}
	}
	s = opened(t, c)
	defer s.Close(background)
	hasMessages(t, s, "a", "refs/heads/main", []string{"m0"})
}

func isRefusedSoon(t *testing.T, c Config, name string) {
	t.Helper()
	ended := make(chan error, 1)
	go func() {
		s, err := Open(c)
		if err == nil {
			crash(s)
		}
		ended <- err
	}()
	err := await.From(t, "a start that waits for no "+name, ended)
	var not *regular.NotFile
	if !errors.As(err, &not) || not.Path != filepath.Join(c.Folder, name) {
		t.Fatalf("%s: %v", name, err)
	}
}

func TestACopyThatIsNoFile(t *testing.T) {
	path := filepath.Join(t.TempDir(), "pipe")
	must(t, syscall.Mkfifo(path, 0o600))
	if _, err := poolfile.Digest(path); !errors.As(err, new(*regular.NotFile)) {
		t.Fatal(err)
	}
}
