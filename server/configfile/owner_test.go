package configfile

import (
	"os"
	"path/filepath"
	"syscall"
	"testing"
)

// another is a user who runs a server in these tests.
const another = 12345

func ownerOf(t *testing.T, path string) (user uint32, mode os.FileMode) {
	t.Helper()
	info, err := os.Stat(path)
	if err != nil {
		t.Fatal(err)
	}
	return info.Sys().(*syscall.Stat_t).Uid, info.Mode().Perm()
}

// TestWhatRootChangesBelongsToTheOwnerOfTheFolder has root make, change and lock lists of another user's folder.
func TestWhatRootChangesBelongsToTheOwnerOfTheFolder(t *testing.T) {
	if os.Geteuid() != 0 {
		t.Skip("only root may give files away")
	}
	folder := t.TempDir()
	if err := os.Chown(folder, another, another); err != nil {
		t.Fatal(err)
	}
	path := filepath.Join(folder, "access")
	add := func(lines []string) ([]string, error) { return append(lines, "alice * r"), nil }
	for _, mode := range []os.FileMode{0o600, 0o640} {
		if err := Change(path, add); err != nil {
			t.Fatal(err)
		}
		for _, name := range []string{"access", "lists.lock"} {
			if user, _ := ownerOf(t, filepath.Join(folder, name)); user != another {
				t.Errorf("%s belongs to %d", name, user)
			}
		}
		if _, has := ownerOf(t, path); has != mode {
			t.Errorf("the mode is %o, and was %o", has, mode)
		}
		if err := os.Chmod(path, 0o640); err != nil {
			t.Fatal(err)
		}
	}
}

// TestWhatIsNotedComesBeforeTheChange has the note fail, and a change that changes nothing.
func TestWhatIsNotedComesBeforeTheChange(t *testing.T) {
	path, noted := filepath.Join(t.TempDir(), "access"), 0
	defer func(before func() error) { Before = before }(Before)
	Before = func() error { noted++; return syscall.ENOSPC }
	if err := Change(path, func(lines []string) ([]string, error) { return append(lines, "a"), nil }); err != syscall.ENOSPC || noted != 1 {
		t.Fatal(err, noted)
	}
	if _, err := os.Stat(path); err == nil {
		t.Fatal("a change was made that could not be noted")
	}
	if err := Change(path, func(lines []string) ([]string, error) { return lines, nil }); err != nil || noted != 1 {
		t.Fatal("what changes nothing is noted", err, noted)
	}
}
