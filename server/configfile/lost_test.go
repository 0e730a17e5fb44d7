package configfile

import (
	"errors"
	"os"
	"path/filepath"
	"strings"
	"syscall"
	"testing"

	"gitpoold/regular"
)

func written(t *testing.T, path, text string) {
	t.Helper()
	if err := os.WriteFile(path, []byte(text), 0o600); err != nil {
		t.Fatal(err)
	}
}

func added(path, line string) error {
	return Change(path, func(lines []string) ([]string, error) { return append(lines, line), nil })
}

// isLost asks that a list is read by nobody, and that nobody changes it.
func isLost(t *testing.T, path, says string) {
	t.Helper()
	before, _ := os.ReadFile(path)
	var lost *Lost
	if lines, err := Read(path); !errors.As(err, &lost) || !strings.Contains(err.Error(), says) {
		t.Fatalf("%q is read as %v: %v", before, lines, err)
	}
	if err := added(path, "user mallory"); !errors.As(err, &lost) {
		t.Fatalf("%q is changed: %v", before, err)
	}
	if err := Begin(filepath.Dir(path), "access", "blocked"); !errors.As(err, &lost) {
		t.Fatalf("%q: %v", before, err)
	}
	if after, _ := os.ReadFile(path); string(after) != string(before) {
		t.Fatalf("%q", after)
	}
}

func TestAListThatIsGoneEmptyOrCut(t *testing.T) {
	folder := t.TempDir()
	path := filepath.Join(folder, "blocked")
	for _, line := range []string{"user alice unpaid since May", "user bob"} {
		if err := added(path, line); err != nil {
			t.Fatal(err)
		}
	}
	if err := Begin(folder, "access", "blocked"); err != nil {
		t.Fatal(err)
	}
	whole, err := os.ReadFile(path)
	if err != nil {
		t.Fatal(err)
	}
	if err := os.Remove(path); err != nil {
		t.Fatal(err)
	}
	isLost(t, path, "is gone")
	for _, text := range []string{"", "\n", "  \n"} {
		written(t, path, text)
		isLost(t, path, "is empty")
	}
	for end := len(head) + 1; end < len(whole)-1; end++ {
		written(t, path, string(whole[:end]))
		isLost(t, path, "was cut")
	}
	written(t, path, string(whole))
	if lines, err := Read(path); err != nil || len(lines) != 2 {
		t.Fatal(lines, err)
	}
}

// TestAListWithoutEntriesIsNoLostOne has the last entry taken away by a command, and lists that a hand has written.
func TestAListWithoutEntriesIsNoLostOne(t *testing.T) {
	folder := t.TempDir()
	path := filepath.Join(folder, "blocked")
	if err := added(path, "user alice"); err != nil {
		t.Fatal(err)
	}
	if err := Begin(folder, "blocked"); err != nil {
		t.Fatal(err)
	}
	if err := Change(path, func([]string) ([]string, error) { return nil, nil }); err != nil {
		t.Fatal(err)
	}
	for _, text := range []string{Text(), "# nobody\n", "user bob\n", Text("user bob") + "user carol\n",
		strings.ReplaceAll(Text("user bob"), "\n", "\r\n")} {
		if text != Text() {
			written(t, path, text)
		}
		lines, err := Read(path)
		if err != nil || len(lines) != strings.Count(text, "user ") {
			t.Fatalf("%q is read as %v: %v", text, lines, err)
		}
		if err := Begin(folder, "blocked"); err != nil {
			t.Fatal(err)
		}
	}
}

// TestFoldersWithoutAPastBegin has a new folder, a backup, and a folder of an earlier version: some lists are not there, are empty, or have no last
// line.
func TestFoldersWithoutAPastBegin(t *testing.T) {
	folder := t.TempDir()
	written(t, filepath.Join(folder, "access"), "# USER PATTERN RIGHT\nalice * rw\n")
	written(t, filepath.Join(folder, "passwords"), "")
	for turn := 0; turn < 2; turn++ {
		if err := Begin(folder, "access", "passwords", "blocked"); err != nil {
			t.Fatal(err)
		}
		for name, want := range map[string]string{"access": Text("# USER PATTERN RIGHT", "alice * rw"), "passwords": Text(), "blocked": Text()} {
			if text, err := os.ReadFile(filepath.Join(folder, name)); err != nil || string(text) != want {
				t.Fatalf("%s is %q: %v", name, text, err)
			}
		}
	}
	// A later version has one more.
	if err := Begin(folder, "access", "passwords", "blocked", "owners"); err != nil {
		t.Fatal(err)
	}
	if err := os.Remove(filepath.Join(folder, "owners")); err != nil {
		t.Fatal(err)
	}
	var lost *Lost
	if err := Begin(folder, "access", "passwords", "blocked", "owners"); !errors.As(err, &lost) {
		t.Fatal(err)
	}
}

func TestAListThatIsNoFile(t *testing.T) {
	path := filepath.Join(t.TempDir(), "blocked")
	if err := syscall.Mkfifo(path, 0o600); err != nil {
		t.Fatal(err)
	}
	var not *regular.NotFile
	if _, err := Read(path); !errors.As(err, &not) {
		t.Fatal(err)
	}
	if err := added(path, "user bob"); !errors.As(err, &not) {
		t.Fatal(err)
	}
}

// TestAListBehindALink stays behind it.
func TestAListBehindALink(t *testing.T) {
	folder := t.TempDir()
	link, file := filepath.Join(folder, "blocked"), filepath.Join(folder, "elsewhere")
	written(t, file, "user alice\n")
	if err := os.Symlink("elsewhere", link); err != nil {
		t.Fatal(err)
	}
	if err := added(link, "user bob"); err != nil {
		t.Fatal(err)
	}
	if text, err := os.ReadFile(file); err != nil || string(text) != Text("user alice", "user bob") {
		t.Fatalf("%q %v", text, err)
	}
	if to, err := os.Readlink(link); err != nil || to != "elsewhere" {
		t.Fatal(to, err)
	}
}
