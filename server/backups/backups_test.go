package backups

import (
	"errors"
	"os"
	"path/filepath"
	"testing"
	"time"
)

func must(t *testing.T, err error) {
	t.Helper()
	if err != nil {
		t.Fatal(err)
	}
}

// TestListsLeadNowhereElse has lists of a moment whose paths leave it, and lists that were cut.
func TestListsLeadNowhereElse(t *testing.T) {
	folder := t.TempDir()
	put := func(text string) error {
		must(t, os.WriteFile(filepath.Join(folder, listName), []byte(text), 0o600))
		_, err := readList(folder)
		return err
	}
	good := format([]entry{{"shard-2/pool", 3, "00"}, {"a b", 0, "-"}})
	must(t, put(good))
	var damaged *Damaged
	for at := range good {
		if err := put(good[:at]); !errors.As(err, &damaged) {
			t.Fatalf("cut at %d: %v", at, err)
		}
	}
	for _, path := range []string{"../x", "/etc/passwd", "a/../../x", "..", "", "a//b"} {
		if err := put(format([]entry{{path, 1, "00"}})); !errors.As(err, &damaged) {
			t.Errorf("%q: %v", path, err)
		}
	}
}

// TestFilesThatChangedAreNotShared changes the contents, the time or the size of a file between two moments.
func TestFilesThatChangedAreNotShared(t *testing.T) {
	folder, to := t.TempDir(), filepath.Join(t.TempDir(), "kept")
	path := filepath.Join(folder, "access")
	write := func(text string, at int64) {
		must(t, os.WriteFile(path, []byte(text), 0o600))
		must(t, os.Chtimes(path, time.Unix(at, 0), time.Unix(at, 0)))
	}
	for turn, it := range []struct {
		text string
		at   int64
	}{{"one", 1}, {"two", 2}, {"longer", 2}, {"longer", 2}} {
		write(it.text, it.at)
		_, err := Make(folder, to, 1+turn)
		must(t, err)
		restored := filepath.Join(t.TempDir(), "restored")
		_, err = Restore(to, "", restored)
		must(t, err)
		if text, err := os.ReadFile(filepath.Join(restored, "access")); err != nil || string(text) != it.text {
			t.Error(turn, string(text), err)
		}
		time.Sleep(2 * time.Millisecond)
	}
	if names, err := Moments(to); err != nil || len(names) != 4 {
		t.Fatal(names, err)
	}
}
