package audit

import (
	"bytes"
	"errors"
	"os"
	"path/filepath"
	"strings"
	"testing"
)

// TestLinesAreOnlyAppended has a line that a crash has cut off, and asks that what stands in the file stays.
func TestLinesAreOnlyAppended(t *testing.T) {
	folder := t.TempDir()
	who := Who{ID: 0, Login: "alice", From: "192.0.2.1"}
	note := func(what string, failed error) {
		if err := Note(folder, who, what, failed); err != nil {
			t.Fatal(err)
		}
	}
	note("grant bob acme/* rw", nil)
	file, err := os.OpenFile(filepath.Join(folder, "audit"), os.O_WRONLY|os.O_APPEND, 0)
	if err != nil {
		t.Fatal(err)
	}
	if _, err := file.WriteString("2026-12-01T00:00:00.000Z oper"); err != nil {
		t.Fatal(err)
	}
	file.Close()
	note("remove acme/site\n", errors.New("fault 31"))
	var text bytes.Buffer
	if err := Print(folder, &text); err != nil {
		t.Fatal(err)
	}
	lines := strings.Split(strings.TrimSuffix(text.String(), "\n"), "\n")
	wanted := []string{` operator uid=0 user=root login=alice from=192.0.2.1 what="grant bob acme/* rw"`, " oper",
		` operator uid=0 user=root login=alice from=192.0.2.1 what="remove acme/site\n" error="fault 31"`}
	if len(lines) != len(wanted) {
		t.Fatal(text.String())
	}
	for at, it := range lines {
		if !strings.HasSuffix(it, wanted[at]) {
			t.Errorf("%q does not end with %q", it, wanted[at])
		}
	}
}

// TestWhoGivesACommandIsSaidBeforeIt takes what Signed writes, and no more than that.
func TestWhoGivesACommandIsSaidBeforeIt(t *testing.T) {
	words := Who{ID: 7, Login: "a b", From: ""}.Signed([]string{"remove", "from=x"})
	if len(words) != 3 {
		t.Fatal("what is not known is said", words)
	}
	who, rest := Who{ID: 9}.Signer(words)
	if who != (Who{9, "a_b", ""}) || strings.Join(rest, " ") != "remove from=x" {
		t.Fatal(who, rest)
	}
}

func TestAFolderThatIsNotThereHasNoAudit(t *testing.T) {
	if err := Print(filepath.Join(t.TempDir(), "none"), &bytes.Buffer{}); !errors.Is(err, os.ErrNotExist) {
		t.Fatal(err)
	}
	if err := Print(t.TempDir(), &bytes.Buffer{}); err != nil {
		t.Fatal(err)
	}
}
