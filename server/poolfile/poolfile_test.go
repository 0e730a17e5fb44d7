package poolfile

import (
	"crypto/sha1"
	"errors"
	"os"
	"os/exec"
	"path/filepath"
	"strings"
	"testing"
)

// pool makes a pool file by the program itself.
func pool(t testing.TB) string {
	t.Helper()
	program := os.Getenv("GITPOOL")
	if program == "" {
		t.Skip("GITPOOL names no program")
	}
	path := filepath.Join(t.TempDir(), "pool")
	command := exec.Command(program, "import", "bob", "--pool", path)
	command.Stdin = strings.NewReader("blob\ndata 5\nhello\n")
	if said, err := command.CombinedOutput(); err != nil {
		t.Fatal(string(said))
	}
	return path
}

func TestDigest(t *testing.T) {
	path := pool(t)
	text, _ := os.ReadFile(path)
	digest, err := Digest(path)
	if want := sha1.Sum(text[:len(text)-20]); err != nil || digest != want {
		t.Fatal(digest, err)
	}
}

func TestFilesThatAreTooShortAreRefused(t *testing.T) {
	path := filepath.Join(t.TempDir(), "bad")
	for _, text := range []string{"", "gitpool\n", "gitpool\n0123456789012345678"} {
		os.WriteFile(path, []byte(text), 0o600)
		if _, err := Digest(path); !errors.Is(err, ErrForm) {
			t.Fatalf("%q: %v", text, err)
		}
	}
	if _, err := Digest(filepath.Join(t.TempDir(), "none")); !errors.Is(err, os.ErrNotExist) {
		t.Fatal(err)
	}
}
