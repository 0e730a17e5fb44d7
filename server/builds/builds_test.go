package builds

import (
	"crypto/sha256"
	"encoding/hex"
	"os"
	"path/filepath"
	"reflect"
	"testing"
)

// write makes a file of a folder.
func write(t *testing.T, path, text string, mode os.FileMode) {
	t.Helper()
	if err := os.WriteFile(path, []byte(text), mode); err != nil {
		t.Fatal(err)
	}
}

func sumOf(text string) string {
	sum := sha256.Sum256([]byte(text))
	return hex.EncodeToString(sum[:])
}

// TestAnInstalledProgramIsToldOfByTheFileBesideIt has a file `build` with the digest of the executable, with another one, and without one.
func TestAnInstalledProgramIsToldOfByTheFileBesideIt(t *testing.T) {
	const script, replaced = "#!/bin/sh\necho gitpool 0.4.0\n", "proved: no, for it is not the executable that was installed"
	for about, wanted := range map[string][]string{
		"commit: abc\nproved: yes\nsha256: " + sumOf(script) + "\n":         {"version: 0.4.0", "commit: abc", "proved: yes"},
		"commit: abc\nproved: yes\nsha256: " + sumOf(script+"\n") + "\n":    {"version: 0.4.0", replaced},
		"commit: abc\nproved: yes\n":                                        {"version: 0.4.0", replaced},
		"commit: abc\nproved: no\nsha256: " + sumOf(script)[:60] + "\n":     {"version: 0.4.0", replaced},
		"sha256: " + sumOf(script) + "\ncommit: never shown\nproved: yes\n": {"version: 0.4.0"},
	} {
		folder := t.TempDir()
		write(t, filepath.Join(folder, "gitpool"), script, 0o755)
		write(t, filepath.Join(folder, "build"), about, 0o644)
		if found, err := Of(filepath.Join(folder, "gitpool")); err != nil || !reflect.DeepEqual(found, wanted) {
			t.Errorf("%q: %q, %v", about, found, err)
		}
	}
}

// TestAProgramThatTellsHowItWasMadeIsBelieved has the script of a checkout, and a program with no file beside it.
func TestAProgramThatTellsHowItWasMadeIsBelieved(t *testing.T) {
	for script, wanted := range map[string][]string{
		"#!/bin/sh\nprintf 'gitpool 0.4.0\\ncommit: abc\\nproved: no\\n'\n": {"version: 0.4.0", "commit: abc", "proved: no"},
		"#!/bin/sh\necho gitpool 0.4.0\n":                                   {"version: 0.4.0"},
	} {
		path := filepath.Join(t.TempDir(), "gitpool")
		write(t, path, script, 0o755)
		if found, err := Of(path); err != nil || !reflect.DeepEqual(found, wanted) {
			t.Errorf("%q: %q, %v", script, found, err)
		}
	}
}

// TestWhatIsNoGitpoolSaysNoVersion has programs that fail, say something else, or are not there.
func TestWhatIsNoGitpoolSaysNoVersion(t *testing.T) {
	folder := t.TempDir()
	for name, script := range map[string]string{"fails": "#!/bin/sh\nexit 3\n", "another": "#!/bin/sh\necho git version 2.39.5\n", "silent": "#!/bin/sh\n"} {
		path := filepath.Join(folder, name)
		write(t, path, script, 0o755)
		if found, err := Of(path); err == nil {
			t.Errorf("%s: %q", name, found)
		}
	}
	if found, err := Of(filepath.Join(folder, "nothing")); err == nil {
		t.Errorf("%q", found)
	}
}
