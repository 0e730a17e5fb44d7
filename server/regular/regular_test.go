package regular

import (
	"errors"
	"net"
	"os"
	"path/filepath"
	"strings"
	"syscall"
	"testing"
)

func TestWhatIsNoFileIsRefused(t *testing.T) {
	folder := t.TempDir()
	pipe, socket := filepath.Join(folder, "pipe"), filepath.Join(folder, "socket")
	file, link := filepath.Join(folder, "file"), filepath.Join(folder, "link")
	if err := syscall.Mkfifo(pipe, 0o600); err != nil {
		t.Fatal(err)
	}
	listener, err := net.Listen("unix", socket)
	if err != nil {
		t.Fatal(err)
	}
	defer listener.Close()
	for path, says := range map[string]string{pipe: "a named pipe", socket: "a socket", folder: "a folder", "/dev/zero": "a device"} {
		for _, at := range []string{path, link} {
			os.Remove(link)
			if err := os.Symlink(path, link); err != nil {
				t.Fatal(err)
			}
			var not *NotFile
			if text, err := Read(at); !errors.As(err, &not) || !strings.Contains(err.Error(), says) {
				t.Errorf("%s: %d bytes, %v", at, len(text), err)
			}
		}
	}
	if err := os.WriteFile(file, []byte("text"), 0o600); err != nil {
		t.Fatal(err)
	}
	os.Remove(link)
	if err := os.Symlink("file", link); err != nil {
		t.Fatal(err)
	}
	if text, err := Read(link); err != nil || string(text) != "text" {
		t.Fatalf("%q %v", text, err)
	}
	if _, err := Read(filepath.Join(folder, "none")); !errors.Is(err, os.ErrNotExist) {
		t.Fatal(err)
	}
}
