package notify

import (
	"net"
	"path/filepath"
	"testing"
)

// TestLinesComeInOneMessage listens as systemd does, at a path and at an abstract address.
func TestLinesComeInOneMessage(t *testing.T) {
	path := filepath.Join(t.TempDir(), "notify")
	for _, address := range []string{path, "@" + path} {
		listener, err := net.ListenUnixgram("unixgram", &net.UnixAddr{Name: address, Net: "unixgram"})
		if err != nil {
			t.Fatal(err)
		}
		t.Setenv("NOTIFY_SOCKET", address)
		if err := Tell(Ready, Status("serving\nhttp")); err != nil {
			t.Fatal(err)
		}
		told := make([]byte, 100)
		count, err := listener.Read(told)
		if err != nil || string(told[:count]) != "READY=1\nSTATUS=serving http" {
			t.Error(string(told[:count]), err)
		}
		listener.Close()
	}
}

// TestNobodyHasToListen has no socket, and one at which nobody listens.
func TestNobodyHasToListen(t *testing.T) {
	t.Setenv("NOTIFY_SOCKET", "")
	if err := Tell(Ready); err != nil {
		t.Error(err)
	}
	t.Setenv("NOTIFY_SOCKET", filepath.Join(t.TempDir(), "none"))
	if Tell(Ready) == nil {
		t.Error("what could not be told is no error")
	}
}
