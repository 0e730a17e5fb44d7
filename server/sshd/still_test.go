package sshd_test

import (
	"bytes"
	"errors"
	"io"
	"os"
	"path/filepath"
	"strings"
	"testing"

	"golang.org/x/crypto/ssh"

	"gitpoold/access"
	"gitpoold/await"
)

// isLetIn has a session over an open connection, and tells whether its command was looked at: `ls` is none.
func isLetIn(t *testing.T, client *ssh.Client) bool {
	t.Helper()
	session, err := client.NewSession()
	check(t, err)
	defer session.Close()
	var said bytes.Buffer
	session.Stderr = &said
	var exit *ssh.ExitError
	if err := session.Run("ls"); !errors.As(err, &exit) {
		t.Fatalf("a session ended by %v", err)
	}
	if exit.ExitStatus() == 1 && strings.Contains(said.String(), "no longer valid") {
		return false
	}
	if exit.ExitStatus() != 2 {
		t.Fatalf("%d: %s", exit.ExitStatus(), said.String())
	}
	return true
}

// ends waits until the server has ended a connection.
func ends(t *testing.T, client *ssh.Client) {
	t.Helper()
	ended := make(chan struct{})
	go func() {
		defer close(ended)
		_ = client.Wait()
	}()
	await.From(t, "the end of the connection", ended)
}

// TestAnOpenConnectionLosesItsUser changes what let a user in while the connection is open. The user's grants stay.
func TestAnOpenConnectionLosesItsUser(t *testing.T) {
	for _, it := range []struct {
		what       string
		byPassword bool
		change     func(folder string) error
		holds      bool
	}{
		{"the key is gone", false, func(folder string) error { return os.WriteFile(filepath.Join(folder, "keys"), nil, 0o600) }, false},
		{"the password is another", true, func(folder string) error { return access.SetPassword(folder, "alice", "another horse") }, false},
		{"the password is gone", true, func(folder string) error { return os.WriteFile(filepath.Join(folder, "passwords"), nil, 0o600) }, false},
		{"a password beside the key", false, func(folder string) error { return access.SetPassword(folder, "alice", "another horse") }, true},
		{"no key beside the password", true, func(folder string) error { return os.WriteFile(filepath.Join(folder, "keys"), nil, 0o600) }, true},
		{"somebody else's password", true, func(folder string) error { return access.SetPassword(folder, "bob", "another horse") }, true},
	} {
		t.Run(it.what, func(t *testing.T) {
			// A password is slow to judge under the race detector.
			host := hosted(t, "drain 1s\nhandshake 5m\n")
			check(t, access.SetPassword(host.folder, "alice", "correct horse"))
			if it.byPassword {
				host.config.Auth = []ssh.AuthMethod{ssh.Password("correct horse")}
			}
			client := host.client(t)
			if !isLetIn(t, client) {
				t.Fatal("a user is not let in")
			}
			check(t, it.change(host.folder))
			if isLetIn(t, client) != it.holds {
				t.Fatal("after the change")
			}
			if !it.holds {
				ends(t, client)
			}
		})
	}
}

// TestASessionAtWorkOutlastsItsKey has a session that waits for its answer when the key goes, and a new one that is refused beside it. The connection
// ends with the session that is at work.
func TestASessionAtWorkOutlastsItsKey(t *testing.T) {
	host := hosted(t, "drain 1s\n")
	client := host.client(t)
	_, in, said := begun(t, client, "git-upload-pack 'a'")
	check(t, os.WriteFile(filepath.Join(host.folder, "keys"), nil, 0o600))
	if isLetIn(t, client) {
		t.Fatal("a key that is gone holds")
	}
	if _, err := io.ReadFull(said, make([]byte, 4)); err != nil {
		t.Fatalf("a session that had begun: %v", err)
	}
	check(t, in.Close())
	ends(t, client)
}
