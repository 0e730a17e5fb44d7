package sshd_test

import (
	"bytes"
	"errors"
	"strings"
	"testing"

	"golang.org/x/crypto/ssh"

	"gitpoold/services"
)

// TestLFSOverSSHIsToldThatItIsNotServed runs what git-lfs runs: it shows what comes on the terminal.
func TestLFSOverSSHIsToldThatItIsNotServed(t *testing.T) {
	host := hosted(t, "")
	client := host.client(t)
	for _, command := range []string{"git-lfs-authenticate acme/site.git upload", "git-lfs-transfer '/acme/site.git' download", "git-lfs-transfer"} {
		session, err := client.NewSession()
		check(t, err)
		var said bytes.Buffer
		session.Stderr = &said
		var exit *ssh.ExitError
		err = session.Run(command)
		if !errors.As(err, &exit) || exit.ExitStatus() != 1 || strings.TrimSpace(said.String()) != "gitpoold: "+services.NoLFS {
			t.Errorf("%s: %v, %q", command, err, said.String())
		}
	}
}
