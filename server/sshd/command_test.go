package sshd

import (
	"os/exec"
	"strings"
	"testing"

	"gitpoold/services"
)

func TestCommands(t *testing.T) {
	for command, want := range map[string][2]string{
		"git-upload-pack '/acme/site.git'":   {services.UploadPack, "acme/site"},
		"git upload-pack 'acme/site'":        {services.UploadPack, "acme/site"},
		"git-receive-pack '/a'":              {services.ReceivePack, "a"},
		"git-receive-pack /a/b.git":          {services.ReceivePack, "a/b"},
		"git-upload-pack '/it'\\''s'":        {services.UploadPack, "it's"},
		"git-upload-pack '/a'\\!'b'":         {services.UploadPack, "a!b"},
		"git-upload-pack '/a'\\''\\''b'":     {services.UploadPack, `a'\b`},
		"git-upload-pack ''":                 {services.UploadPack, ""},
		"git-upload-pack":                    {},
		"git-upload-pack ":                   {},
		"git-upload-pack 'a":                 {},
		"git-upload-pack 'a''b'":             {services.UploadPack, "ab"},
		"git-upload-pack 'a' 'b'":            {},
		"git-upload-pack 'a';id":             {},
		"git-upload-pack \"a\"":              {},
		"git-upload-pack a b":                {},
		"git-upload-pack 'a'\\":              {},
		"git-upload-pack 'a'\\'":             {},
		"git-upload-pack $HOME":              {},
		"git-upload-archive 'a'":             {},
		"git-upload-pack '" + long + "'":     {},
		"GIT_PROTOCOL=x git-upload-pack 'a'": {},
	} {
		service, path, ok := parseCommand(command)
		if ok != (want[0] != "") || ok && (service != want[0] || tenantOf(path) != want[1]) {
			t.Errorf("%.80q: %q %q %v", command, service, path, ok)
		}
	}
}

var long = strings.Repeat("a", 2000)

// FuzzCommand asks that what is taken is what a shell would take.
func FuzzCommand(f *testing.F) {
	f.Add("git-upload-pack '/acme/site.git'")
	f.Add("git-receive-pack '/it'\\''s'")
	f.Add("git upload-pack a/b")
	f.Fuzz(func(t *testing.T, command string) {
		service, path, ok := parseCommand(command)
		if !ok || strings.Contains(command, "\x00") {
			return
		}
		rest := command[strings.Index(command, "-pack ")+len("-pack "):]
		said, err := exec.Command("sh", "-c", "printf '%s' "+rest).Output()
		if err != nil || string(said) != path || service != services.UploadPack && service != services.ReceivePack {
			t.Fatalf("%q: %q, and a shell says %q", command, path, said)
		}
	})
}
