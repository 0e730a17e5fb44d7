package access

import (
	"os"
	"path/filepath"
	"slices"
	"strings"
	"testing"
	"unicode"

	"golang.org/x/crypto/ssh"

	"gitpoold/configfile"
)

// oneKey is a key in the form of a line, for seeds.
const oneKey = "ssh-ed25519 AAAAC3NzaC1lZDI1NTE5AAAAIHTzBlSPOmYZe0DKGqFgcMmFbYQG1NkLbNcXhBKTcMSP"

// FuzzFiles asks that no line of the operator's files gives a right which it does not spell out, and that commands change what they
// are about and nothing else.
func FuzzFiles(f *testing.F) {
	f.Add("alice acme/* rw\n* open/* r\n", "alice $2a$04$x\n", "alice "+oneKey+"\n", "acme/site")
	f.Add("# all\n\n * * r\n", "", "bob "+oneKey+" bob@example.org\n", "a")
	f.Add("alice a/* r", "bob x\nbob y\n", "zoe no-pty,command=\"x y\" "+oneKey, "a/b/c")
	f.Add("alice\ta\vr\r\n", "\x00", "alice ssh-rsa AAAA\n", "a")
	f.Fuzz(func(t *testing.T, grants, passwords, keys, tenant string) {
		folder := t.TempDir()
		for name, text := range map[string]string{"access": grants, "passwords": passwords, "keys": keys} {
			must(t, os.WriteFile(filepath.Join(folder, name), []byte(text), 0o600))
		}
		a, err := Load(folder, quiet)
		if err != nil {
			return
		}
		before := map[string]Right{}
		for _, user := range []string{"", "alice", "bob"} {
			before[user] = a.Right(user, tenant)
			if before[user] != None && !hasWord(grants, user) && !hasWord(grants, Everyone) {
				t.Fatalf("%q may do %d to %q", user, before[user], tenant)
			}
		}
		changed(t, folder, before, tenant)
	})
}

func hasWord(text, word string) bool {
	return slices.Contains(strings.FieldsFunc(text, unicode.IsSpace), word)
}

// changed lets commands change the files, and compares the rights of others before and after.
func changed(t *testing.T, folder string, before map[string]Right, tenant string) {
	t.Helper()
	must(t, revokeAll(folder, "zoe"))
	must(t, Grant(folder, "zoe", "z/*", "rw"))
	must(t, SetPassword(folder, "zoe", "a password"))
	again, err := Load(folder, func(format string, values ...any) { t.Fatalf(format, values...) })
	must(t, err)
	if again.Right("zoe", "z/a") != Write || !lets(again, "zoe", "a password", "127.0.0.1:1") {
		t.Fatal("zoe was not let in")
	}
	must(t, Revoke(folder, "zoe", ""))
	for user, right := range before {
		if got := again.Right(user, tenant); got != right {
			t.Fatalf("%q may do %d to %q, and could %d", user, got, tenant, right)
		}
	}
	everyone := again.Right("", "z/a")
	if again.Right("zoe", "z/a") != everyone || lets(again, "zoe", "a password", "127.0.0.2:1") {
		t.Fatal("zoe is still let in")
	}
}

// revokeAll takes what a user has, and is content where that is nothing.
func revokeAll(folder, user string) error {
	for _, name := range []string{"access", "passwords", "keys"} {
		err := configfile.Change(filepath.Join(folder, name), func(lines []string) ([]string, error) { return without(lines, user), nil })
		if err != nil {
			return err
		}
	}
	return nil
}

// FuzzKeys reads files of public keys: what is added is read back as the same keys, one a line.
func FuzzKeys(f *testing.F) {
	f.Add([]byte(oneKey + " alice@example.org\n"))
	f.Add([]byte("# a comment\n\n" + oneKey + "\n" + oneKey + "\n"))
	f.Add([]byte("command=\"a \\\" b\",no-pty " + oneKey + "\n"))
	f.Add([]byte("ssh-rsa AAAA\n"))
	f.Fuzz(func(t *testing.T, text []byte) {
		folder := t.TempDir()
		count, err := AddKeys(folder, "alice", text)
		if err != nil {
			return
		}
		r, err := readRules(folder)
		if err != nil || len(r.keys) == 0 || len(r.keys) > count {
			t.Fatalf("%d keys were added, %d read: %v", count, len(r.keys), err)
		}
		for wire, user := range r.keys {
			if _, err := ssh.ParsePublicKey([]byte(wire)); err != nil || user != "alice" {
				t.Fatalf("%s: %v", user, err)
			}
		}
	})
}
