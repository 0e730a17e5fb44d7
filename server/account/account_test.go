package account

import (
	"bytes"
	"context"
	"errors"
	"fmt"
	"io"
	"os"
	"path/filepath"
	"strings"
	"sync"
	"testing"
	"time"

	"gitpoold/access"
	"gitpoold/configfile"
	"gitpoold/gateway"
	"gitpoold/logs"
	"gitpoold/metrics"
)

var background = context.Background()

const oneKey = "ssh-ed25519 AAAAC3NzaC1lZDI1NTE5AAAAIHTzBlSPOmYZe0DKGqFgcMmFbYQG1NkLbNcXhBKTcMSP"

func must(t *testing.T, err error) {
	t.Helper()
	if err != nil {
		t.Fatal(err)
	}
}

// user is somebody of a new site, to whom nothing was counted before.
func user(t *testing.T, login string) User {
	t.Helper()
	folder := t.TempDir()
	must(t, access.SetPassword(folder, "alice", "wonderland"))
	must(t, access.Grant(folder, "alice", "acme/*", "rw"))
	who, err := access.Load(folder, t.Logf)
	must(t, err)
	often = &counts{}
	return User{Gateway: &gateway.Gateway{Access: who, Folder: folder, Log: logs.New(io.Discard, metrics.New())}, Login: login, Address: "192.0.2.1"}
}

func audited(t *testing.T, u User) string {
	t.Helper()
	text, err := os.ReadFile(filepath.Join(u.Gateway.Folder, "audit"))
	if err != nil && !errors.Is(err, os.ErrNotExist) {
		t.Fatal(err)
	}
	return string(text)
}

// carried carries a command out, and gives what it prints.
func carried(u User, words, in string) (string, error) {
	var out bytes.Buffer
	err := u.Carry(background, strings.Fields(words), strings.NewReader(in), &out)
	return out.String(), err
}

func TestCommands(t *testing.T) {
	u := user(t, "alice")
	if shown, err := carried(u, "", ""); err != nil || shown != "user alice\ngrant acme/* rw\npassword\n" {
		t.Fatalf("%q %v", shown, err)
	}
	added, err := carried(u, "keys add", oneKey+" a comment\n")
	if err != nil || !strings.HasPrefix(added, "SHA256:") {
		t.Fatal(added, err)
	}
	if _, err := carried(u, "keys remove "+added, ""); err != nil {
		t.Fatal(err)
	}
	if _, err := carried(u, "password", "another land\r\nmore"); err != nil ||
		u.Gateway.Access.Password(background, "alice", "another land", "") != nil {
		t.Fatal(err)
	}
	made, err := carried(u, "token create acme/site r 1h", "")
	words := strings.Fields(made)
	if err != nil || len(words) != 2 || u.Gateway.Access.Password(background, words[0], words[1], "") != nil {
		t.Fatal(made, err)
	}
	if _, err := carried(u, "token remove "+words[0], ""); err != nil || u.Gateway.Access.Hash(words[0]) != "" {
		t.Fatal(err)
	}
	if strings.Count(audited(t, u), " account address=192.0.2.1 login=alice what=") != 5 || strings.Contains(audited(t, u), words[1]) {
		t.Fatal(audited(t, u))
	}
	for _, bad := range []string{"what", "keys what", "keys remove", "keys add x", "password x", "token x", "token create a r", "token remove", "key",
		"keys remove a b"} {
		if _, err := carried(u, bad, ""); err != ErrWords {
			t.Errorf("%q: %v", bad, err)
		}
	}
}

// TestWhoMayChangeNothing has a token, a user who is blocked, a replica, and a server without a folder: nothing changes, and nothing is noted.
func TestWhoMayChangeNothing(t *testing.T) {
	changes := []string{"keys add", "keys remove SHA256:x", "password", "token create acme/* r 1h", "token remove alice~1"}
	elsewhere := errors.New("elsewhere")
	for name, it := range map[string]struct {
		login string
		spoil func(u *User)
		is    error
	}{
		"a token":       {"alice~1", func(*User) {}, ErrToken},
		"a replica":     {"alice", func(u *User) { u.Gateway.Elsewhere = func() error { return elsewhere } }, elsewhere},
		"without files": {"alice", func(u *User) { u.Gateway.Folder = "" }, ErrFolder},
		"a visitor":     {"", func(*User) {}, access.ErrWrong},
	} {
		u := user(t, it.login)
		folder := u.Gateway.Folder
		before, err := access.Users(folder)
		must(t, err)
		it.spoil(&u)
		for _, words := range changes {
			if _, err := carried(u, words, oneKey); err != it.is && !(it.login == "" && err != nil) {
				t.Errorf("%s: %s: %v", name, words, err)
			}
		}
		if after, _ := access.Users(folder); fmt.Sprint(after) != fmt.Sprint(before) {
			t.Errorf("%s changes %v", name, after)
		}
		u.Gateway.Folder = folder
		if audited(t, u) != "" {
			t.Error(audited(t, u))
		}
	}
	u := user(t, "alice")
	must(t, access.Block(u.Gateway.Folder, access.User, "alice", "unpaid"))
	if _, err := carried(u, "password", "another land"); !errors.As(err, new(*access.Blocked)) {
		t.Error(err)
	}
}

func TestChangesAreBounded(t *testing.T) {
	u := user(t, "alice")
	for at := 0; at < mostChanges; at++ {
		if err := u.RemoveKey(background, "SHA256:x"); err == nil || err == ErrOften {
			t.Fatal(at, err)
		}
	}
	if err := u.RemoveKey(background, "SHA256:x"); err != ErrOften {
		t.Fatal(err)
	}
	if strings.Count(audited(t, u), "\n") != 2*mostChanges {
		t.Fatal("the audit has more lines than changes")
	}
	if !often.take("bob", time.Now()) || often.take("alice", time.Now()) || !often.take("alice", time.Now().Add(time.Hour)) {
		t.Fatal("users are counted together, or for longer than an hour")
	}
}

// TestTokensOfAUserAreBounded makes tokens, many at once: no more are there than a user may have, each of them with its line in the audit.
func TestTokensOfAUserAreBounded(t *testing.T) {
	u := user(t, "alice")
	var rows []string
	for at := 0; at < mostOfEach-3; at++ {
		rows = append(rows, fmt.Sprintf("alice~%d hash %s r acme/*", at, time.Now().Add(time.Hour).UTC().Format(time.RFC3339)))
	}
	must(t, configfile.Write(filepath.Join(u.Gateway.Folder, "tokens"), rows))
	var all sync.WaitGroup
	for at := 0; at < 8; at++ {
		all.Add(1)
		go func() {
			defer all.Done()
			if _, _, err := u.NewToken(background, "acme/*", "r", "1h"); err != nil && err != ErrMany && err != ErrBusy {
				t.Error(err)
			}
		}()
	}
	all.Wait()
	// Those that met too many others at once left room.
	for at := 0; at < mostOfEach; at++ {
		if _, _, err := u.NewToken(background, "acme/*", "r", "1h"); err == ErrMany {
			break
		}
	}
	if tokens, err := u.Tokens(); err != nil || len(tokens) != mostOfEach {
		t.Fatal(len(tokens), err)
	}
}

// TestWithoutAnAuditNothingChanges has an audit that cannot be written.
func TestWithoutAnAuditNothingChanges(t *testing.T) {
	u := user(t, "alice")
	must(t, os.Mkdir(filepath.Join(u.Gateway.Folder, "audit"), 0o700))
	if err := u.SetPassword(background, "another land"); err == nil || !strings.Contains(err.Error(), "nothing is changed") {
		t.Fatal(err)
	}
	if u.Gateway.Access.Password(background, "alice", "wonderland", "") != nil {
		t.Fatal("the password is changed")
	}
}
