package access

import (
	"context"
	"crypto/ed25519"
	"crypto/rand"
	"fmt"
	"os"
	"path/filepath"
	"strings"
	"sync"
	"sync/atomic"
	"testing"
	"time"

	"golang.org/x/crypto/bcrypt"
	"golang.org/x/crypto/ssh"

	"gitpoold/await"
)

var background = context.Background()

// Hashes of tests are quick ones.
func init() { hashCost = bcrypt.MinCost }

func quiet(string, ...any) {}

func loaded(t *testing.T, folder string) *Access {
	t.Helper()
	a, err := Load(folder, quiet)
	if err != nil {
		t.Fatal(err)
	}
	return a
}

// lets tells whether a password is right.
func lets(a *Access, user, password, address string) bool {
	return a.Password(background, user, password, address) == nil
}

func must(t *testing.T, err error) {
	t.Helper()
	if err != nil {
		t.Fatal(err)
	}
}

func TestGrants(t *testing.T) {
	folder := t.TempDir()
	a := loaded(t, folder)
	must(t, Grant(folder, "alice", "acme/site", "rw"))
	must(t, Grant(folder, "alice", "acme/*", "r"))
	must(t, Grant(folder, Everyone, "open/*", "r"))
	must(t, Grant(folder, "root", "*", "rw"))
	for _, it := range []struct {
		user, tenant string
		want         Right
	}{
		{"alice", "acme/site", Write}, {"alice", "acme/other", Read}, {"alice", "acme/deep/er", Read}, {"alice", "acme", None},
		{"alice", "acmes/site", None}, {"alice", "open/x", Read}, {"", "open/x", Read}, {"", "open", None}, {"", "acme/site", None},
		{"bob", "acme/site", None}, {"root", "any/thing", Write}, {"*", "acme/site", None},
	} {
		if got := a.Right(it.user, it.tenant); got != it.want {
			t.Errorf("%s of %s: %d, wanted %d", it.tenant, it.user, got, it.want)
		}
	}
	must(t, Grant(folder, "alice", "acme/site", "r"))
	if a.Right("alice", "acme/site") != Read {
		t.Fatal("a grant was not replaced")
	}
	must(t, Revoke(folder, "alice", "acme/*"))
	if a.Right("alice", "acme/other") != None || a.Right("alice", "acme/site") != Read {
		t.Fatal("a revoked grant holds, or another one was taken")
	}
	if Revoke(folder, "alice", "acme/*") == nil {
		t.Fatal("nothing was revoked, and nothing said so")
	}
}

func TestBadNamesAreRefused(t *testing.T) {
	folder := t.TempDir()
	for _, user := range []string{"", "git", "a b", "a\nb", "../x", strings.Repeat("x", 65), "#x", "-x"} {
		if Grant(folder, user, "a", "r") == nil || SetPassword(folder, user, "longenough") == nil {
			t.Errorf("user %q", user)
		}
	}
	for _, pattern := range []string{"", "/a", "a/", "a/*/b", "**", "a*", "../a", "a b", "a\n* * rw", strings.Repeat("x", 65)} {
		if Grant(folder, "alice", pattern, "r") == nil {
			t.Errorf("pattern %q", pattern)
		}
	}
	if Grant(folder, "alice", "a", "w") == nil || Grant(folder, "alice", "a", "") == nil {
		t.Error("a right")
	}
	for _, password := range []string{"", "short", strings.Repeat("x", 73)} {
		if SetPassword(folder, "alice", password) == nil {
			t.Errorf("password %q", password)
		}
	}
}

func TestPasswords(t *testing.T) {
	folder := t.TempDir()
	a := loaded(t, folder)
	must(t, SetPassword(folder, "alice", "correct horse"))
	if !lets(a, "alice", "correct horse", "192.0.2.1:1") || lets(a, "alice", "wrong horse", "192.0.2.1:1") ||
		lets(a, "bob", "correct horse", "192.0.2.1:1") || lets(a, "alice", "", "192.0.2.1:1") {
		t.Fatal("a password")
	}
	must(t, SetPassword(folder, "alice", "another horse"))
	if lets(a, "alice", "correct horse", "192.0.2.1:1") || !lets(a, "alice", "another horse", "192.0.2.1:1") {
		t.Fatal("the old password holds")
	}
	must(t, Revoke(folder, "alice", ""))
	if lets(a, "alice", "another horse", "192.0.2.1:1") {
		t.Fatal("a revoked password holds")
	}
	text, err := os.ReadFile(filepath.Join(folder, "passwords"))
	if err != nil || strings.Contains(string(text), "horse") {
		t.Fatal("a password is in the file")
	}
}

func TestARightPasswordIsHashedOnce(t *testing.T) {
	folder := t.TempDir()
	a := loaded(t, folder)
	must(t, SetPassword(folder, "alice", "correct horse"))
	lets(a, "alice", "correct horse", "192.0.2.1:1")
	await.Quick(t, 5*time.Second, func() time.Duration {
		began := time.Now()
		for i := 0; i < 1000; i++ {
			if !lets(a, "alice", "correct horse", "192.0.2.1:1") {
				t.Fatal(i)
			}
		}
		return time.Since(began)
	})
}

// TestWrongTriesAreSlowed counts how many wrong passwords from one address are judged in a second and a half.
func TestWrongTriesAreSlowed(t *testing.T) {
	folder := t.TempDir()
	a := loaded(t, folder)
	must(t, SetPassword(folder, "alice", "correct horse"))
	ctx, stop := context.WithTimeout(background, 1500*time.Millisecond)
	defer stop()
	tries := 0
	for ; ctx.Err() == nil; tries++ {
		_ = a.Password(ctx, "alice", "wrong horse", "192.0.2.1:1")
	}
	if tries > 9 {
		t.Fatal(tries)
	}
	if got := waitOf(1000, longestInQueue); got != longestInQueue {
		t.Fatal("after a thousand tries:", got)
	}
	// Who has the password is not kept out from elsewhere.
	elsewhere := 0
	await.Quick(t, 4*time.Second, func() time.Duration {
		a.proofs = newProofs()
		elsewhere++
		began := time.Now()
		must(t, a.Password(background, "alice", "correct horse", fmt.Sprintf("198.51.100.%d:9", elsewhere)))
		return time.Since(began)
	})
}

// triesIn is how many wrong tries have their turns in one queue within a time.
func triesIn(span time.Duration) (count int) {
	for total := time.Duration(0); total <= span; total += waitOf(count, longestInQueue) {
		count++
	}
	return count
}

// TestTriesSideBySideAreSlowedToo has sixty tries at once behind one address, again and again, for two seconds or longer. Who was let in from there
// before is let in at once; who is a stranger there is the next one to be let in.
func TestTriesSideBySideAreSlowedToo(t *testing.T) {
	folder := t.TempDir()
	a := loaded(t, folder)
	known := make(chan string, 20)
	for at := 0; at < cap(known); at++ {
		user := fmt.Sprint("alice", at)
		must(t, SetPassword(folder, user, "correct horse"))
		must(t, a.Password(background, user, "correct horse", "192.0.2.1:1"))
		known <- user
	}
	const strangers = 5
	for at := 0; at < strangers; at++ {
		must(t, SetPassword(folder, fmt.Sprint("carol", at), "correct mouse"))
	}
	a.proofs = newProofs()
	ctx, stop := context.WithCancel(background)
	defer stop()
	began, twoSeconds := time.Now(), time.After(2*time.Second)
	var tries atomic.Int64
	var all sync.WaitGroup
	for at := 0; at < 60; at++ {
		all.Add(1)
		go func() {
			defer all.Done()
			for ctx.Err() == nil {
				if a.Password(ctx, "bob", "wrong horse", "192.0.2.1:7") == ErrWrong {
					tries.Add(1)
				}
			}
		}()
	}
	await.Until(t, "more tries than are free", func() bool { return tries.Load() > freeTries })
	await.Quick(t, 500*time.Millisecond, func() time.Duration {
		began := time.Now()
		must(t, a.Password(background, <-known, "correct horse", "192.0.2.1:8"))
		return time.Since(began)
	})
	// On a busy machine others may have their turns before one of these has come to the queue.
	others := int64(3)
	for at := 0; at < strangers && others > 2; at++ {
		before := tries.Load()
		must(t, a.Password(background, fmt.Sprint("carol", at), "correct mouse", "192.0.2.1:9"))
		others = tries.Load() - before
	}
	if others > 2 {
		t.Errorf("who has the password waits for %d others", others)
	}
	<-twoSeconds
	stop()
	all.Wait()
	if count, took := int(tries.Load()), time.Since(began); count > triesIn(took)+3 {
		t.Errorf("%d tries in %v", count, took)
	}
}

// TestGuessesForWhoIsKnownThereAreSlowed guesses the password of a user who was let in from the same address before.
func TestGuessesForWhoIsKnownThereAreSlowed(t *testing.T) {
	folder := t.TempDir()
	a := loaded(t, folder)
	must(t, SetPassword(folder, "alice", "correct horse"))
	must(t, a.Password(background, "alice", "correct horse", "192.0.2.1:1"))
	ctx, stop := context.WithTimeout(background, 1500*time.Millisecond)
	defer stop()
	tries := 0
	for ; ctx.Err() == nil; tries++ {
		_ = a.Password(ctx, "alice", "wrong horse", "192.0.2.1:1")
	}
	if tries > 9 {
		t.Fatal(tries)
	}
	// Whoever else calls from there does not wait.
	others := 0
	await.Quick(t, 500*time.Millisecond, func() time.Duration {
		others++
		user := fmt.Sprint("carol", others)
		must(t, SetPassword(folder, user, "correct mouse"))
		began := time.Now()
		must(t, a.Password(background, user, "correct mouse", "192.0.2.1:1"))
		return time.Since(began)
	})
}

// TestStrangersKeepNobodyWaiting has strangers from a thousand networks at the hash: who was let in before is let in at once, another one waits, and
// is not told that a right password is wrong.
func TestStrangersKeepNobodyWaiting(t *testing.T) {
	folder := t.TempDir()
	a := loaded(t, folder)
	must(t, SetPassword(folder, "alice", "correct horse"))
	must(t, a.Password(background, "alice", "correct horse", "192.0.2.1:1"))
	a.proofs = newProofs()
	a.Patience = 3 * time.Second
	ctx, stop := context.WithCancel(background)
	defer stop()
	goOn := make(chan struct{})
	var come atomic.Int64
	for at := 0; at < 1000; at++ {
		go func(at int) {
			come.Add(1)
			if leave, err := a.places.Acquire(ctx, strangers, fmt.Sprint(at), "nobody"); err == nil {
				<-goOn
				time.Sleep(50 * time.Millisecond)
				leave()
			}
		}(at)
	}
	await.Until(t, "a thousand strangers", func() bool { return come.Load() == 1000 })
	close(goOn)
	if err := a.Password(background, "alice", "correct horse", "192.0.2.1:9"); err != nil {
		t.Error(err)
	}
	a.proofs = newProofs()
	if err := a.Password(background, "alice", "correct horse", "192.0.2.2:1"); err != ErrBusy {
		t.Error(err)
	}
	stop()
	must(t, a.Password(background, "alice", "correct horse", "192.0.2.2:1"))
}

func TestNamesOfStrangersAreNotKept(t *testing.T) {
	a := loaded(t, t.TempDir())
	long := strings.Repeat("x", 30_000)
	if err := a.Password(background, long, "a password", "192.0.2.1:1"); err != ErrWrong {
		t.Fatal(err)
	}
	for key := range a.throttle.counts {
		if len(key) > 100 {
			t.Fatal(len(key))
		}
	}
	for at := 0; at <= mostMet; at++ {
		a.met.add("alice", fmt.Sprint(at))
	}
	if len(a.met.from["alice"]) != 1 || !a.met.has("alice", fmt.Sprint(mostMet)) {
		t.Fatal(a.met.from)
	}
}

func TestCountsOfTriesAreBounded(t *testing.T) {
	h := newThrottle()
	for i := 0; i < 3*mostCounts; i++ {
		h.note(string(rune(i))+"x", "for alice")
	}
	if len(h.counts) > mostCounts+2 {
		t.Fatal(len(h.counts))
	}
	if Network("[2001:db8::1]:5") != Network("[2001:db8::2:9]:7") || Network("192.0.2.1:5") != "192.0.2.1" {
		t.Fatal(Network("[2001:db8::1]:5"))
	}
}

func newKey(t *testing.T) ssh.PublicKey {
	public, _, err := ed25519.GenerateKey(rand.Reader)
	must(t, err)
	key, err := ssh.NewPublicKey(public)
	must(t, err)
	return key
}

func TestKeys(t *testing.T) {
	folder := t.TempDir()
	a := loaded(t, folder)
	one, two := newKey(t), newKey(t)
	both := append(ssh.MarshalAuthorizedKey(one), ssh.MarshalAuthorizedKey(two)...)
	count, err := AddKeys(folder, "alice", both)
	if err != nil || count != 2 {
		t.Fatal(count, err)
	}
	for login, want := range map[string]bool{"alice": true, "git": true, "bob": false, "": false} {
		if user, ok := a.Key(login, two); ok != want || ok && user != "alice" {
			t.Error(login, user, ok)
		}
	}
	if _, ok := a.Key("alice", newKey(t)); ok {
		t.Error("a key of nobody")
	}
	if _, err := AddKeys(folder, "bob", ssh.MarshalAuthorizedKey(one)); err == nil {
		t.Error("a key of two users")
	}
	if _, err := AddKeys(folder, "alice", both); err != nil {
		t.Error(err)
	}
	if lines, _ := os.ReadFile(filepath.Join(folder, "keys")); strings.Count(string(lines), "\nalice ") != 2 {
		t.Errorf("%s", lines)
	}
	if _, err := AddKeys(folder, "alice", []byte("no key\n")); err == nil {
		t.Error("no key")
	}
	must(t, Revoke(folder, "alice", ""))
	if _, ok := a.Key("alice", one); ok {
		t.Error("a revoked key")
	}
}

// TestWhatLetAUserInMayBeTaken takes back a key and a password, and gives the key to somebody else.
func TestWhatLetAUserInMayBeTaken(t *testing.T) {
	folder := t.TempDir()
	a := loaded(t, folder)
	one := newKey(t)
	key := string(one.Marshal())
	if a.IsStill("alice", "", "") || a.IsStill("alice", key, "") || a.IsStill("", "", "") {
		t.Fatal("a user of nothing")
	}
	_, err := AddKeys(folder, "alice", ssh.MarshalAuthorizedKey(one))
	must(t, err)
	must(t, SetPassword(folder, "alice", "correct horse"))
	hash := a.Hash("alice")
	if !a.IsStill("alice", key, "") || !a.IsStill("alice", "", hash) || a.IsStill("bob", key, "") || a.IsStill("bob", "", hash) {
		t.Fatal("a key or a password")
	}
	must(t, SetPassword(folder, "alice", "another horse"))
	if a.IsStill("alice", "", hash) || !a.IsStill("alice", key, "") {
		t.Fatal("the old password holds, or the key went with it")
	}
	must(t, Revoke(folder, "alice", ""))
	_, err = AddKeys(folder, "bob", ssh.MarshalAuthorizedKey(one))
	must(t, err)
	if a.IsStill("alice", key, "") || !a.IsStill("bob", key, "") {
		t.Fatal("a key is another user's")
	}
}

// TestABadFileChangesNothing has a file that somebody edited by hand: what was read before holds, and the operator is told.
func TestABadFileChangesNothing(t *testing.T) {
	folder := t.TempDir()
	must(t, Grant(folder, "alice", "a", "rw"))
	told := 0
	a, err := Load(folder, func(string, ...any) { told++ })
	must(t, err)
	must(t, os.WriteFile(filepath.Join(folder, "access"), []byte("alice a rw\n* everything\n"), 0o600))
	if a.Right("alice", "a") != Write || a.Right("", "a") != None || told != 1 {
		t.Fatal(told)
	}
	if _, err := Load(folder, quiet); err == nil {
		t.Fatal("a bad file was read")
	}
}

func TestBlocks(t *testing.T) {
	folder := t.TempDir()
	a := loaded(t, folder)
	must(t, Grant(folder, "alice", "*", "rw"))
	must(t, Grant(folder, Everyone, "open", "r"))
	must(t, Block(folder, User, "alice", "too  much"))
	must(t, Block(folder, Tenant, "acme/site", ""))
	for _, it := range []struct {
		user, tenant string
		right        Right
		want         string
	}{
		{"alice", "open", Read, "this user is blocked: too much (fault 25)"}, {"bob", "acme/site", Read, ""}, {"", "acme/site", Read, ""},
		{"bob", "acme/site", Write, "this repository is blocked and cannot be changed (fault 25)"}, {"bob", "acme/other", Write, ""},
		{"acme/site", "alice", Write, ""},
	} {
		got := ""
		if err := a.Blocked(it.user, it.tenant, it.right); err != nil {
			got = err.Error()
		}
		if got != it.want {
			t.Errorf("%v: %q", it, got)
		}
	}
	if a.Right("alice", "open") != None || a.Right("", "open") != Read || a.Right("bob", "open") != Read {
		t.Error("rights of who is blocked")
	}
	must(t, Block(folder, User, "alice", "again"))
	if all, err := Blocks(folder); err != nil || strings.Join(all, "|") != "tenant acme/site|user alice again" {
		t.Error(all, err)
	}
	must(t, Unblock(folder, User, "alice"))
	must(t, Unblock(folder, Tenant, "acme/site"))
	if loaded(t, folder).Blocked("alice", "acme/site", Write) != nil || a.Right("alice", "open") != Write {
		t.Error("blocked still")
	}
	for _, words := range [][3]string{{"user", "git", ""}, {"user", "*", ""}, {"tenant", "acme/*", ""}, {"what", "alice", ""},
		{"user", "alice", "a\nuser bob"}, {"user", "alice", "a\xffb"}, {"user", "alice", strings.Repeat("x", 201)}} {
		if Block(folder, words[0], words[1], words[2]) == nil {
			t.Error(words)
		}
	}
	if Unblock(folder, User, "alice") == nil {
		t.Error("unblocked twice")
	}
}

// TestGroups has groups in groups, in a circle too, which only a list that was written by hand has.
func TestGroups(t *testing.T) {
	folder := t.TempDir()
	a := loaded(t, folder)
	must(t, AddMember(folder, "@team", "alice"))
	must(t, AddMember(folder, "@staff", "@team"))
	must(t, Grant(folder, "@staff", "acme/*", "r"))
	must(t, Grant(folder, "@team", "acme/site", "rw"))
	rights := func() [3]Right {
		return [3]Right{a.Right("alice", "acme/site"), a.Right("alice", "acme/other"), a.Right("bob", "acme/site")}
	}
	if rights() != [3]Right{Write, Read, None} || a.Right("@team", "acme/none") != Read {
		t.Fatal(rights())
	}
	if AddMember(folder, "@team", "@staff") == nil || AddMember(folder, "@team", "@team") == nil || AddMember(folder, "team", "alice") == nil {
		t.Fatal("a group is in itself, or has a bad name")
	}
	must(t, os.WriteFile(filepath.Join(folder, "groups"), []byte("@team alice\n@staff @team\n@team @staff\n@staff @staff\n"), 0o600))
	if rights() != [3]Right{Write, Read, None} {
		t.Fatal(rights())
	}
	must(t, Revoke(folder, "alice", ""))
	if rights() != [3]Right{} {
		t.Fatal("who was revoked is in a group:", rights())
	}
}

// TestTokens has a token do no more than its user may and its scope says, and nothing once it is over, removed, or its user is.
func TestTokens(t *testing.T) {
	folder := t.TempDir()
	a := loaded(t, folder)
	must(t, SetPassword(folder, "alice", "correct horse"))
	must(t, Grant(folder, "alice", "acme/*", "rw"))
	must(t, Grant(folder, Everyone, "open/*", "r"))
	made := func(pattern, right string, lasts time.Duration) (login, secret string) {
		login, secret, err := NewToken("alice")
		must(t, err)
		must(t, AddToken(folder, login, secret, pattern, right, time.Now().Add(lasts)))
		return login, secret
	}
	reads, secret := made("acme/site", "r", time.Hour)
	all, other := made("*", "rw", time.Hour)
	over, overs := made("*", "rw", -time.Second)
	if !lets(a, reads, secret, "192.0.2.1:1") || !lets(a, all, other, "192.0.2.1:1") || lets(a, over, overs, "192.0.2.2:1") ||
		lets(a, reads, other, "192.0.2.3:1") || lets(a, "alice", secret, "192.0.2.4:1") || lets(a, "alice~0", secret, "192.0.2.5:1") {
		t.Fatal("a secret")
	}
	for _, it := range []struct {
		login, tenant string
		want          Right
	}{{reads, "acme/site", Read}, {reads, "acme/other", None}, {reads, "open/x", None}, {all, "acme/site", Write}, {all, "open/x", Read},
		{all, "secret", None}, {over, "acme/site", None}, {"alice~0", "acme/site", None}, {"~", "open/x", None}} {
		if got := a.Right(it.login, it.tenant); got != it.want {
			t.Errorf("%s of %s: %d, wanted %d", it.tenant, it.login, got, it.want)
		}
	}
	hash := a.Hash(all)
	if hash == "" || !a.IsStill(all, "", hash) || a.IsStill(reads, "", hash) || a.Hash(over) != "" || a.IsStill(over, "", "") {
		t.Fatal("what let a token in")
	}
	must(t, Block(folder, User, "alice", ""))
	if a.Blocked(all, "", Read) == nil || a.Right(all, "acme/site") != None {
		t.Fatal("a token of a blocked user")
	}
	must(t, Unblock(folder, User, "alice"))
	must(t, RemoveToken(folder, reads))
	if lets(a, reads, secret, "192.0.2.6:1") || RemoveToken(folder, reads) == nil || !a.IsStill(all, "", hash) {
		t.Fatal("a token that was removed")
	}
	must(t, Revoke(folder, "alice", ""))
	if a.IsStill(all, "", hash) || lets(a, all, other, "192.0.2.7:1") {
		t.Fatal("a token of a user who was revoked")
	}
}

func TestEnds(t *testing.T) {
	for _, word := range []string{"", "d", "0d", "-1h", "2000-01-01", "2027-02-30", "soon", "60000d", "99999999999h", "1e9d"} {
		if end, err := ParseEnd(word); err == nil {
			t.Errorf("%q ends at %v", word, end)
		}
	}
	end, err := ParseEnd(time.Now().UTC().Format("2006-01-02"))
	if left := time.Until(end); err != nil || left <= 0 || left > 24*time.Hour {
		t.Error("today ends at", end, err)
	}
	if end, err = ParseEnd("90d"); err != nil || time.Until(end) < 89*24*time.Hour {
		t.Error(end, err)
	}
}
