// Package account lets users look after their own passwords, keys and access tokens, whichever way they come in.
//
// A token may do none of it: whoever finds one in the settings of a job is not to make another one that lasts longer, or to shut its user out. Each
// change is in the audit before it begins. Changes of one user come one after another, and are bounded in number.
package account

import (
	"context"
	"errors"
	"fmt"
	"strings"
	"sync"
	"time"

	"gitpoold/access"
	"gitpoold/audit"
	"gitpoold/fair"
	"gitpoold/gateway"
	"gitpoold/logs"
)

const (
	// mostOfEach is how many keys a user may have, and how many tokens.
	mostOfEach = 100
	// mostChanges is how many changes a user may make in an hour.
	mostChanges = 60
	// LongestInput is how many bytes of keys are taken at once.
	LongestInput = 64 << 10
)

// Refusals, as users see them.
var (
	ErrToken  = errors.New("an access token changes nothing of its user's account: log in by the password or a key of the user")
	ErrOften  = fmt.Errorf("a user may make %d changes in an hour: try again later", mostChanges)
	ErrMany   = fmt.Errorf("a user has at most %d of these: remove one first", mostOfEach)
	ErrTaken  = errors.New("one of these keys belongs to another login already")
	ErrFolder = errors.New("this server has no folder for its users")
	ErrBusy   = errors.New("the accounts of this server are being changed: try again")
)

// User is somebody who is let in.
type User struct {
	Gateway        *gateway.Gateway
	Login, Address string
}

// Show gives what a user may do and has, a line each: `user NAME`, `grant PATTERN RIGHT`, `in @GROUP`, `password`, `key TYPE FINGERPRINT` and
// `token TOKEN RIGHT PATTERN until TIME`. A token is shown its own line, and what its user may do.
func (u User) Show() ([]string, error) {
	lines := []string{"user " + access.Person(u.Login)}
	for _, it := range u.Gateway.Access.Grants(u.Login) {
		lines = append(lines, "grant "+it)
	}
	has, err := u.has()
	for _, it := range has {
		if !strings.HasPrefix(it, "grant ") {
			lines = append(lines, it)
		}
	}
	return lines, err
}

// has gives the lines of what the login has, without its name.
func (u User) has() (lines []string, err error) {
	if u.Gateway.Folder == "" {
		return nil, ErrFolder
	}
	all, err := access.Users(u.Gateway.Folder)
	front := access.Person(u.Login) + " "
	if access.IsToken(u.Login) {
		front += "token " + u.Login + " "
	}
	for _, line := range all {
		if strings.HasPrefix(line, front) {
			lines = append(lines, strings.TrimPrefix(line, access.Person(u.Login)+" "))
		}
	}
	return lines, err
}

// Keys gives the keys of the user, a line `TYPE FINGERPRINT` each.
func (u User) Keys() ([]string, error) { return u.of("key ") }

// Tokens gives the tokens of the user, a line `TOKEN RIGHT PATTERN until TIME` each.
func (u User) Tokens() ([]string, error) { return u.of("token ") }

func (u User) of(front string) (found []string, err error) {
	lines, err := u.has()
	for _, it := range lines {
		if strings.HasPrefix(it, front) {
			found = append(found, strings.TrimPrefix(it, front))
		}
	}
	return found, err
}

// AddKeys adds the keys of an authorized_keys or .pub file, and gives their fingerprints.
func (u User) AddKeys(ctx context.Context, text []byte) (added []string, err error) {
	if added = access.Fingerprints(text); len(added) == 0 || len(text) > LongestInput {
		return nil, errors.New("there is no public key: give it as a file such as id_ed25519.pub has it")
	}
	err = u.change(ctx, "keys add "+strings.Join(added, " "), func() error {
		if err := u.hasRoom(u.Keys, len(added)); err != nil {
			return err
		}
		_, err := access.AddKeys(u.Gateway.Folder, u.Login, text)
		if errors.As(err, new(*access.KeyTaken)) {
			err = ErrTaken
		}
		return err
	})
	return added, err
}

// hasRoom refuses what would be more than a user may have.
func (u User) hasRoom(list func() ([]string, error), more int) error {
	has, err := list()
	if err == nil && len(has)+more > mostOfEach {
		err = ErrMany
	}
	return err
}

// RemoveKey takes a key away.
func (u User) RemoveKey(ctx context.Context, fingerprint string) error {
	return u.change(ctx, "keys remove "+fingerprint, func() error { return access.RemoveKey(u.Gateway.Folder, u.Login, fingerprint) })
}

// SetPassword gives the user another password.
func (u User) SetPassword(ctx context.Context, password string) error {
	return u.change(ctx, "password", func() error { return access.SetPassword(u.Gateway.Folder, u.Login, password) })
}

// NewToken makes an access token, and gives its name and its secret, which is not to be had again.
func (u User) NewToken(ctx context.Context, pattern, right, end string) (login, secret string, err error) {
	until, err := access.ParseEnd(end)
	if err == nil {
		err = access.CheckGrant(u.Login, pattern, right)
	}
	if err != nil {
		return "", "", u.orToken(err)
	}
	if login, secret, err = access.NewToken(u.Login); err != nil {
		return "", "", err
	}
	what := strings.Join([]string{"token create", login, pattern, right, until.Format(time.RFC3339)}, " ")
	err = u.change(ctx, what, func() error {
		if err := u.hasRoom(u.Tokens, 1); err != nil {
			return err
		}
		return access.AddToken(u.Gateway.Folder, login, secret, pattern, right, until)
	})
	if err != nil {
		return "", "", err
	}
	return login, secret, nil
}

func (u User) orToken(err error) error {
	if access.IsToken(u.Login) {
		return ErrToken
	}
	return err
}

// RemoveToken takes a token of the user away.
func (u User) RemoveToken(ctx context.Context, token string) error {
	if !access.IsToken(token) || access.Person(token) != u.Login {
		return u.orToken(fmt.Errorf("there is no token %q of yours", token))
	}
	return u.change(ctx, "token remove "+token, func() error { return access.RemoveToken(u.Gateway.Folder, token) })
}

// atOnce lets one change of a user be at work at a time, and of all users two: a change hashes and writes.
var atOnce = fair.New(fair.Limits{Places: 2, OfKind: [2]int{2, 2}, OfOneOfIt: [2]int{1, 1}})

// patience is how long a change waits for its turn.
const patience = 10 * time.Second

// change makes a change that the user may make. The audit has it before.
func (u User) change(ctx context.Context, what string, do func() error) error {
	if err := u.mayChange(); err != nil {
		return err
	}
	ctx, stop := context.WithTimeout(ctx, patience)
	defer stop()
	leave, err := atOnce.Acquire(ctx, fair.First, u.Login)
	if err != nil {
		return ErrBusy
	}
	defer leave()
	if !often.take(u.Login, time.Now()) {
		return ErrOften
	}
	line := logs.Account{Address: u.Address, Login: u.Login, What: what}
	if err := audit.NoteAccount(u.Gateway.Folder, line); err != nil {
		u.Gateway.Log.Printf("the audit cannot be written: %v", err)
		return errors.New("the audit cannot be written, so nothing is changed")
	}
	line.Err = do()
	u.Gateway.Log.Account(line)
	if line.Err != nil {
		if err := audit.NoteAccount(u.Gateway.Folder, line); err != nil {
			u.Gateway.Log.Printf("the audit cannot be written: %v", err)
		}
	}
	return line.Err
}

// mayChange refuses a token, a user who is blocked, and everybody where another server has the lists.
func (u User) mayChange() error {
	switch {
	case u.Gateway.Folder == "":
		return ErrFolder
	case access.IsToken(u.Login):
		return ErrToken
	case !access.ValidUser(u.Login):
		return access.ErrWrong
	}
	if err := u.Gateway.Access.Blocked(u.Login, "", access.Read); err != nil {
		return err
	}
	if u.Gateway.Elsewhere != nil {
		return u.Gateway.Elsewhere()
	}
	return nil
}

// counts are the changes of users in the current hour.
type counts struct {
	mutex sync.Mutex
	hour  time.Time
	of    map[string]int
}

var often = &counts{}

// take counts a change. It is false where the user has made as many as an hour allows.
func (c *counts) take(user string, now time.Time) bool {
	c.mutex.Lock()
	defer c.mutex.Unlock()
	if hour := now.Truncate(time.Hour); !hour.Equal(c.hour) {
		c.hour, c.of = hour, map[string]int{}
	}
	c.of[user]++
	return c.of[user] <= mostChanges
}
