package access

import (
	"crypto/rand"
	"encoding/base64"
	"encoding/hex"
	"errors"
	"fmt"
	"path/filepath"
	"strconv"
	"strings"
	"time"

	"golang.org/x/crypto/bcrypt"

	"gitpoold/configfile"
)

// tokenMark parts the name of a token from that of its user, as in alice~3f9a2c71. No user has it in a name, so the name of a token is a login of its
// own, with less than the user's rights and an end.
const tokenMark = "~"

// Person gives the user to whom a login belongs, which may be a token.
func Person(login string) string {
	user, _, _ := strings.Cut(login, tokenMark)
	return user
}

// token is what a token may do, until when.
type token struct {
	hash    string
	until   time.Time
	right   Right
	pattern string
}

func (r *rules) takeToken(words []string) error {
	if len(words) != 5 || !ValidUser(Person(words[0])) || Person(words[0]) == words[0] || !ValidPattern(words[4]) {
		return errors.New("a line is not TOKEN HASH UNTIL RIGHT PATTERN")
	}
	until, err := time.Parse(time.RFC3339, words[2])
	if err != nil {
		return err
	}
	right, err := ParseRight(words[3])
	r.tokens[words[0]] = token{words[1], until, right, words[4]}
	return err
}

// token gives a token that has not ended.
func (r *rules) token(login string) (t token, has bool) {
	t, has = r.tokens[login]
	return t, has && time.Now().Before(t.until)
}

// lasts tells whether a login has not ended: that of a user, or a token.
func (r *rules) lasts(login string) bool {
	_, has := r.token(login)
	return has || Person(login) == login
}

// hashOf gives the hash of a user's password, or of a token that has not ended.
func (r *rules) hashOf(login string) (hash string, has bool) {
	if Person(login) == login {
		hash, has = r.passwords[login]
		return hash, has
	}
	t, has := r.token(login)
	if !has {
		return "", false
	}
	return t.hash, true
}

// most gives the most that a login may do with a tenant, whatever its user may do.
func (r *rules) most(login, tenant string) Right {
	if Person(login) == login {
		return Write
	}
	if t, has := r.token(login); has && Matches(t.pattern, tenant) {
		return t.right
	}
	return None
}

// longestToken is how long a token may last.
const longestToken = 3650 * 24 * time.Hour

// ParseEnd reads when something ends: the last day of it in UTC, such as 2027-01-31, or a time from now on, such as 90d or 12h.
func ParseEnd(word string) (time.Time, error) {
	if day, err := time.Parse("2006-01-02", word); err == nil {
		return checkEnd(word, day.Add(24*time.Hour))
	}
	if days, err := strconv.ParseUint(strings.TrimSuffix(word, "d"), 10, 16); err == nil && strings.HasSuffix(word, "d") {
		return checkEnd(word, time.Now().Add(time.Duration(days)*24*time.Hour))
	}
	span, err := time.ParseDuration(word)
	if err != nil {
		return time.Time{}, fmt.Errorf("`%s` is no day such as 2027-01-31, and no time such as 90d or 12h", word)
	}
	return checkEnd(word, time.Now().Add(span))
}

func checkEnd(word string, end time.Time) (time.Time, error) {
	if left := time.Until(end); left <= 0 || left > longestToken {
		return time.Time{}, fmt.Errorf("`%s` is over already, or more than ten years away", word)
	}
	return end.UTC(), nil
}

// NewToken draws a token of a user: its name, and its secret, which no file has.
func NewToken(user string) (login, secret string, err error) {
	drawn := make([]byte, 4+24)
	if _, err := rand.Read(drawn); err != nil {
		return "", "", err
	}
	return user + tokenMark + hex.EncodeToString(drawn[:4]), "gitpool-" + base64.RawURLEncoding.EncodeToString(drawn[4:]), nil
}

// AddToken lets a token in with its secret until its end, to what its user may do and the right and the pattern say.
func AddToken(folder, login, secret, pattern, right string, until time.Time) error {
	if err := CheckGrant(Person(login), pattern, right); err != nil {
		return err
	}
	hash, err := bcrypt.GenerateFromPassword([]byte(secret), hashCost)
	if err != nil {
		return err
	}
	line := strings.Join([]string{login, string(hash), until.Format(time.RFC3339), right, pattern}, " ")
	return configfile.Change(filepath.Join(folder, "tokens"), func(lines []string) ([]string, error) { return append(lines, line), nil })
}

// checkLogin asks that a user may have this name, or that there is a token of it.
func checkLogin(folder, login string) error {
	if ValidUser(login) {
		return nil
	}
	lines, err := configfile.Read(filepath.Join(folder, "tokens"))
	for _, words := range lines {
		if words[0] == login {
			return nil
		}
	}
	if err == nil {
		err = errUser(login)
	}
	return err
}

// RemoveToken takes a token away, with its keys. It is an error if there is none of this name.
func RemoveToken(folder, login string) error {
	if login == Person(login) {
		return fmt.Errorf("%q is no name of a token", login)
	}
	err := configfile.Change(filepath.Join(folder, "keys"), func(lines []string) ([]string, error) { return without(lines, login), nil })
	if err != nil {
		return err
	}
	return configfile.Change(filepath.Join(folder, "tokens"), func(lines []string) ([]string, error) {
		left := without(lines, login)
		if len(left) == len(lines) {
			return nil, fmt.Errorf("there is no token %s", login)
		}
		return left, nil
	})
}

// Tokens gives a line for each token of a folder: `TOKEN RIGHT PATTERN until TIME`.
func Tokens(folder string) (all []string, err error) {
	lines, err := configfile.Read(filepath.Join(folder, "tokens"))
	for _, words := range lines {
		if len(words) == 5 {
			all = append(all, strings.Join([]string{words[0], words[3], words[4], "until", words[2]}, " "))
		}
	}
	return all, err
}

// IsToken tells whether a login is that of a token, and not a user's own.
func IsToken(login string) bool { return Person(login) != login }

// ofOthers gives the lines that begin neither with a user nor with one of its tokens.
func ofOthers(lines []string, user string) (left []string) {
	for _, line := range lines {
		if words := strings.Fields(line); len(words) == 0 || Person(words[0]) != user {
			left = append(left, line)
		}
	}
	return left
}
