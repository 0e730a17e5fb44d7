package access

import (
	"errors"
	"fmt"
	"path/filepath"
	"strings"

	"golang.org/x/crypto/bcrypt"
	"golang.org/x/crypto/ssh"

	"gitpoold/configfile"
)

// begins tells whether a line begins with these words.
func begins(line string, words ...string) bool {
	has := strings.Fields(line)
	if len(has) < len(words) {
		return false
	}
	for i, word := range words {
		if has[i] != word {
			return false
		}
	}
	return true
}

// without gives the lines that do not begin with these words.
func without(lines []string, words ...string) (left []string) {
	for _, line := range lines {
		if !begins(line, words...) {
			left = append(left, line)
		}
	}
	return left
}

// SetPassword gives a user a password of 8 to 72 bytes, in the place of the one before.
func SetPassword(folder, user, password string) error {
	if !ValidUser(user) {
		return errUser(user)
	}
	if len(password) < 8 || len(password) > longestPassword {
		return fmt.Errorf("a password has 8 to %d bytes", longestPassword)
	}
	hash, err := bcrypt.GenerateFromPassword([]byte(password), hashCost)
	if err != nil {
		return err
	}
	return configfile.Change(filepath.Join(folder, "passwords"), func(lines []string) ([]string, error) {
		return append(without(lines, user), user+" "+string(hash)), nil
	})
}

func errUser(user string) error {
	return fmt.Errorf("%q is no name of a user: letters, digits, `.`, `_` and `-`, and not `%s`", user, Login)
}

// KeyTaken says that a key belongs to another login.
type KeyTaken struct{ Of string }

func (k *KeyTaken) Error() string { return "a key is that of " + k.Of + " already" }

// AddKeys gives a user, or a token, the keys of an authorized_keys or .pub file. A key belongs to one of these, or it is *KeyTaken.
func AddKeys(folder, user string, text []byte) (added int, err error) {
	if err := checkLogin(folder, user); err != nil {
		return 0, err
	}
	keys, err := parseKeys(text)
	if err != nil {
		return 0, err
	}
	return len(keys), configfile.Change(filepath.Join(folder, "keys"), func(lines []string) ([]string, error) {
		for _, key := range keys {
			lines = withoutKey(lines, user, key)
			for _, line := range lines {
				if strings.Contains(line, key) {
					return nil, &KeyTaken{strings.Fields(line)[0]}
				}
			}
			lines = append(lines, user+" "+key)
		}
		return lines, nil
	})
}

// Fingerprints gives those of the keys of an authorized_keys or .pub file, as ssh-keygen shows them.
func Fingerprints(text []byte) (all []string) {
	keys, _ := parseKeys(text)
	for _, key := range keys {
		all = append(all, fingerprint(key))
	}
	return all
}

func fingerprint(line string) string {
	key, _, _, _, err := ssh.ParseAuthorizedKey([]byte(line))
	if err != nil {
		return ""
	}
	return ssh.FingerprintSHA256(key)
}

// RemoveKey takes the key of a fingerprint from a user. It is an error if the user has no such key.
func RemoveKey(folder, user, wanted string) error {
	return configfile.Change(filepath.Join(folder, "keys"), func(lines []string) (left []string, err error) {
		for _, line := range lines {
			if !begins(line, user) || fingerprint(strings.Join(strings.Fields(line)[1:], " ")) != wanted {
				left = append(left, line)
			}
		}
		if len(left) == len(lines) {
			err = fmt.Errorf("%s has no key %s", user, wanted)
		}
		return left, err
	})
}

func withoutKey(lines []string, user, key string) []string {
	return without(lines, append([]string{user}, strings.Fields(key)...)...)
}

func parseKeys(text []byte) (keys []string, err error) {
	for len(text) > 0 {
		key, _, _, rest, err := ssh.ParseAuthorizedKey(text)
		if err != nil {
			break
		}
		keys = append(keys, strings.TrimSpace(string(ssh.MarshalAuthorizedKey(key))))
		text = rest
	}
	if len(keys) == 0 {
		return nil, errors.New("there is no public key")
	}
	return keys, nil
}

// CheckGrant asks that these are words of a grant.
func CheckGrant(user, pattern, right string) error {
	if !isGrantee(user) {
		return errUser(user)
	}
	if !ValidPattern(pattern) {
		return fmt.Errorf("%q names no tenant: a name of 1 to 64 bytes, or a name and `/*`, or `*`", pattern)
	}
	_, err := ParseRight(right)
	return err
}

// Grant lets a user, a group, or Everyone, do something with the tenants that a pattern names, in the place of what held for this pattern.
func Grant(folder, user, pattern, right string) error {
	if err := CheckGrant(user, pattern, right); err != nil {
		return err
	}
	return configfile.Change(filepath.Join(folder, "access"), func(lines []string) ([]string, error) {
		return append(without(lines, user, pattern), user+" "+pattern+" "+right), nil
	})
}

// IsKnown tells whether a user has a password or a key, a group has a member, or this is Everyone.
func IsKnown(folder, user string) (bool, error) {
	for _, file := range []string{"passwords", "keys", "groups"} {
		lines, err := configfile.Read(filepath.Join(folder, file))
		if err != nil {
			return false, err
		}
		for _, words := range lines {
			if words[0] == user {
				return true, nil
			}
		}
	}
	return user == Everyone, nil
}

// Revoke takes back what was granted to a user or a group for a pattern. Without a pattern it takes all grants, the password, the keys and the
// tokens of the user, and takes it out of all groups; or it takes all grants and members of the group. It is an error if there was nothing to take.
func Revoke(folder, user, pattern string) error {
	words, files := []string{user, pattern}, []string{"access"}
	if pattern == "" {
		words, files = words[:1], []string{"access", "passwords", "keys", "groups", "tokens"}
	}
	taken := 0
	for _, file := range files {
		err := configfile.Change(filepath.Join(folder, file), func(lines []string) ([]string, error) {
			left := without(lines, words...)
			switch file {
			case "groups":
				left = outOfGroups(lines, user)
			case "tokens", "keys":
				left = ofOthers(lines, user)
			}
			taken += len(lines) - len(left)
			return left, nil
		})
		if err != nil {
			return err
		}
	}
	if taken == 0 {
		return fmt.Errorf("nothing was granted to %s", strings.TrimSpace(strings.Join(words, " for ")))
	}
	return nil
}
