// Package access says who may read and write which tenant, and who is who.
//
// The operator's folder has six files. `access` has lines `USER PATTERN RIGHT`: the user `*` is everyone, without a password; the
// pattern is the name of a tenant, or a name and `/*` for all below it, or `*` for all; the right is `r` or `rw`. `groups` has lines
// `@GROUP MEMBER`; a group may stand in the place of a user in `access`, and be a member of another one. `tokens` has lines
// `TOKEN HASH UNTIL RIGHT PATTERN`: a token is a login of a user with less than the user's rights. `passwords` has
// lines `USER HASH` with hashes by bcrypt, and `keys` has lines `USER TYPE KEY` as authorized_keys have them. `blocked` has lines
// `user NAME WHY` and `tenant NAME WHY`. Commands change these files, and a running server reads them again when they have changed.
package access

import (
	"fmt"
	"path/filepath"
	"regexp"
	"strings"
	"sync"
	"time"

	"golang.org/x/crypto/bcrypt"
	"golang.org/x/crypto/ssh"

	"gitpoold/configfile"
	"gitpoold/fair"
	"gitpoold/tenants"
)

// Right is what a user may do with a tenant.
type Right int

// The rights, each with all before it.
const (
	None Right = iota
	Read
	Write
)

// Everyone is the user of grants that hold without a password.
const Everyone = "*"

// Login is the name under which a key alone says over ssh who it is: `ssh://git@HOST/TENANT`.
const Login = "git"

var userName = regexp.MustCompile(`^[A-Za-z0-9_][A-Za-z0-9_.-]{0,63}$`)

// ValidUser tells whether a user may have this name.
func ValidUser(name string) bool { return userName.MatchString(name) && name != Login }

// ValidPattern tells whether this names tenants.
func ValidPattern(pattern string) bool {
	return pattern == "*" || tenants.ValidName(strings.TrimSuffix(pattern, "/*"))
}

// Matches tells whether a pattern names a tenant.
func Matches(pattern, tenant string) bool {
	if pattern == "*" || pattern == tenant {
		return true
	}
	return strings.HasSuffix(pattern, "/*") && strings.HasPrefix(tenant, strings.TrimSuffix(pattern, "*"))
}

// grant lets a user do something with the tenants that a pattern names.
type grant struct {
	pattern string
	right   Right
}

// rules are what the files come to.
type rules struct {
	grants    map[string][]grant
	passwords map[string]string
	keys      map[string]string
	tokens    map[string]token
	// groups has the groups that a user, or a group, is a member of.
	groups map[string][]string
	// blocked has why a user or a tenant is blocked, by `user NAME` and `tenant NAME`.
	blocked map[string]string
}

// Access answers who may do what. Its methods may be called by many goroutines at once.
type Access struct {
	rules    *configfile.Followed[*rules]
	proofs   proofs
	throttle throttle
	met      met
	// queues let tries out one by one, and places bounds how many of these are hashed at once.
	queues, places *fair.Semaphore
	// Patience is how long a password waits for its turn.
	Patience time.Duration
	// nobody is the hash with which the password of a user that there is not is compared, so that it takes as long.
	nobody []byte
}

// Load reads the files of a folder. `tell` gets a line for the operator where they cannot be read later on.
func Load(folder string, tell func(format string, values ...any)) (*Access, error) {
	read := func() (*rules, error) { return readRules(folder) }
	followed, err := configfile.Follow(read, tell, filepath.Join(folder, "access"), filepath.Join(folder, "passwords"),
		filepath.Join(folder, "keys"), filepath.Join(folder, "groups"), filepath.Join(folder, "tokens"),
		filepath.Join(folder, "blocked"))
	if err != nil {
		return nil, err
	}
	nobody, err := hashOfNobody()
	return &Access{rules: followed, proofs: newProofs(), throttle: newThrottle(), met: met{from: map[string]map[string]bool{}},
		queues: fair.New(oneByOne), places: fair.New(hashes), Patience: patience, nobody: nobody}, err
}

var nobody struct {
	once sync.Once
	hash []byte
	err  error
}

// hashOfNobody makes a hash that is no user's, once in a process.
func hashOfNobody() ([]byte, error) {
	nobody.once.Do(func() {
		nobody.hash, nobody.err = bcrypt.GenerateFromPassword([]byte("nobody has this password"), hashCost)
	})
	return nobody.hash, nobody.err
}

// Unread says why the lists cannot be read, so that what was read before holds. It is nil where they can.
func (a *Access) Unread() error { return a.rules.Unread() }

func readRules(folder string) (*rules, error) {
	r := &rules{map[string][]grant{}, map[string]string{}, map[string]string{}, map[string]token{}, map[string][]string{}, map[string]string{}}
	for _, file := range []struct {
		name string
		take func(words []string) error
	}{{"access", r.takeGrant}, {"groups", r.takeMember}, {"tokens", r.takeToken}, {"passwords", r.takePassword}, {"keys", r.takeKey},
		{"blocked", r.takeBlocked}} {
		lines, err := configfile.Read(filepath.Join(folder, file.name))
		if err != nil {
			return nil, err
		}
		for _, words := range lines {
			if err := file.take(words); err != nil {
				return nil, fmt.Errorf("%s: %w", filepath.Join(folder, file.name), err)
			}
		}
	}
	return r, nil
}

func (r *rules) takeGrant(words []string) error {
	if len(words) != 3 || !isGrantee(words[0]) || !ValidPattern(words[1]) {
		return fmt.Errorf("`%s` is no line USER PATTERN RIGHT", strings.Join(words, " "))
	}
	right, err := ParseRight(words[2])
	r.grants[words[0]] = append(r.grants[words[0]], grant{words[1], right})
	return err
}

// ParseRight reads `r` or `rw`.
func ParseRight(word string) (Right, error) {
	switch word {
	case "r":
		return Read, nil
	case "rw":
		return Write, nil
	}
	return None, fmt.Errorf("`%s` is no right: r or rw", word)
}

func (r *rules) takePassword(words []string) error {
	if len(words) != 2 || !ValidUser(words[0]) {
		return fmt.Errorf("a line is not USER HASH")
	}
	r.passwords[words[0]] = words[1]
	return nil
}

func (r *rules) takeKey(words []string) error {
	if len(words) < 3 || !ValidUser(Person(words[0])) {
		return fmt.Errorf("a line is not USER TYPE KEY")
	}
	key, _, _, _, err := ssh.ParseAuthorizedKey([]byte(strings.Join(words[1:], " ")))
	if err != nil {
		return fmt.Errorf("a key of %s cannot be read: %w", words[0], err)
	}
	r.keys[string(key.Marshal())] = words[0]
	return nil
}

// Right tells what a user may do with a tenant, whether or not there is one: nothing, where the user is blocked. The user "" is a visitor
// without a password.
func (a *Access) Right(user, tenant string) Right {
	r := a.rules.Get()
	best, person := None, Person(user)
	if _, isBlocked := r.blocked[User+" "+person]; isBlocked {
		return None
	}
	for _, name := range r.grantees(person) {
		for _, it := range r.grants[name] {
			if it.right > best && Matches(it.pattern, tenant) {
				best = it.right
			}
		}
	}
	if most := r.most(user, tenant); most < best {
		return most
	}
	return best
}

// Key tells whose key this is, for a login over ssh. The login is the name of the user or of the token that has it, or Login.
func (a *Access) Key(login string, key ssh.PublicKey) (user string, ok bool) {
	r := a.rules.Get()
	user, ok = r.keys[string(key.Marshal())]
	return user, ok && (login == user || login == Login) && r.lasts(user)
}

// Hash gives the hash of a user's password, or of a token, as it is now, or "".
func (a *Access) Hash(user string) string {
	hash, _ := a.rules.Get().hashOf(user)
	return hash
}

// IsStill tells whether what let a user in is the user's still: a key, as Marshal gives it, or else the hash of a password.
func (a *Access) IsStill(user, key, hash string) bool {
	r := a.rules.Get()
	if key != "" {
		return r.keys[key] == user && r.lasts(user)
	}
	now, _ := r.hashOf(user)
	return hash != "" && now == hash
}
