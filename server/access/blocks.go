package access

import (
	"errors"
	"fmt"
	"path/filepath"
	"strings"
	"time"

	"gitpoold/configfile"
	"gitpoold/tenants"
)

// The two that can be blocked.
const (
	User   = "user"
	Tenant = "tenant"
)

// Blocked is the refusal of a user or of a tenant that the operator has blocked, with the operator's reason, if there is one.
type Blocked struct{ What, Why string }

// Error gives a sentence for the client.
func (b *Blocked) Error() string {
	sentence := "this user is blocked"
	if b.What == Tenant {
		sentence = "this repository is blocked and cannot be changed"
	}
	if b.Why != "" {
		sentence += ": " + b.Why
	}
	return sentence + " (fault 25)"
}

// Blocked is *Blocked where the operator has blocked the user, or has blocked the tenant and the right would change it.
func (a *Access) Blocked(user, tenant string, right Right) error {
	return a.BlockedWithin(0, user, tenant, right)
}

// BlockedWithin is what Blocked was so long ago at most, for who asks again and again.
func (a *Access) BlockedWithin(age time.Duration, user, tenant string, right Right) error {
	r := a.rules.Within(age)
	if why, is := r.blocked[User+" "+Person(user)]; is {
		return &Blocked{User, why}
	}
	if why, is := r.blocked[Tenant+" "+tenant]; is && right >= Write {
		return &Blocked{Tenant, why}
	}
	return nil
}

func (r *rules) takeBlocked(words []string) error {
	if len(words) < 2 || !isBlockable(words[0], words[1]) {
		return fmt.Errorf("`%s` is no line user NAME or tenant NAME", strings.Join(words, " "))
	}
	r.blocked[words[0]+" "+words[1]] = strings.Join(words[2:], " ")
	return nil
}

func isBlockable(what, name string) bool {
	return what == User && ValidUser(name) || what == Tenant && tenants.ValidName(name)
}

// longestReason is how many bytes the reason of a block may have.
const longestReason = 200

// Block blocks a user or a tenant, in the place of an earlier block. The reason is told to those who are refused; it may be empty.
func Block(folder, what, name, why string) error {
	if what != User && what != Tenant {
		return errors.New("say `user NAME` or `tenant NAME`")
	}
	if !isBlockable(what, name) {
		return fmt.Errorf("%q is no name of a %s", name, what)
	}
	if len(why) > longestReason || strings.IndexFunc(why, func(it rune) bool { return it < ' ' || it == 0x7f || it == 0xfffd }) >= 0 {
		return fmt.Errorf("a reason is one line of at most %d bytes", longestReason)
	}
	return configfile.Change(filepath.Join(folder, "blocked"), func(lines []string) ([]string, error) {
		return append(without(lines, what, name), strings.TrimSpace(what+" "+name+" "+why)), nil
	})
}

// Unblock takes a block back. It is an error if there is none.
func Unblock(folder, what, name string) error {
	return configfile.Change(filepath.Join(folder, "blocked"), func(lines []string) ([]string, error) {
		left := without(lines, what, name)
		if len(left) == len(lines) {
			return nil, errors.New(what + " " + name + " is not blocked")
		}
		return left, nil
	})
}

// Blocks gives the lines of a folder's blocks.
func Blocks(folder string) ([]string, error) {
	return configfile.Rows(filepath.Join(folder, "blocked"))
}
