package access

import (
	"path/filepath"
	"sort"
	"strings"

	"gitpoold/configfile"
)

// Users gives what each user has, a line each, the lines of a user together: `USER password`, `USER key TYPE FINGERPRINT`, `USER grant PATTERN
// RIGHT`, `USER in @GROUP`, `USER token TOKEN RIGHT PATTERN until TIME` and `USER blocked WHY`. A group may stand in the place of a user.
func Users(folder string) (all []string, err error) {
	for _, file := range []struct {
		name string
		line func(words []string) string
	}{{"passwords", passwordOf}, {"keys", keyOf}, {"access", grantOf}, {"groups", memberOf}, {"tokens", tokenOf}, {"blocked", blockOf}} {
		lines, err := configfile.Read(filepath.Join(folder, file.name))
		if err != nil {
			return nil, err
		}
		for _, words := range lines {
			if line := file.line(words); line != "" {
				all = append(all, line)
			}
		}
	}
	sort.SliceStable(all, func(i, k int) bool { return strings.Fields(all[i])[0] < strings.Fields(all[k])[0] })
	return all, nil
}

// Grants gives what a login may do, a line each: `PATTERN RIGHT`, with `by @GROUP` or `by *` where it is granted to a group or to everyone. A token
// may do no more of it than its own line says.
func (a *Access) Grants(login string) (all []string) {
	r := a.rules.Get()
	for _, name := range r.grantees(Person(login)) {
		for _, it := range r.grants[name] {
			line := it.pattern + " " + rightWords[it.right]
			if name != Person(login) {
				line += " by " + name
			}
			all = append(all, line)
		}
	}
	return all
}

var rightWords = map[Right]string{Read: "r", Write: "rw"}

func passwordOf(words []string) string { return words[0] + " password" }

func keyOf(words []string) string {
	if len(words) < 3 {
		return ""
	}
	return words[0] + " key " + words[1] + " " + fingerprint(strings.Join(words[1:], " "))
}

func grantOf(words []string) string { return words[0] + " grant " + strings.Join(words[1:], " ") }

func memberOf(words []string) string {
	if len(words) != 2 {
		return ""
	}
	return words[1] + " in " + words[0]
}

func tokenOf(words []string) string {
	if len(words) != 5 {
		return ""
	}
	return strings.Join([]string{Person(words[0]), "token", words[0], words[3], words[4], "until", words[2]}, " ")
}

// blockOf is "" for the block of a tenant.
func blockOf(words []string) string {
	if len(words) < 2 || words[0] != User {
		return ""
	}
	return strings.TrimSpace(words[1] + " blocked " + strings.Join(words[2:], " "))
}
