package access

import (
	"errors"
	"fmt"
	"path/filepath"
	"strings"

	"gitpoold/configfile"
)

// groupMark is what the name of a group begins with, and that of no user.
const groupMark = "@"

// isGroup tells whether a group may have this name.
func isGroup(name string) bool {
	return strings.HasPrefix(name, groupMark) && ValidUser(strings.TrimPrefix(name, groupMark))
}

// isGrantee tells whether this may have grants: a user, a group, or Everyone.
func isGrantee(name string) bool { return name == Everyone || ValidUser(name) || isGroup(name) }

func (r *rules) takeMember(words []string) error {
	if len(words) != 2 || !isGroup(words[0]) || !isGroup(words[1]) && !ValidUser(words[1]) {
		return fmt.Errorf("`%s` is no line @GROUP MEMBER", strings.Join(words, " "))
	}
	r.groups[words[1]] = append(r.groups[words[1]], words[0])
	return nil
}

// grantees gives under which names a user has grants: its own, those of the groups that it is in, and Everyone. A group may be in another one.
func (r *rules) grantees(user string) []string { return append(reached(r.groups, user), Everyone) }

// reached gives a name, and all groups that it comes to, each once, so that groups which are in each other end.
func reached(groups map[string][]string, name string) []string {
	all, seen := []string{name}, map[string]bool{name: true}
	for at := 0; at < len(all); at++ {
		for _, group := range groups[all[at]] {
			if !seen[group] {
				all, seen[group] = append(all, group), true
			}
		}
	}
	return all
}

// IsOneOf tells whether a login belongs to one of these users, or to a member of one of these groups. A visitor is nobody.
func (a *Access) IsOneOf(login string, names []string) bool {
	for _, mine := range reached(a.rules.Get().groups, Person(login)) {
		for _, name := range names {
			if mine != "" && mine == name {
				return true
			}
		}
	}
	return false
}

// AddMember puts a user, or another group, into a group. A group that would come to be in itself is refused.
func AddMember(folder, group, member string) error {
	if !isGroup(group) {
		return fmt.Errorf("%q is no name of a group: `@`, and letters, digits, `.`, `_` and `-`", group)
	}
	if !isGroup(member) && !ValidUser(member) {
		return errUser(member)
	}
	return configfile.Change(filepath.Join(folder, "groups"), func(lines []string) ([]string, error) {
		groups := map[string][]string{}
		for _, line := range lines {
			if words := strings.Fields(line); len(words) == 2 {
				groups[words[1]] = append(groups[words[1]], words[0])
			}
		}
		for _, above := range reached(groups, group) {
			if above == member {
				return nil, fmt.Errorf("%s is in %s, so it would be in itself", group, member)
			}
		}
		return append(without(lines, group, member), group+" "+member), nil
	})
}

// RemoveMember takes a member out of a group. It is an error if it is not there.
func RemoveMember(folder, group, member string) error {
	return configfile.Change(filepath.Join(folder, "groups"), func(lines []string) ([]string, error) {
		left := without(lines, group, member)
		if len(left) == len(lines) {
			return nil, errors.New(member + " is not in " + group)
		}
		return left, nil
	})
}

// Members gives the lines of a folder's groups.
func Members(folder string) ([]string, error) {
	return configfile.Rows(filepath.Join(folder, "groups"))
}

// outOfGroups gives the lines of groups without those of a group of this name, or in which the name is a member.
func outOfGroups(lines []string, name string) (left []string) {
	for _, line := range without(lines, name) {
		if words := strings.Fields(line); len(words) != 2 || words[1] != name || strings.HasPrefix(line, "#") {
			left = append(left, line)
		}
	}
	return left
}
