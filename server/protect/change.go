package protect

import (
	"errors"
	"fmt"
	"path/filepath"
	"strings"

	"gitpoold/access"
	"gitpoold/configfile"
	"gitpoold/plumbing"
)

// usual are the rules of who gives none.
var usual = []string{noDelete, noForce}

// FullRef gives the name or pattern of refs that an operator means: one that neither begins with `refs/` nor is `*` names branches.
func FullRef(refs string) string {
	if refs == "*" || strings.HasPrefix(refs, "refs/") {
		return refs
	}
	return plumbing.Branches + refs
}

// Rows gives the lines of a folder's file: all, or those that name a tenant.
func Rows(folder, tenant string) (rows []string, err error) {
	lines, err := configfile.Read(filepath.Join(folder, FileName))
	for _, words := range lines {
		if tenant == "" || access.Matches(words[0], tenant) {
			rows = append(rows, strings.Join(words, " "))
		}
	}
	return rows, err
}

// Add protects refs of the tenants that a pattern names, in the place of the rules before for this pattern and these refs. Without a rule it is
// `no-delete no-force`. Users and groups of `only=` have to be known.
func Add(folder, pattern, refs string, rules []string) error {
	if len(rules) == 0 {
		rules = usual
	}
	words := append([]string{pattern, FullRef(refs)}, rules...)
	it, err := parse(words)
	if err != nil {
		return err
	}
	for _, name := range it.only {
		if isKnown, err := access.IsKnown(folder, name); err != nil || !isKnown {
			return orUnknown(err, name)
		}
	}
	return configfile.Change(filepath.Join(folder, FileName), func(lines []string) ([]string, error) {
		return append(without(lines, pattern, words[1]), strings.Join(words, " ")), nil
	})
}

func orUnknown(err error, name string) error {
	if err == nil {
		err = fmt.Errorf("there is no user or group %s; `gitpoold user` and `gitpoold group` make them", name)
	}
	return err
}

// Remove takes the rules for a pattern and refs back. It is an error if there are none.
func Remove(folder, pattern, refs string) error {
	return configfile.Change(filepath.Join(folder, FileName), func(lines []string) ([]string, error) {
		left := without(lines, pattern, FullRef(refs))
		if len(left) == len(lines) {
			return nil, errors.New("nothing protects " + FullRef(refs) + " of " + pattern)
		}
		return left, nil
	})
}

// without gives the lines that are not for a pattern and these refs.
func without(lines []string, pattern, refs string) (left []string) {
	for _, line := range lines {
		if words := strings.Fields(line); len(words) < 2 || words[0] != pattern || words[1] != refs {
			left = append(left, line)
		}
	}
	return left
}
