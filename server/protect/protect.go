// Package protect keeps refs from changes that the operator does not want, as protected branches of other hosts do: no deletion, no forced push,
// only by some users.
//
// The operator's file `protected` has lines `PATTERN REFS RULE..`: the pattern names tenants as one of a grant does; REFS is the name of a ref, in
// which one `*` stands for any bytes, as in a refspec; a rule is `no-delete`, `no-force` or `only=USER,@GROUP`. The command `gitpoold protect`
// changes it, and a running server reads it again when it has changed. Each line that names a ref holds for it.
package protect

import (
	"fmt"
	"path/filepath"
	"strings"

	"gitpoold/access"
	"gitpoold/configfile"
	"gitpoold/objects"
	"gitpoold/plumbing"
)

// FileName is the name of the operator's file.
const FileName = "protected"

// The words of rules.
const (
	noDelete = "no-delete"
	noForce  = "no-force"
	onlyWord = "only="
)

// rule is a line of the file.
type rule struct {
	pattern, refs     string
	noDelete, noForce bool
	only              []string
}

// Rules are the rules of one tenant.
type Rules []rule

// Protected answers which rules hold. Its methods may be called by many goroutines at once.
type Protected struct{ rules *configfile.Followed[Rules] }

// Load reads the rules of a folder. `tell` gets a line for the operator where they cannot be read later on.
func Load(folder string, tell func(format string, values ...any)) (*Protected, error) {
	path := filepath.Join(folder, FileName)
	followed, err := configfile.Follow(func() (Rules, error) { return read(path) }, tell, path)
	return &Protected{followed}, err
}

// Unread says why the list cannot be read, so that what was read before holds. It is nil where it can.
func (p *Protected) Unread() error { return p.rules.Unread() }

// Of gives the rules of a tenant. Where nothing is protected there are none.
func (p *Protected) Of(tenant string) (found Rules) {
	if p == nil {
		return nil
	}
	for _, it := range p.rules.Get() {
		if access.Matches(it.pattern, tenant) {
			found = append(found, it)
		}
	}
	return found
}

// Change is what one ref is to become.
type Change struct {
	Ref            string
	IsMade, IsGone bool
	// IsForced tells whether the ref would lose commits. It is asked where a rule needs it.
	IsForced func() (bool, error)
}

// Refusal says why a ref may not change so, or nothing. `isOneOf` tells whether the user is one of these users, or in one of these groups. The
// error is that of IsForced.
func (r Rules) Refusal(c Change, isOneOf func(names []string) bool) (why string, err error) {
	for _, it := range r {
		if !MatchesRef(it.refs, c.Ref) {
			continue
		}
		if why, err := it.refusal(c, isOneOf); why != "" || err != nil {
			return why, err
		}
	}
	return "", nil
}

func (r rule) refusal(c Change, isOneOf func(names []string) bool) (why string, err error) {
	front := "protected " + kindOf(c.Ref) + ": "
	switch {
	case len(r.only) > 0 && !isOneOf(r.only):
		return front + "you may not change it", nil
	case c.IsGone && (r.noDelete || r.noForce):
		return front + "deletion is not allowed", nil
	case c.IsGone || c.IsMade || !r.noForce:
		return "", nil
	case strings.HasPrefix(c.Ref, plumbing.Tags):
		return front + "it is there already, and may not be moved", nil
	}
	isForced, err := c.IsForced()
	if isForced && err == nil {
		why = front + "only fast-forwards are allowed"
	}
	return why, err
}

func kindOf(ref string) string {
	switch {
	case strings.HasPrefix(ref, plumbing.Branches):
		return "branch"
	case strings.HasPrefix(ref, plumbing.Tags):
		return "tag"
	}
	return "ref"
}

// MatchesRef tells whether a pattern names a ref.
func MatchesRef(pattern, ref string) bool {
	front, back, hasStar := strings.Cut(pattern, "*")
	if !hasStar {
		return pattern == ref
	}
	return len(ref) >= len(front)+len(back) && strings.HasPrefix(ref, front) && strings.HasSuffix(ref, back)
}

func read(path string) ([]rule, error) { return configfile.Parse(path, parse) }

// parse reads the words of a line.
func parse(words []string) (r rule, err error) {
	if len(words) < 3 || !access.ValidPattern(words[0]) {
		return r, fmt.Errorf("`%s` is no line PATTERN REFS RULE..", strings.Join(words, " "))
	}
	r = rule{pattern: words[0], refs: words[1]}
	if err := checkRefs(r.refs); err != nil {
		return r, err
	}
	for _, word := range words[2:] {
		if err := r.take(word); err != nil {
			return r, err
		}
	}
	return r, nil
}

// checkRefs asks that a pattern can name a ref: with a letter in the place of the `*`, it has to be the name of one.
func checkRefs(pattern string) error {
	sample := strings.Replace(pattern, "*", "x", 1)
	if pattern == "*" {
		sample = plumbing.Branches + "x"
	}
	if !strings.HasPrefix(sample, "refs/") || objects.CheckRef(sample) != nil {
		return fmt.Errorf("`%s` names no refs: such as main, refs/tags/v*, refs/heads/* or *", pattern)
	}
	return nil
}

func (r *rule) take(word string) error {
	names := strings.TrimPrefix(word, onlyWord)
	switch {
	case word == noDelete:
		r.noDelete = true
	case word == noForce:
		r.noForce = true
	case names != word && len(r.only) == 0:
		r.only = strings.Split(names, ",")
		return checkNames(r.only)
	default:
		return fmt.Errorf("`%s` is no rule: no-delete, no-force or only=USER,@GROUP", word)
	}
	return nil
}

func checkNames(names []string) error {
	for _, it := range names {
		if !access.ValidUser(strings.TrimPrefix(it, "@")) {
			return fmt.Errorf("`%s` is no name of a user or of a @group", it)
		}
	}
	return nil
}
