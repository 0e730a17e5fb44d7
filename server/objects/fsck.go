package objects

import (
	"gitpoold/fsck"
	"gitpoold/plumbing"
)

// Judged gives a *Refusal of an object that one of the messages about it lets be refused, in git's words.
func Judged(name plumbing.Name, found []fsck.Finding) error {
	if fault := fsck.Fault(found); fault != nil {
		return refuse("object %s: %s", name, fault)
	}
	return nil
}

// IsRefName tells whether a ref may have this name: git-check-ref-format(1).
func IsRefName(ref string) bool { return !refForbidden.Match(latin([]byte(ref))) }
