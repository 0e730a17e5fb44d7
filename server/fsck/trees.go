package fsck

import (
	"strings"

	"gitpoold/plumbing"
)

// Special says which of the files that git reads by itself a blob is; one may be both.
type Special int

// The files that git reads by itself.
const (
	Modules Special = 1 << iota
	Attributes
)

// nextEntry takes the first entry from a tree's contents; ok is false where git reads none there, or where the contents do not end with an entry.
func nextEntry(contents string) (e plumbing.Entry, rest string, ok bool) {
	e, rest, ok = plumbing.NextEntry(contents)
	_, isMode := e.Bits()
	return e, rest, ok && isMode && e.Path != "" && contents[len(contents)-len(e.Name)-1] == 0
}

// treeFaults are the faults that a message tells once for a whole tree, in the order of their messages.
type treeFaults struct {
	hasNull, hasPath, hasDot, hasDotdot, hasDotgit, hasZero, hasBadMode, hasTwice, isUnsorted, isBroken bool
}

// Tree gives the messages about a tree's contents. It calls `found` with the name of each entry that git reads by itself.
func (r Rules) Tree(contents []byte, found func(name plumbing.Name, what Special)) []Finding {
	j := &judge{rules: r}
	var faults treeFaults
	order := &ordered{}
	rest := string(contents)
	for ok := true; len(rest) > 0 && ok; {
		var e plumbing.Entry
		e, rest, ok = nextEntry(rest)
		if ok {
			faults.look(e)
			j.special(e, found)
			order.take(e, &faults)
		}
		faults.isBroken = !ok
	}
	if !faults.isBroken {
		order.last(&faults)
	}
	j.tell(&faults)
	return j.found
}

func (f *treeFaults) look(e plumbing.Entry) {
	f.hasNull = f.hasNull || e.Name.IsZero()
	f.hasPath = f.hasPath || strings.Contains(e.Path, "/")
	f.hasDot = f.hasDot || e.Path == "."
	f.hasDotdot = f.hasDotdot || e.Path == ".."
	f.hasDotgit = f.hasDotgit || !isPlain(e.Path) && isDotGit(e.Path)
	f.hasZero = f.hasZero || e.Mode[0] == '0'
}

func isGitMode(e plumbing.Entry) bool {
	switch bits, _ := e.Bits(); bits {
	case 0o100755, 0o100644, 0o120000, 0o040000, 0o160000:
		return true
	}
	return false
}

// special finds the files that git reads by itself, in each of their disguises.
func (j *judge) special(e plumbing.Entry, found func(name plumbing.Name, what Special)) {
	if isPlain(e.Path) {
		return
	}
	special, ids := lookAtName(e.Path, e.IsLink())
	for _, it := range ids {
		j.report(it.id, "%s", it.text)
	}
	if special != 0 {
		found(e.Name, special)
	}
}

// Name gives the messages about an entry of a tree by its name alone, and tells which files git takes it for.
func (r Rules) Name(name string, isLink bool) (special Special, found []Finding) {
	if isPlain(name) {
		return 0, nil
	}
	j := &judge{rules: r}
	j.tell(&treeFaults{hasDotgit: isDotGit(name)})
	special, ids := lookAtName(name, isLink)
	for _, it := range ids {
		j.report(it.id, "%s", it.text)
	}
	return special, j.found
}

// Gitlink gives the messages about an entry that names a commit of another repository, or nothing.
func (r Rules) Gitlink(isNull bool) []Finding {
	j := &judge{rules: r}
	j.tell(&treeFaults{hasNull: isNull})
	return j.found
}

// namedFault is a message about an entry by its name and mode alone.
type namedFault struct {
	id   ID
	text string
}

// lookAtName tells which files git takes an entry for, and the messages about a symbolic link in their place.
func lookAtName(name string, isLink bool) (special Special, ids []namedFault) {
	isModulesFile, isAttributes := isModules(name), isDotFile(name, attributesFile)
	if !isLink {
		if isModulesFile {
			special |= Modules
		}
		if isAttributes {
			special |= Attributes
		}
		return special, nil
	}
	for _, it := range []struct {
		is   bool
		id   ID
		text string
	}{
		{isModulesFile, GitmodulesSymlink, ".gitmodules is a symbolic link"},
		{isAttributes, GitattributesSymlink, ".gitattributes is a symlink"},
		{isDotFile(name, ignoreFile), GitignoreSymlink, ".gitignore is a symlink"},
		{isDotFile(name, mailmapFile), MailmapSymlink, ".mailmap is a symlink"},
	} {
		if it.is {
			ids = append(ids, namedFault{it.id, it.text})
		}
	}
	return 0, ids
}

func (j *judge) tell(f *treeFaults) {
	for _, it := range []struct {
		has  bool
		id   ID
		text string
	}{
		{f.isBroken, BadTree, "cannot be parsed as a tree"},
		{f.hasNull, NullSha1, "contains entries pointing to null sha1"},
		{f.hasPath, FullPathname, "contains full pathnames"},
		{f.hasDot, HasDot, "contains '.'"},
		{f.hasDotdot, HasDotdot, "contains '..'"},
		{f.hasDotgit, HasDotgit, "contains '.git'"},
		{f.hasZero, ZeroPaddedFilemode, "contains zero-padded file modes"},
		{f.hasBadMode, BadFilemode, "contains bad file modes"},
		{f.hasTwice, DuplicateEntries, "contains duplicate file entries"},
		{f.isUnsorted, TreeNotSorted, "not properly sorted"},
	} {
		if it.has {
			j.report(it.id, "%s", it.text)
		}
	}
}

// ordered compares each entry with the one before it, and keeps the files that a later directory may have the name of. As git does, it looks at
// the mode and the place of an entry only once the next one has been read.
type ordered struct {
	before, now *plumbing.Entry
	candidates  []string
}

func (o *ordered) take(e plumbing.Entry, faults *treeFaults) {
	o.last(faults)
	o.before, o.now = o.now, &e
}

func (o *ordered) last(faults *treeFaults) {
	if o.now == nil {
		return
	}
	faults.hasBadMode = faults.hasBadMode || !isGitMode(*o.now)
	if o.before != nil {
		o.compare(o.before, o.now, faults)
	}
}

// compare says whether an entry comes after the one before it, as names of directories end in a slash.
func (o *ordered) compare(before, e *plumbing.Entry, faults *treeFaults) {
	shared := min(len(before.Path), len(e.Path))
	switch order := strings.Compare(before.Path[:shared], e.Path[:shared]); {
	case order < 0:
		return
	case order > 0:
		faults.isUnsorted = true
		return
	case len(before.Path) == len(e.Path):
		faults.hasTwice = true
		return
	}
	first, second := before.KeyByte(shared), e.KeyByte(shared)
	switch {
	case first == 0 && isBelowSlash(second):
		o.candidates = append(o.candidates, before.Path)
	case second == '/' && isBelowSlash(first):
		if o.hasCandidate(e.Path) {
			faults.hasTwice = true
			return
		}
	}
	if first >= second {
		faults.isUnsorted = true
	}
}

func isBelowSlash(b byte) bool { return b > 0 && b < '/' }

// hasCandidate tells whether a directory has the name of a file that came before entries between them.
func (o *ordered) hasCandidate(name string) bool {
	for len(o.candidates) > 0 {
		last := len(o.candidates) - 1
		file := o.candidates[last]
		rest, isFront := strings.CutPrefix(name, file)
		switch {
		case isFront && len(rest) == 0:
			return true
		case isFront && isBelowSlash(rest[0]):
			return false
		}
		o.candidates = o.candidates[:last]
	}
	return false
}
