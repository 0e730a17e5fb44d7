package fastimport

import (
	"bytes"
	"context"
	"errors"

	"gitpoold/fsck"
	"gitpoold/plumbing"
)

// takeModify judges `M <mode> <dataref> <path>`.
func (j *judge) takeModify(rest []byte) error {
	mode, rest, _ := bytes.Cut(rest, []byte(" "))
	reference, rest, hasPath := bytes.Cut(rest, []byte(" "))
	path, isGood := lastPath(rest)
	if !hasPath || !isGood {
		return nil
	}
	j.isInline = string(reference) == "inline"
	special, err := j.takePath(path, string(mode) == plumbing.ModeLink)
	if j.special = special; err != nil {
		return err
	}
	switch {
	case string(mode) == plumbing.ModeGitlink:
		return j.fsckGitlink(special, reference)
	case special == 0:
		return nil
	case string(mode) == modeTree:
		return j.takeDirectory(special)
	case j.isInline:
		return nil
	}
	return j.fsckFile(special, reference)
}

// takePath judges the names in a path, and tells which file git takes its last one for.
func (j *judge) takePath(path []byte, isLink bool) (special fsck.Special, err error) {
	for {
		name, rest, hasMore := bytes.Cut(path, []byte("/"))
		special, found := j.rules.Name(string(name), isLink && !hasMore)
		err := judged("a tree", found)
		if err == nil && hasMore {
			err = j.takeDirectory(special)
		}
		if err != nil || !hasMore {
			return special, err
		}
		path = rest
	}
}

// takeDirectory judges a directory where git reads a file by itself.
func (j *judge) takeDirectory(special fsck.Special) error {
	return judged("a tree", j.rules.Special(plumbing.Object{Kind: plumbing.Tree}, special))
}

func (j *judge) fsckGitlink(special fsck.Special, reference []byte) error {
	name, isName := plumbing.ParseName(string(reference))
	switch {
	case isName && name.IsZero():
		return judged("a tree", j.rules.Gitlink(true))
	case special == 0:
		return nil
	case isName:
		j.asked = &stored{name, special}
		return nil
	}
	return judged("a tree", j.rules.Special(plumbing.Object{Kind: plumbing.Commit}, special))
}

// fsckFile judges a blob that a mark or a name tells.
func (j *judge) fsckFile(special fsck.Special, reference []byte) error {
	name, isName := plumbing.ParseName(string(reference))
	mark := markOf(reference)
	for _, it := range []struct {
		special fsck.Special
		bad     *badBlobs
	}{{fsck.Modules, &j.modules}, {fsck.Attributes, &j.others}} {
		if special&it.special != 0 && it.bad.has(mark, name, isName) {
			return badFile(it.special)
		}
	}
	if isName {
		j.asked = &stored{name, special}
	}
	return nil
}

func badFile(special fsck.Special) error {
	if special&fsck.Modules != 0 {
		return refuse("a .gitmodules that does harm")
	}
	return refuse("a .gitattributes with a line of more than %d bytes", fsck.LongestAttributesLine-1)
}

// settle judges what the last line asked for, if that was in the repository before, or at the last checkpoint. Else the stream has it, or the
// program refuses the line.
func (j *judge) settle(ctx context.Context) error {
	if j.asked == nil {
		return nil
	}
	asked := *j.asked
	j.asked = nil
	object, err := j.look(ctx, asked.name)
	if errors.Is(err, plumbing.ErrMissing) {
		if j.isUnsure && asked.special&fsck.Modules != 0 {
			return badFile(fsck.Modules)
		}
		return nil
	}
	if err != nil {
		return err
	}
	return judged("a file that git reads by itself", j.rules.Special(object, asked.special))
}

// takeCopy judges `C <source> <destination>` and `R <source> <destination>`. What is at the source is known by its name alone.
func (j *judge) takeCopy(rest []byte) error {
	source, rest, isGood := firstPath(rest)
	destination, isPath := lastPath(rest)
	if !isGood || !isPath {
		return nil
	}
	special, err := j.takePath(destination, false)
	if err != nil || special == 0 {
		return err
	}
	special &= j.rules.Refusable()
	was, _ := j.rules.Name(string(source[bytes.LastIndexByte(source, '/')+1:]), false)
	if special&^was != 0 {
		return refuse("a file that git reads, copied from another name: name its contents by `M`")
	}
	return nil
}
