package fsck

import (
	"bytes"
	"gitpoold/plumbing"
)

// Tag gives the messages about a tag's contents. `isRefName` tells whether a text is the name of a ref: git-check-ref-format(1).
func (r Rules) Tag(contents []byte, isRefName func(ref string) bool) []Finding {
	j := &judge{rules: r}
	j.tag(contents, isRefName)
	return j.found
}

func (j *judge) tag(contents []byte, isRefName func(ref string) bool) {
	if j.headers(contents) {
		return
	}
	rest, isObject := bytes.CutPrefix(contents, []byte("object "))
	if !isObject {
		j.report(MissingObject, "invalid format - expected 'object' line")
		return
	}
	rest, stops := j.name(rest, BadObjectSha1, "object")
	if stops {
		return
	}
	if rest, stops = j.kind(rest); stops {
		return
	}
	rest, isTag := bytes.CutPrefix(rest, []byte("tag "))
	if !isTag {
		j.report(MissingTagEntry, "invalid format - expected 'tag' line")
		return
	}
	name, rest, isWhole := bytes.Cut(rest, []byte("\n"))
	if !isWhole {
		j.report(MissingTag, "invalid format - unexpected end after 'type' line")
		return
	}
	if !isRefName(plumbing.Tags+string(name)) && j.report(BadTagName, "invalid 'tag' name: %s", name) {
		return
	}
	j.tagger(rest)
}

// kind judges the line of the tagged object's kind.
func (j *judge) kind(rest []byte) ([]byte, bool) {
	rest, isType := bytes.CutPrefix(rest, []byte("type "))
	if !isType {
		j.report(MissingTypeEntry, "invalid format - expected 'type' line")
		return rest, true
	}
	word, rest, isWhole := bytes.Cut(rest, []byte("\n"))
	if !isWhole {
		j.report(MissingType, "invalid format - unexpected end after 'type' line")
		return rest, true
	}
	switch string(word) {
	case "commit", "tree", "blob", "tag":
		return rest, false
	}
	return rest, j.report(BadType, "invalid 'type' value")
}

// tagger judges the tagger's line, which early tags do not have, and what stands after it in the header.
func (j *judge) tagger(rest []byte) {
	line, isTagger := bytes.CutPrefix(rest, []byte("tagger "))
	if isTagger {
		rest, _ = j.ident(line)
	} else if j.report(MissingTaggerEntry, "invalid format - expected 'tagger' line") {
		return
	}
	if len(rest) > 0 && rest[0] != '\n' {
		j.report(ExtraHeaderEntry, "invalid format - extra header(s) after 'tagger'")
	}
}
