package fsck

import (
	"bytes"

	"gitpoold/plumbing"
)

// Most of a .gitattributes file that git reads: the lines are shorter than LongestAttributesLine.
const (
	longestAttributes     = 100 << 20
	LongestAttributesLine = 2048
)

// Special gives the messages about an object that stands where git reads a file by itself.
func (r Rules) Special(o plumbing.Object, what Special) []Finding {
	j := &judge{rules: r}
	isBlob := o.Kind == plumbing.Blob
	switch {
	case what&Modules == 0:
	case isBlob:
		j.modules(o.Contents)
	default:
		j.report(GitmodulesBlob, "non-blob found at .gitmodules")
	}
	switch {
	case what&Attributes == 0:
	case isBlob:
		j.attributes(o.Contents)
	default:
		j.report(GitattributesBlob, "non-blob found at .gitattributes")
	}
	return j.found
}

// Refusable tells as which of the files that git reads by itself a blob can be refused at all.
func (r Rules) Refusable() (special Special) {
	for _, id := range []ID{GitmodulesName, GitmodulesURL, GitmodulesPath, GitmodulesUpdate} {
		if r.all()[id] >= Error {
			special |= Modules
		}
	}
	if r.all()[GitattributesLineLong] >= Error {
		special |= Attributes
	}
	return special
}

func (j *judge) modules(contents []byte) {
	isWhole := readConfig(string(contents), func(v variable) {
		if v.section == "submodule" && v.hasSub {
			j.module(v)
		}
	})
	if !isWhole {
		j.report(GitmodulesParse, "could not parse gitmodules blob")
	}
}

func (j *judge) attributes(contents []byte) {
	if len(contents) > longestAttributes {
		j.report(GitattributesLarge, ".gitattributes too large to parse")
		return
	}
	text, _, _ := bytes.Cut(contents, []byte{0})
	for len(text) > 0 {
		line, rest, _ := bytes.Cut(text, []byte("\n"))
		if len(line) >= LongestAttributesLine {
			j.report(GitattributesLineLong, ".gitattributes has too long lines to parse")
			return
		}
		text = rest
	}
}
