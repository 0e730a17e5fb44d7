package pages

import (
	"context"
	"errors"
	"fmt"
	"html/template"
	"strconv"
	"strings"

	"gitpoold/browse"
	"gitpoold/linediff"
	"gitpoold/plumbing"
)

// Most that a page shows of changes, and that it reads for that.
const (
	mostDiffs     = 100
	mostDiffLines = 6000
	mostDiffBytes = 512 << 10 // of a file before or after
	mostDiffRead  = 24 << 20
)

// changes are files that differ between two trees.
type changes struct {
	Files            []*fileDiff
	Summary, Omitted string
}

// fileDiff is a file that differs.
type fileDiff struct {
	ID, Path, OldPath, Change, URL, Mode string
	Added, Deleted                       int
	Hunks                                template.HTML
	Why                                  string
}

// differ makes the differences of one page, within bounds. Before and after are revisions for links, or "".
type differ struct {
	visit         Visit
	before, after string
	all           []browse.Change
	lines, read   int
}

// changes compares two commits; one without a name has no files.
func (v Visit) changes(ctx context.Context, before, after *browse.Commit) (all changes, err error) {
	found, isWhole, err := browse.Changes(ctx, v.Repository, before.Tree, after.Tree)
	if err != nil {
		return all, err
	}
	d := &differ{visit: v, before: before.Name.String(), after: after.Name.String(), all: found}
	if len(found) > mostDiffs {
		d.all = found[:mostDiffs]
	}
	if all.Files, err = d.files(ctx); err != nil {
		return all, err
	}
	added, deleted := 0, 0
	for _, file := range all.Files {
		added, deleted = added+file.Added, deleted+file.Deleted
	}
	all.Summary = several(len(found), "file", "files") + " changed"
	if !isWhole {
		all.Summary = "More than " + several(len(found), "file", "files") + " changed"
	}
	if len(all.Files) == len(found) && isWhole {
		all.Summary += ", " + several(added, "line", "lines") + " added, " + several(deleted, "line", "lines") + " deleted"
	} else {
		all.Omitted = "Only the first " + several(len(all.Files), "file is", "files are") + " shown. Git shows all of them."
	}
	return all, nil
}

// isFull tells whether the page has shown enough.
func (d *differ) isFull() bool { return d.lines > mostDiffLines || d.read > mostDiffRead }

var errFull = errors.New("the page has shown enough")

// files compares the files one by one, as their contents come.
func (d *differ) files(ctx context.Context) (files []*fileDiff, err error) {
	texts := make([][2][]byte, len(d.all)) // before and after
	var names []plumbing.Name
	var places [][2]int // of the texts that are read
	for at, it := range d.all {
		for side, entry := range []plumbing.Entry{it.Old, it.New} {
			switch {
			case it.Old.Name == it.New.Name:
			case entry.IsGitlink():
				// (as git shows it)
				texts[at][side] = []byte("Subproject commit " + entry.Name.String() + "\n")
			case entry.IsBlob():
				names, places = append(names, entry.Name), append(places, [2]int{at, side})
			}
		}
	}
	compare := func(end int) {
		for at := len(files); at < end; at++ {
			files = append(files, d.file(at, texts[at]))
			texts[at] = [2][]byte{}
		}
	}
	err = d.visit.Repository.Objects(ctx, names, func(o plumbing.Object) error {
		at := places[0]
		texts[at[0]][at[1]] = o.Contents
		d.read += len(o.Contents)
		if places = places[1:]; len(places) == 0 || places[0][0] != at[0] {
			compare(at[0] + 1)
		}
		if d.isFull() {
			return errFull
		}
		return nil
	})
	if errors.Is(err, errFull) {
		err = nil
	}
	compare(len(d.all))
	return files, err
}

// file compares a file.
func (d *differ) file(at int, texts [2][]byte) *fileDiff {
	it, old, new := d.all[at], texts[0], texts[1]
	f := &fileDiff{Path: visible(it.Path()), ID: fmt.Sprintf("file-%d", at+1), Change: "changed"}
	switch {
	case it.Old.Name.IsZero():
		f.Change = "added"
	case it.New.Name.IsZero():
		f.Change = "deleted"
	case it.Old.Path != it.New.Path:
		f.Change, f.OldPath = "renamed", visible(it.Old.Path)
	}
	if f.Change != "added" && f.Change != "deleted" && it.Old.Mode != it.New.Mode {
		f.Mode = "mode " + it.Old.Mode + " became " + it.New.Mode
	}
	if it.New.IsBlob() {
		f.URL = d.visit.Place.At(Blob, d.after, it.New.Path).URL()
	} else if it.Old.IsBlob() {
		f.URL = d.visit.Place.At(Blob, d.before, it.Old.Path).URL()
	}
	switch {
	case it.Old.Name == it.New.Name:
	case d.isFull():
		f.Why = "This page has shown enough, so the difference is left out."
	case len(old) > mostDiffBytes || len(new) > mostDiffBytes:
		f.Why = "The file is large, so the difference is left out."
	case browse.IsBinary(old) || browse.IsBinary(new):
		f.Why = "The file is binary, so no difference is shown."
	default:
		d.hunks(f, linediff.Compare(string(old), string(new)))
	}
	return f
}

var markNames = map[byte]string{' ': "same", '-': "del", '+': "add"}

// hunks writes the hunks of a file, whose lines have the names of their marks as classes.
func (d *differ) hunks(f *fileDiff, hunks []linediff.Hunk) {
	var w lines
	for _, h := range hunks {
		isEmpty := true
		for _, l := range h.Lines {
			switch l.Mark {
			case '+':
				f.Added++
			case '-':
				f.Deleted++
			}
			if d.lines++; d.lines > mostDiffLines {
				f.Why = "This page has shown enough, so the rest of the difference is left out."
				continue
			}
			if isEmpty {
				w.add(`<span class="line head">`, headOfHunk(h), "\n</span>")
				isEmpty = false
			}
			w.diffLine(markNames[l.Mark], numberOf(l.Old), numberOf(l.New), string(l.Mark), line(l.Text))
			if !strings.HasSuffix(l.Text, "\n") {
				w.diffLine("none", "", "", "", `\ No newline at end of file`)
			}
		}
	}
	f.Hunks = w.HTML()
}

// diffLine adds a line of a difference.
func (w *lines) diffLine(class, old, new, mark, text string) {
	w.add(`<span class="line `, class, `"><i data-o="`, old, `" data-n="`, new, `"></i>`, mark, "", text, "\n</span>")
}

// numberOf is the number of a line, or "" where it is in no line of that side.
func numberOf(number int) string {
	if number == 0 {
		return ""
	}
	return strconv.Itoa(number)
}

// headOfHunk is a hunk's line with two @@, as diff -u has it.
func headOfHunk(h linediff.Hunk) string {
	var from, lines [2]int
	for _, l := range h.Lines {
		for side, number := range []int{l.Old, l.New} {
			if number == 0 {
				continue
			}
			if lines[side]++; lines[side] == 1 {
				from[side] = number
			}
		}
	}
	return fmt.Sprintf("@@ -%d,%d +%d,%d @@", from[0], lines[0], from[1], lines[1])
}
