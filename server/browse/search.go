package browse

import (
	"bytes"
	"context"
	"errors"
	"sort"
	"strings"

	"gitpoold/plumbing"
)

// Pattern is text that is looked for. Where it has no capital letter of ASCII, such letters count as small ones. The empty text is everywhere.
type Pattern struct {
	text  []byte
	folds bool
	lower []byte // what was looked into last, in small letters
}

// NewPattern makes one.
func NewPattern(text string) Pattern {
	return Pattern{text: []byte(text), folds: text == strings.Map(lowered, text)}
}

func lowered(r rune) rune {
	if 'A' <= r && r <= 'Z' {
		return r + 'a' - 'A'
	}
	return r
}

// IsIn tells whether one of these texts has it.
func (p *Pattern) IsIn(texts ...string) bool {
	if len(p.text) == 0 {
		return true
	}
	for _, it := range texts {
		if bytes.Contains(p.folded([]byte(it)), p.text) {
			return true
		}
	}
	return false
}

// folded gives bytes as the pattern compares them. They hold until the next call.
func (p *Pattern) folded(text []byte) []byte {
	if !p.folds {
		return text
	}
	p.lower = append(p.lower[:0], text...)
	for at, b := range p.lower {
		if 'A' <= b && b <= 'Z' {
			p.lower[at] = b + 'a' - 'A'
		}
	}
	return p.lower
}

// Line is a line of a file, with its number from 1.
type Line struct {
	Number int
	Text   string
}

// Match is a file in which something was found: the first lines of those that have it, and how many there are.
type Match struct {
	Path  string
	Lines []Line
	Count int
}

// Search bounds what a search reads and finds.
type Search struct {
	Files int    // found
	Lines int    // shown of one of them
	Size  uint64 // of a file that is looked into
	Bounds
}

// Paths gives the files of a tree whose paths have a text, in their order. Where it has come to its bound, isWhole is false.
func (q Search) Paths(ctx context.Context, s Source, tree plumbing.Name, p Pattern) (found []Match, isWhole bool, err error) {
	files, isWhole, err := filesOf(ctx, q.of(s), tree)
	for _, it := range files {
		if !p.IsIn(it.Path) {
			continue
		}
		if len(found) == q.Files {
			return found, false, err
		}
		found = append(found, Match{Path: it.Path})
	}
	return found, isWhole, err
}

// Text gives the files of a tree of which a line has a text, in the order of their paths. It looks into no link, no binary file and none larger
// than Size. Where it has come to its bound, isWhole is false.
func (q Search) Text(ctx context.Context, s Source, tree plumbing.Name, p Pattern) (found []Match, isWhole bool, err error) {
	m := q.of(s)
	files, isWhole, err := filesOf(ctx, m, tree)
	if err != nil {
		return nil, false, err
	}
	files, err = q.small(ctx, s, tree, files)
	if err != nil {
		return nil, false, err
	}
	paths := map[plumbing.Name][]string{}
	var names []plumbing.Name
	for _, it := range files {
		if len(paths[it.Name]) == 0 {
			names = append(names, it.Name)
		}
		paths[it.Name] = append(paths[it.Name], it.Path)
	}
	err = m.Objects(ctx, names, func(o plumbing.Object) error {
		match := p.match(o.Contents, q.Lines)
		for _, path := range paths[o.Name] {
			if match.Path = path; match.Count > 0 {
				found = append(found, match)
			}
		}
		if m.isSpent() || len(found) >= q.Files {
			return errSpent
		}
		return nil
	})
	if errors.Is(err, errSpent) {
		isWhole, err = false, nil
	}
	sort.SliceStable(found, func(i, k int) bool { return found[i].Path < found[k].Path })
	return found, isWhole, err
}

// small leaves out files that are too large, and links.
func (q Search) small(ctx context.Context, s Source, tree plumbing.Name, files []plumbing.Entry) (small []plumbing.Entry, err error) {
	sizes, err := s.Missing(ctx, []plumbing.Name{tree}, nil)
	if err != nil {
		return nil, err
	}
	isLarge := map[plumbing.Name]bool{}
	for at := 0; at < sizes.Len(); at++ {
		if sizes.Size(at) > q.Size {
			isLarge[sizes.Name(at)] = true
		}
	}
	for _, it := range files {
		if !it.IsLink() && !isLarge[it.Name] {
			small = append(small, it)
		}
	}
	return small, nil
}

// match looks for lines, most of which are only counted.
func (p *Pattern) match(contents []byte, most int) (m Match) {
	if IsBinary(contents) {
		return m
	}
	text := p.folded(contents)
	for from, number := 0, 1; ; {
		at := bytes.Index(text[from:], p.text)
		if at < 0 {
			return m
		}
		number += bytes.Count(text[from:from+at], []byte("\n"))
		begin := from + bytes.LastIndexByte(text[from:from+at], '\n') + 1
		end := len(text)
		if length := bytes.IndexByte(text[from+at:], '\n'); length >= 0 {
			end = from + at + length + 1
		}
		if m.Count++; len(m.Lines) < most {
			m.Lines = append(m.Lines, Line{number, shownPart(contents[begin:end])})
		}
		if end == len(text) {
			return m
		}
		from, number = end, number+1
	}
}

// shownPart copies so much of a line as can be shown, so that the rest of the file need not be kept.
func shownPart(line []byte) string {
	const most = 4000
	if len(line) > most {
		line = line[:most]
	}
	return string(line)
}

// IsBinary tells whether git would take contents for no text.
func IsBinary(contents []byte) bool {
	const looked = 8000
	if len(contents) > looked {
		contents = contents[:looked]
	}
	return bytes.IndexByte(contents, 0) >= 0
}

// folder is a directory with its path, which ends in a slash or is empty.
type folder struct {
	path string
	tree plumbing.Name
}

// mostPaths is how many bytes the paths of a tree may have together.
const mostPaths = 32 << 20

// lister lists the files of a tree, a level of directories at a time.
type lister struct {
	files   []plumbing.Entry
	below   []folder
	entries int
	paths   int // bytes
}

// filesOf gives the files of a tree and of the trees in it, with their whole paths, in the order of these.
func filesOf(ctx context.Context, m *metered, tree plumbing.Name) (files []plumbing.Entry, isWhole bool, err error) {
	l := &lister{below: []folder{{"", tree}}}
	for isWhole = true; isWhole && len(l.below) > 0; {
		if isWhole, err = l.level(ctx, m); err != nil {
			return nil, false, err
		}
	}
	sort.Slice(l.files, func(i, k int) bool { return l.files[i].Path < l.files[k].Path })
	return l.files, isWhole, nil
}

// level lists the directories of a level. It is false where the tree is larger than is listed.
func (l *lister) level(ctx context.Context, m *metered) (isWhole bool, err error) {
	wave, trees := l.below, map[plumbing.Name][]plumbing.Entry{}
	l.below = nil
	err = m.Objects(ctx, treesOf(wave), func(o plumbing.Object) (err error) {
		trees[o.Name], err = Entries(o)
		if m.isSpent() {
			return errSpent
		}
		return err
	})
	if err != nil {
		if errors.Is(err, errSpent) {
			err = nil
		}
		return false, err
	}
	for _, it := range wave {
		if !l.list(it, trees[it.tree]) {
			return false, nil
		}
	}
	return true, nil
}

func treesOf(wave []folder) []plumbing.Name {
	names := make([]plumbing.Name, len(wave))
	for at, it := range wave {
		names[at] = it.tree
	}
	return fresh(names, map[plumbing.Name]bool{})
}

// list adds what a directory has, as far as that is within the bounds.
func (l *lister) list(f folder, entries []plumbing.Entry) bool {
	for _, it := range entries {
		l.entries++
		if l.paths += len(f.path) + len(it.Path); l.entries > mostEntries || l.paths > mostPaths {
			return false
		}
		switch {
		case it.IsTree():
			l.below = append(l.below, folder{f.path + it.Path + "/", it.Name})
		case it.IsBlob():
			l.files = append(l.files, plumbing.Entry{Mode: it.Mode, Path: f.path + it.Path, Name: it.Name})
		}
	}
	return true
}
