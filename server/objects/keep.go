// Package objects says what of Git's objects a tenant can keep.
//
// A tenant's objects come from streams of git-fast-import(1), so a commit has a tree, parents, an author, a committer and perhaps an
// encoding, a tree has files at paths, and a tag names a commit, a blob or another tag. Here a commit, a tree or a tag is read from
// Git's bytes, and whatever would not come back as the same bytes is refused in a sentence. The package fsck says what a careful server refuses of
// the rest.
package objects

import (
	"bytes"
	"fmt"
	"regexp"
	"slices"
	"strconv"
	"strings"

	"gitpoold/plumbing"
)

// Limits of what a tenant keeps: docs/FORMATS.md.
const (
	LongestData    = 67_108_864
	longestPath    = 16_383
	MostComponents = 256
	longestRef     = 1_024
	mostParents    = 1_024
	LongestLine    = 1_048_575
	MostRefs       = 65_536
	MostFiles      = 1_048_576
)

// Refusal is an object that a tenant cannot keep, or a ref that cannot be set, in a sentence. WayOut says what a user can do.
type Refusal struct {
	Why    string
	WayOut string
}

func (r *Refusal) Error() string { return r.Why }

func refuse(format string, values ...any) *Refusal {
	return &Refusal{Why: fmt.Sprintf(format, values...)}
}

const withoutSignatures = "Such a history can be pushed from a copy that git writes without it; the copy's commits have other names:\n" +
	"  git init copy && git fast-export --all --signed-tags=strip --reencode=no --mark-tags | git -C copy fast-import"

// Commit is a commit as its header says it. Lines are the whole lines of the idents and of the encoding.
type Commit struct {
	plumbing.Head
	Lines   [][]byte
	Message []byte
}

// Tag is an annotated tag. Tagger is the whole line, or nil.
type Tag struct {
	Target  plumbing.Name
	Kind    string
	Name    string
	Tagger  []byte
	Message []byte
}

type header struct {
	word, value []byte
}

func short(name plumbing.Name) string { return name.String()[:12] }

func shown[T []byte | string](text T) string { return strings.ToValidUTF8(string(text), "\ufffd") }

// headers gives the header lines and the message; whole is false where no blank line parts them.
func headers(contents []byte) (lines []header, message []byte, whole bool) {
	for {
		line, rest, found := bytes.Cut(contents, []byte("\n"))
		word, value, hasSpace := bytes.Cut(line, []byte(" "))
		if !found || !hasSpace || len(word) == 0 {
			return lines, bytes.TrimPrefix(contents, []byte("\n")), bytes.HasPrefix(contents, []byte("\n"))
		}
		lines = append(lines, header{word, value})
		contents = rest
	}
}

func checkIdent(kind string, name plumbing.Name, h header) error {
	if !IsIdent(h.value) {
		return refuse("%s %s has a malformed %s line, which gitpool does not keep: %s", kind, short(name), h.word, shown(h.value))
	}
	if len(h.word)+1+len(h.value) > LongestLine {
		return refuse("%s %s has a line of more than %d bytes", kind, short(name), LongestLine)
	}
	return nil
}

// IsIdent tells whether bytes are a name, a space, an address between < and >, a space, seconds below 2^64, a space, and a time zone.
func IsIdent(ident []byte) bool {
	name, rest, hasAddress := bytes.Cut(ident, []byte(" <"))
	address, date, hasDate := bytes.Cut(rest, []byte("> "))
	if !hasAddress || !hasDate || bytes.ContainsAny(name, "<>\n") || bytes.ContainsAny(address, "<>\n") {
		return false
	}
	seconds, zone, _ := bytes.Cut(date, []byte(" "))
	if len(zone) != 5 || zone[0] != '+' && zone[0] != '-' || !isDigits(zone[1:]) || len(seconds) > 20 || !isDigits(seconds) {
		return false
	}
	_, err := strconv.ParseUint(string(seconds), 10, 64)
	return err == nil
}

func isDigits(text []byte) bool {
	for _, b := range text {
		if b < '0' || b > '9' {
			return false
		}
	}
	return len(text) > 0
}

// latin puts a letter in the place of each byte that is no ASCII, so that an expression reads bytes and not runes.
func latin(text []byte) []byte {
	return bytes.Map(func(r rune) rune {
		if r >= 0x80 {
			return 'x'
		}
		return r
	}, text)
}

func checkMessage(kind string, name plumbing.Name, message []byte) error {
	if len(message) > LongestData {
		return refuse("%s %s has a message of more than %d bytes", kind, short(name), LongestData)
	}
	return nil
}

func otherHeader(kind string, name plumbing.Name, word []byte) error {
	what := fmt.Sprintf("a header `%s`", shown(word))
	switch string(word) {
	case "gpgsig", "gpgsig-sha256":
		what = fmt.Sprintf("a signature (%s)", word)
	case "mergetag":
		what = "a merged tag (mergetag)"
	}
	return &Refusal{fmt.Sprintf("%s %s has %s, which gitpool does not keep", kind, short(name), what), withoutSignatures}
}

func malformed(kind string, name plumbing.Name) error {
	return refuse("%s %s has malformed headers, which gitpool does not keep", kind, short(name))
}

// TooLong refuses an object that has more bytes than a stream can say.
func TooLong(kind string, name plumbing.Name) error {
	return refuse("%s %s has more than %d bytes, which gitpool does not keep", kind, short(name), LongestData)
}

// ReadCommit reads a commit from its bytes. The error is a *Refusal where a tenant cannot keep it as it is.
func ReadCommit(name plumbing.Name, contents []byte) (*Commit, error) {
	lines, message, whole := headers(contents)
	for _, line := range lines {
		if !isOneOf(line.word, "tree", "parent", "author", "committer", "encoding") {
			return nil, otherHeader("commit", name, line.word)
		}
	}
	parents := 0
	for parents+1 < len(lines) && string(lines[parents+1].word) == "parent" {
		parents++
	}
	if !whole || !isCommit(lines, parents) {
		return nil, malformed("commit", name)
	}
	if parents > mostParents {
		return nil, refuse("commit %s has more than %d parents", short(name), mostParents)
	}
	return commitOf(name, lines, parents, message)
}

// isCommit tells whether header lines are those of a commit, in their order.
func isCommit(lines []header, parents int) bool {
	after := []string{"author", "committer", "encoding"}
	rest := len(lines) - 1 - parents
	if rest != 2 && rest != 3 || string(lines[0].word) != "tree" {
		return false
	}
	for at, line := range lines[1+parents:] {
		if string(line.word) != after[at] || after[at] == "encoding" && len(line.value) == 0 {
			return false
		}
	}
	return true
}

func commitOf(name plumbing.Name, lines []header, parents int, message []byte) (*Commit, error) {
	c := &Commit{Message: message}
	for at, line := range lines {
		switch {
		case at > parents:
			c.Lines = append(c.Lines, bytes.Join([][]byte{line.word, line.value}, []byte(" ")))
		default:
			found, ok := plumbing.ReadName(line.value)
			if !ok {
				return nil, malformed("commit", name)
			}
			c.Parents = append(c.Parents, found)
		}
	}
	c.Tree, c.Parents = c.Parents[0], c.Parents[1:]
	for _, line := range lines[1+parents : 3+parents] {
		if err := checkIdent("commit", name, line); err != nil {
			return nil, err
		}
	}
	c.Time = plumbing.TimeOf(lines[2+parents].value)
	return c, checkMessage("commit", name, message)
}

func isOneOf(word []byte, words ...string) bool {
	return slices.Contains(words, string(word))
}

// ReadTag reads a tag from its bytes. The error is a *Refusal where a tenant cannot keep it as it is.
func ReadTag(name plumbing.Name, contents []byte) (*Tag, error) {
	lines, message, whole := headers(contents)
	for _, line := range lines {
		if !isOneOf(line.word, "object", "type", "tag", "tagger") {
			return nil, otherHeader("tag", name, line.word)
		}
	}
	if !whole || !isTag(lines) {
		return nil, malformed("tag", name)
	}
	tag := &Tag{Kind: string(lines[1].value), Name: string(lines[2].value), Message: message}
	if tag.Kind == "tree" {
		return nil, refuse("tag %s is of a tree, which gitpool does not keep", shown(lines[2].value))
	}
	var ok bool
	if tag.Target, ok = plumbing.ReadName(lines[0].value); !ok || !isOneOf(lines[1].value, "commit", "blob", "tag") {
		return nil, malformed("tag", name)
	}
	return tag, tag.check(name, lines)
}

func isTag(lines []header) bool {
	words := []string{"object", "type", "tag", "tagger"}
	if len(lines) != 3 && len(lines) != 4 {
		return false
	}
	for at, line := range lines {
		if string(line.word) != words[at] {
			return false
		}
	}
	return true
}

func (t *Tag) check(name plumbing.Name, lines []header) error {
	if err := CheckRef(plumbing.Tags + t.Name); err != nil {
		return err
	}
	if len(lines) == 4 {
		if err := checkIdent("tag", name, lines[3]); err != nil {
			return err
		}
		t.Tagger = append([]byte("tagger "), lines[3].value...)
	}
	return checkMessage("tag", name, t.Message)
}

// TreeFacts is what a look at each entry of a tree finds: how many there are, and whether a directory is among them.
type TreeFacts struct {
	Entries  int
	HasTrees bool
}

// ExamineTree looks at each entry of a tree. The error is a *Refusal where a tenant cannot keep the tree as it is: where it is not the one
// tree of its files.
func ExamineTree(name plumbing.Name, contents []byte) (facts TreeFacts, err error) {
	var before plumbing.Entry
	left := string(contents)
	files := map[string]bool{}
	entry, rest, ok := plumbing.NextEntry(left)
	for left != "" {
		if !ok || entry.Path == "" || entry.Mode == "" {
			return facts, refuse("tree %s is malformed, which gitpool does not keep", short(name))
		}
		next, after, hasNext := plumbing.NextEntry(rest)
		if err := checkEntry(name, before, entry); err != nil {
			return facts, err
		}
		if err := checkTwice(name, entry, files, next, hasNext); err != nil {
			return facts, err
		}
		facts.Entries++
		facts.HasTrees = facts.HasTrees || entry.IsTree()
		before, entry, ok = entry, next, hasNext
		left, rest = rest, after
	}
	return facts, nil
}

func checkEntry(name plumbing.Name, before, entry plumbing.Entry) error {
	if !entry.IsUsual() {
		return refuse("tree %s has an entry with mode %s, which gitpool does not keep", short(name), shown(entry.Mode))
	}
	if entry.IsTree() && entry.Name == plumbing.EmptyTree {
		return refuse("tree %s has an empty directory `%s`, which gitpool does not keep", short(name), shown(entry.Path))
	}
	isBad := entry.Path == "." || entry.Path == ".." || strings.Contains(entry.Path, "/")
	if isBad || before.Path != "" && plumbing.CompareKeys(before, entry) >= 0 {
		return refuse("tree %s has its entry `%s` out of order or under a bad name, which gitpool does not keep", short(name),
			shown(entry.Path))
	}
	return nil
}

// checkTwice refuses a directory that has the name of a file. The file need not stand beside it: what is between begins with its name.
func checkTwice(name plumbing.Name, entry plumbing.Entry, files map[string]bool, next plumbing.Entry, hasNext bool) error {
	if entry.IsTree() && files[entry.Path] {
		return refuse("tree %s has two entries of one name, which gitpool does not keep", short(name))
	}
	if hasNext && strings.HasPrefix(next.Path, entry.Path) && !entry.IsTree() {
		files[entry.Path] = true
	}
	return nil
}

var refForbidden = regexp.MustCompile(`[\x00-\x20\x7f~^:?*\[\\]|\.\.|@\{|//|/\.|\.lock(/|$)|[/.]$`)

// CheckRef gives a *Refusal where a tenant can have no ref of this name.
func CheckRef(ref string) error {
	if len(ref) > longestRef {
		return refuse("a ref name has more than %d bytes", longestRef)
	}
	if !strings.HasPrefix(ref, "refs/") || strings.HasPrefix(ref, "refs/namespaces/") {
		return refuse("%s is no name for a ref: it begins with refs/, and not with refs/namespaces/", shown(ref))
	}
	if !IsRefName(ref) {
		return refuse("%s is no name for a ref", shown(ref))
	}
	return nil
}

// CheckPath gives a *Refusal where a path is past the limits.
func CheckPath(path string) error {
	if len(path) > longestPath || strings.Count(path, "/") >= MostComponents {
		return refuse("a path has more than %d bytes or %d components: %s..", longestPath, MostComponents, shown(path[:min(len(path), 60)]))
	}
	return nil
}

// TooDeep refuses a path with too many components, which is not shown.
func TooDeep() error {
	return refuse("a path has more than %d components", MostComponents)
}

var quoting = strings.NewReplacer(`\`, `\\`, `"`, `\"`, "\n", `\n`)

// Quote gives a path as a change of a stream has it: between quotes where it would not be read as it stands.
func Quote(text string) string {
	if !strings.HasPrefix(text, `"`) && !strings.Contains(text, "\n") {
		return text
	}
	return `"` + quoting.Replace(text) + `"`
}
