package pages

import (
	"context"
	"net/http"
	"path"
	"sort"
	"strconv"
	"strings"
	"time"

	"gitpoold/browse"
	"gitpoold/plumbing"
	"gitpoold/tenants"
)

// Most of a tree that one page shows: entries, and bytes of their names.
const (
	mostEntries = 1000
	mostNames   = 256 << 10
)

// toLatest is what is read for the commits that stand beside the entries of a tree.
var toLatest = browse.Bounds{Objects: 2500, Bytes: 16 << 20, Time: 500 * time.Millisecond}

// entryRow is an entry of a tree as its page shows it, with the commit that changed it last, if that was found.
type entryRow struct {
	URL, Name, Kind, Class string
	Latest                 *commitLine
}

// listing is a tree, or a page of it.
type listing struct {
	Rows        []entryRow
	Count, More string
	Note        string
	Parent      string
	Latest      *commitLine
	History     string
	Search      string
	Archives    []link
	Readme      *readme
}

// listing reads a tree and, on its first page, its README.
func (v Visit) listing(ctx context.Context, at Place, tree plumbing.Name, c *browse.Commit) (*listing, error) {
	o, err := browse.Object(ctx, v.Repository, tree)
	if err != nil {
		return nil, err
	}
	entries, err := browse.Entries(o)
	if err != nil {
		return nil, err
	}
	sort.SliceStable(entries, func(i, k int) bool { return entries[i].IsTree() && !entries[k].IsTree() })
	l := &listing{Count: several(len(entries), "entry", "entries"), Latest: v.lineOf(at, c)}
	if c != nil {
		l.Archives, l.Search = v.archives(at.Revision), at.At(Search, at.Revision, "").URL()
	}
	if at.Path != "" {
		l.Parent = at.At(Tree, at.Revision, parentOf(at.Path)).URL()
		l.History = v.historyOf(at, c)
	}
	from, _ := strconv.Atoi(v.Query.Get("from"))
	if from < 0 || from > len(entries) {
		from = 0
	}
	names := 0
	for _, it := range entries[from:] {
		if names += len(it.Path); len(l.Rows) > 0 && (len(l.Rows) == mostEntries || names > mostNames) {
			l.More = at.URL() + "?from=" + strconv.Itoa(from+len(l.Rows))
			break
		}
		l.Rows = append(l.Rows, rowOf(at, it))
	}
	if from == 0 {
		l.Readme, err = v.readme(ctx, at, entries)
	}
	if c != nil && err == nil {
		err = v.latest(ctx, l, at.Path, c, entries[from:from+len(l.Rows)])
	}
	return l, err
}

// latest puts beside each entry the commit that changed it last, and says of how many it has not found that.
func (v Visit) latest(ctx context.Context, l *listing, path string, c *browse.Commit, entries []plumbing.Entry) error {
	names := make([]string, len(entries))
	for at, it := range entries {
		names[at] = it.Path
	}
	found, err := browse.Latest(ctx, v.Repository, c, path, names, toLatest)
	for at, name := range names {
		l.Rows[at].Latest = v.lineOf(v.Place, found[name])
	}
	if unfound := len(names) - len(found); unfound > 0 {
		l.Note = "The last commit of " + several(unfound, "entry", "entries") + " is further back than this page looks."
	}
	return err
}

// historyOf is the page of the commits that changed a path; "" where no commit leads to it.
func (v Visit) historyOf(at Place, c *browse.Commit) string {
	if c == nil {
		return ""
	}
	return at.At(Log, at.Revision, at.Path).URL()
}

func parentOf(of string) string {
	if parent := path.Dir(of); parent != "." {
		return parent
	}
	return ""
}

// joinedPath is the path of an entry below a directory.
func joinedPath(folder, name string) string {
	if folder == "" {
		return name
	}
	return folder + "/" + name
}

func rowOf(at Place, it plumbing.Entry) entryRow {
	row := entryRow{Name: visible(it.Path), URL: at.At(Blob, at.Revision, joinedPath(at.Path, it.Path)).URL()}
	switch {
	case it.IsTree():
		row.URL = at.At(Tree, at.Revision, joinedPath(at.Path, it.Path)).URL()
		row.Kind, row.Class = "directory", "d"
	case it.IsGitlink():
		row.URL, row.Kind, row.Class = "", "submodule at "+it.Name.String()[:10], "m"
	case it.IsLink():
		row.Kind, row.Class = "symbolic link", "l"
	case it.IsExecutable():
		row.Kind, row.Class = "executable file", "x"
	default:
		row.Kind, row.Class = "file", "f"
	}
	if !it.IsUsual() && it.Mode != "" {
		row.Kind, row.Class = row.Kind+", mode "+visible(it.Mode), row.Class+" odd"
	}
	return row
}

// home shows a tenant: its files as HEAD has them, and how to clone it.
func (v Visit) home(ctx context.Context) (Answer, error) {
	refs, head, err := v.Repository.Refs(ctx)
	if err != nil {
		return Answer{}, err
	}
	page := struct {
		Clone, Push          []string
		Branches, Tags, Refs string
		Head, Description    string
		Listing              *listing
		IsEmpty              bool
	}{Clone: v.clones("git clone "), Description: visible(v.Description), Head: visible(shortRef(head)), Refs: v.Place.At(Refs, "", "").URL(),
		IsEmpty: len(refs) == 0}
	if page.IsEmpty {
		page.Push = v.clones("git push ", " HEAD:main")
	}
	page.Branches = several(counted(refs, plumbing.Branches), "branch", "branches")
	page.Tags = several(counted(refs, plumbing.Tags), "tag", "tags")
	c, err := headOf(ctx, v.Repository)
	if err == nil && c != nil {
		page.Listing, err = v.listing(ctx, v.Place.At(Tree, "HEAD", ""), c.Tree, c)
	}
	if err != nil {
		return Answer{}, err
	}
	f := frame{Title: v.Place.Tenant, Tab: Home, Feed: v.Place.At(Feed, "HEAD", "").URL()}
	if c != nil {
		f.Permalink = v.Place.At(Tree, c.Name.String(), "").URL()
	}
	return v.page("home", f, page)
}

func counted(refs []tenants.Ref, front string) (count int) {
	for _, it := range refs {
		if strings.HasPrefix(it.Name, front) {
			count++
		}
	}
	return count
}

// clones gives commands with the URLs that git takes.
func (v Visit) clones(front string, after ...string) (commands []string) {
	for _, it := range []string{v.CloneHTTP, v.CloneSSH} {
		if it != "" {
			commands = append(commands, front+visible(it)+strings.Join(after, ""))
		}
	}
	return commands
}

// found is what a revision and a path come to. Commit is nil where the revision is no commit.
type found struct {
	commit *browse.Commit
	object plumbing.Object
	entry  plumbing.Entry // of the path in its directory
}

// find finds a tree or a blob.
func (v Visit) find(ctx context.Context) (f found, err error) {
	at := v.Place
	whole := at.Revision + "^{}"
	if at.Path != "" {
		whole = at.Revision + ":" + at.Path
	}
	names, err := browse.Names(ctx, v.Repository, at.Revision+"^{commit}", whole, at.Revision+":"+parentOf(at.Path))
	if err != nil {
		return f, err
	}
	isCommit := !names[0].IsZero()
	if isCommit && at.Path == "" {
		names[1] = names[2]
	}
	if names[1].IsZero() {
		return f, plumbing.ErrMissing
	}
	read, err := v.objects(ctx, names)
	if f.object = read[names[1]]; err == nil && isCommit {
		f.commit, err = browse.ReadCommit(read[names[0]])
	}
	if err != nil || at.Path == "" {
		return f, err
	}
	entries, err := browse.Entries(read[names[2]])
	for _, it := range entries {
		if it.Path == path.Base(at.Path) {
			f.entry = it
		}
	}
	return f, err
}

// longestCrumbs is how long a path may be of which each directory has a link.
const longestCrumbs = 4096

// pathCrumbs are the links of the directories that lead to a path; the last one is only its name.
func (v Visit) pathCrumbs() []link {
	at := v.Place
	crumbs := []link{{at.At(Tree, at.Revision, "").URL(), visible(shownRevision(at.Revision))}}
	if len(at.Path) > longestCrumbs {
		return append(crumbs, link{"", visible(at.Path)})
	}
	for end := 0; end < len(at.Path); end++ {
		next := strings.IndexByte(at.Path[end:], '/')
		if next < 0 {
			next = len(at.Path) - end
		}
		crumbs = append(crumbs, link{at.At(Tree, at.Revision, at.Path[:end+next]).URL(), visible(at.Path[end : end+next])})
		end += next
	}
	crumbs[len(crumbs)-1].URL = ""
	return crumbs
}

// shownRevision is a revision as people say it: all digits of a name are too many.
func shownRevision(revision string) string {
	if _, isName := plumbing.ParseName(revision); isName {
		return revision[:10]
	}
	return shortRef(revision)
}

// tree shows a tree of a revision.
func (v Visit) tree(ctx context.Context) (Answer, error) {
	f, err := v.find(ctx)
	if err != nil {
		return Answer{}, err
	}
	if f.object.Kind == plumbing.Blob {
		return redirect(v.Place.At(Blob, v.Place.Revision, v.Place.Path)), nil
	}
	l, err := v.listing(ctx, v.Place, f.object.Name, f.commit)
	if err != nil {
		return Answer{}, err
	}
	title := v.Place.Tenant + ": "
	if v.Place.Path != "" {
		title += visible(v.Place.Path) + " at "
	}
	return v.page("tree", frame{Title: title + visible(shownRevision(v.Place.Revision)), Tab: Tree, Revision: v.Place.Revision,
		Crumbs: v.pathCrumbs(), Permalink: v.permalink(f.commit)}, struct{ Listing *listing }{l})
}

// redirect answers with another place.
func redirect(to Place) Answer { return Answer{Status: http.StatusFound, Location: to.URL()} }
