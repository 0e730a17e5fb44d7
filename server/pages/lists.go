package pages

import (
	"context"
	"net/url"
	"strings"
	"time"

	"gitpoold/browse"
	"gitpoold/plumbing"
	"gitpoold/tenants"
)

// Rows of a page.
const (
	mostRefs    = 100
	mostCommits = 50
)

// What a page of a history reads, and one of a path or of what is searched in messages.
var (
	toLog     = browse.Bounds{Objects: 2000, Bytes: 64 << 20, Time: 5 * time.Second}
	toHistory = browse.Bounds{Objects: 10000, Bytes: 64 << 20, Time: 2 * time.Second}
)

// mostName is how many bytes of a person's name are shown.
const mostName = 100

// commitLine is a commit in a list.
type commitLine struct {
	URL, Short, Subject, Author string
	When                        *moment
}

func (v Visit) lineOf(at Place, c *browse.Commit) *commitLine {
	if c == nil {
		return nil
	}
	return &commitLine{at.At(Commit, c.Name.String(), "").URL(), c.Name.String()[:10], subjectOf(c.Message),
		visible(shortened(c.Author.Name, mostName)), momentOf(c.Committer.When, v.Now)}
}

func subjectOf(m browse.Message) string {
	text := shortened(m.Subject, 300)
	if strings.TrimSpace(text) == "" {
		return "(no message)"
	}
	return visible(text)
}

// headOf gives the commit of HEAD, or nil.
func headOf(ctx context.Context, r Repository) (*browse.Commit, error) {
	return commitOf(ctx, r, "HEAD")
}

// commitOf gives the commit of a revision, or nil.
func commitOf(ctx context.Context, r Repository, revision string) (*browse.Commit, error) {
	names, err := browse.Names(ctx, r, revision+"^{commit}")
	if err != nil || names[0].IsZero() {
		return nil, err
	}
	o, err := browse.Object(ctx, r, names[0])
	if err != nil {
		return nil, err
	}
	return browse.ReadCommit(o)
}

type refRow struct {
	link
	Log, Compare, Other string
	Archives            []link
	IsHead              bool
	Latest              *commitLine
}

// refs lists branches and tags, a page at a time.
func (v Visit) refs(ctx context.Context) (Answer, error) {
	refs, head, err := v.Repository.Refs(ctx)
	if err != nil {
		return Answer{}, err
	}
	all := len(refs)
	after := v.Query.Get("after")
	for len(refs) > 0 && after != "" && refs[0].Name <= after {
		refs = refs[1:]
	}
	page := struct {
		Branches, Tags, Others []refRow
		Count, More            string
	}{Count: several(all, "ref", "refs")}
	if len(refs) > mostRefs {
		refs = refs[:mostRefs]
		page.More = v.Place.URL() + "?after=" + url.QueryEscape(refs[mostRefs-1].Name)
	}
	rows, err := v.refRows(ctx, refs, head)
	if err != nil {
		return Answer{}, err
	}
	for at, row := range rows {
		switch name := refs[at].Name; {
		case strings.HasPrefix(name, plumbing.Branches):
			page.Branches = append(page.Branches, row)
		case strings.HasPrefix(name, plumbing.Tags):
			page.Tags = append(page.Tags, row)
		default:
			page.Others = append(page.Others, row)
		}
	}
	return v.page("refs", frame{Title: v.Place.Tenant + ": branches and tags", Tab: Refs}, page)
}

func (v Visit) refRows(ctx context.Context, refs []tenants.Ref, head string) ([]refRow, error) {
	expressions := make([]string, len(refs))
	for at, it := range refs {
		expressions[at] = it.Name + "^{commit}"
	}
	names, err := browse.Names(ctx, v.Repository, expressions...)
	if err != nil {
		return nil, err
	}
	commits, err := v.commits(ctx, names)
	if err != nil {
		return nil, err
	}
	rows := make([]refRow, len(refs))
	for at, it := range refs {
		row := refRow{link: link{v.Place.At(Tree, it.Name, "").URL(), visible(shortRef(it.Name))}, IsHead: it.Name == head}
		if c := commits[names[at]]; c != nil {
			row.Latest = v.lineOf(v.Place, c)
			row.Log, row.Archives = v.Place.At(Log, it.Name, "").URL(), v.archives(it.Name)
			if !row.IsHead {
				row.Compare = v.Place.At(Compare, "HEAD", "..."+it.Name).URL()
			}
		} else {
			row.URL = v.Place.At(Commit, it.Name, "").URL()
			row.Other = "an object that is no commit"
		}
		rows[at] = row
	}
	return rows, nil
}

// commits reads commits; zeros are passed over.
func (v Visit) commits(ctx context.Context, names []plumbing.Name) (map[plumbing.Name]*browse.Commit, error) {
	read := map[plumbing.Name]*browse.Commit{}
	return read, browse.Objects(ctx, v.Repository, names, func(o plumbing.Object) (err error) {
		read[o.Name], err = browse.ReadCommit(o)
		return err
	})
}

// objects reads objects in the same way.
func (v Visit) objects(ctx context.Context, names []plumbing.Name) (map[plumbing.Name]plumbing.Object, error) {
	read := map[plumbing.Name]plumbing.Object{}
	return read, browse.Objects(ctx, v.Repository, names, func(o plumbing.Object) error { read[o.Name] = o; return nil })
}

// shortRef is the name of a ref as people say it.
func shortRef(name string) string {
	for _, front := range []string{plumbing.Branches, plumbing.Tags} {
		if strings.HasPrefix(name, front) {
			return name[len(front):]
		}
	}
	return name
}

// logPage is a page of a history: of all commits, of those that changed a path, or of those whose message has a text.
type logPage struct {
	Revision, Path, Text   string
	Rows                   []*commitLine
	Newest, Older          string
	IsTooWide, IsContinued bool
}

// log shows a history, a page at a time. The next page's URL names the commits with which it begins.
func (v Visit) log(ctx context.Context) (Answer, error) {
	page, from, err := v.logOf(ctx, "", url.Values{})
	if err != nil {
		return Answer{}, err
	}
	f := frame{Title: v.Place.Tenant + ": commits of " + page.Revision, Tab: Log, Revision: v.Place.Revision,
		Feed: v.Place.At(Feed, v.Place.Revision, "").URL()}
	if v.Place.Path != "" {
		f.Title, f.Crumbs = v.Place.Tenant+": commits of "+page.Path+" at "+page.Revision, v.pathCrumbs()
	}
	if !page.IsContinued && len(from) == 1 {
		f.Permalink = v.permalink(&browse.Commit{Name: from[0]})
	}
	return v.page("log", f, page)
}

// logOf reads a page of a history, of which the next one has this query and the commits with which it begins.
func (v Visit) logOf(ctx context.Context, text string, query url.Values) (*logPage, []plumbing.Name, error) {
	from, err := v.logFrom(ctx)
	if err != nil {
		return nil, nil, err
	}
	q := browse.Query{From: from, Path: v.Place.Path, Text: browse.NewPattern(text), Most: mostCommits, Bounds: toLog}
	if q.Path != "" || text != "" {
		q.Bounds = toHistory
	}
	commits, next, err := browse.Log(ctx, v.Repository, q)
	if err != nil {
		return nil, nil, err
	}
	page := &logPage{Revision: visible(shownRevision(v.Place.Revision)), Path: visible(v.Place.Path), Text: visible(text),
		IsContinued: v.Query.Get("from") != "", Newest: withQuery(v.Place, query), IsTooWide: len(next) > mostFrom}
	for _, it := range commits {
		page.Rows = append(page.Rows, v.lineOf(v.Place, it))
	}
	if len(next) > 0 && !page.IsTooWide {
		query.Set("from", joined(next))
		page.Older = withQuery(v.Place, query)
	}
	return page, from, nil
}

// withQuery is the URL of a place with a query.
func withQuery(at Place, query url.Values) string {
	if len(query) == 0 {
		return at.URL()
	}
	return at.URL() + "?" + query.Encode()
}

const (
	// mostFrom is with how many commits a page of a history may begin.
	mostFrom = 400
	// fromDigits is how many digits of their names a URL has.
	fromDigits = 16
)

func joined(names []plumbing.Name) string {
	words := make([]string, len(names))
	for at, name := range names {
		words[at] = name.String()[:fromDigits]
	}
	return strings.Join(words, ".")
}

// logFrom gives the commits with which the page begins. Those that the query names may be any commits of the tenant.
func (v Visit) logFrom(ctx context.Context) ([]plumbing.Name, error) {
	words := []string{v.Place.Revision}
	if from := v.Query.Get("from"); from != "" {
		words = strings.Split(from, ".")
	}
	if len(words) > mostFrom {
		return nil, errNothing
	}
	for at, word := range words {
		if !isExpression(word) {
			return nil, errNothing
		}
		words[at] = word + "^{commit}"
	}
	names, err := browse.Names(ctx, v.Repository, words...)
	if err != nil {
		return nil, err
	}
	for _, name := range names {
		if name.IsZero() {
			return nil, errNothing
		}
	}
	return names, nil
}
