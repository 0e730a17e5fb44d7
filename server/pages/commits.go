package pages

import (
	"context"

	"gitpoold/browse"
	"gitpoold/plumbing"
)

// Most that the page of a commit shows: tags that lead to it, headers of its own, and bytes of one.
const (
	mostTags    = 8
	mostHeaders = 20
	mostHeader  = 2000
)

// tagView is an annotated tag that led to what is shown.
type tagView struct {
	Label, Tagger, Subject, Body, Signature string
	When                                    *moment
}

// headerView is a header that a commit has beside the usual ones.
type headerView struct{ Word, Value string }

type personView struct {
	Name, Email string
	When        *moment
}

type commitPage struct {
	Tags              []tagView
	Name, Tree        string
	Author, Committer personView
	IsCommitter       bool // who is another person, or at another time
	Subject, Body     string
	Signature         string
	Further           []headerView
	Parents           []link
	Archives          []link
	Kind              string // of what a tag names that is no commit
	Changes           changes
}

// commit shows a commit with what it changed, and before it the tags by which it was named.
func (v Visit) commit(ctx context.Context) (Answer, error) {
	names, err := browse.Names(ctx, v.Repository, v.Place.Revision)
	if err != nil {
		return Answer{}, err
	}
	page := &commitPage{}
	o, err := browse.Object(ctx, v.Repository, names[0])
	for ; err == nil && o.Kind == plumbing.Tag && len(page.Tags) < mostTags; o, err = v.tagged(ctx, page, o) {
	}
	if err != nil {
		return Answer{}, err
	}
	title := v.Place.Tenant + ": " + visible(shownRevision(v.Place.Revision))
	f := frame{Title: title, Tab: Commit, Revision: v.Place.Revision}
	switch {
	case o.Kind == plumbing.Commit:
		return v.showCommit(ctx, page, o, f)
	case len(page.Tags) == 0:
		return redirect(v.Place.At(Kind(o.Kind.String()), o.Name.String(), "")), nil
	}
	page.Tree = v.Place.At(Kind(o.Kind.String()), o.Name.String(), "").URL()
	page.Name = o.Name.String()
	page.Kind = o.Kind.String()
	return v.page("commit", f, page)
}

// tagged notes a tag, and gives the object that it names.
func (v Visit) tagged(ctx context.Context, page *commitPage, o plumbing.Object) (plumbing.Object, error) {
	tag, err := browse.ReadTag(o)
	if err != nil {
		return o, err
	}
	page.Tags = append(page.Tags, tagView{visible(shortened(tag.Label, mostName)), visible(shortened(tag.Tagger.Name, mostName)), subjectOf(tag.Message),
		bodyOf(tag.Message), tag.Signature, momentOf(tag.Tagger.When, v.Now)})
	return browse.Object(ctx, v.Repository, tag.Target)
}

func (v Visit) showCommit(ctx context.Context, page *commitPage, o plumbing.Object, f frame) (Answer, error) {
	c, err := browse.ReadCommit(o)
	if err != nil {
		return Answer{}, err
	}
	v.fillCommit(page, c)
	f.Revision, f.Title, f.Permalink = page.Name, v.Place.Tenant+": "+page.Subject, v.permalink(c)
	before := &browse.Commit{}
	if len(c.Parents) > 0 {
		o, err := browse.Object(ctx, v.Repository, c.Parents[0])
		if err != nil {
			return Answer{}, err
		}
		if before, err = browse.ReadCommit(o); err != nil {
			return Answer{}, err
		}
	}
	page.Changes, err = v.changes(ctx, before, c)
	if len(c.Parents) > 1 {
		page.Changes.Summary += ", compared with the first parent"
	}
	if err != nil {
		return Answer{}, err
	}
	return v.page("commit", f, page)
}

// fillCommit takes what a commit says of itself.
func (v Visit) fillCommit(page *commitPage, c *browse.Commit) {
	page.Name = c.Name.String()
	page.Tree, page.Archives = v.Place.At(Tree, page.Name, "").URL(), v.archives(page.Name)
	page.Author, page.Committer = v.person(c.Author), v.person(c.Committer)
	page.IsCommitter = c.Author.Name != c.Committer.Name || c.Author.Email != c.Committer.Email ||
		!c.Author.When.Equal(c.Committer.When)
	page.Subject, page.Body, page.Signature = subjectOf(c.Message), bodyOf(c.Message), c.Signature
	for _, parent := range c.Parents {
		page.Parents = append(page.Parents, link{v.Place.At(Commit, parent.String(), "").URL(), parent.String()[:10]})
	}
	for at, it := range c.Further {
		if at == mostHeaders {
			page.Further = append(page.Further, headerView{"…", several(len(c.Further)-at, "more header", "more headers")})
			break
		}
		page.Further = append(page.Further, headerView{visible(shortened(it.Word, mostName)), block(shortened(it.Value, mostHeader))})
	}
}

// permalink is the page of a commit's own name that shows what this page shows of a branch or a tag; "" where this is it.
func (v Visit) permalink(c *browse.Commit) string {
	if c == nil || v.Place.Revision == c.Name.String() {
		return ""
	}
	return v.Place.At(v.Place.Kind, c.Name.String(), v.Place.Path).URL()
}

// archives are links to archives of a revision, by their formats.
func (v Visit) archives(revision string) (all []link) {
	for _, it := range browse.Formats {
		all = append(all, link{v.Place.At(Archive, revision, string(it)).URL(), string(it)})
	}
	return all
}

func (v Visit) person(p browse.Person) personView {
	return personView{visible(shortened(p.Name, mostName)), visible(shortened(p.Email, mostName)), momentOf(p.When, v.Now)}
}

// bodyOf is a message without its first paragraph.
func bodyOf(m browse.Message) string {
	const most = 64 << 10
	return block(shortened(m.Body, most))
}
