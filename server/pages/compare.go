package pages

import (
	"context"
	"errors"

	"gitpoold/browse"
	"gitpoold/plumbing"
)

// mostDiverged is how many bytes of commits a comparison holds: those of some 60,000 commits.
const mostDiverged = 16 << 20

// comparePage is what lies between two revisions.
type comparePage struct {
	Old, New    link
	Dots        string
	Other, Back link // the comparison with the other dots, and the one the other way round
	Rows        []*commitLine
	Count       string
	Log         string // of all commits, where the page shows some of them
	Note        string
	Changes     changes
}

// compare compares two revisions as they are, or by three dots the second one with the merge base of both.
func (v Visit) compare(ctx context.Context) (Answer, error) {
	dots, other := v.Place.dots()
	names, err := browse.Names(ctx, v.Repository, v.Place.Revision+"^{commit}", other+"^{commit}")
	if err != nil {
		return Answer{}, err
	}
	commits, err := v.commits(ctx, names)
	if err != nil {
		return Answer{}, err
	}
	old, new := commits[names[0]], commits[names[1]]
	if old == nil || new == nil {
		return Answer{}, errNothing
	}
	page := &comparePage{Old: v.revisionLink(v.Place.Revision), New: v.revisionLink(other), Dots: dots,
		Back: link{v.Place.At(Compare, other, dots+v.Place.Revision).URL(), "the other way round"},
		Other: link{v.Place.At(Compare, v.Place.Revision, map[string]string{"..": "...", "...": ".."}[dots]+other).URL(),
			map[string]string{"..": "only what the second one has changed", "...": "both as they are"}[dots]}}
	base, err := v.diverged(ctx, page, old, new)
	if err != nil {
		return Answer{}, err
	}
	if base != nil {
		if page.Changes, err = v.changes(ctx, base, new); err != nil {
			return Answer{}, err
		}
	}
	title := v.Place.Tenant + ": " + page.Old.Text + dots + page.New.Text
	return v.page("compare", frame{Title: title, Tab: Compare, Revision: other,
		Permalink: v.Place.At(Compare, old.Name.String(), dots+new.Name.String()).URL()}, page)
}

func (v Visit) revisionLink(revision string) link {
	return link{v.Place.At(Log, revision, "").URL(), visible(shownRevision(revision))}
}

// diverged lists the commits that the new one has beside the old one, and gives the commit with which it is compared: nil where there is none.
func (v Visit) diverged(ctx context.Context, page *comparePage, old, new *browse.Commit) (*browse.Commit, error) {
	d, err := browse.Diverged(ctx, v.Repository, new.Name, old.Name, mostDiverged)
	isByBase := page.Dots == "..."
	switch {
	case errors.Is(err, browse.ErrTooMuch):
		page.Note = "More commits lie between the two than this page looks through."
		if isByBase {
			return nil, nil
		}
		return old, nil
	case err != nil:
		return nil, err
	}
	if err := v.listAhead(ctx, page, d.Ahead); err != nil {
		return nil, err
	}
	switch {
	case !d.Base.IsZero() && isByBase:
		commits, err := v.commits(ctx, []plumbing.Name{d.Base})
		return commits[d.Base], err
	case !isByBase:
		return old, nil
	}
	page.Note = "The two have no commit in common, so there is none to compare with."
	return nil, nil
}

// listAhead lists the newest commits that the new one has beside the old one.
func (v Visit) listAhead(ctx context.Context, page *comparePage, ahead []plumbing.Name) error {
	page.Count = several(len(ahead), "commit", "commits")
	if len(ahead) > mostCommits {
		ahead, page.Log = ahead[:mostCommits], page.New.URL
	}
	commits, err := v.commits(ctx, ahead)
	for _, name := range ahead {
		page.Rows = append(page.Rows, v.lineOf(v.Place, commits[name]))
	}
	return err
}
