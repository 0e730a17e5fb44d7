package pages

import (
	"context"
	"fmt"
	"net/url"
	"time"
	"unicode/utf8"

	"gitpoold/browse"
)

// toSearch bounds a search.
var toSearch = browse.Search{Files: 100, Lines: 5, Size: 1 << 20, Bounds: browse.Bounds{Objects: 50000, Bytes: 128 << 20, Time: 3 * time.Second}}

// longestText is how many bytes may be looked for.
const longestText = 200

// Where a search looks, as the query says it.
const (
	inText     = "text"
	inNames    = "names"
	inMessages = "messages"
)

// searchPage is a search with what it has found.
type searchPage struct {
	Action, Text, Revision string
	Places                 []option
	Files                  []foundFile
	Log                    *logPage
	Summary, Why, Size     string
}

type option struct {
	Value, Text string
	IsChosen    bool
}

// foundFile is a file with some of the lines that have what is looked for.
type foundFile struct {
	link
	Lines []foundLine
	More  string
}

type foundLine struct {
	URL, Text string
	Number    int
}

// search looks for a text: in the lines of files, in their paths, or in the messages of commits.
func (v Visit) search(ctx context.Context) (Answer, error) {
	text, in := v.Query.Get("q"), v.Query.Get("in")
	page := &searchPage{Action: v.Place.URL(), Text: visible(text), Revision: visible(shownRevision(v.Place.Revision)),
		Size: size(int(toSearch.Size))}
	page.Places = options(in, option{inText, "lines of files", false}, option{inNames, "names of files", false},
		option{inMessages, "messages of commits", false})
	f, err := v.find(ctx)
	switch {
	case err != nil:
		return Answer{}, err
	case f.commit == nil:
		return Answer{}, browse.ErrKind
	case len(text) > longestText || !utf8.ValidString(text):
		page.Why = fmt.Sprintf("Look for a text of at most %d bytes.", longestText)
	case text != "":
		err = v.look(ctx, page, f, text, in)
	}
	if err != nil {
		return Answer{}, err
	}
	framed := frame{Title: v.Place.Tenant + ": search in " + page.Revision, Tab: Search, Revision: v.Place.Revision}
	if at := v.permalink(f.commit); at != "" && page.Summary != "" {
		framed.Permalink = at + "?" + url.Values{"q": {text}, "in": {in}}.Encode()
	}
	answer, err := v.page("search", framed, page)
	answer.Asks = true
	return answer, err
}

// options marks the one that is chosen, or the first.
func options(chosen string, all ...option) []option {
	isFound := false
	for at := range all {
		all[at].IsChosen = all[at].Value == chosen
		isFound = isFound || all[at].IsChosen
	}
	all[0].IsChosen = all[0].IsChosen || !isFound
	return all
}

// look fills a page with what is found.
func (v Visit) look(ctx context.Context, page *searchPage, f found, text, in string) (err error) {
	if in == inMessages {
		page.Log, _, err = v.logOf(ctx, text, url.Values{"q": {text}, "in": {in}})
		if err == nil {
			page.Summary = several(len(page.Log.Rows), "commit", "commits") + " on this page"
		}
		return err
	}
	find := browse.Search.Text
	if in == inNames {
		find = browse.Search.Paths
	}
	matches, isWhole, err := find(toSearch, ctx, v.Repository, f.object.Name, browse.NewPattern(text))
	if err != nil {
		return err
	}
	for _, it := range matches {
		page.Files = append(page.Files, v.foundFile(it))
	}
	if page.Summary = several(len(matches), "file", "files"); !isWhole {
		page.Summary += "; the search came to its bound, so there may be more"
	}
	return nil
}

func (v Visit) foundFile(it browse.Match) foundFile {
	at := v.Place.At(Blob, v.Place.Revision, it.Path)
	file := foundFile{link: link{at.URL(), visible(it.Path)}}
	for _, found := range it.Lines {
		file.Lines = append(file.Lines, foundLine{at.URL() + fmt.Sprintf("#L%d", found.Number), line(found.Text), found.Number})
	}
	if more := it.Count - len(it.Lines); more > 0 {
		file.More = several(more, "more line", "more lines")
	}
	return file
}
