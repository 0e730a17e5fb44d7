package pages

import (
	"context"
	"html/template"
	"net/url"
	"path"
	"strings"

	"gitpoold/browse"
	"gitpoold/plumbing"
)

// readme is the README of a directory. HTML is set where it is Markdown that is simple enough, else Text.
type readme struct {
	Name, URL, Text, Why string
	HTML                 template.HTML
}

// mostReadme is how many bytes of a README are shown.
const mostReadme = 256 << 10

// Markdown writes Markdown as HTML that can stand in a page, or gives "" where it is to be shown as text. It is asked where a link to a
// path and a fragment leads.
type Markdown func(contents []byte, resolve func(path, fragment string, isImage bool) string) (string, error)

// readme reads the README among the entries of a directory: README.md before README, README.txt and others.
func (v Visit) readme(ctx context.Context, at Place, entries []plumbing.Entry) (*readme, error) {
	best, rank := plumbing.Entry{}, len(readmeNames)
	for _, it := range entries {
		for n, name := range readmeNames[:rank] {
			if it.IsBlob() && !it.IsLink() && strings.EqualFold(it.Path, name) {
				best, rank = it, n
			}
		}
	}
	if best.Name.IsZero() {
		return nil, nil
	}
	o, err := browse.Object(ctx, v.Repository, best.Name)
	if err != nil || o.Kind != plumbing.Blob {
		return nil, err
	}
	here := at.At(Blob, at.Revision, joinedPath(at.Path, best.Path))
	r := &readme{Name: visible(best.Path), URL: here.URL()}
	switch {
	case browse.IsBinary(o.Contents):
		r.Why = "It is binary, so it is not shown."
	case len(o.Contents) > mostReadme:
		r.Why = "It is large, so it is not shown here."
	default:
		contents := []byte(block(string(o.Contents)))
		text := ""
		if path.Ext(strings.ToLower(best.Path)) == ".md" && v.Markdown != nil {
			text, err = v.Markdown(contents, at.resolved)
		}
		if r.HTML = template.HTML(block(text)); text == "" {
			r.Text = string(contents)
		}
	}
	return r, err
}

var readmeNames = []string{"README.md", "README", "README.txt", "README.rst", "README.org", "README.markdown"}

// resolved gives where a link in a README leads: to a file or a directory of the same revision.
func (p Place) resolved(to, fragment string, isImage bool) string {
	below := path.Join("/", p.Path, to)
	if strings.HasPrefix(to, "/") {
		below = path.Clean(to)
	}
	kind := Blob
	if isImage {
		kind = Raw
	}
	if below == "/" {
		return p.At(Tree, p.Revision, "").URL()
	}
	place := p.At(kind, p.Revision, below[1:]).URL()
	if fragment != "" {
		place += "#" + url.PathEscape(fragment)
	}
	return place
}
