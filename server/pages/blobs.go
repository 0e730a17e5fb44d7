package pages

import (
	"context"
	"fmt"
	"io"
	"mime"
	"net/http"
	"path"
	"strings"
	"unicode/utf8"

	"gitpoold/browse"
	"gitpoold/plumbing"
)

// Most of a file that its page shows.
const (
	mostShown = 2 << 20
	mostLines = 20000
)

// blobPage is a file as its page shows it; where it is not shown, Why says why. Image is where it is a picture.
type blobPage struct {
	Name, Kind, Size, Count string
	Raw, Image              string
	Blame, History, Choose  string
	Code                    *code
	Why, Note               string
	Latest                  *commitLine
}

// blob shows a file.
func (v Visit) blob(ctx context.Context) (Answer, error) {
	f, err := v.find(ctx)
	if err != nil {
		return Answer{}, err
	}
	switch f.object.Kind {
	case plumbing.Tree:
		return redirect(v.Place.At(Tree, v.Place.Revision, v.Place.Path)), nil
	case plumbing.Blob:
	default:
		return Answer{}, browse.ErrKind
	}
	page := v.blobPage(f)
	switch {
	case isImage(f.object.Contents):
		page.Image = page.Raw
	case page.Why == "":
		page.Code, page.Note = v.codeOf(ctx, string(f.object.Contents))
		page.Count = several(page.Code.Count, "line", "lines")
	}
	if f.commit != nil && v.Place.Path != "" {
		page.History = v.historyOf(v.Place, f.commit)
		if page.Code != nil {
			page.Blame = v.Place.At(Blame, v.Place.Revision, v.Place.Path).URL()
		}
	}
	return v.page("blob", v.blobFrame(page.Name, f), page)
}

// blobFrame stands around a page about a file.
func (v Visit) blobFrame(name string, f found) frame {
	framed := frame{Title: fmt.Sprintf("%s: %s at %s", v.Place.Tenant, name, visible(shownRevision(v.Place.Revision))), Tab: Blob,
		Revision: v.Place.Revision, Crumbs: v.pathCrumbs(), Permalink: v.permalink(f.commit)}
	if framed.Permalink != "" {
		framed.Permalink += linesOf(v.Query).query()
	}
	return framed
}

// blobPage is the page of a file without its lines.
func (v Visit) blobPage(f found) *blobPage {
	name := visible(v.Place.Path)
	if name == "" {
		name = visible(shownRevision(v.Place.Revision))
	}
	return &blobPage{Name: name, Kind: rowOf(v.Place, f.entry).Kind, Size: size(len(f.object.Contents)), Why: whyNot(f.object.Contents),
		Raw: v.Place.At(Raw, v.Place.Revision, v.Place.Path).URL(), Choose: v.Place.URL() + "?lines=choose", Latest: v.lineOf(v.Place, f.commit)}
}

// whyNot says why the lines of a file are not shown, or nothing.
func whyNot(contents []byte) string {
	switch {
	case len(contents) == 0:
		return "The file is empty."
	case browse.IsBinary(contents):
		return "The file is binary, so it is not shown."
	case len(contents) > mostShown:
		return "The file is large, so it is not shown."
	}
	return ""
}

// raw answers with a file's bytes, which no browser takes for a page.
func (v Visit) raw(ctx context.Context) (Answer, error) {
	f, err := v.find(ctx)
	if err != nil {
		return Answer{}, err
	}
	if f.object.Kind != plumbing.Blob {
		return Answer{}, browse.ErrKind
	}
	name := path.Base(v.Place.Path)
	if v.Place.Path == "" {
		name = f.object.Name.String()
	}
	answer := Answer{Status: http.StatusOK, Kind: "application/octet-stream", Name: disposition("attachment", name), Body: f.object.Contents,
		Tag: f.object.Name.String()}
	switch {
	case isImage(answer.Body):
		answer.Kind, answer.Name = http.DetectContentType(answer.Body), disposition("inline", name)
	case !browse.IsBinary(answer.Body) && utf8.Valid(answer.Body):
		answer.Kind, answer.Name = "text/plain; charset=utf-8", disposition("inline", name)
	}
	return answer, nil
}

// isImage tells whether contents are a picture of a form that has no text to run.
func isImage(contents []byte) bool {
	switch http.DetectContentType(contents) {
	case "image/png", "image/jpeg", "image/gif", "image/webp":
		return true
	}
	return false
}

// disposition names what is sent.
func disposition(word, name string) string {
	return mime.FormatMediaType(word, map[string]string{"filename": strings.ToValidUTF8(name, "_")})
}

// Most of an archive.
const (
	mostFiles = 250000
	mostBytes = 4 << 30
)

// archive writes an archive of a commit, or of a tree.
func (v Visit) archive(ctx context.Context) (Answer, error) {
	format := browse.Format(v.Place.Path)
	v.Place.Path = ""
	f, err := v.find(ctx)
	if err != nil {
		return Answer{}, err
	}
	if f.object.Kind != plumbing.Tree {
		return Answer{}, browse.ErrKind
	}
	front := path.Base(v.Place.Tenant) + "-" + f.object.Name.String()[:10]
	a := browse.Archive{Format: format, When: v.Now, Files: mostFiles, Bytes: mostBytes}
	tag := f.object.Name.String()
	if f.commit != nil {
		tag = f.commit.Name.String()
		front = path.Base(v.Place.Tenant) + "-" + tag[:10]
		a.Commit, a.When = tag, f.commit.Committer.When
	}
	a.Prefix = front + "/"
	answer := Answer{Status: http.StatusOK, Kind: format.MediaType(), Name: disposition("attachment", front+"."+string(format)),
		Tag: string(format) + "-" + tag, Stream: func(ctx context.Context, to io.Writer) error { return a.Write(ctx, v.Repository, to, f.object.Name) }}
	if !format.IsCompressed() {
		return answer, nil
	}
	if answer.End, err = v.enter(ctx, compressed, shortWait); err != nil {
		err = errArchives
	}
	return answer, err
}
