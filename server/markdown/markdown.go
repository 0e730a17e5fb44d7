// Package markdown writes Markdown as HTML that can stand in a page, whoever wrote it. It stands on goldmark, which takes long to
// compile, and so it is a package that few others import.
package markdown

import (
	"bytes"
	"errors"
	"net/url"
	"path"
	"strconv"
	"strings"

	"github.com/yuin/goldmark"
	"github.com/yuin/goldmark/ast"
	"github.com/yuin/goldmark/extension"
	"github.com/yuin/goldmark/parser"
	"github.com/yuin/goldmark/renderer/html"
	"github.com/yuin/goldmark/text"
)

// MostBytes is how much Markdown HTML takes.
const MostBytes = 128 << 10

// Most of what takes the library more than linear time or writes more than was read; Markdown with more of it is shown as text.
const (
	mostBrackets = 3000
	mostMarks    = 12000
	mostCells    = 40
	mostQuotes   = 20
	mostIndent   = 80
)

// isSimple tells whether Markdown is soon read, whoever wrote it.
func isSimple(contents []byte) bool {
	if bytes.Count(contents, []byte("[")) > mostBrackets || bytes.Count(contents, []byte("<")) > mostBrackets ||
		bytes.Count(contents, []byte("*"))+bytes.Count(contents, []byte("_"))+bytes.Count(contents, []byte("`")) > mostMarks {
		return false
	}
	for _, line := range bytes.Split(contents, []byte("\n")) {
		marks := bytes.TrimLeft(line, " \t>-+*")
		if bytes.Count(line, []byte("|")) > mostCells || bytes.Count(line[:len(line)-len(marks)], []byte(">")) > mostQuotes ||
			len(line)-len(marks) > mostIndent {
			return false
		}
	}
	return true
}

var errLong = errors.New("the page is longer than it may be")

// bounded writes to memory, and fails above a bound.
type bounded struct{ bytes.Buffer }

const mostHTML = 4 << 20

func (b *bounded) Write(text []byte) (int, error) {
	if b.Len()+len(text) > mostHTML {
		return 0, errLong
	}
	return b.Buffer.Write(text)
}

// HTML writes Markdown as HTML. HTML in it is left out, and images become links, unless they
// are pictures of the repository. `resolve` gives where a link to a path and a fragment
// leads that names no other site; "" is nowhere. Links to the web stay, those to headings lead to headings, and any others lead
// nowhere. It gives "" where the text is long, or is not soon read.
func HTML(contents []byte, resolve func(path, fragment string, isImage bool) string) (string, error) {
	if len(contents) > MostBytes || !isSimple(contents) {
		return "", nil
	}
	converter := goldmark.New(goldmark.WithExtensions(extension.Table, extension.Strikethrough),
		goldmark.WithRendererOptions(html.WithXHTML()), goldmark.WithParserOptions(parser.WithAutoHeadingID()))
	source := text.NewReader(contents)
	document := converter.Parser().Parse(source, parser.WithContext(parser.NewContext(parser.WithIDs(headings{}))))
	rewriter(resolve).rewrite(document, contents)
	var to bounded
	err := converter.Renderer().Render(&to, contents, document)
	if errors.Is(err, errLong) {
		return "", nil
	}
	return to.String(), err
}

// headings gives headings their ids: the words of GitHub's, behind a front that no id of the page has.
type headings map[string]int

const headingFront = "readme-"

// Generate makes an id.
func (h headings) Generate(value []byte, _ ast.NodeKind) []byte {
	id := headingFront + anchorOf(string(value))
	h[id]++
	if h[id] > 1 {
		id += "-" + strconv.Itoa(h[id]-1)
	}
	return []byte(id)
}

// Put notes an id.
func (h headings) Put(value []byte) { h[string(value)]++ }

func anchorOf(heading string) string {
	return strings.Map(func(r rune) rune {
		switch {
		case 'a' <= r && r <= 'z', '0' <= r && r <= '9', r == '-', r == '_':
			return r
		case 'A' <= r && r <= 'Z':
			return r + 'a' - 'A'
		case r == ' ':
			return '-'
		}
		return -1
	}, heading)
}

// rewriter changes a document so that it can stand in a page.
type rewriter func(path, fragment string, isImage bool) string

func (w rewriter) rewrite(document ast.Node, source []byte) {
	var images []*ast.Image
	var bare []*ast.AutoLink
	_ = ast.Walk(document, func(n ast.Node, isEntering bool) (ast.WalkStatus, error) {
		if !isEntering {
			return ast.WalkContinue, nil
		}
		switch it := n.(type) {
		case *ast.Heading:
			if it.Level < 6 {
				it.Level++
			}
		case *ast.Link:
			it.Destination = []byte(w.target(string(it.Destination), false))
		case *ast.AutoLink:
			it.SetAttributeString("rel", []byte("nofollow noreferrer"))
			bare = append(bare, it)
		case *ast.Image:
			images = append(images, it)
		}
		return ast.WalkContinue, nil
	})
	for _, it := range images {
		w.unimage(it)
	}
	for _, it := range bare {
		w.unlink(it, source)
	}
}

// unlink puts the words of a bare address in its place, unless it leads to the web or is one of mail.
func (w rewriter) unlink(link *ast.AutoLink, source []byte) {
	if link.AutoLinkType == ast.AutoLinkEmail || w.target(string(link.URL(source)), false) != "" {
		return
	}
	link.Parent().ReplaceChild(link.Parent(), link, ast.NewString(link.Label(source)))
}

// pictures are the ends of the names of pictures that stand in a page.
var pictures = map[string]bool{".png": true, ".jpg": true, ".jpeg": true, ".gif": true, ".webp": true}

// isOwn tells whether an image is a picture of the repository.
func isOwn(image *ast.Image) bool {
	u, err := url.Parse(string(image.Destination))
	return err == nil && u.Scheme == "" && u.Host == "" && u.Opaque == "" && u.RawQuery == "" && pictures[strings.ToLower(path.Ext(u.Path))]
}

// unimage puts a link to an image in its place; within a link only its words. A picture of the repository stays.
func (w rewriter) unimage(image *ast.Image) {
	if to := w.target(string(image.Destination), true); isOwn(image) && to != "" {
		image.Destination = []byte(to)
		return
	}
	var into ast.Node = ast.NewEmphasis(1)
	isLinked := false
	for n := image.Parent(); n != nil; n = n.Parent() {
		isLinked = isLinked || n.Kind() == ast.KindLink
	}
	if !isLinked {
		link := ast.NewLink()
		link.Destination, into = []byte(w.target(string(image.Destination), true)), link
	}
	for child := image.FirstChild(); child != nil; child = image.FirstChild() {
		into.AppendChild(into, child)
	}
	if into.FirstChild() == nil {
		into.AppendChild(into, ast.NewString([]byte("image")))
	}
	image.Parent().ReplaceChild(image.Parent(), image, into)
}

// target gives where a link leads.
func (w rewriter) target(to string, isImage bool) string {
	u, err := url.Parse(to)
	switch {
	case err != nil || u.Opaque != "" && u.Scheme != "mailto":
		return ""
	case (u.Scheme == "http" || u.Scheme == "https") && u.Host != "", u.Scheme == "mailto":
		return u.String()
	case u.Scheme != "" || u.Host != "":
		return ""
	case u.Path == "" && u.Fragment != "":
		return "#" + headingFront + url.PathEscape(u.Fragment)
	}
	return w(u.Path, u.Fragment, isImage)
}
