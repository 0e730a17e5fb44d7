// Package pages answers browsers: what a tenant has, as HTML that needs no script and nothing from elsewhere.
//
// It does not ask who may see what: its caller has let the user in. Whatever comes from a tenant is escaped by html/template, in
// lines of files as html/template does, or is sent as plain bytes that no browser takes for a page.
package pages

import (
	"bytes"
	"context"
	"crypto/sha256"
	"embed"
	"encoding/hex"
	"errors"
	"fmt"
	"html/template"
	"io"
	"net/http"
	"net/url"
	"time"

	"gitpoold/browse"
	"gitpoold/fair"
	"gitpoold/faults"
	"gitpoold/plumbing"
	"gitpoold/tenants"
)

// Repository is what pages ask: a tenant.
type Repository interface {
	browse.Source
	Refs(context.Context) (refs []tenants.Ref, head string, err error)
}

// Visit is one request of a page, by a user who may see it; the user "" is a visitor without a password.
type Visit struct {
	Place      Place
	Query      url.Values
	User       string
	Network    string          // by which visitors take turns
	Repository Repository      // of the place's tenant
	Listed     func() []Listed // gives the tenants, for that page
	CloneHTTP  string          // what git clones, or ""
	CloneSSH   string
	Origin     string    // the front of URLs of this server, or ""
	Markdown   Markdown  // nil where Markdown is shown as text
	Highlight  Highlight // nil where files have no colours
	IsIndexed  bool      // search engines may list what everyone may read
	Now        time.Time
	// Description is what the operator says of the tenant.
	Description string
}

// Listed is a tenant that the user may see.
type Listed struct {
	Name        string
	Description string
	Pushed      time.Time // when it was pushed to last, if that is known
	CanPush     bool
	Repository  Repository
}

// Answer is what a browser gets: Body, or what Stream writes.
type Answer struct {
	Status   int
	Kind     string // its Content-Type
	Name     string // that a browser saves it under, or ""
	Body     []byte
	Stream   func(context.Context, io.Writer) error
	End      func() // is called once the answer was sent or given up; nil is nothing
	Tag      string // its ETag, without quotes, or ""
	Location string // of a redirection
	IsPage   bool   // it may use the server's style
	Asks     bool   // it may ask the server for pages by a form
	HasForms bool   // it may send forms to the server, and is kept nowhere
	IsStatic bool   // it never changes
	Err      error  // the server's own trouble, for its log
}

//go:embed files
var files embed.FS

func file(name string) []byte {
	text, err := files.ReadFile("files/" + name)
	if err != nil {
		panic(err)
	}
	return text
}

func digest(text []byte) string {
	sum := sha256.Sum256(text)
	return hex.EncodeToString(sum[:10])
}

var (
	style       = file("style.css")
	icon        = file("icon.svg")
	styleDigest = digest(style)
	iconDigest  = digest(icon)
)

// Static answers with a file of the server's own.
func Static(kind Kind) Answer {
	if kind == Icon {
		return Answer{Status: http.StatusOK, Kind: "image/svg+xml", Body: icon, Tag: iconDigest, IsStatic: true}
	}
	return Answer{Status: http.StatusOK, Kind: "text/css; charset=utf-8", Body: style, Tag: styleDigest, IsStatic: true}
}

// The kinds of those who wait for a page.
const (
	visitors = fair.First
	users    = fair.Second
)

// room bounds how many pages are made at once: four, of visitors two, of one address one, and of one user two.
var room = fair.New(fair.Limits{Places: 4, OfKind: [2]int{2, 4}, OfOneOfIt: [2]int{1, 2}})

// How long a page waits for its turn, and how long it may be made; and how long an archive waits within that.
const (
	longestWait = 20 * time.Second
	longestMake = 30 * time.Second
	shortWait   = time.Second
)

// compressed bounds how many archives are compressed at once: one for an address of visitors, and two for a user, so that none of them takes all
// processors.
var compressed = fair.New(fair.Limits{Places: 64, OfKind: [2]int{32, 64}, OfOneOfIt: [2]int{1, 2}})

// enter waits for a turn, at most so long, and gives the call that ends it.
func (v Visit) enter(ctx context.Context, room *fair.Semaphore, most time.Duration) (leave func(), err error) {
	ctx, stop := context.WithTimeout(ctx, most)
	defer stop()
	if v.User == "" {
		return room.Acquire(ctx, visitors, v.Network)
	}
	return room.Acquire(ctx, users, v.User)
}

// Answer makes the page. Its context bounds the time in which a stream is written; the page has to be made sooner.
func (v Visit) Answer(ctx context.Context) Answer {
	leave, err := v.enter(ctx, room, longestWait)
	if err != nil {
		return v.refusalOf(err)
	}
	defer leave()
	ctx, stop := context.WithTimeout(ctx, longestMake)
	defer stop()
	makers := map[Kind]func(Visit, context.Context) (Answer, error){
		Tenants: Visit.tenants, Home: Visit.home, Refs: Visit.refs, Log: Visit.log, Commit: Visit.commit, Tree: Visit.tree,
		Blob: Visit.blob, Raw: Visit.raw, Archive: Visit.archive, Blame: Visit.blame, Compare: Visit.compare, Search: Visit.search,
		Feed: Visit.feed, Sitemap: Visit.sitemap}
	answer, err := makers[v.Place.Kind](v, ctx)
	if err != nil {
		return v.refusalOf(err)
	}
	return answer
}

// refusalOf says in a page why there is none.
func (v Visit) refusalOf(err error) Answer {
	var fault faults.Fault
	switch {
	case errors.Is(err, errArchives):
		return v.Refusal(http.StatusTooManyRequests, "Too many archives at once", "Please try again when the others have come, or take the tar.")
	case errors.Is(err, context.DeadlineExceeded), errors.Is(err, context.Canceled):
		return v.Refusal(http.StatusServiceUnavailable, "This took too long", "The server is busy. Please try again.")
	case errors.Is(err, errNothing), errors.Is(err, plumbing.ErrMissing), errors.As(err, &fault) && fault != 90:
		return v.Refusal(http.StatusNotFound, "Nothing here", "The repository has no such revision or path.")
	case errors.Is(err, browse.ErrTooMuch):
		return v.Refusal(http.StatusUnprocessableEntity, "Too much", "This is more than the server reads for one page. Git shows all of it.")
	case errors.Is(err, browse.ErrKind):
		return v.Refusal(http.StatusNotFound, "Nothing here", "This is an object of another kind than the page shows.")
	case tenants.IsSentence(err):
		return v.Refusal(http.StatusServiceUnavailable, "The server cannot answer now", "Please try again: "+err.Error()+".")
	}
	answer := v.Refusal(http.StatusInternalServerError, "Something went wrong", "The server's log says what.")
	answer.Err = err
	return answer
}

var (
	errNothing  = errors.New("nothing has this name")
	errArchives = errors.New("as many archives are compressed as may be at once")
)

// Refusal is a page that says why there is no other. It says nothing of what was asked for.
func (v Visit) Refusal(status int, title, why string) Answer {
	v.Place = Place{Kind: Tenants}
	answer, err := v.page("refusal", frame{Title: title}, struct{ Title, Why string }{title, why})
	if err != nil {
		return Answer{Status: status, Kind: "text/plain; charset=utf-8", Body: []byte(why + "\n"), Err: err}
	}
	answer.Status, answer.Tag = status, ""
	return answer
}

// frame is what stands around a page.
type frame struct {
	Title  string
	Tab    Kind
	Crumbs []link
	// Revision is what the tabs go to; "" is HEAD.
	Revision string
	// Permalink is the page that shows this for ever, and Feed that of its new commits; or "".
	Permalink, Feed string
	// IsIndexed lets search engines list the page.
	IsIndexed bool
}

type link struct{ URL, Text string }

// layout is what the template of all pages shows.
type layout struct {
	frame
	Style, Icon, User, SignIn, Tenant, HomeURL, Account string
	Tabs                                                []tab
	Page                                                any
}

type tab struct {
	link
	IsHere bool
}

var templates = parse("tenants", "home", "refs", "log", "commit", "tree", "blob", "blame", "compare", "search", "refusal", "account")

func parse(names ...string) map[string]*template.Template {
	all := map[string]*template.Template{}
	for _, name := range names {
		all[name] = template.Must(template.New("layout.html").ParseFS(files, "files/layout.html", "files/parts.html", "files/"+name+".html"))
	}
	return all
}

// page makes a page from a template.
func (v Visit) page(name string, f frame, page any) (Answer, error) {
	l := layout{frame: f, Style: Place{Kind: Style}.URL(), Icon: Place{Kind: Icon}.URL(), User: v.User, Page: page,
		Account: AccountPath}
	l.IsIndexed = v.IsIndexed && (name == "tenants" || name == "home")
	if v.Place.Tenant != "" {
		home := v.Place.At(Home, "", "")
		l.Tenant, l.HomeURL = v.Place.Tenant, home.URL()
		l.Tabs = v.tabs(f)
	}
	if v.User == "" {
		l.SignIn = "/?sign-in=" + url.QueryEscape(v.Place.URL())
	}
	var text bytes.Buffer
	if err := templates[name].Execute(&text, l); err != nil {
		return Answer{}, fmt.Errorf("the page %s: %w", name, err)
	}
	return Answer{Status: http.StatusOK, Kind: "text/html; charset=utf-8", Body: text.Bytes(), Tag: digest(text.Bytes()), IsPage: true}, nil
}

func (v Visit) tabs(f frame) []tab {
	revision := f.Revision
	if revision == "" {
		revision = "HEAD"
	}
	files := v.Place.At(Tree, revision, "")
	if f.Revision == "" {
		files = v.Place.At(Home, "", "")
	}
	isFiles := f.Tab == Home || f.Tab == Tree || f.Tab == Blob
	return []tab{{link{files.URL(), "Files"}, isFiles},
		{link{v.Place.At(Log, revision, "").URL(), "Commits"}, f.Tab == Log || f.Tab == Commit},
		{link{v.Place.At(Refs, "", "").URL(), "Branches and tags"}, f.Tab == Refs},
		{link{v.Place.At(Search, revision, "").URL(), "Search"}, f.Tab == Search}}
}
