package pages

import (
	"regexp"
	"strings"

	"gitpoold/browse"
	"gitpoold/tenants"
)

// Kind says which page a place is.
type Kind string

// The kinds of pages. Those from Refs on stand below a tenant, and their kinds are words of their paths.
const (
	Tenants Kind = "tenants"
	Style   Kind = "style"
	Icon    Kind = "icon"
	Home    Kind = "home"
	Refs    Kind = "refs"
	Log     Kind = "log"
	Tree    Kind = "tree"
	Blob    Kind = "blob"
	Raw     Kind = "raw"
	Commit  Kind = "commit"
	Archive Kind = "archive"
	Blame   Kind = "blame"
	Compare Kind = "compare"
	Search  Kind = "search"
	Feed    Kind = "feed"
	// Robots and Sitemap are for search engines.
	Robots  Kind = "robots"
	Sitemap Kind = "sitemap"
)

// Place is what the path of a URL asks for.
//
//	/                            the tenants
//	/TENANT                      a tenant
//	/TENANT/-/                   the same; for a tenant whose name looks like a path that git asks for
//	/TENANT/-/refs
//	/TENANT/-/commit/REVISION and search, feed
//	/TENANT/-/tree/REVISION:PATH and blob, raw, blame, log; without :PATH the revision's own tree or blob, or all of its history
//	/TENANT/-/archive/REVISION.FORMAT, where the format stands as the Path
//	/TENANT/-/compare/REVISION..REVISION and with three dots; the Path is the dots and the second one
//	/robots.txt and /-/sitemap.xml
//
// No part of a tenant's name begins with `-`, so the first `/-/` ends the tenant's name. No revision has a colon here, as no ref has
// one, so the first colon ends the revision. What comes after it is a path, whatever its bytes.
type Place struct {
	Kind     Kind
	Tenant   string
	Revision string
	Path     string
}

// robotsPath is where search engines ask what they may read.
const robotsPath = "/robots.txt"

// separator stands between the name of a tenant and the rest.
const separator = "/-/"

// forGit are paths of which this package keeps away, for git or other clients ask for them.
var forGit = regexp.MustCompile(`^/(?:metrics|healthz)$|/(?:info/refs|git-upload-pack|git-receive-pack|HEAD)$|/objects/`)

// revisionForm is what a revision of a path may be: an expression of gitrevisions(7) without a path, a range or a search.
var revisionForm = regexp.MustCompile(`^[^\x00-\x20\x7f:?*\[\\-][^\x00-\x20\x7f:?*\[\\]*$`)

// longestRevision is the longest ref with something after it.
const longestRevision = 1200

// Parse reads the path of a URL, without its escapes; ok is false where there is no such page.
func Parse(path string) (place Place, ok bool) {
	front, rest, isBelow := strings.Cut(path, separator)
	switch {
	case path == "/":
		return Place{Kind: Tenants}, true
	case path == robotsPath:
		return Place{Kind: Robots}, true
	case isBelow && front == "":
		return static(path)
	case !isBelow && forGit.MatchString(path) || !strings.HasPrefix(path, "/"):
		return Place{}, false
	}
	if !isBelow {
		front = strings.TrimSuffix(strings.TrimSuffix(front, "/"), ".git")
	}
	place.Tenant = front[1:]
	if !tenants.ValidName(place.Tenant) {
		return Place{}, false
	}
	if rest == "" {
		place.Kind = Home
		return place, true
	}
	return place.below(rest)
}

// static finds a file of the server's own.
func static(path string) (Place, bool) {
	for _, kind := range []Kind{Style, Icon, Sitemap} {
		if it := (Place{Kind: kind}); path == it.URL() {
			return it, true
		}
	}
	return Place{}, false
}

// below reads what stands after the separator.
func (p Place) below(rest string) (Place, bool) {
	word, text, hasText := strings.Cut(rest, "/")
	isWhole := true
	switch p.Kind = Kind(word); p.Kind {
	case Refs:
		return p, !hasText
	case Commit, Search, Feed:
		p.Revision = text
	case Compare:
		at := strings.Index(text, "..")
		if at < 0 {
			return p, false
		}
		p.Revision, p.Path = text[:at], text[at:]
		_, other := p.dots()
		isWhole = isExpression(other)
	case Archive:
		p.Revision, p.Path = formatOf(text)
		isWhole = p.Path != ""
	case Tree, Blob, Raw, Blame, Log:
		var hasPath bool
		p.Revision, p.Path, hasPath = strings.Cut(text, ":")
		isWhole = !hasPath || p.Path != ""
	default:
		return p, false
	}
	return p, isWhole && isExpression(p.Revision)
}

// dots gives the dots of a comparison, and the revision after them.
func (p Place) dots() (dots, other string) {
	dots = ".."
	if strings.HasPrefix(p.Path, "...") {
		dots = "..."
	}
	return dots, strings.TrimPrefix(p.Path, dots)
}

// formatOf parts the name of an archive into a revision and a format, which is empty where there is none.
func formatOf(name string) (revision, format string) {
	for _, it := range browse.Formats {
		if end := "." + string(it); strings.HasSuffix(name, end) {
			return strings.TrimSuffix(name, end), string(it)
		}
	}
	return name, ""
}

func isExpression(text string) bool {
	return len(text) <= longestRevision && revisionForm.MatchString(text) && !strings.Contains(text, "..")
}

// URL is the path of a place, with escapes. Parse reads it back.
func (p Place) URL() string {
	switch p.Kind {
	case Tenants:
		return "/"
	case Style:
		return separator + "style-" + styleDigest + ".css"
	case Icon:
		return separator + "icon-" + iconDigest + ".svg"
	case Robots:
		return robotsPath
	case Sitemap:
		return separator + "sitemap.xml"
	case Home:
		if forGit.MatchString("/" + p.Tenant) {
			return "/" + p.Tenant + separator
		}
		return "/" + p.Tenant
	}
	text := "/" + p.Tenant + separator + string(p.Kind)
	if p.Kind != Refs {
		text += "/" + escaped(p.Revision)
	}
	if p.Path != "" {
		switch p.Kind {
		case Archive:
			text += "."
		case Compare:
		default:
			text += ":"
		}
		text += escaped(p.Path)
	}
	return text
}

// escaped writes the bytes of a path as a URL has them.
func escaped(text string) string {
	const digits = "0123456789ABCDEF"
	var to strings.Builder
	for at := 0; at < len(text); at++ {
		switch b := text[at]; {
		case 'a' <= b && b <= 'z', 'A' <= b && b <= 'Z', '0' <= b && b <= '9', strings.IndexByte("-._~/", b) >= 0:
			to.WriteByte(b)
		default:
			to.WriteByte('%')
			to.WriteByte(digits[b>>4])
			to.WriteByte(digits[b&15])
		}
	}
	return to.String()
}

// At is another page of the tenant.
func (p Place) At(kind Kind, revision, path string) Place {
	return Place{kind, p.Tenant, revision, path}
}
