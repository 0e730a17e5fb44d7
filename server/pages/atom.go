package pages

import (
	"context"
	"encoding/xml"
	"net/http"
	"sort"
	"time"

	"gitpoold/browse"
)

// atom is a feed as RFC 4287 has it.
type atom struct {
	XMLName xml.Name    `xml:"http://www.w3.org/2005/Atom feed"`
	ID      string      `xml:"id"`
	Title   string      `xml:"title"`
	Updated string      `xml:"updated"`
	Links   []atomLink  `xml:"link"`
	Entries []atomEntry `xml:"entry"`
}

type atomLink struct {
	Rel  string `xml:"rel,attr,omitempty"`
	Href string `xml:"href,attr"`
}

type atomEntry struct {
	ID      string     `xml:"id"`
	Title   string     `xml:"title"`
	Updated string     `xml:"updated"`
	Author  atomPerson `xml:"author"`
	Link    atomLink   `xml:"link"`
	Content string     `xml:"content"`
}

type atomPerson struct {
	Name string `xml:"name"`
}

// feed gives the newest commits of a revision to readers of feeds.
func (v Visit) feed(ctx context.Context) (Answer, error) {
	from, err := v.logFrom(ctx)
	if err != nil {
		return Answer{}, err
	}
	commits, _, err := browse.Log(ctx, v.Repository, browse.Query{From: from, Most: mostCommits, Bounds: toLog})
	if err != nil {
		return Answer{}, err
	}
	log := v.Origin + v.Place.At(Log, v.Place.Revision, "").URL()
	feed := atom{ID: log, Title: v.Place.Tenant + ": commits of " + visible(shownRevision(v.Place.Revision)), Updated: time.Time{}.Format(time.RFC3339),
		Links: []atomLink{{"self", v.Origin + v.Place.URL()}, {"alternate", log}}}
	for at, c := range commits {
		feed.Entries = append(feed.Entries, v.atomEntry(c))
		if at == 0 {
			feed.Updated = feed.Entries[0].Updated
		}
	}
	return v.markup("application/atom+xml; charset=utf-8", feed)
}

func (v Visit) atomEntry(c *browse.Commit) atomEntry {
	author := visible(shortened(c.Author.Name, mostName))
	if author == "" {
		author = "nobody"
	}
	return atomEntry{ID: "urn:sha1:" + c.Name.String(), Title: subjectOf(c.Message), Updated: c.Committer.When.UTC().Format(time.RFC3339),
		Author: atomPerson{author}, Link: atomLink{"alternate", v.Origin + v.Place.At(Commit, c.Name.String(), "").URL()}, Content: bodyOf(c.Message)}
}

// markup answers with XML.
func (v Visit) markup(kind string, of any) (Answer, error) {
	text, err := xml.MarshalIndent(of, "", " ")
	body := append([]byte(xml.Header), append(text, '\n')...)
	return Answer{Status: http.StatusOK, Kind: kind, Body: body, Tag: digest(body)}, err
}

// sitemap lists for search engines what everyone may read.
type sitemap struct {
	XMLName xml.Name      `xml:"http://www.sitemaps.org/schemas/sitemap/0.9 urlset"`
	URLs    []sitemapPage `xml:"url"`
}

type sitemapPage struct {
	Location string `xml:"loc"`
	Changed  string `xml:"lastmod,omitempty"`
}

// mostMapped is how many pages a sitemap may list.
const mostMapped = 50000

// sitemap lists the tenants that a visitor may see, the last pushed first. There is none unless search engines may list them.
func (v Visit) sitemap(context.Context) (Answer, error) {
	if !v.IsIndexed || v.User != "" {
		return Answer{}, errNothing
	}
	all := v.Listed()
	sort.SliceStable(all, func(i, k int) bool { return all[i].Pushed.After(all[k].Pushed) })
	if len(all) > mostMapped {
		all = all[:mostMapped]
	}
	var m sitemap
	for _, it := range all {
		page := sitemapPage{Location: v.Origin + Place{Kind: Home, Tenant: it.Name}.URL()}
		if !it.Pushed.IsZero() {
			page.Changed = it.Pushed.UTC().Format(time.RFC3339)
		}
		m.URLs = append(m.URLs, page)
	}
	return v.markup("application/xml; charset=utf-8", m)
}

// Robots tells search engines which pages they may read: none, or the list of tenants and the first page of each.
func (v Visit) Robots() Answer {
	if !v.IsIndexed {
		return v.refusalOf(errNothing)
	}
	text := "User-agent: *\nDisallow: /*/-/\nSitemap: " + v.Origin + Place{Kind: Sitemap}.URL() + "\n"
	return Answer{Status: http.StatusOK, Kind: "text/plain; charset=utf-8", Body: []byte(text), Tag: digest([]byte(text))}
}
