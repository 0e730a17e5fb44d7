package pages

import (
	"context"
	"net/url"
	"sort"
	"strconv"

	"gitpoold/browse"
)

// mostTenants is how many tenants a page lists.
const mostTenants = 50

// byPush is the order of tenants by their last push; the other is by name.
const byPush = "push"

type tenantRow struct {
	link
	Description string
	CanPush     bool
	Latest      *commitLine
	When        *moment // of the last push, or of that commit
}

// indexPage is a page of the list of tenants.
type indexPage struct {
	Rows                []tenantRow
	Count, More, Text   string
	ByName, ByPush      string // the list in another order, "" where it is in that one
	Order               string
	IsSearch, HasSearch bool
}

// tenants lists the tenants that the user may see, a page at a time.
func (v Visit) tenants(ctx context.Context) (Answer, error) {
	all := v.Listed()
	text, order := v.Query.Get("q"), v.Query.Get("order")
	page := &indexPage{Text: visible(text), IsSearch: text != "", HasSearch: len(all) > 0}
	if all = matching(all, text); order == byPush {
		page.Order = byPush
		sort.SliceStable(all, func(i, k int) bool { return all[i].Pushed.After(all[k].Pushed) })
		page.ByName = indexURL(text, "", 0)
	} else {
		page.ByPush = indexURL(text, byPush, 0)
	}
	page.Count = several(len(all), "repository", "repositories")
	from, _ := strconv.Atoi(v.Query.Get("from"))
	if from < 0 || from > len(all) {
		from = 0
	}
	if all = all[from:]; len(all) > mostTenants {
		all, page.More = all[:mostTenants], indexURL(text, page.Order, from+mostTenants)
	}
	for _, it := range all {
		row, err := v.tenantRow(ctx, it)
		if err != nil {
			return Answer{}, err
		}
		page.Rows = append(page.Rows, row)
	}
	answer, err := v.page("tenants", frame{Title: "Repositories"}, page)
	answer.Asks = page.HasSearch
	return answer, err
}

func (v Visit) tenantRow(ctx context.Context, it Listed) (tenantRow, error) {
	c, err := headOf(ctx, it.Repository)
	at := Place{Kind: Home, Tenant: it.Name}
	row := tenantRow{link: link{at.URL(), it.Name}, Description: visible(it.Description), CanPush: it.CanPush, Latest: v.lineOf(at, c),
		When: momentOf(it.Pushed, v.Now)}
	if row.When == nil && row.Latest != nil {
		row.When = row.Latest.When
	}
	return row, err
}

// matching gives the tenants whose name or description has a text.
func matching(all []Listed, text string) []Listed {
	if text == "" {
		return all
	}
	pattern := browse.NewPattern(text)
	var found []Listed
	for _, it := range all {
		if pattern.IsIn(it.Name, it.Description) {
			found = append(found, it)
		}
	}
	return found
}

// indexURL is a page of the list.
func indexURL(text, order string, from int) string {
	query := url.Values{}
	if text != "" {
		query.Set("q", text)
	}
	if order != "" {
		query.Set("order", order)
	}
	if from > 0 {
		query.Set("from", strconv.Itoa(from))
	}
	return withQuery(Place{Kind: Tenants}, query)
}
