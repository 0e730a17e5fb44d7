package pages

import (
	"context"
	"fmt"
	"html/template"
	"net/url"
	"path"
	"strconv"
	"strings"
	"unicode/utf8"

	"gitpoold/linediff"
)

// Highlight parts the lines of a file by colours, as far as it comes within its time. The name of the file says its language; nil is none that is
// known. The texts of a line's parts are the line.
type Highlight func(ctx context.Context, name, text string) [][]Part

// Part is a part of a line. Class is that of the style sheet for its colour, or "".
type Part struct{ Class, Text string }

// code is the lines of a file as a page shows them.
type code struct {
	Lines      []codeLine
	Count      int  // of all lines
	IsChoosing bool // the numbers of lines lead to pages on which lines are chosen
}

// codeLine is a line. By is the place of who brought it, where the page is about that.
type codeLine struct {
	number int
	url    string // where the number leads
	parts  []Part
	by     template.HTML
	class  string
}

// HTML writes the lines, in a fraction of the time that a template takes for thousands of them.
func (c *code) HTML() template.HTML {
	var w lines
	for _, it := range c.Lines {
		number := strconv.Itoa(it.number)
		w.add(`<span class="line`, it.class, `" id="L`, number, `">`+string(it.by)+`<a href="`, it.url, `" data-n="`, number)
		if c.IsChoosing {
			w.add(`" aria-label="Line `, number, `"></a>`)
		} else {
			w.add(`" tabindex="-1" aria-hidden="true"></a>`)
		}
		for _, part := range it.parts {
			if part.Class == "" {
				w.add("", part.Text)
			} else {
				w.add(`<span class="`, part.Class, `">`, part.Text, `</span>`)
			}
		}
		w.add("\n</span>")
	}
	return w.HTML()
}

// codeOf takes the lines of a text, and says what is shown otherwise than it is.
func (v Visit) codeOf(ctx context.Context, text string) (c *code, note string) {
	lines := linediff.Lines(text)
	c = &code{Count: len(lines)}
	if !strings.HasSuffix(text, "\n") {
		note = "The last line has no line end. "
	}
	if len(lines) > mostLines {
		note += "Only the first " + count(mostLines) + " lines are shown. "
		lines = lines[:mostLines]
	}
	if !utf8.ValidString(text) {
		note += "Bytes that are no UTF-8 are shown as \ufffd. "
	}
	if strings.IndexFunc(text, isTurning) >= 0 {
		note += "Characters that change the direction of text are shown as \ufffd. "
	}
	chosen := linesOf(v.Query)
	c.IsChoosing = chosen.isChoosing
	var colours [][]Part
	if v.Highlight != nil {
		colours = v.Highlight(ctx, path.Base(v.Place.Path), text)
	}
	for at, it := range lines {
		shown := codeLine{number: at + 1, url: chosen.url(at + 1)}
		if chosen.has(at + 1) {
			shown.class = " chosen"
		}
		if at < len(colours) && len(it) <= longestLine {
			shown.parts = visibleParts(colours[at])
		} else {
			shown.parts = []Part{{"", line(it)}}
		}
		c.Lines = append(c.Lines, shown)
	}
	return c, note
}

// visibleParts are parts of a line as a page shows them, without its line end.
func visibleParts(parts []Part) []Part {
	left := parts[:0]
	for at, it := range parts {
		if at == len(parts)-1 {
			it.Text = strings.TrimSuffix(strings.TrimSuffix(it.Text, "\n"), "\r")
		}
		if it.Text = shown(it.Text, "\t"); it.Text != "" {
			left = append(left, it)
		}
	}
	return left
}

// chosen are the lines that a page points out: those from `from` to `to`, or none where both are 0.
type chosen struct {
	from, to   int
	isChoosing bool
}

// linesOf reads the lines of a query: `choose`, `5` or `5-9`.
func linesOf(query url.Values) (c chosen) {
	text := query.Get("lines")
	first, last, isRange := strings.Cut(text, "-")
	if !isRange {
		last = first
	}
	var errFrom, errTo error
	c.from, errFrom = strconv.Atoi(first)
	c.to, errTo = strconv.Atoi(last)
	if errFrom != nil || errTo != nil || c.from < 1 || c.to < c.from {
		c.from, c.to = 0, 0
	}
	c.isChoosing = text != ""
	return c
}

func (c chosen) has(number int) bool { return c.from <= number && number <= c.to }

// query is the query that chooses them.
func (c chosen) query() string {
	switch {
	case c.from == 0:
		return ""
	case c.from == c.to:
		return fmt.Sprintf("?lines=%d#L%[1]d", c.from)
	}
	return fmt.Sprintf("?lines=%d-%d#L%[1]d", c.from, c.to)
}

// url is where the number of a line leads: to the line; or while lines are chosen, to a page with this line, or with those from the line that is
// chosen to this one.
func (c chosen) url(number int) string {
	switch {
	case !c.isChoosing:
		return "#L" + strconv.Itoa(number)
	case c.from == 0 || c.from != c.to:
		return chosen{from: number, to: number}.query()
	case number < c.from:
		return chosen{from: number, to: c.from}.query()
	}
	return chosen{from: c.from, to: number}.query()
}
