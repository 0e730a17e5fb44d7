package pages

import (
	"fmt"
	"html/template"
	"strings"
	"time"
	"unicode/utf8"
)

// visible writes text of a tenant so that one sees all of it in one line: what is no UTF-8, and what would turn the direction of the
// text around, is shown as U+FFFD, and other controls as their pictures.
func visible(text string) string { return shown(text, "") }

// block does the same for text with lines.
func block(text string) string { return shown(text, "\n\t") }

func shown(text, kept string) string {
	if isPlain(text, kept) {
		return text
	}
	return strings.Map(func(r rune) rune {
		switch {
		case r < ' ' && strings.ContainsRune(kept, r):
			return r
		case r < ' ':
			return 0x2400 + r
		case r == 0x7f:
			return 0x2421
		case 0x80 <= r && r < 0xa0, isTurning(r):
			return utf8.RuneError
		}
		return r
	}, strings.ToValidUTF8(text, "\ufffd"))
}

// isPlain tells whether a text has nothing but what ASCII prints, and controls that are kept; so most lines need no more.
func isPlain(text, kept string) bool {
	for at := 0; at < len(text); at++ {
		if b := text[at]; (b < ' ' || b > '~') && strings.IndexByte(kept, b) < 0 {
			return false
		}
	}
	return true
}

// escaper writes text as html/template does between elements, and in an attribute that is no URL.
var escaper = strings.NewReplacer("\x00", "\ufffd", `"`, "&#34;", "&", "&amp;", "'", "&#39;", "+", "&#43;", "<", "&lt;", ">", "&gt;")

// lines is the HTML of lines, which templates would take long for.
type lines struct{ to strings.Builder }

// add adds HTML and text by turns; the text is escaped.
func (w *lines) add(all ...string) {
	for at, it := range all {
		if at%2 == 0 {
			w.to.WriteString(it)
		} else {
			_, _ = escaper.WriteString(&w.to, it)
		}
	}
}

// HTML is all that was added.
func (w *lines) HTML() template.HTML { return template.HTML(w.to.String()) }

// isTurning tells whether a character changes the direction of text that comes after it.
func isTurning(r rune) bool { return 0x202a <= r && r <= 0x202e || 0x2066 <= r && r <= 0x2069 }

// longestLine is how many bytes of a line are shown.
const longestLine = 2000

// line writes a line of a file, without its line end; where it is long, the rest is only counted.
func line(text string) string {
	text = strings.TrimSuffix(strings.TrimSuffix(text, "\n"), "\r")
	if len(text) <= longestLine {
		return shown(text, "\t")
	}
	front := text[:longestLine]
	for len(front) > 0 && !utf8.RuneStart(text[len(front)]) && len(front) > longestLine-utf8.UTFMax {
		front = front[:len(front)-1]
	}
	return shown(front, "\t") + fmt.Sprintf(" … %s more bytes", count(int64(len(text)-len(front))))
}

// shortened ends a text after so many bytes.
func shortened(text string, most int) string {
	if len(text) <= most {
		return text
	}
	return text[:most] + " …"
}

// count writes a number with commas.
func count(number int64) string {
	digits := fmt.Sprint(number)
	for at := len(digits) - 3; at > 0; at -= 3 {
		digits = digits[:at] + "," + digits[at:]
	}
	return digits
}

// several writes a number of things.
func several(number int, one, many string) string {
	if number == 1 {
		return "1 " + one
	}
	return count(int64(number)) + " " + many
}

// size writes a number of bytes for people.
func size(bytes int) string {
	switch {
	case bytes < 1024:
		return several(bytes, "byte", "bytes")
	case bytes < 1<<20:
		return fmt.Sprintf("%.1f KiB", float64(bytes)/(1<<10))
	}
	return fmt.Sprintf("%.1f MiB", float64(bytes)/(1<<20))
}

// moment is a time as a page shows it.
type moment struct{ Machine, Full, Ago string }

// momentOf writes a time as it is from now; a time that is not known is nothing.
func momentOf(t, now time.Time) *moment {
	if t.IsZero() {
		return nil
	}
	return &moment{t.UTC().Format(time.RFC3339), t.Format("Monday, 2 January 2006, 15:04:05 -0700"), ago(now.Sub(t), t)}
}

func ago(span time.Duration, t time.Time) string {
	const day = 24 * time.Hour
	for _, it := range []struct {
		below, unit time.Duration
		one, many   string
	}{
		{time.Minute, time.Second, "second", "seconds"}, {time.Hour, time.Minute, "minute", "minutes"}, {day, time.Hour, "hour", "hours"},
		{14 * day, day, "day", "days"}, {60 * day, 7 * day, "week", "weeks"}, {730 * day, 30 * day, "month", "months"},
		{1 << 62, 365 * day, "year", "years"},
	} {
		switch {
		case span < 0:
			return t.Format("2 Jan 2006")
		case span < 10*time.Second:
			return "just now"
		case span < it.below:
			return several(int(span/it.unit), it.one, it.many) + " ago"
		}
	}
	return t.Format("2 Jan 2006")
}
