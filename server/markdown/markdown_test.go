package markdown

import (
	"fmt"
	"strings"
	"syscall"
	"testing"
	"time"
)

func nowhere(string, string, bool) string { return "" }

func TestMarkdownIsSoonRead(t *testing.T) {
	parts := []string{"[", "![", "*a ", "*a **a ", ">", "- ", "* a\n", "`` ", "<a ", "[a](", "_a*b_", "](", "|a|b\n|-|-\n", "# a\n", "[a]: b\n[a] ", "[a[", "~a ",
		"\\", "<!--", "&amp", "1. a\n  1) b\n", "\t\t- ", "`a", "|a", "<http://a", "a**b__", ">a\n", "> > > a\n", "- - - a\n", "***", "~~~\n", "```\n", "<b>", "a\\\n",
		"![a](b)", "[![a](b)](c)", "# a `b` [c](d)\n", "|" + strings.Repeat("a|", 39) + "\n|" + strings.Repeat("-|", 39) + "\n"}
	for _, part := range parts {
		text := []byte(strings.Repeat(part, MostBytes/len(part)))
		for size := len(text); size > 1000; size /= 4 {
			if !isSimple(text[:size]) {
				continue
			}
			began := spent()
			out, err := HTML(text[:size], nowhere)
			took := spent() - began
			if took > 4*time.Second || err != nil || len(out) > mostHTML {
				t.Errorf("%q, %d bytes: %v, %d bytes, %v", part, size, took, len(out), err)
			}
			break
		}
	}
}

func TestLinksLeadToTheRepositoryOrTheWeb(t *testing.T) {
	resolve := func(path, fragment string, isImage bool) string { return fmt.Sprint(path, " ", fragment, " ", isImage) }
	for to, want := range map[string]string{
		"x.md": "x.md  false", "../x.md#Some-Part": "../x.md Some-Part false", "#part": "#readme-part",
		"https://example.org/?a=b": "https://example.org/?a=b", "mailto:a@b": "mailto:a@b", "javascript:alert(1)": "", "JAVASCRIPT:x": "",
		"data:text/html,x": "", "//evil/x": "", "vbscript:x": "", "http:x": "", "file:///x": "", "%zz": "", "java\nscript:x": "",
	} {
		if got := rewriter(resolve).target(to, false); got != want {
			t.Errorf("%s leads to %s", to, got)
		}
	}
}

func TestNoMarkupComesThrough(t *testing.T) {
	text := "# <b>Head</b>\n<script>alert(1)</script>\n\n[a](javascript:alert(1)) ![b](//x/y) [![c](d)](e) ![](f) <https://g/> `<i>`\n"
	got, err := HTML([]byte(text), func(path, _ string, isImage bool) string { return fmt.Sprint("/", path, "?", isImage) })
	for _, bad := range []string{"<b>", "<script", "<img", "javascript", "//x"} {
		if err != nil || strings.Contains(got, bad) {
			t.Errorf("%v: %s stands in\n%s", err, bad, got)
		}
	}
	for _, good := range []string{`<h2 id="readme-bheadb"><!-- raw HTML omitted -->Head<!-- raw HTML omitted --></h2>`, `<a href="/e?false"><em>c</em></a>`, `<a href="/f?true">image</a>`, "&lt;i&gt;"} {
		if !strings.Contains(got, good) {
			t.Errorf("%s stands not in\n%s", good, got)
		}
	}
}

// spent is how much of a processor this process has used; the clock also counts what others used.
func spent() time.Duration {
	var used syscall.Rusage
	if err := syscall.Getrusage(syscall.RUSAGE_SELF, &used); err != nil {
		panic(err)
	}
	return time.Duration(used.Utime.Nano() + used.Stime.Nano())
}

func TestPicturesOfTheRepositoryStay(t *testing.T) {
	resolve := func(path, _ string, isImage bool) string {
		return map[bool]string{true: "/r/" + path, false: "/x"}[isImage]
	}
	for text, want := range map[string]string{
		"![a](b.png)":                       `<p><img src="/r/b.png" alt="a" /></p>`,
		"[![a](b.GIF)](https://c.org/)":     `<p><a href="https://c.org/"><img src="/r/b.GIF" alt="a" /></a></p>`,
		"![a](b.svg)":                       `<p><a href="/r/b.svg">a</a></p>`,
		"![a](https://c.org/b.png)":         `<p><a href="https://c.org/b.png">a</a></p>`,
		"![a](//c.org/b.png)":               `<p><a href="">a</a></p>`,
		"![a](b.png?x)":                     `<p><a href="/r/b.png">a</a></p>`,
		"![a](javascript:b.png)":            `<p><a href="">a</a></p>`,
		"![\"><script>](b.png)":             `<p><img src="/r/b.png" alt="&quot;&gt;" /></p>`,
		"![a](<b\".png> \"t\\\"<script>\")": `<p><img src="/r/b%22.png" alt="a" title="t&quot;&lt;script&gt;" /></p>`,
	} {
		if got, err := HTML([]byte(text), resolve); err != nil || strings.TrimSpace(got) != want {
			t.Errorf("%s: %s %v", text, got, err)
		}
	}
}
