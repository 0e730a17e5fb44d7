package highlight

import (
	"context"
	"strings"
	"testing"
	"time"

	"github.com/alecthomas/chroma/v2/lexers"

	"gitpoold/pages"
)

func joined(lines [][]pages.Part) string {
	var text strings.Builder
	for _, line := range lines {
		for _, it := range line {
			text.WriteString(it.Text)
		}
	}
	return text.String()
}

func TestAGoFileHasColours(t *testing.T) {
	text := "package main // x\r\n\nvar a = \"b\nc\" + `d\ne`\n"
	lexer := lexers.Match("x.go")
	lines := part(context.Background(), lexer, text)
	if got := joined(lines); got != text || len(lines) != strings.Count(text, "\n") {
		t.Fatalf("%q", lines)
	}
	if it := lines[0][0]; it.Text != "package" || it.Class != "key" {
		t.Fatalf("%q", lines[0])
	}
}

func TestWhatHasNoColours(t *testing.T) {
	for name, text := range map[string]string{"none": "package main\n", "x.go": strings.Repeat("x", mostLine+1), "y.go": "\xff",
		"z.go": strings.Repeat("a\n", mostBytes), "x.txt": "text\n"} {
		if lines := Lines(context.Background(), name, text); lines != nil {
			t.Errorf("%s: %q", name, lines)
		}
	}
}

// TestTheTextStays parts an odd text as languages of many forms: what comes back is the text, or its front, in its order.
func TestTheTextStays(t *testing.T) {
	text := "a <b c=\"d\n' e\\\n{{ f }} /* g\n# h\n\"\"\"\n\u00e4\u202e\t$(i) @j\n<?php k ?>\n<script>l</script>\n0x1.5e\x00\x1b\n" +
		strings.Repeat("(", 200) + "\n"
	for _, name := range []string{"x.go", "x.c", "x.py", "x.html", "x.php", "x.md", "x.sh", "x.js", "x.diff", "x.rst", "x.yaml", "x.tex",
		"x.svelte", "Makefile"} {
		ctx, stop := context.WithTimeout(context.Background(), time.Minute)
		got := joined(part(ctx, lexers.Match(name), text))
		if stop(); !strings.HasPrefix(text, got) {
			t.Errorf("%s: %q", name, got)
		}
	}
}

// TestAPageWaitsForNoLexer fills all slots: pages get their text without colours, at once.
func TestAPageWaitsForNoLexer(t *testing.T) {
	for at := 0; at < cap(slots); at++ {
		slots <- struct{}{}
		defer func() { <-slots }()
	}
	if lines := Lines(context.Background(), "x.go", "package main\n"); lines != nil {
		t.Fatal(lines)
	}
}

func TestAPageWaitsNoLongerThanItMay(t *testing.T) {
	ctx, stop := context.WithCancel(context.Background())
	stop()
	if lines := part(ctx, lexers.Match("x.go"), "package main\n"); joined(lines) != "" {
		t.Fatal(lines)
	}
}
