// Package highlight parts source files by the colours of their languages. It stands on chroma, which takes long to compile, and so it is a package
// that few others import.
//
// Chroma's expressions may take long on some texts, whoever wrote these. So a text is parted beside the page, which goes on without colours after a
// while, and texts that take longer than that keep no more than a few processors in all.
package highlight

import (
	"context"
	"strings"
	"sync"
	"time"
	"unicode/utf8"

	"github.com/alecthomas/chroma/v2"
	"github.com/alecthomas/chroma/v2/lexers"

	"gitpoold/pages"
)

// Most that is parted: bytes of a text, and of a line.
const (
	mostBytes = 128 << 10
	mostLine  = 1000
)

// longest is how long a text is parted. The rest of it has no colours. A page waits for patience more, as one step of a lexer may take longer.
const (
	longest  = 50 * time.Millisecond
	patience = 50 * time.Millisecond
)

// slots are how many texts are parted at once.
var slots = make(chan struct{}, 2)

// Lines parts the lines of a text, as far as it comes within its time: nil where the name says no language that is known, and where the text is
// long or no UTF-8.
func Lines(ctx context.Context, name, text string) [][]pages.Part {
	if len(text) > mostBytes || !utf8.ValidString(text) || hasLongLine(text) {
		return nil
	}
	lexer := lexerOf(name)
	if lexer == nil || lexer.Config().Name == "plaintext" {
		return nil
	}
	select {
	case slots <- struct{}{}:
	default:
		return nil
	}
	done := make(chan [][]pages.Part, 1)
	go func() {
		ctx, stop := context.WithTimeout(ctx, longest)
		defer stop()
		defer func() { <-slots }()
		done <- part(ctx, lexer, text)
	}()
	late := time.NewTimer(longest + patience)
	defer late.Stop()
	select {
	case lines := <-done:
		return lines
	case <-late.C:
		return nil
	}
}

// known are the lexers of names that were asked for. Chroma tries thousands of patterns for each name.
var known = struct {
	sync.Mutex
	lexers map[string]chroma.Lexer
}{lexers: map[string]chroma.Lexer{}}

// Of how many names they are kept, and how long one of these may be.
const (
	mostKnown    = 1000
	longestKnown = 100
)

// lexerOf is the lexer for files of a name, or nil.
func lexerOf(name string) chroma.Lexer {
	known.Lock()
	lexer, has := known.lexers[name]
	known.Unlock()
	if has {
		return lexer
	}
	lexer = lexers.Match(name)
	if len(name) > longestKnown {
		return lexer
	}
	known.Lock()
	defer known.Unlock()
	if len(known.lexers) == mostKnown {
		known.lexers = map[string]chroma.Lexer{}
	}
	known.lexers[strings.Clone(name)] = lexer
	return lexer
}

func hasLongLine(text string) bool {
	for len(text) > mostLine {
		end := strings.LastIndexByte(text[:mostLine], '\n')
		if end < 0 {
			return true
		}
		text = text[end+1:]
	}
	return false
}

// part parts a text until the context ends. A library that fails on it has found no parts.
func part(ctx context.Context, lexer chroma.Lexer, text string) (lines [][]pages.Part) {
	defer func() {
		if recover() != nil {
			lines = nil
		}
	}()
	next, err := lexer.Tokenise(&chroma.TokeniseOptions{State: "root"}, text)
	if err != nil {
		return nil
	}
	var line []pages.Part
	var read int
	for token := next(); token != chroma.EOF && ctx.Err() == nil; token = next() {
		if !strings.HasPrefix(text[read:], token.Value) {
			return nil
		}
		read += len(token.Value)
		for rest := token.Value; rest != ""; {
			end := strings.IndexByte(rest, '\n') + 1
			if end == 0 {
				end = len(rest)
			}
			line = append(line, pages.Part{Class: classOf(token.Type), Text: rest[:end]})
			if rest[end-1] == '\n' {
				lines, line = append(lines, line), nil
			}
			rest = rest[end:]
		}
	}
	if read == len(text) && line != nil {
		lines = append(lines, line)
	}
	return lines
}

// classOf is the class of the style sheet for a kind of token, or "".
func classOf(kind chroma.TokenType) string {
	switch {
	case kind.InSubCategory(chroma.CommentPreproc):
		return "pre"
	case kind.InCategory(chroma.Comment):
		return "com"
	case kind.InCategory(chroma.Keyword), kind == chroma.OperatorWord:
		return "key"
	case kind.InSubCategory(chroma.LiteralString):
		return "str"
	case kind.InSubCategory(chroma.LiteralNumber):
		return "num"
	case kind == chroma.NameFunction, kind == chroma.NameClass, kind == chroma.NameTag, kind == chroma.NameDecorator:
		return "fun"
	case kind == chroma.NameBuiltin, kind == chroma.NameAttribute, kind == chroma.NameConstant:
		return "att"
	case kind == chroma.GenericHeading, kind == chroma.GenericSubheading, kind == chroma.GenericStrong:
		return "key"
	}
	return ""
}
