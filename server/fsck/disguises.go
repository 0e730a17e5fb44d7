package fsck

import (
	"slices"
	"strings"
	"unicode/utf8"
)

// dotFile is a file that git reads by itself: its name without the dot, and what NTFS's short names of it begin with.
type dotFile struct {
	name, short string
}

var (
	modulesFile    = dotFile{"gitmodules", "gi7eba"}
	attributesFile = dotFile{"gitattributes", "gi7d29"}
	ignoreFile     = dotFile{"gitignore", "gi250a"}
	mailmapFile    = dotFile{"mailmap", "maba30"}
)

// isPlain tells whether no system takes a name for another one: it has neither a dot in front, nor a byte that a disguise needs.
func isPlain(name string) bool {
	for _, b := range []byte(name) {
		if b == '~' || b == '\\' || b >= 0x80 {
			return false
		}
	}
	return len(name) > 0 && name[0] != '.'
}

// isDotGit tells whether a name is .git, or is taken for it by HFS+ or NTFS, which also ends names at backslashes.
func isDotGit(name string) bool {
	return isHFS(name, "git") || slices.ContainsFunc(afterBackslashes(name), isNTFSDotGit)
}

func isModules(name string) bool {
	return isHFS(name, modulesFile.name) || slices.ContainsFunc(afterBackslashes(name), func(part string) bool { return isNTFS(part, modulesFile) })
}

func isDotFile(name string, file dotFile) bool { return isHFS(name, file.name) || isNTFS(name, file) }

// afterBackslashes gives the whole name, and what stands after each backslash.
func afterBackslashes(name string) (parts []string) {
	parts = append(parts, name)
	for at, b := range []byte(name) {
		if b == '\\' {
			parts = append(parts, name[at+1:])
		}
	}
	return parts
}

func isNTFSDotGit(name string) bool {
	for _, front := range []string{".git", "git~1"} {
		if hasFold(name, front) && endsNTFS(name[len(front):], `\/:`) {
			return true
		}
	}
	return false
}

func hasFold(name string, front string) bool {
	return len(name) >= len(front) && strings.EqualFold(name[:len(front)], front)
}

// endsNTFS tells whether NTFS drops the rest of a name: dots and spaces up to its end, or up to one of these bytes.
func endsNTFS(rest, stops string) bool {
	for _, b := range []byte(rest) {
		if strings.IndexByte(stops, b) >= 0 {
			return true
		}
		if b != '.' && b != ' ' {
			return false
		}
	}
	return true
}

// isNTFS tells whether NTFS takes a name for a file: by its long name, by its short name, or by the short name that is made of a
// digest where the short names run out.
func isNTFS(name string, file dotFile) bool {
	if hasFold(name, "."+file.name) {
		return endsNTFS(name[1+len(file.name):], ":")
	}
	if hasFold(name, file.name[:6]+"~") && len(name) > 7 && name[7] >= '1' && name[7] <= '4' {
		return endsNTFS(name[8:], ":")
	}
	return isFallback(name, file.short) && endsNTFS(name[8:], ":")
}

// isFallback tells whether a name begins with some of the letters of a short name, a tilde and digits, eight bytes in all.
func isFallback(name string, short string) bool {
	if len(name) < 8 {
		return false
	}
	tilde := strings.IndexByte(name[:7], '~')
	if tilde < 0 || !hasFold(name, short[:tilde]) || name[tilde+1] < '1' || name[tilde+1] > '9' {
		return false
	}
	for _, b := range []byte(name[tilde+2 : 8]) {
		if b < '0' || b > '9' {
			return false
		}
	}
	return true
}

// isHFS tells whether HFS+ takes a name for a dot and a word: it ignores case and some code points. Bytes that are no UTF-8 end a
// name, as in git.
func isHFS(name string, word string) bool {
	for _, want := range "." + word {
		var r rune
		r, name = nextHFS(name)
		if lowerRune(r) != want {
			return false
		}
	}
	r, _ := nextHFS(name)
	return r == 0 || r == '/'
}

// nextHFS gives the next code point that HFS+ does not ignore, or 0 at the end.
func nextHFS(name string) (rune, string) {
	for len(name) > 0 {
		r, size := utf8.DecodeRuneInString(name)
		if r == utf8.RuneError && size <= 1 {
			return 0, ""
		}
		name = name[size:]
		if !isIgnored(r) {
			return r, name
		}
	}
	return 0, ""
}

func isIgnored(r rune) bool {
	return r >= 0x200c && r <= 0x200f || r >= 0x202a && r <= 0x202e || r >= 0x206a && r <= 0x206f || r == 0xfeff
}

func lowerRune(r rune) rune {
	if r >= 'A' && r <= 'Z' {
		return r + 'a' - 'A'
	}
	return r
}
