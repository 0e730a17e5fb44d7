package fsck

import "strings"

// variable is one variable of a file of git-config(1). A variable without `=` has no value.
type variable struct {
	section, subsection, key, value string
	hasSub, hasValue                bool
}

// configReader reads a file of git-config(1) byte by byte.
type configReader struct {
	rest string
	now  variable
}

// readConfig calls use with each variable up to the end, or up to the first place that git could not read, and tells whether it came to the end.
func readConfig(text string, use func(variable)) bool {
	r := &configReader{rest: strings.TrimPrefix(strings.ReplaceAll(text, "\r\n", "\n"), "\ufeff")}
	for r.skip(); r.rest != ""; r.skip() {
		if r.rest[0] == '[' {
			if !r.readSection() {
				return false
			}
			continue
		}
		if !r.readVariable() {
			return false
		}
		use(r.now)
	}
	return true
}

// skip leaves out white space and comments.
func (r *configReader) skip() {
	for {
		r.rest = strings.TrimLeft(r.rest, " \t\n\v\f\r")
		if r.rest == "" || r.rest[0] != '#' && r.rest[0] != ';' {
			return
		}
		_, r.rest, _ = strings.Cut(r.rest, "\n")
	}
}

func isWord(b byte) bool {
	return b >= 'a' && b <= 'z' || b >= 'A' && b <= 'Z' || b >= '0' && b <= '9' || b == '-'
}

// word takes letters, digits and hyphens, and gives them in lower case.
func (r *configReader) word(alsoDots bool) string {
	end := 0
	for end < len(r.rest) && (isWord(r.rest[end]) || alsoDots && r.rest[end] == '.') {
		end++
	}
	word := strings.ToLower(r.rest[:end])
	r.rest = r.rest[end:]
	return word
}

// readSection reads `[section]`, `[section "subsection"]` or `[section.subsection]`.
func (r *configReader) readSection() bool {
	r.rest = r.rest[1:]
	r.now = variable{}
	r.now.section, r.now.subsection, r.now.hasSub = strings.Cut(r.word(true), ".")
	if strings.HasPrefix(r.rest, "]") {
		r.rest = r.rest[1:]
		return true
	}
	name := strings.TrimLeft(r.rest, " \t")
	if name == r.rest || !strings.HasPrefix(name, `"`) {
		return false
	}
	r.rest = name[1:]
	return r.readSubsection()
}

// readSubsection reads up to the quote and the bracket; a backslash stands before a byte that is taken as it is.
func (r *configReader) readSubsection() bool {
	var name strings.Builder
	for at := 0; at < len(r.rest) && r.rest[at] != '\n'; at++ {
		switch r.rest[at] {
		case '"':
			r.now.subsection, r.now.hasSub = name.String(), true
			found := strings.HasPrefix(r.rest[at+1:], "]")
			r.rest = strings.TrimPrefix(r.rest[at+1:], "]")
			return found
		case '\\':
			if at++; at == len(r.rest) || r.rest[at] == '\n' {
				return false
			}
		}
		name.WriteByte(r.rest[at])
	}
	return false
}

func (r *configReader) readVariable() bool {
	if first := r.rest[0] | 0x20; first < 'a' || first > 'z' {
		return false
	}
	r.now.key = r.word(false)
	r.rest = strings.TrimLeft(r.rest, " \t")
	if r.rest == "" || r.rest[0] == '\n' {
		r.now.value, r.now.hasValue = "", false
		return true
	}
	if r.rest[0] != '=' {
		return false
	}
	r.rest = r.rest[1:]
	return r.readValue()
}

// readValue reads up to the end of the line: quotes, escapes, comments, and lines that go on after a backslash.
func (r *configReader) readValue() bool {
	v := configValue{}
	for at := 0; at < len(r.rest); at++ {
		b := r.rest[at]
		if b == '\n' && v.isQuoted {
			return false
		}
		if b == '\n' {
			r.rest = r.rest[at:]
			r.now.value, r.now.hasValue = v.text.String(), true
			return true
		}
		if b == '\\' && !v.isComment {
			at++
			if at == len(r.rest) || !v.escape(r.rest[at]) {
				return false
			}
			continue
		}
		v.take(b)
	}
	r.rest = ""
	r.now.value, r.now.hasValue = v.text.String(), true
	return !v.isQuoted
}

type configValue struct {
	text      strings.Builder
	spaces    int
	isQuoted  bool
	isComment bool
}

func (v *configValue) put(b byte) {
	for ; v.spaces > 0; v.spaces-- {
		v.text.WriteByte(' ')
	}
	v.text.WriteByte(b)
}

func (v *configValue) take(b byte) {
	switch {
	case v.isComment:
	case (b == ' ' || b == '\t') && !v.isQuoted:
		if v.text.Len() > 0 {
			v.spaces++
		}
	case (b == ';' || b == '#') && !v.isQuoted:
		v.isComment = true
	case b == '"':
		v.isQuoted = !v.isQuoted
	default:
		v.put(b)
	}
}

func (v *configValue) escape(b byte) bool {
	switch b {
	case '\n':
	case 't':
		v.put('\t')
	case 'b':
		v.put('\b')
	case 'n':
		v.put('\n')
	case '\\', '"':
		v.put(b)
	default:
		return false
	}
	return true
}
