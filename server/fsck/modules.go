package fsck

import (
	"net/url"
	"strings"
)

// module judges one variable of a submodule in a .gitmodules file. What git cannot read it does not carry out.
func (j *judge) module(v variable) {
	if !isModuleName(v.subsection) {
		j.report(GitmodulesName, "disallowed submodule name: %s", v.subsection)
	}
	switch {
	case v.key == "url" && v.hasValue && !isModuleURL(v.value):
		j.report(GitmodulesURL, "disallowed submodule url: %s", v.value)
	case v.key == "path" && v.hasValue && strings.HasPrefix(v.value, "-"):
		j.report(GitmodulesPath, "disallowed submodule path: %s", v.value)
	case v.key == "update" && v.hasValue && strings.HasPrefix(v.value, "!"):
		j.report(GitmodulesUpdate, "disallowed submodule update setting: %s", v.value)
	}
}

// isModuleName refuses an empty name, and one with a component `..` between slashes or backslashes.
func isModuleName(name string) bool {
	for _, part := range strings.FieldsFunc(name, func(r rune) bool { return r == '/' || r == '\\' }) {
		if part == ".." {
			return false
		}
	}
	return name != ""
}

// isModuleURL refuses what git refuses: what looks like an option, has a line end once it is decoded, or leaves its host.
func isModuleURL(text string) bool {
	if strings.HasPrefix(text, "-") {
		return false
	}
	if isRelative(text) || strings.HasPrefix(text, "git://") {
		return !strings.Contains(decoded(text), "\n") && !leavesHost(text)
	}
	web := text
	for _, helper := range []string{"http::", "https::", "ftp::", "ftps::"} {
		if strings.HasPrefix(text, helper) {
			return isWebURL(text[len(helper):])
		}
	}
	for _, scheme := range []string{"http://", "https://", "ftp://", "ftps://"} {
		if strings.HasPrefix(text, scheme) {
			return isWebURL(web)
		}
	}
	return true
}

func isRelative(text string) bool {
	for _, front := range []string{"./", "../", `.\`, `..\`} {
		if strings.HasPrefix(text, front) {
			return true
		}
	}
	return false
}

// leavesHost tells whether `../` in front of a url take away more than its path.
func leavesHost(text string) bool {
	dots := 0
	for isRelative(text) {
		if strings.HasPrefix(text, "..") {
			dots++
			text = text[1:]
		}
		text = text[2:]
	}
	return dots > 0 && (strings.HasPrefix(text, ":") || strings.HasPrefix(text, "/"))
}

// decoded carries out what escapes of a url say; one that is no escape stays.
func decoded(text string) string {
	var out strings.Builder
	for at := 0; at < len(text); at++ {
		if text[at] == '%' && at+2 < len(text) {
			if part, err := url.PathUnescape(text[at : at+3]); err == nil {
				out.WriteString(part)
				at += 2
				continue
			}
		}
		out.WriteByte(text[at])
	}
	return out.String()
}

// isWebURL asks for a scheme and a host without line ends.
func isWebURL(text string) bool {
	scheme, rest, found := strings.Cut(text, "://")
	if !found || scheme == "" {
		return false
	}
	end := strings.IndexAny(rest, "/?#")
	host, path := rest, ""
	if end >= 0 {
		host, path = rest[:end], rest[end:]
	}
	if at := strings.LastIndexByte(host, '@'); at >= 0 {
		if strings.Contains(decoded(host[:at]), "\n") {
			return false
		}
		host = host[at+1:]
	}
	return host != "" && !strings.Contains(decoded(scheme+host+path), "\n")
}
