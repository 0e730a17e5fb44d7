package markdown

import (
	"regexp"
	"strings"
	"testing"
)

var (
	tags   = regexp.MustCompile(`<[^>]*>`)
	usual  = regexp.MustCompile(`^<(?:!-- raw HTML omitted --|/?(?:h[1-6]|p|em|strong|del|code|pre|blockquote|ul|ol|li|hr|br|a|img|table|thead|tbody|tr|th|td)(?: (?:id|href|src|alt|title|class|start|align|style|rel)="[^"<>]*")*(?: /)?)>$`)
	follow = regexp.MustCompile(`(?:href|src)="([^"]*)"`)
)

// FuzzHTML asks that a README comes to elements of text alone, and that links lead to the repository, to the web or nowhere.
func FuzzHTML(f *testing.F) {
	f.Add([]byte("# Head\n\n- [a](b \"c\")\n- ![x](y)\n\n| a | b |\n|---|:-:|\n| c | ~~d~~ |\n"))
	f.Add([]byte("<script>alert(1)</script> [a](javascript:alert(1))\n"))
	f.Add([]byte("a <https://x/> <a@b.org> <mailto:a@b> <javascript:alert(1)> <data:text/html,x> <JavaScript:x>\n"))
	f.Add([]byte("![a](b.png) [![c](d.gif \"t\")](http://e/) ![f](//g/h.png) ![i](data:x.png) ![\"<](<\" onerror=x.png>)\n"))
	f.Add([]byte("[a]: javascript:x\n[a] [b][a] `<i>`\n\n```\n</code>\n```\n"))
	f.Add([]byte("[x](&#106;avascript:y) [y](//z/w) [z](\x00) [w](http:\\\\x)\n3. a\n\n   b\n"))
	f.Fuzz(func(t *testing.T, contents []byte) {
		if len(contents) > 1<<12 {
			return
		}
		text, err := HTML(contents, func(path, fragment string, isImage bool) string { return "/r" })
		if err != nil {
			t.Fatal(err)
		}
		for _, tag := range tags.FindAllString(text, -1) {
			if !usual.MatchString(tag) {
				t.Fatalf("%q has the tag %q", contents, tag)
			}
		}
		for _, link := range follow.FindAllStringSubmatch(text, -1) {
			if !leads(link[1]) {
				t.Fatalf("%q leads to %q", contents, link[1])
			}
		}
	})
}

// leads tells whether a link is one that a README may have.
func leads(to string) bool {
	for _, front := range []string{"http://", "https://", "mailto:", "#" + headingFront, "/r"} {
		if strings.HasPrefix(strings.ToLower(to), front) {
			return true
		}
	}
	return to == "" || to == "#"
}
