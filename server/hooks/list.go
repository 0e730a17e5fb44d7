package hooks

import (
	"fmt"
	"net/url"
	"os"
	"path/filepath"
	"strings"

	"gitpoold/access"
	"gitpoold/configfile"
	"gitpoold/webhooks"
)

// The kinds of hooks, as githooks(5) names them: those that judge a push, and those that are told of it.
const (
	PreReceive  = "pre-receive"
	Update      = "update"
	PostReceive = "post-receive"
)

// line is one line of the file: a hook, what it is for, and the tenants of whose pushes it is told.
type line struct{ pattern, kind, where string }

func (l line) matches(tenant string) bool { return access.Matches(l.pattern, tenant) }

// Unread says why the list cannot be read, so that what was read before holds. It is nil where it can.
func (h *Hooks) Unread() error {
	if err := h.lines.Unread(); err != nil {
		return err
	}
	return h.Addresses.Unread()
}

func read(path string) ([]line, error) { return configfile.Parse(path, parse) }

func parse(words []string) (line, error) {
	all := strings.Join(words, " ")
	if len(words) == 2 {
		words = []string{words[0], PostReceive, words[1]}
	}
	if len(words) != 3 || !access.ValidPattern(words[0]) {
		return line{}, fmt.Errorf("`%s` is no line PATTERN WHERE, or PATTERN KIND WHERE", all)
	}
	it := line{words[0], words[1], words[2]}
	switch it.kind {
	case PostReceive:
	case PreReceive, Update:
		if isAddress(it.where) {
			return it, fmt.Errorf("a %s hook is a program, and no address", it.kind)
		}
	default:
		return it, fmt.Errorf("`%s` is no kind of a hook: %s, %s or %s", it.kind, PreReceive, Update, PostReceive)
	}
	return it, checkPlace(it.where)
}

// text is the line as the file has it. One of the kind that was there first has no word for it.
func (l line) text() string {
	if l.kind == PostReceive {
		return l.pattern + " " + l.where
	}
	return l.pattern + " " + l.kind + " " + l.where
}

// checkPlace asks that a hook is the path of a program, or an address.
func checkPlace(where string) error {
	if isAddress(where) {
		address, err := url.Parse(where)
		if err != nil || address.Host == "" {
			return fmt.Errorf("`%s` is no address of http", where)
		}
		return nil
	}
	if !filepath.IsAbs(where) || strings.ContainsAny(where, " \t\n") {
		return fmt.Errorf("`%s` is neither the whole path of a program, without white space, nor an address of http", where)
	}
	return nil
}

func isAddress(where string) bool {
	return strings.HasPrefix(where, "http://") || strings.HasPrefix(where, "https://")
}

// shown is a hook as the log has it: of an address neither a password nor what stands after its path.
func shown(where string) string { return webhooks.Shown(where) }

// Rows gives the lines of a folder's file.
func Rows(folder string) ([]string, error) {
	all, err := read(filepath.Join(folder, "hooks"))
	rows := make([]string, len(all))
	for at, it := range all {
		rows[at] = it.text()
	}
	return rows, err
}

// Add lets a hook judge the pushes to the tenants that a pattern names, or be told of them. Its words are the pattern, the kind unless that is
// post-receive, and the program, which has to be there, or the address, which may be inside only where that is allowed.
func Add(folder string, words ...string) error {
	wanted, err := parse(words)
	if err == nil && isAddress(wanted.where) {
		err = webhooks.CheckPlace(folder, wanted.where)
	} else if err == nil {
		err = checkProgram(wanted.where)
	}
	if err != nil {
		return err
	}
	return configfile.Change(filepath.Join(folder, "hooks"), func(lines []string) ([]string, error) {
		left, _ := without(lines, wanted)
		return append(left, wanted.text()), nil
	})
}

// checkProgram asks that there is a program, unless this is an address.
func checkProgram(where string) error {
	if isAddress(where) {
		return nil
	}
	info, err := os.Stat(where)
	if err == nil && (info.IsDir() || info.Mode()&0o111 == 0) {
		err = fmt.Errorf("%s is no program", where)
	}
	return err
}

// Remove takes a hook back, which has the words by which it was added.
func Remove(folder string, words ...string) error {
	wanted, err := parse(words)
	if err != nil {
		return err
	}
	return configfile.Change(filepath.Join(folder, "hooks"), func(lines []string) ([]string, error) {
		left, found := without(lines, wanted)
		if !found {
			return nil, fmt.Errorf("there is no hook `%s`", wanted.text())
		}
		return left, nil
	})
}

func without(lines []string, wanted line) (left []string, found bool) {
	for _, it := range lines {
		if has, err := parse(strings.Fields(it)); err == nil && has == wanted {
			found = true
			continue
		}
		left = append(left, it)
	}
	return left, found
}
