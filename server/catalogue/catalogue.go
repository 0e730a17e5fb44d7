// Package catalogue keeps what the list of repositories says of each: the operator's description, and when it was pushed to last.
//
// The operator's file `descriptions` has lines `TENANT TEXT`; the command `gitpoold describe` changes it, and a running server reads it again when it
// has changed. The server writes the file `pushed`, with lines `TENANT MILLISECONDS`, from time to time and at its end; a server that is killed
// forgets the last pushes.
package catalogue

import (
	"bytes"
	"errors"
	"fmt"
	"maps"
	"os"
	"path/filepath"
	"slices"
	"strconv"
	"strings"
	"sync"
	"time"
	"unicode"
	"unicode/utf8"

	"gitpoold/configfile"
	"gitpoold/regular"
	"gitpoold/statefile"
	"gitpoold/tenants"
)

// FileName is the name of the operator's file.
const FileName = "descriptions"

// pushedName is the name of the server's file.
const pushedName = "pushed"

// longest is how many bytes a description may have.
const longest = 300

// Catalogue answers what is said of tenants. Its methods may be called by many goroutines at once.
type Catalogue struct {
	// Writer writes the file of pushes.
	statefile.Writer
	texts  *configfile.Followed[map[string]string]
	mutex  sync.Mutex
	pushed map[string]time.Time
}

// Load reads the files of a folder. `tell` gets a line for the operator where they cannot be read or written later on. A file of pushes that is
// not there, or a line of it that is damaged, has none.
func Load(folder string, tell func(format string, values ...any)) (*Catalogue, error) {
	path := filepath.Join(folder, FileName)
	texts, err := configfile.Follow(func() (map[string]string, error) { return read(path) }, tell, path)
	c := &Catalogue{texts: texts, pushed: map[string]time.Time{}}
	c.Path, c.Text, c.Tell, c.What = filepath.Join(folder, pushedName), c.text, tell, "when repositories were pushed to is not written"
	if err == nil {
		err = c.readPushed()
	}
	return c, err
}

// Unread says why the descriptions cannot be read, so that what was read before holds. It is nil where they can.
func (c *Catalogue) Unread() error { return c.texts.Unread() }

// Description gives the description of a tenant, or "".
func (c *Catalogue) Description(tenant string) string { return c.Descriptions()[tenant] }

// Descriptions gives all of them. Nobody may change them.
func (c *Catalogue) Descriptions() map[string]string {
	if c == nil {
		return nil
	}
	return c.texts.Within(time.Second)
}

// Pushed gives when a tenant was pushed to last, or no time where that is not known.
func (c *Catalogue) Pushed(tenant string) time.Time {
	if c == nil {
		return time.Time{}
	}
	c.mutex.Lock()
	defer c.mutex.Unlock()
	return c.pushed[tenant]
}

// Note notes that a tenant is pushed to now.
func (c *Catalogue) Note(tenant string) {
	if c == nil {
		return
	}
	c.mutex.Lock()
	defer c.mutex.Unlock()
	c.pushed[tenant] = time.Now()
	c.Changed()
}

func (c *Catalogue) text() []byte {
	c.mutex.Lock()
	defer c.mutex.Unlock()
	var text bytes.Buffer
	for _, name := range slices.Sorted(maps.Keys(c.pushed)) {
		fmt.Fprintf(&text, "%s %d\n", name, c.pushed[name].UnixMilli())
	}
	return text.Bytes()
}

// readPushed reads the server's file.
func (c *Catalogue) readPushed() error {
	text, err := regular.Read(c.Path)
	if errors.Is(err, os.ErrNotExist) {
		return nil
	}
	for _, line := range strings.Split(string(text), "\n") {
		name, since, _ := strings.Cut(line, " ")
		if when, err := strconv.ParseInt(since, 10, 64); err == nil && tenants.ValidName(name) {
			c.pushed[name] = time.UnixMilli(when)
		}
	}
	return err
}

func read(path string) (map[string]string, error) {
	lines, err := configfile.Read(path)
	texts := map[string]string{}
	for _, words := range lines {
		texts[words[0]] = strings.Join(words[1:], " ")
	}
	return texts, err
}

// Describe gives a tenant of a folder a description; an empty one takes it away. What has more than 300 bytes, or characters that are not shown, is
// refused.
func Describe(folder, tenant, text string) error {
	switch {
	case !tenants.ValidName(tenant):
		return fmt.Errorf("`%s` is no name of a tenant", tenant)
	case len(text) > longest || !utf8.ValidString(text) || strings.IndexFunc(text, isUnseen) >= 0:
		return fmt.Errorf("a description has at most %d bytes, in one line of UTF-8", longest)
	}
	return configfile.Change(filepath.Join(folder, FileName), func(lines []string) (left []string, err error) {
		for _, line := range lines {
			if words := strings.Fields(line); len(words) == 0 || words[0] != tenant {
				left = append(left, line)
			}
		}
		if words := strings.Fields(text); len(words) > 0 {
			left = append(left, tenant+" "+strings.Join(words, " "))
		}
		return left, nil
	})
}

func isUnseen(r rune) bool { return !unicode.IsGraphic(r) }

// Rows gives the lines of a folder's descriptions.
func Rows(folder string) ([]string, error) { return configfile.Rows(filepath.Join(folder, FileName)) }
