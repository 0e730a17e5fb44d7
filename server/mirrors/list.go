package mirrors

import (
	"errors"
	"fmt"
	"net/url"
	"path/filepath"
	"strings"
	"time"

	"gitpoold/configfile"
	"gitpoold/tenants"
)

// ListName is the operator's file. It has lines `KIND TENANT EVERY URL [USER PASSWORD]`.
const ListName = "mirrors"

// Comment is what the file begins with.
const Comment = "# pull TENANT EVERY URL [USER PASSWORD], or push ..: `gitpoold mirror` and `gitpoold push-mirror` change them."

// The kinds of mirrors: a tenant that is pulled from another host, and one that is pushed to it.
const (
	Pull = "pull"
	Push = "push"
)

// Mirror is one line of the list.
type Mirror struct {
	Kind, Tenant string
	// Every is how long after one run the next one comes. A push mirror runs after each push too.
	Every time.Duration
	URL   string
	// User and Password are for http; both are empty where it asks for none.
	User, Password string
}

// leastEvery keeps a mirror from asking another host without a pause.
const leastEvery = time.Second

func (m Mirror) line() string {
	words := []string{m.Kind, m.Tenant, m.Every.String(), m.URL}
	if m.User != "" {
		words = append(words, m.User, m.Password)
	}
	return strings.Join(words, " ")
}

// is tells whether two lines are of the same mirror.
func (m Mirror) is(other Mirror) bool {
	return m.Kind == other.Kind && m.Tenant == other.Tenant && (m.Kind == Pull || m.URL == other.URL)
}

// read gives the mirrors of a folder's file. What it says of a line that is wrong has no password.
func read(path string) ([]Mirror, error) { return configfile.Parse(path, parse) }

func parse(words []string) (m Mirror, err error) {
	if len(words) != 4 && len(words) != 6 || words[0] != Pull && words[0] != Push {
		return m, errors.New("there is a line that is no KIND TENANT EVERY URL [USER PASSWORD]")
	}
	m = Mirror{Kind: words[0], Tenant: words[1], URL: words[3]}
	if len(words) == 6 {
		m.User, m.Password = words[4], words[5]
	}
	if m.Every, err = time.ParseDuration(words[2]); err != nil {
		return m, fmt.Errorf("`%s` is no time, such as 1h", words[2])
	}
	return m, m.check()
}

// check asks that a mirror can be run.
func (m Mirror) check() error {
	if !tenants.ValidName(m.Tenant) {
		return fmt.Errorf("`%s` is no name of a tenant", m.Tenant)
	}
	if m.Every < leastEvery {
		return fmt.Errorf("%v is below %v", m.Every, leastEvery)
	}
	if strings.ContainsAny(m.User+m.Password, " \t\r\n\x00") || (m.User == "") != (m.Password == "") {
		return errors.New("a user of another host has a name and a password without white space")
	}
	scheme, err := schemeOf(m.URL)
	if err == nil && m.User != "" && scheme != "http" && scheme != "https" {
		err = errors.New("a user and a password are for URLs of http and https")
	}
	return err
}

// schemes are the ways of git that a mirror may take. File is taken where the operator says so.
var schemes = map[string]bool{"https": true, "http": true, "ssh": true, "git": true, FileScheme: true}

// FileScheme is that of URLs of this machine's files.
const FileScheme = "file"

// schemeOf gives the scheme of a URL that a mirror may have.
func schemeOf(text string) (string, error) {
	address, err := url.Parse(text)
	switch {
	case err != nil || strings.IndexFunc(text, isUnfit) >= 0:
		return "", errors.New("the URL cannot be read")
	case !schemes[address.Scheme]:
		return "", errors.New("a mirror has a URL that begins with https://, http://, ssh:// or git://")
	case address.RawQuery != "" || address.ForceQuery || address.Fragment != "":
		return "", errors.New("the URL of a mirror has no part after ? or #")
	case hasPassword(address):
		return "", errors.New("the URL of a mirror has no user and password in it, for process lists show it: " +
			"give --user, and the password on standard input")
	case (address.Host == "") != (address.Scheme == FileScheme) || strings.HasPrefix(address.Host, "-") || len(address.Path) < 2:
		return "", errors.New("the URL of a mirror has a host and a path")
	}
	return address.Scheme, nil
}

func isUnfit(r rune) bool { return r <= ' ' || r >= 0x7f }

func hasPassword(address *url.URL) bool {
	_, has := address.User.Password()
	return has || address.User != nil && address.Scheme != "ssh"
}

// Add puts a mirror into the list of a folder, in the place of one for the same tenant and, of push mirrors, the same URL.
func Add(folder string, m Mirror, mayBeFile bool) error {
	if err := m.check(); err != nil {
		return err
	}
	if scheme, _ := schemeOf(m.URL); scheme == FileScheme && !mayBeFile {
		return errors.New("a URL of a file reaches what the server's user may read; say --allow-file if that is meant")
	}
	return change(folder, m.is, m.line())
}

// Remove takes mirrors of a tenant out of the list: that of a URL, or all of the kind where it is "".
func Remove(folder, kind, tenant, url string) error {
	all, err := read(filepath.Join(folder, ListName))
	if err != nil {
		return err
	}
	isMeant := func(m Mirror) bool { return m.Kind == kind && m.Tenant == tenant && (url == "" || m.URL == url) }
	for _, it := range all {
		if isMeant(it) {
			return change(folder, isMeant, "")
		}
	}
	return fmt.Errorf("there is no such %s mirror of %s", kind, tenant)
}

func change(folder string, isMeant func(Mirror) bool, line string) error {
	return configfile.Change(filepath.Join(folder, ListName), func(lines []string) (left []string, err error) {
		for _, it := range lines {
			words := strings.Fields(it)
			if m, err := parse(words); err != nil || !isMeant(m) {
				left = append(left, it)
			}
		}
		if line != "" {
			left = append(left, line)
		}
		return left, nil
	})
}
