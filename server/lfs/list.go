package lfs

import (
	"errors"
	"fmt"
	"path/filepath"
	"slices"
	"strings"

	"gitpoold/access"
	"gitpoold/configfile"
)

// ListName is the name of the operator's file, and Comment what `init` writes into it.
const (
	ListName = "lfs"
	Comment  = "# PATTERN: tenants that keep files of Git LFS; `gitpoold lfs` changes them."
)

func read(path string) ([]string, error) { return configfile.Parse(path, parse) }

func parse(words []string) (pattern string, err error) {
	if len(words) != 1 || !access.ValidPattern(words[0]) {
		return "", fmt.Errorf("`%s` is no line PATTERN", strings.Join(words, " "))
	}
	return words[0], nil
}

// Unread says why the list cannot be read, so that what was read before holds. It is nil where it can.
func (s *Store) Unread() error { return s.on.Unread() }

// IsUsed tells whether any tenant keeps files. A nil Store has none.
func (s *Store) IsUsed() bool { return s != nil && len(s.on.Get()) > 0 }

// IsOn tells whether a tenant keeps files.
func (s *Store) IsOn(tenant string) bool {
	if s == nil {
		return false
	}
	return slices.ContainsFunc(s.on.Get(), func(pattern string) bool { return access.Matches(pattern, tenant) })
}

// Rows gives the patterns of a folder's file.
func Rows(folder string) ([]string, error) { return read(filepath.Join(folder, ListName)) }

// Switch lets the tenants that a pattern names keep files, or takes that back. What they have stays. It is an error if there is nothing to take back.
func Switch(folder, pattern string, isOn bool) error {
	if !access.ValidPattern(pattern) {
		return fmt.Errorf("%q names no tenant: a name of 1 to 64 bytes, or a name and `/*`, or `*`", pattern)
	}
	return configfile.Change(filepath.Join(folder, ListName), func(lines []string) (left []string, err error) {
		for _, line := range lines {
			if strings.TrimSpace(line) != pattern {
				left = append(left, line)
			}
		}
		switch {
		case isOn:
			left = append(left, pattern)
		case len(left) == len(lines):
			err = errors.New("Git LFS is not on for " + pattern)
		}
		return left, err
	})
}
