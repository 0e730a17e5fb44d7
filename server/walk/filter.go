package walk

import (
	"fmt"
	"math"
	"net/url"
	"strconv"
	"strings"

	"gitpoold/pktline"
)

// Filter leaves objects out of a partial clone: git-rev-list(1), --filter. What is wanted by its own name is never left out.
type Filter struct {
	BlobBytes int64 // blobs of so many bytes or more are left out
	TreeDepth int   // trees and blobs so far below a commit's tree or more are left out
}

// All leaves nothing out.
var All = Filter{BlobBytes: math.MaxInt64, TreeDepth: math.MaxInt}

// ParseFilter reads the word of a filter: blob:none, blob:limit=<n>[kmg], tree:<depth>, or several after combine:.
func ParseFilter(text string) (Filter, error) {
	if rest, is := strings.CutPrefix(text, "combine:"); is {
		return parseCombined(rest)
	}
	f := All
	var err error
	switch {
	case text == "blob:none":
		f.BlobBytes = 0
	case strings.HasPrefix(text, "blob:limit="):
		f.BlobBytes, err = parseBytes(text[len("blob:limit="):])
	case strings.HasPrefix(text, "tree:"):
		f.TreeDepth, err = strconv.Atoi(text[len("tree:"):])
	default:
		err = strconv.ErrSyntax
	}
	if err != nil || f.TreeDepth < 0 || f.BlobBytes < 0 {
		return All, notServed(text)
	}
	return f, nil
}

func notServed(text string) error {
	return fmt.Errorf("filter '%s' not supported", pktline.Show([]byte(text)))
}

const mostCombined = 16

func parseCombined(text string) (Filter, error) {
	parts := strings.Split(text, "+")
	if len(parts) > mostCombined {
		return All, fmt.Errorf("a filter combines more than %d others", mostCombined)
	}
	all := All
	for _, part := range parts {
		word, err := url.PathUnescape(part)
		if err != nil || strings.HasPrefix(word, "combine:") {
			return All, notServed(part)
		}
		one, err := ParseFilter(word)
		if err != nil {
			return All, err
		}
		all = all.and(one)
	}
	return all, nil
}

func (f Filter) and(other Filter) Filter {
	return Filter{min(f.BlobBytes, other.BlobBytes), min(f.TreeDepth, other.TreeDepth)}
}

// parseBytes reads a number with one of Git's units.
func parseBytes(text string) (int64, error) {
	shift := 0
	if n := len(text); n > 0 {
		switch text[n-1] | 0x20 {
		case 'k':
			shift = 10
		case 'm':
			shift = 20
		case 'g':
			shift = 30
		}
	}
	if shift > 0 {
		text = text[:len(text)-1]
	}
	number, err := strconv.ParseInt(text, 10, 63-shift)
	return number << shift, err
}
