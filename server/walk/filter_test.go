package walk

import (
	"math"
	"strings"
	"testing"
)

func TestFilters(t *testing.T) {
	for text, want := range map[string]Filter{
		"blob:none":                       {0, math.MaxInt},
		"blob:limit=1k":                   {1024, math.MaxInt},
		"tree:0":                          {math.MaxInt64, 0},
		"combine:blob:none+tree:3":        {0, 3},
		"combine:blob%3Alimit=5+tree%3A1": {5, 1},
	} {
		if got, err := ParseFilter(text); err != nil || got != want {
			t.Errorf("%s: %v, %v", text, got, err)
		}
	}
}

// TestAFilterThatIsNotServedIsShown has long ones, and one with bytes that a terminal would heed.
func TestAFilterThatIsNotServedIsShown(t *testing.T) {
	for _, text := range []string{"", "tree:-1", "blob:limit=" + strings.Repeat("9", 60_000), "sparse:oid=" + strings.Repeat("x", 60_000), "x\x1b[2J\n",
		"combine:" + strings.Repeat("y", 60_000), "combine:%1b" + strings.Repeat("y", 60_000), "combine:combine:tree:1", "combine:%"} {
		_, err := ParseFilter(text)
		if err == nil {
			t.Fatalf("%.50q is taken", text)
		}
		if said := err.Error(); len(said) > 300 || strings.ContainsAny(said, "\x1b\n") || !strings.HasPrefix(said, "filter '") {
			t.Errorf("%.50q: %d bytes, %.300q", text, len(said), said)
		}
	}
}
