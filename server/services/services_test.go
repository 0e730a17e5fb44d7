package services

import "testing"

func TestVersions(t *testing.T) {
	for text, want := range map[string]int{"": 0, "version=2": 2, "version=1": 1, "version=0": 0, "x:version=2": 2, "version=22": 0} {
		if got := Version(text); got != want {
			t.Errorf("%q: %d", text, got)
		}
	}
}
