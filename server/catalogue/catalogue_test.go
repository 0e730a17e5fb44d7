package catalogue

import (
	"os"
	"path/filepath"
	"strings"
	"testing"
	"time"
)

func load(t *testing.T, folder string) *Catalogue {
	t.Helper()
	c, err := Load(folder, t.Logf)
	if err != nil {
		t.Fatal(err)
	}
	return c
}

func TestDescriptions(t *testing.T) {
	folder := t.TempDir()
	for _, it := range []struct{ tenant, text string }{{"acme/site", "A  site"}, {"a", "b"}, {"acme/site", "Another \u00e4"}, {"a", ""}} {
		if err := Describe(folder, it.tenant, it.text); err != nil {
			t.Fatal(it, err)
		}
	}
	rows, err := Rows(folder)
	if err != nil || strings.Join(rows, ";") != "acme/site Another \u00e4" {
		t.Fatal(rows, err)
	}
	c := load(t, folder)
	if c.Description("acme/site") != "Another \u00e4" || c.Description("a") != "" || c.Unread() != nil {
		t.Fatal(c.Descriptions())
	}
}

func TestWhatIsNoDescriptionIsRefused(t *testing.T) {
	folder := t.TempDir()
	for tenant, text := range map[string]string{"../x": "a", "": "a", "a": strings.Repeat("x", 301), "b": "a\nb", "c": "\x1b[31m", "d": "\u202e", "e": "\xff"} {
		if err := Describe(folder, tenant, text); err == nil {
			t.Errorf("%q has the description %q", tenant, text)
		}
	}
	if rows, err := Rows(folder); err != nil || len(rows) > 0 {
		t.Fatal(rows, err)
	}
}

func TestPushesOutliveARestart(t *testing.T) {
	folder := t.TempDir()
	c := load(t, folder)
	if !c.Pushed("a").IsZero() {
		t.Fatal("a push that was none")
	}
	c.Note("a")
	c.Note("b/c")
	c.Save()
	again := load(t, folder)
	for _, name := range []string{"a", "b/c"} {
		if got := again.Pushed(name); got.UnixMilli() != c.Pushed(name).UnixMilli() || time.Since(got) > time.Hour {
			t.Error(name, got)
		}
	}
}

func TestADamagedListOfPushesHasNone(t *testing.T) {
	folder := t.TempDir()
	if err := os.WriteFile(filepath.Join(folder, pushedName), []byte("a 17\n../b 1\nc\n\x00 5\nd 99999999999999999999\ne x\n"), 0o600); err != nil {
		t.Fatal(err)
	}
	if c := load(t, folder); c.Pushed("a").UnixMilli() != 17 || len(c.pushed) != 1 {
		t.Fatal(c.pushed)
	}
}

// TestPushesThatCannotBeWritten has a folder in the place of the file.
func TestPushesThatCannotBeWritten(t *testing.T) {
	folder := t.TempDir()
	c := load(t, folder)
	if err := os.Mkdir(c.Path, 0o700); err != nil {
		t.Fatal(err)
	}
	c.Note("a")
	c.Save()
	if err := os.Remove(c.Path); err != nil {
		t.Fatal(err)
	}
	if c.Save(); load(t, folder).Pushed("a").IsZero() {
		t.Fatal("what could not be written was forgotten")
	}
}

func TestNoCatalogueSaysNothing(t *testing.T) {
	var c *Catalogue
	if c.Note("a"); c.Description("a") != "" || !c.Pushed("a").IsZero() {
		t.Fatal("something")
	}
}
