package limits

import (
	"os"
	"path/filepath"
	"reflect"
	"testing"
	"time"
)

// FuzzFile reads files of limits: whatever is read has no limit below its least, and a command changes one limit and nothing else.
func FuzzFile(f *testing.F) {
	f.Add("idle 5s\nquota 2G\nquota acme/site 100K\n")
	f.Add("# none\n\nconnections 1\nconnections 2\n")
	f.Add("request-bytes 9223372036854775807\nquota 4096T\n")
	f.Add("step -1s\n")
	f.Fuzz(func(t *testing.T, text string) {
		path := filepath.Join(t.TempDir(), "limits")
		if err := os.WriteFile(path, []byte(text), 0o600); err != nil {
			t.Fatal(err)
		}
		before, err := read(path)
		if err != nil {
			return
		}
		if before.Connections < 1 || before.Idle < time.Millisecond || before.Quota < 0 || before.RequestBytes < 0 {
			t.Fatalf("%+v", before)
		}
		if err := Set(path, "idle", "7s"); err != nil {
			t.Fatal(err)
		}
		after, err := read(path)
		if before.Idle = 7 * time.Second; err != nil || !reflect.DeepEqual(before, after) {
			t.Fatalf("%v: %+v, and not %+v", err, after, before)
		}
		if rows, err := Rows(path); err != nil || len(rows) < len(all) {
			t.Fatal(rows, err)
		}
	})
}

// FuzzParseBytes asks that a number of bytes is one, and never below zero.
func FuzzParseBytes(f *testing.F) {
	for _, word := range []string{"0", "1K", "8191P", "9223372036854775807", "4194304T", "-1", "+1", "1KK", "K", ""} {
		f.Add(word)
	}
	f.Fuzz(func(t *testing.T, word string) {
		if found, err := ParseBytes(word); err == nil && found < 0 {
			t.Fatalf("%q is %d", word, found)
		}
	})
}
