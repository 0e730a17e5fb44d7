package dailyquota

import (
	"fmt"
	"os"
	"path/filepath"
	"strings"
	"sync"
	"testing"
	"time"
)

var noon = time.Date(2026, 1, 2, 12, 0, 0, 0, time.UTC)

// at is a ledger at a time, which a test moves on.
type at struct {
	*Ledger
	now   time.Time
	notes []string
}

func opened(t *testing.T, path string, most Amount) *at {
	t.Helper()
	a := &at{now: noon}
	tell := func(format string, values ...any) { a.notes = append(a.notes, fmt.Sprintf(format, values...)) }
	a.Ledger = openAt(func() time.Time { return a.now }, path, func(string) Amount { return most }, tell)
	return a
}

func fresh(t *testing.T, most Amount) *at {
	return opened(t, filepath.Join(t.TempDir(), "usage"), most)
}

func TestBytesOfADay(t *testing.T) {
	a := fresh(t, Amount{Bytes: 100})
	alice, bob := a.Meter("alice", "192.0.2.1:1"), a.Meter("bob", "192.0.2.1:1")
	alice.Add(99)
	if alice.Err() != nil || bob.Err() != nil {
		t.Fatal(alice.Err(), bob.Err())
	}
	a.Meter("alice", "192.0.2.2:1").Add(1)
	if alice.Err() != ErrBytes || bob.Err() != nil {
		t.Fatal(alice.Err(), bob.Err())
	}
	if left := alice.Left(); left != 12*time.Hour {
		t.Fatal(left)
	}
	a.now = a.now.Add(alice.Left())
	if alice.Err() != nil {
		t.Fatal("the next day is refused")
	}
}

func TestTimeOfTheChild(t *testing.T) {
	a := fresh(t, Amount{Child: time.Second})
	visitor, other := a.Meter("", "192.0.2.1:1"), a.Meter("", "192.0.2.2:1")
	visitor.AddChild(time.Second)
	visitor.Add(1 << 40)
	if visitor.Err() != ErrChild || other.Err() != nil || a.Meter("", "192.0.2.1:7").Err() != ErrChild {
		t.Fatal(visitor.Err(), other.Err())
	}
}

func TestWithoutALimit(t *testing.T) {
	m := fresh(t, Amount{}).Meter("alice", "")
	m.Add(1 << 60)
	var none *Meter
	none.Add(1)
	none.AddChild(1)
	if m.Err() != nil || none.Err() != nil || (*Ledger)(nil).Meter("alice", "") != nil {
		t.Fatal(m.Err())
	}
}

func TestCountsOutliveARestart(t *testing.T) {
	path := filepath.Join(t.TempDir(), "usage")
	a := opened(t, path, Amount{Bytes: 100})
	a.Meter("alice", "").Add(60)
	a.Meter("alice", "").AddChild(1500 * time.Millisecond)
	a.Meter("", "[2001:db8::1]:22").Add(3)
	a.Meter("", "[2001:db8::2]:22").Add(4)
	a.Save()
	if text, _ := os.ReadFile(path); string(text) != a.day+"\n@2001:db8:: 7 0.000\nalice 60 1.500\n" {
		t.Fatalf("%s", text)
	}
	b := opened(t, path, Amount{Bytes: 100})
	b.Meter("alice", "").Add(40)
	if b.Meter("alice", "").Err() != ErrBytes || b.add("alice", Amount{}).Child != 1500*time.Millisecond || len(b.notes) > 0 {
		t.Fatal(b.taken, b.notes)
	}
	os.Remove(path)
	a.Save()
	if _, err := os.Stat(path); err == nil {
		t.Fatal("what has not changed is written")
	}
}

func TestAFileOfAnotherDayOrForm(t *testing.T) {
	today := noon.Format("2006-01-02")
	for text, says := range map[string]string{
		"":                             "",
		"2020-01-01\nalice 5 1.0\n":    "",
		"no day":                       "",
		today + "\nalice 5\n":          "is no line USER BYTES SECONDS",
		today + "\nalice x 1\n":        "is no line USER BYTES SECONDS",
		today + "\nalice 5 1\nbob\n":   "is no line USER BYTES SECONDS",
		today + "\nalice 5 1.5s\n":     "is no line USER BYTES SECONDS",
		today + "\n\x00\x00\x00\x00\n": "is no line USER BYTES SECONDS",
	} {
		path := filepath.Join(t.TempDir(), "usage")
		if err := os.WriteFile(path, []byte(text), 0o600); err != nil {
			t.Fatal(err)
		}
		a := opened(t, path, Amount{Bytes: 1})
		if got := strings.Join(a.notes, "\n"); len(a.taken) > 0 || !strings.Contains(got, says) || says == "" && got != "" {
			t.Errorf("%q: %v %q", text, a.taken, got)
		}
	}
}

func TestADiskThatTakesNothing(t *testing.T) {
	path := filepath.Join(t.TempDir(), "none", "usage")
	a := opened(t, path, Amount{Bytes: 100})
	a.Meter("alice", "").Add(100)
	a.Save()
	if a.Meter("alice", "").Err() != ErrBytes || len(a.notes) != 1 {
		t.Fatal(a.notes)
	}
	if err := os.Mkdir(filepath.Dir(path), 0o700); err != nil {
		t.Fatal(err)
	}
	a.Save()
	if text, err := os.ReadFile(path); err != nil || string(text) != a.day+"\nalice 100 0.000\n" {
		t.Fatalf("what could not be written is not written later: %q %v", text, err)
	}
}

// TestManyVisitors counts visitors beyond so many addresses together, and users never.
func TestManyVisitors(t *testing.T) {
	a := fresh(t, Amount{Bytes: 10})
	for i := 0; i < mostCounted+1000; i++ {
		a.Meter("", fmt.Sprintf("10.%d.%d.%d:1", i>>16, i>>8&255, i&255)).Add(1)
	}
	if len(a.taken) > mostCounted+1 {
		t.Fatal(len(a.taken))
	}
	a.Meter("alice", "").Add(9)
	if a.Meter("", "192.0.2.1:1").Err() != ErrBytes || a.Meter("alice", "").Err() != nil {
		t.Fatal("counted otherwise")
	}
}

func TestManyAtOnce(t *testing.T) {
	a := fresh(t, Amount{Bytes: 1 << 60})
	var all sync.WaitGroup
	for i := 0; i < 8; i++ {
		all.Add(1)
		go func() {
			defer all.Done()
			m := a.Meter("alice", "")
			for k := 0; k < 1000; k++ {
				m.Add(3)
				_ = m.Err()
				if k%100 == 0 {
					a.Save()
				}
			}
		}()
	}
	all.Wait()
	if got := a.add("alice", Amount{}).Bytes; got != 24000 {
		t.Fatal(got)
	}
}
