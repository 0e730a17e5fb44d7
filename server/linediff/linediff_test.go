package linediff

import (
	"fmt"
	"math/rand"
	"strings"
	"syscall"
	"testing"
	"time"
)

// applied carries the hunks out on the old text; it fails where a line is not where its numbers say.
func applied(t *testing.T, old, new string, hunks []Hunk) string {
	t.Helper()
	oldLines, newLines := Lines(old), Lines(new)
	var text strings.Builder
	at := 0
	for _, hunk := range hunks {
		for _, line := range hunk.Lines {
			for line.Old > 0 && at < line.Old-1 {
				text.WriteString(oldLines[at])
				at++
			}
			if line.Old > 0 && oldLines[line.Old-1] != line.Text || line.New > 0 && newLines[line.New-1] != line.Text {
				t.Fatalf("a line stands elsewhere than it says: %+v", line)
			}
			if (line.Mark == ' ') != (line.Old > 0 && line.New > 0) || line.Mark == '-' && line.New > 0 || line.Mark == '+' && line.Old > 0 {
				t.Fatalf("a line has another mark than its numbers: %+v", line)
			}
			if line.Old > 0 {
				at++
			}
			if line.Mark != '-' {
				text.WriteString(line.Text)
			}
		}
	}
	text.WriteString(strings.Join(oldLines[at:], ""))
	return text.String()
}

func shown(hunks []Hunk) string {
	var text strings.Builder
	for _, hunk := range hunks {
		text.WriteString("@\n")
		for _, line := range hunk.Lines {
			fmt.Fprintf(&text, "%c%s", line.Mark, line.Text)
		}
	}
	return text.String()
}

func TestCompareShowsWhatDiffShows(t *testing.T) {
	for _, it := range []struct{ old, new, want string }{
		{"", "", ""},
		{"a\n", "a\n", ""},
		{"", "a\n", "@\n+a\n"},
		{"a\n", "", "@\n-a\n"},
		{"a\nb\nc\n", "a\nx\nc\n", "@\n a\n-b\n+x\n c\n"},
		{"a", "a\n", "@\n-a+a\n"},
		{"1\n2\n3\n4\n5\n6\n7\n8\n9\n", "1\n2\n3\n4\nx\n6\n7\n8\n9\n", "@\n 2\n 3\n 4\n-5\n+x\n 6\n 7\n 8\n"},
		{"a\n1\n2\n3\n4\n5\n6\nb\n", "A\n1\n2\n3\n4\n5\n6\nB\n", "@\n-a\n+A\n 1\n 2\n 3\n 4\n 5\n 6\n-b\n+B\n"},
		{"a\n1\n2\n3\n4\n5\n6\n7\nb\n", "A\n1\n2\n3\n4\n5\n6\n7\nB\n", "@\n-a\n+A\n 1\n 2\n 3\n@\n 5\n 6\n 7\n-b\n+B\n"},
	} {
		if got := shown(Compare(it.old, it.new)); got != it.want {
			t.Errorf("%q and %q: %q", it.old, it.new, got)
		}
	}
}

func TestCompareOfRandomTexts(t *testing.T) {
	random := rand.New(rand.NewSource(1))
	for round := 0; round < 300; round++ {
		kinds, size := 1+random.Intn(40), random.Intn(1+10*round)
		if round%3 == 0 {
			kinds = 100000
		}
		old := make([]string, size)
		for at := range old {
			old[at] = fmt.Sprint(random.Intn(kinds), "\n")
		}
		var new []string
		for _, line := range old {
			switch random.Intn(12) {
			case 0:
			case 1:
				new = append(new, fmt.Sprint(random.Intn(kinds), "\n"))
			case 2:
				new = append(new, line, fmt.Sprint(random.Intn(kinds), "\n"))
			default:
				new = append(new, line)
			}
		}
		a, b := strings.Join(old, ""), strings.TrimSuffix(strings.Join(new, ""), "\n")
		if got := applied(t, a, b, Compare(a, b)); got != b {
			t.Fatalf("round %d: the hunks do not lead from one text to the other", round)
		}
	}
}

func TestCompareIsSoonDone(t *testing.T) {
	var same, other, mixed strings.Builder
	for at := 0; at < 100000; at++ {
		fmt.Fprintln(&same, at%7)
		fmt.Fprintln(&other, at%5)
		fmt.Fprintln(&mixed, at%5*at)
	}
	began := spent()
	for _, it := range [][2]string{{same.String(), other.String()}, {mixed.String(), same.String()}, {other.String(), mixed.String()}} {
		if got := applied(t, it[0], it[1], Compare(it[0], it[1])); got != it[1] {
			t.Fatal("the hunks do not lead from one text to the other")
		}
	}
	if took := spent() - began; took > 20*time.Second {
		t.Fatal(took)
	}
}

// spent is how much of a processor this process has used; the clock also counts what others used.
func spent() time.Duration {
	var used syscall.Rusage
	if err := syscall.Getrusage(syscall.RUSAGE_SELF, &used); err != nil {
		panic(err)
	}
	return time.Duration(used.Utime.Nano() + used.Stime.Nano())
}
