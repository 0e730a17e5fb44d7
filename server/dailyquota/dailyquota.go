// Package dailyquota counts what users take in a day of UTC: the bytes of their pushes and fetches, and the time of the child.
//
// The counts are in a file of the server's folder, so that a restart does not forget them. It is written from time to time and at the end;
// a server that is killed forgets the last seconds. A visitor without a name is counted by its network.
package dailyquota

import (
	"bytes"
	"errors"
	"fmt"
	"maps"
	"os"
	"slices"
	"strconv"
	"strings"
	"sync"
	"time"

	"gitpoold/access"
	"gitpoold/regular"
	"gitpoold/statefile"
)

// Refusals, as users see them.
var (
	ErrBytes = errors.New("a limit is passed: this user has moved as many bytes today as a day allows; try again after midnight UTC (fault 25)")
	ErrChild = errors.New("a limit is passed: this user has kept the server busy today for as long as a day allows; try again after midnight UTC" +
		" (fault 25)")
)

// Amount is what a user has taken today, or may take; 0 is no limit.
type Amount struct {
	Bytes int64
	Child time.Duration
}

// Ledger has the counts of all users. Its methods may be called by many goroutines at once.
type Ledger struct {
	// Writer writes the counts.
	statefile.Writer
	most  func(user string) Amount
	clock func() time.Time

	mutex sync.Mutex
	day   string
	taken map[string]Amount
}

// Open reads the counts of a file, if they are of today. A file that is not there, or that is damaged, has none. `most` gives what a user may
// take in a day; `tell` gets lines for the operator.
func Open(path string, most func(user string) Amount, tell func(string, ...any)) *Ledger {
	return openAt(time.Now, path, most, tell)
}

func openAt(clock func() time.Time, path string, most func(user string) Amount, tell func(string, ...any)) *Ledger {
	l := &Ledger{most: most, clock: clock, taken: map[string]Amount{}}
	l.Path, l.Text, l.Tell, l.What = path, l.text, tell, "what users took today is not written"
	l.read()
	return l
}

func (l *Ledger) today() string { return l.clock().UTC().Format("2006-01-02") }

// read reads the file: the day, and a line `USER BYTES SECONDS` for each user.
func (l *Ledger) read() {
	l.day = l.today()
	text, err := regular.Read(l.Path)
	if errors.Is(err, os.ErrNotExist) {
		return
	}
	head, rest, _ := strings.Cut(string(text), "\n")
	if err != nil {
		l.Tell("%v; what users took today counts from now on", err)
		return
	}
	if head != l.day {
		return
	}
	found := map[string]Amount{}
	for _, line := range strings.Split(strings.TrimSuffix(rest, "\n"), "\n") {
		words := strings.Fields(line)
		if len(words) != 3 {
			err = fmt.Errorf("`%s` is no line USER BYTES SECONDS", line)
			break
		}
		count, errCount := strconv.ParseInt(words[1], 10, 64)
		seconds, errSeconds := strconv.ParseFloat(words[2], 64)
		if errCount != nil || errSeconds != nil {
			err = fmt.Errorf("`%s` is no line USER BYTES SECONDS", line)
			break
		}
		found[words[0]] = Amount{count, time.Duration(seconds * float64(time.Second))}
	}
	if err != nil {
		l.Tell("%s: %v; what users took today counts from now on", l.Path, err)
		return
	}
	l.taken = found
}

func (l *Ledger) text() []byte {
	l.mutex.Lock()
	defer l.mutex.Unlock()
	var text bytes.Buffer
	fmt.Fprintln(&text, l.day)
	for _, name := range slices.Sorted(maps.Keys(l.taken)) {
		fmt.Fprintf(&text, "%s %d %.3f\n", name, l.taken[name].Bytes, l.taken[name].Child.Seconds())
	}
	return text.Bytes()
}

// add counts something for whoever this is, and gives what that comes to today.
func (l *Ledger) add(who string, more Amount) Amount {
	l.mutex.Lock()
	defer l.mutex.Unlock()
	if day := l.today(); day != l.day {
		l.day, l.taken = day, map[string]Amount{}
	}
	now, has := l.taken[who]
	if !has && strings.HasPrefix(who, visitor) && len(l.taken) >= mostCounted {
		who = visitor
		now = l.taken[who]
	}
	if more == (Amount{}) {
		return now
	}
	now.Bytes += more.Bytes
	now.Child += more.Child
	l.taken[who] = now
	l.Changed()
	return now
}

// visitor stands before the address of a visitor; no user's name begins with it. Where very many are counted, visitors from further addresses
// are counted together.
const (
	visitor     = "@"
	mostCounted = 1 << 14
)

// Meter counts one request. A nil meter counts nothing, and refuses nothing.
type Meter struct {
	ledger *Ledger
	who    string
	most   Amount
}

// Meter gives the meter of a request by a user, "" for a visitor, from an address. What the user may take is what holds now.
func (l *Ledger) Meter(user, address string) *Meter {
	if l == nil {
		return nil
	}
	user = access.Person(user)
	who := user
	if who == "" {
		who = visitor + access.Network(address)
	}
	return &Meter{l, who, l.most(user)}
}

// Add counts bytes.
func (m *Meter) Add(count int) {
	if m != nil {
		m.ledger.add(m.who, Amount{Bytes: int64(count)})
	}
}

// AddChild counts time of the child.
func (m *Meter) AddChild(took time.Duration) {
	if m != nil {
		m.ledger.add(m.who, Amount{Child: took})
	}
}

// Err is ErrBytes or ErrChild where the user has taken what a day allows.
func (m *Meter) Err() error {
	if m == nil || m.most == (Amount{}) {
		return nil
	}
	now := m.ledger.add(m.who, Amount{})
	switch {
	case m.most.Bytes > 0 && now.Bytes >= m.most.Bytes:
		return ErrBytes
	case m.most.Child > 0 && now.Child >= m.most.Child:
		return ErrChild
	}
	return nil
}

// Left is the time until the counts begin anew.
func (m *Meter) Left() time.Duration {
	now := m.ledger.clock().UTC()
	return now.Truncate(24 * time.Hour).Add(24 * time.Hour).Sub(now)
}
