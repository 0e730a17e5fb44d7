package limits

import (
	"errors"
	"io"
	"net"
	"os"
	"path/filepath"
	"strings"
	"sync"
	"sync/atomic"
	"testing"
	"time"

	"gitpoold/await"
	"gitpoold/configfile"
	"gitpoold/dailyquota"
)

func quiet(string, ...any) {}

func loaded(t *testing.T, lines string) (*Limits, string) {
	t.Helper()
	folder := t.TempDir()
	path := filepath.Join(folder, "limits")
	if err := os.WriteFile(path, []byte(lines), 0o600); err != nil {
		t.Fatal(err)
	}
	l, err := Load(folder, quiet)
	if err != nil {
		t.Fatal(err)
	}
	return l, path
}

func TestLimitsAreSetWhileTheServerRuns(t *testing.T) {
	l, path := loaded(t, "# a comment\n")
	if l.Get().Connections != Defaults().Connections || l.Quota("acme/site") != 1<<30 {
		t.Fatal(l.Get())
	}
	for _, words := range [][]string{{"quota", "3M"}, {"quota", "acme/site", "1K"}, {"idle", "2s"}, {"connections", "7"}} {
		if err := Set(path, words...); err != nil {
			t.Fatal(err)
		}
	}
	l.Fresh()
	if l.Quota("acme/site") != 1024 || l.Quota("acme/other") != 3<<20 || l.Get().Idle != 2*time.Second || l.Get().Connections != 7 {
		t.Fatal(l.Get())
	}
	Set(path, "quota", "acme/site", "default")
	Set(path, "idle", "default")
	l.Fresh()
	if l.Quota("acme/site") != 3<<20 || l.Get().Idle != Defaults().Idle {
		t.Fatal(l.Get())
	}
	text, _ := os.ReadFile(path)
	if string(text) != configfile.Text("# a comment", "quota 3M", "connections 7") {
		t.Fatalf("%s", text)
	}
	rows, err := Rows(path)
	if err != nil || len(rows) != len(all) || rows[0].Value != "7" || rows[0].Default != "1024" {
		t.Fatal(rows, err)
	}
}

func TestDailyLimitsOfUsers(t *testing.T) {
	l, path := loaded(t, "daily-bytes 5G\n")
	for _, words := range [][]string{{"daily-bytes", "alice", "1M"}, {"daily-child", "bob", "20s"}, {"daily-child", "10m"}, {"daily-bytes", "carol", "0"}} {
		if err := Set(path, words...); err != nil {
			t.Fatal(err)
		}
	}
	for user, want := range map[string]dailyquota.Amount{"": {Bytes: 5 << 30, Child: 10 * time.Minute}, "alice": {Bytes: 1 << 20, Child: 10 * time.Minute},
		"bob": {Bytes: 5 << 30, Child: 20 * time.Second}, "carol": {Child: 10 * time.Minute}} {
		if got := l.Daily(user); got != want {
			t.Error(user, got)
		}
	}
	if err := Set(path, "daily-bytes", "alice", "default"); err != nil || l.Daily("alice").Bytes != 5<<30 {
		t.Error(l.Daily("alice"), err)
	}
	for _, words := range [][]string{{"daily-bytes", "git", "1"}, {"daily-bytes", "a/b", "1"}, {"daily-child", "bob", "x"}, {"idle", "bob", "1s"}} {
		if Set(path, words...) == nil {
			t.Error(words)
		}
	}
}

func TestBadLimitsAreRefused(t *testing.T) {
	_, path := loaded(t, "")
	for _, words := range [][]string{{"no-such", "1"}, {"connections", "0"}, {"connections", "x"}, {"idle", "0s"}, {"idle", "5"},
		{"quota", "-1"}, {"quota", "1X"}, {"quota", "9999999999G"}, {"quota", "../x", "1"}, {"idle", "acme/site", "1s"}, {"quota", "G"}} {
		if Set(path, words...) == nil {
			t.Error(words)
		}
	}
	if text, _ := os.ReadFile(path); len(text) > 0 {
		t.Errorf("%s", text)
	}
}

func listening(t *testing.T, wrap func(net.Listener) net.Listener) (net.Listener, string) {
	t.Helper()
	listener, err := net.Listen("tcp", "127.0.0.1:0")
	if err != nil {
		t.Fatal(err)
	}
	t.Cleanup(func() { listener.Close() })
	return wrap(listener), listener.Addr().String()
}

func dialed(t *testing.T, address string) net.Conn {
	t.Helper()
	conn, err := net.Dial("tcp", address)
	if err != nil {
		t.Fatal(err)
	}
	t.Cleanup(func() { conn.Close() })
	return conn
}

// isClosed tells whether the peer has closed a connection.
func isClosed(conn net.Conn) bool {
	conn.SetReadDeadline(time.Now().Add(await.Longest))
	_, err := conn.Read(make([]byte, 1))
	return err != nil && !errors.Is(err, os.ErrDeadlineExceeded)
}

func TestOneConnectionTooMany(t *testing.T) {
	for _, lines := range []string{"connections 2\n", "connections-by-address 2\n"} {
		l, _ := loaded(t, lines)
		listener, address := listening(t, l.Listen)
		var taken []net.Conn
		go func() {
			for {
				if _, err := listener.Accept(); err != nil {
					return
				}
			}
		}()
		for i := 0; i < 2; i++ {
			taken = append(taken, dialed(t, address))
		}
		await.Until(t, "two connections", func() bool { return l.Connections() == 2 })
		if !isClosed(dialed(t, address)) {
			t.Error(lines, "a third connection is open")
		}
		if l.Connections() != 2 || len(taken) != 2 {
			t.Error(lines, l.Connections())
		}
	}
}

func TestAClosedConnectionIsCountedNoMore(t *testing.T) {
	l, _ := loaded(t, "connections 1\n")
	listener, address := listening(t, l.Listen)
	for i := 0; i < 3; i++ {
		dialed(t, address)
		conn, err := listener.Accept()
		if err != nil || l.Connections() != 1 {
			t.Fatal(i, err, l.Connections())
		}
		conn.Close()
		conn.Close()
		if l.Connections() != 0 {
			t.Fatal(l.Connections())
		}
	}
}

func TestASilentPeerIsLeft(t *testing.T) {
	l, _ := loaded(t, "idle 50ms\n")
	listener, address := listening(t, l.ListenIdle)
	dialed(t, address)
	conn, _ := listener.Accept()
	if _, err := conn.Read(make([]byte, 1)); !errors.Is(err, os.ErrDeadlineExceeded) {
		t.Fatal(err)
	}
	began := time.Now()
	if _, err := conn.Write(make([]byte, 64<<20)); !errors.Is(err, os.ErrDeadlineExceeded) || time.Since(began) > await.Longest {
		t.Fatal("a peer that takes nothing:", err, time.Since(began))
	}
}

func TestAPeerThatTakesSlowlyIsServed(t *testing.T) {
	l, _ := loaded(t, "idle 2s\n")
	listener, address := listening(t, l.ListenIdle)
	peer := dialed(t, address)
	conn, _ := listener.Accept()
	go func() {
		conn.Write(make([]byte, 4<<20))
		conn.Close()
	}()
	total := 0
	for part := make([]byte, 1<<20); ; time.Sleep(10 * time.Millisecond) {
		count, err := peer.Read(part)
		total += count
		if err == io.EOF {
			break
		}
		if err != nil {
			t.Fatal(err)
		}
	}
	if total != 4<<20 {
		t.Fatal(total)
	}
}

func TestABodyThatStopsIsLeft(t *testing.T) {
	l, _ := loaded(t, "idle 30ms\n")
	from, _ := io.Pipe()
	stopped := make(chan struct{})
	var once sync.Once
	body := l.Watched(io.MultiReader(strings.NewReader("a"), from), func() { once.Do(func() { close(stopped); from.Close() }) })
	if count, err := body.Read(make([]byte, 9)); count != 1 || err != nil {
		t.Fatal(err)
	}
	if _, err := body.Read(make([]byte, 9)); err == nil {
		t.Fatal("read on")
	}
	<-stopped
}

func TestRequestsOfAUser(t *testing.T) {
	l, _ := loaded(t, "requests-by-user 2\n")
	for _, who := range [][2]string{{"alice", "192.0.2.1:1"}, {"", "192.0.2.1:1"}} {
		one, err := l.Enter(who[0], who[1])
		if err != nil {
			t.Fatal(err)
		}
		if _, err := l.Enter(who[0], "192.0.2.1:2"); err != nil {
			t.Fatal(err)
		}
		if _, err := l.Enter(who[0], "192.0.2.1:3"); !errors.Is(err, ErrUserBusy) {
			t.Fatal(err)
		}
		one()
		one()
		if _, err := l.Enter(who[0], "192.0.2.1:3"); err != nil {
			t.Fatal(err)
		}
		if _, err := l.Enter(who[0], "192.0.2.1:3"); err == nil {
			t.Fatal("a request was counted down twice")
		}
	}
	if _, err := l.Enter("bob", "192.0.2.1:1"); err != nil {
		t.Fatal("another user is refused")
	}
}

// TestANetworkIsOneVisitor has visitors of addresses of IPv6: all of a /64 count as one.
func TestANetworkIsOneVisitor(t *testing.T) {
	l, _ := loaded(t, "requests-by-user 1\n")
	leave, err := l.Enter("", "[2001:db8::1]:1")
	if err != nil {
		t.Fatal(err)
	}
	if _, err := l.Enter("", "[2001:db8::2]:1"); err == nil {
		t.Fatal("a visitor has another count by another address of the same network")
	}
	for _, other := range []string{"[2001:db8:0:1::1]:1", "192.0.2.1:1", "192.0.2.2:1"} {
		if _, err := l.Enter("", other); err != nil {
			t.Fatal(other, err)
		}
	}
	leave()
	if _, err := l.Enter("", "[2001:db8::2]:1"); err != nil {
		t.Fatal(err)
	}
}

func TestParseBytes(t *testing.T) {
	for word, want := range map[string]int64{"0": 0, "17": 17, "1K": 1024, "2M": 2 << 20, "3G": 3 << 30, "1T": 1 << 40} {
		if got, err := ParseBytes(word); got != want || err != nil {
			t.Error(word, got, err)
		}
	}
}

func TestStreamsOfAUserAndATenant(t *testing.T) {
	l, _ := loaded(t, "streams-by-user 2\nstreams-by-tenant 3\n")
	enter := func(user, tenant string, want error) func() {
		t.Helper()
		leave, err := l.EnterStream(user, tenant)
		if err != want {
			t.Fatal(user, tenant, err)
		}
		return leave
	}
	first := enter("alice", "a", nil)
	enter("alice", "b", nil)
	enter("alice", "c", ErrStreamsOfUser)
	enter("bob", "a", nil)
	last := enter("carol", "a", nil)
	enter("dora", "a", ErrStreamsOfTenant)
	first()
	first()
	enter("dora", "a", nil)
	enter("alice", "a", ErrStreamsOfTenant)
	last()
	enter("alice", "a", nil)
	enter("alice", "d", ErrStreamsOfUser)
}

func TestAnswersThatWait(t *testing.T) {
	l, _ := loaded(t, "answer-bytes 100\n")
	wait := func(user string, bytes int, want error) func() {
		t.Helper()
		taken, err := l.Wait(user, bytes)
		if err != want {
			t.Fatal(user, bytes, err)
		}
		return taken
	}
	wait("alice", 101, ErrAnswer)
	first := wait("alice", 60, nil)
	wait("alice", 0, nil)()
	wait("alice", 41, ErrAnswers)
	wait("bob", 100, nil)
	last := wait("alice", 40, nil)
	if l.MayWait("alice") != ErrAnswers || l.MayWait("carol") != nil {
		t.Error("who may wait")
	}
	first()
	wait("alice", 60, nil)()
	last()
	if len(l.answers) != 1 || l.MayWait("alice") != nil {
		t.Error(l.answers)
	}
}

func TestLinesOfRequests(t *testing.T) {
	l, _ := loaded(t, "line-bytes 100\n")
	hold := func(it *Held, bytes int64, want error) {
		t.Helper()
		if err := it.Hold(bytes); err != want {
			t.Fatal(err)
		}
	}
	first, second := l.Lines("alice", "10.0.0.1:1"), l.Lines("alice", "10.0.0.2:1")
	hold(first, 60, nil)
	hold(second, 40, nil)
	hold(second, 1, ErrLines)
	hold(l.Lines("bob", "10.0.0.1:1"), 100, nil)
	visitor := l.Lines("", "10.0.0.1:1")
	hold(visitor, 100, nil)
	hold(l.Lines("", "10.0.0.1:2"), 1, ErrLines)
	hold(l.Lines("", "10.0.0.2:2"), 1, nil)
	first.Free()
	first.Free()
	hold(second, 60, nil)
	hold(first, 1, ErrLines)
	second.Free()
	visitor.Free()
	if len(l.lines) != 2 {
		t.Error(l.lines)
	}
}

func TestARestOfTheDiskIsKept(t *testing.T) {
	defer func(was func(string) (int64, int64, error)) { free = was }(free)
	for _, it := range []struct {
		lines     string
		left, all int64
		err       error
		want      error
	}{
		{"disk-reserve 1M\n", 1 << 20, 1 << 40, nil, nil},
		{"disk-reserve 1M\n", 1<<20 - 1, 1 << 40, nil, ErrDisk},
		{"disk-reserve 1M\n", 1 << 18, 1 << 20, nil, nil},
		{"disk-reserve 1M\n", 1<<18 - 1, 1 << 20, nil, ErrDisk},
		{"", 256<<20 - 1, 1 << 40, nil, ErrDisk},
		{"disk-reserve 0\n", 0, 1 << 20, nil, nil},
		{"", 0, 0, errors.New("no such call"), nil},
	} {
		l, _ := loaded(t, it.lines)
		free = func(string) (int64, int64, error) { return it.left, it.all, it.err }
		if err := l.MayGrow("folder"); err != it.want {
			t.Errorf("%+v: %v", it, err)
		}
	}
}

func TestWhatADiskHas(t *testing.T) {
	left, all, err := free(t.TempDir())
	if err != nil || left < 0 || all < left || all == 0 {
		t.Fatal(left, all, err)
	}
}

func TestSpoolsOfPushes(t *testing.T) {
	l, _ := loaded(t, "spool-bytes 100\n")
	first, second, other := l.Spool("alice", "a:1"), l.Spool("alice", "a:1"), l.Spool("bob", "a:1")
	for _, it := range []struct {
		of    *Held
		bytes int64
		want  error
	}{{first, 60, nil}, {second, 41, ErrSpools}, {second, 40, nil}, {first, 1, ErrSpools}, {other, 100, nil}, {l.Lines("alice", "a:1"), 1000, nil}} {
		if err := it.of.Hold(it.bytes); err != it.want {
			t.Fatal(it, err)
		}
	}
	first.Free()
	second.Free()
	if len(l.spools) != 1 {
		t.Fatal(l.spools)
	}
}

// asked counts how often the file system is asked for files, or does not answer until the test has ended.
func asked(t *testing.T, isHung bool) *atomic.Int64 {
	t.Helper()
	var count atomic.Int64
	before, released := configfile.Stat, make(chan struct{})
	configfile.Stat = func(path string) (os.FileInfo, error) {
		count.Add(1)
		if isHung {
			<-released
		}
		return before(path)
	}
	t.Cleanup(func() {
		close(released)
		configfile.Stat = before
	})
	return &count
}

// carried carries so many bytes from one end of a connection to the other, both of which are bounded, in parts as a push comes.
func carried(t *testing.T, from, to net.Conn, size int) {
	t.Helper()
	go func() {
		part := make([]byte, 16<<10)
		for left := size; left > 0; left -= len(part) {
			if _, err := from.Write(part); err != nil {
				return
			}
		}
	}()
	if err := to.SetDeadline(time.Now().Add(await.Longest)); err != nil {
		t.Fatal(err)
	}
	if _, err := io.ReadFull(to, make([]byte, size)); err != nil {
		t.Fatal(err)
	}
}

// TestAConnectionAsksNoFileSystem carries 8 MB each way over a connection and through the body of a request, and holds lines of a push, while the
// file system does not answer. None of them asks it.
func TestAConnectionAsksNoFileSystem(t *testing.T) {
	l, _ := loaded(t, "")
	listener, err := net.Listen("tcp", "127.0.0.1:0")
	if err != nil {
		t.Fatal(err)
	}
	listener = l.ListenIdle(listener)
	defer listener.Close()
	client, err := net.Dial("tcp", listener.Addr().String())
	if err != nil {
		t.Fatal(err)
	}
	defer client.Close()
	server, err := listener.Accept()
	if err != nil {
		t.Fatal(err)
	}
	defer server.Close()
	count := asked(t, true)
	carried(t, client, server, 8<<20)
	carried(t, server, client, 8<<20)
	body := l.Watched(strings.NewReader(strings.Repeat("x", 1<<20)), func() {})
	if read, err := io.Copy(io.Discard, body); err != nil || read != 1<<20 {
		t.Fatal(read, err)
	}
	held := l.Lines("alice", "127.0.0.1:1")
	for i := 0; i < 1000; i++ {
		if err := held.Hold(64); err != nil {
			t.Fatal(err)
		}
	}
	held.Free()
	if count.Load() != 0 {
		t.Fatalf("the file system was asked %d times", count.Load())
	}
}

// TestARequestAsksOnce has a change that a request notices at once.
func TestARequestAsksOnce(t *testing.T) {
	l, path := loaded(t, "")
	if err := Set(path, "requests-by-user", "1"); err != nil {
		t.Fatal(err)
	}
	count := asked(t, false)
	leave, err := l.Enter("alice", "127.0.0.1:1")
	if err != nil || count.Load() != 1 {
		t.Fatalf("asked %d times: %v", count.Load(), err)
	}
	defer leave()
	if _, err := l.Enter("alice", "127.0.0.1:1"); err != ErrUserBusy {
		t.Fatal(err)
	}
}
