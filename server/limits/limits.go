// Package limits bounds what clients may take: connections, time and bytes.
//
// The operator's file `limits` has lines `NAME VALUE`; `quota TENANT VALUE` for one tenant; `daily-bytes USER VALUE` and `daily-child
// USER VALUE` for one user; and `fsck.ID LEVEL` for one message of git-fsck(1). What it leaves out has its default. The command `gitpoold limits` changes it, and a running server reads it again when it has changed.
package limits

import (
	"errors"
	"io"
	"net"
	"path/filepath"
	"sync"
	"syscall"
	"time"

	"gitpoold/access"
	"gitpoold/configfile"
	"gitpoold/dailyquota"
	"gitpoold/fsck"
)

// Limits answers what is allowed now. Its methods may be called by many goroutines at once.
type Limits struct {
	values *configfile.Followed[Values]
	mutex  sync.Mutex
	counts map[string]int
	// answers has the bytes of the answers that wait until a user takes them, and lists those of its lists of refs among them.
	answers map[string]int64
	lists   map[userList]*sharedList
	// lines and spools have the bytes of lines that the requests of a user hold, and of the temporary files of its pushes.
	lines, spools map[string]int64
	// fetches has the bytes of the lists that the fetches of a user hold, and rooms what their large entries may have.
	fetches map[string]int64
	rooms   map[string]*room
}

// Load reads the limits of a folder. `tell` gets a line for the operator where they cannot be read later on.
func Load(folder string, tell func(format string, values ...any)) (*Limits, error) {
	path := filepath.Join(folder, "limits")
	followed, err := configfile.Follow(func() (Values, error) { return read(path) }, tell, path)
	if err != nil {
		return nil, err
	}
	return &Limits{values: followed, counts: map[string]int{}, answers: map[string]int64{}, lists: map[userList]*sharedList{}, lines: map[string]int64{}, spools: map[string]int64{},
		fetches: map[string]int64{}, rooms: map[string]*room{}}, nil
}

// Get gives the limits as they were when a connection or a request began last. It waits for nothing, so that no Read or Write of a connection asks
// the file system.
func (l *Limits) Get() Values { return l.values.Last() }

// Fresh gives the limits as they are now.
func (l *Limits) Fresh() Values { return l.values.Get() }

// Unread says why the list cannot be read, so that what was read before holds. It is nil where it can.
func (l *Limits) Unread() error { return l.values.Unread() }

// Quota gives the most bytes that a tenant may have, 0 for no limit.
func (l *Limits) Quota(tenant string) int64 {
	values := l.Get()
	if own, has := values.Quotas[tenant]; has {
		return own
	}
	return values.Quota
}

// Daily gives what a user may take in a day, 0 for no limit. The user "" is a visitor.
func (l *Limits) Daily(user string) dailyquota.Amount {
	values := l.Fresh()
	most := dailyquota.Amount{Bytes: values.DailyBytes, Child: values.DailyChild}
	if own, has := values.UserBytes[user]; has {
		most.Bytes = own
	}
	if own, has := values.UserChild[user]; has {
		most.Child = own
	}
	return most
}

// Owned gives how many bytes, and how many tenants, a user may have in all tenants that it made, 0 for no limit.
func (l *Limits) Owned(user string) (bytes int64, count int) {
	values := l.Get()
	bytes, count = values.OwnedBytes, values.OwnedTenants
	if own, has := values.UserOwnedBytes[user]; has {
		bytes = own
	}
	if own, has := values.UserOwnedTenants[user]; has {
		count = own
	}
	return bytes, count
}

// Refusals of limits: sentences for the client.
var (
	ErrUserBusy    = errors.New("this user has as many requests at work as a user may have; try again")
	ErrConnections = errors.New("the server has as many connections as it may have")
)

// Enter counts a request or session of a user, and gives the call that ends it. A visitor without a name is counted by its address,
// without its port.
func (l *Limits) Enter(user, address string) (leave func(), err error) {
	who := whoIs(user, address)
	if !l.take(who, l.Fresh().PerUser) {
		return nil, ErrUserBusy
	}
	return l.leaver(who), nil
}

// spareSessions is how many sessions over ssh a user may have beside those that are at work.
const spareSessions = 10

// EnterSession counts a session over ssh from when it is open, with or without a command, and gives the call that ends it: what its client has sent
// is held until it is read.
func (l *Limits) EnterSession(user string) (leave func(), err error) {
	what := "sessions of user " + user
	if !l.take(what, l.Fresh().PerUser+spareSessions) {
		return nil, ErrUserBusy
	}
	return l.leaver(what), nil
}

// whoIs is under which name a user is counted, or a visitor.
func whoIs(user, address string) string {
	if user == "" {
		return "visitor " + access.Network(address)
	}
	return "user " + access.Person(user)
}

func (l *Limits) take(what string, most int) bool {
	l.mutex.Lock()
	defer l.mutex.Unlock()
	if l.counts[what] >= most {
		return false
	}
	l.counts[what]++
	return true
}

func (l *Limits) give(what string) {
	l.mutex.Lock()
	defer l.mutex.Unlock()
	l.counts[what]--
	if l.counts[what] == 0 {
		delete(l.counts, what)
	}
}

// leaver gives a call that counts down once.
func (l *Limits) leaver(what string) func() {
	var once sync.Once
	return func() { once.Do(func() { l.give(what) }) }
}

// connections is the count of all of them but those of the operator's socket, which are socketConnections.
const (
	connections       = "connections"
	socketConnections = "socket"
)

// Connections is how many connections there are, without those of the operator's socket.
func (l *Limits) Connections() int {
	l.mutex.Lock()
	defer l.mutex.Unlock()
	return l.counts[connections]
}

// Listen bounds the connections of a listener, in all and by address: one too many is closed at once. Each Write of a connection has
// to end within Idle.
func (l *Limits) Listen(listener net.Listener) net.Listener {
	return &bounded{Listener: listener, limits: l, all: connections}
}

// ListenSocket does the same for the operator's socket, whose connections are counted apart: whoever takes all others does not keep the operator out.
func (l *Limits) ListenSocket(listener net.Listener) net.Listener {
	return &bounded{Listener: listener, limits: l, all: socketConnections}
}

// ListenIdle does the same, and each Read has to end within Idle too. It is not for net/http, which reads in the background while it
// answers.
func (l *Limits) ListenIdle(listener net.Listener) net.Listener {
	return &bounded{Listener: listener, limits: l, reads: true, all: connections}
}

// bounded counts the connections of a listener under `all`.
type bounded struct {
	net.Listener
	limits *Limits
	reads  bool
	all    string
}

// Accept gives the next connection that is not one too many.
func (b *bounded) Accept() (net.Conn, error) {
	for {
		c, err := b.Listener.Accept()
		if err != nil {
			return nil, err
		}
		leave, err := b.limits.connect(b.all, access.Network(c.RemoteAddr().String()))
		if err == nil {
			return &connection{Conn: c, limits: b.limits, reads: b.reads, leave: leave}, nil
		}
		c.Close()
	}
}

func (l *Limits) connect(all, address string) (func(), error) {
	values := l.Fresh()
	if !l.take(all, values.Connections) {
		return nil, ErrConnections
	}
	if address != "" && !l.take("address "+address, values.PerAddress) {
		l.give(all)
		return nil, ErrConnections
	}
	both := []func(){l.leaver(all), func() {}}
	if address != "" {
		both[1] = l.leaver("address " + address)
	}
	return func() { both[0](); both[1]() }, nil
}

// connection is one that is counted until it is closed.
type connection struct {
	net.Conn
	limits *Limits
	reads  bool
	leave  func()
}

// SyscallConn gives the system's connection, which knows who is at its other end; nil where there is none.
func (c *connection) SyscallConn() (syscall.RawConn, error) {
	if raw, is := c.Conn.(syscall.Conn); is {
		return raw.SyscallConn()
	}
	return nil, syscall.ENOTSUP
}

// Close closes the connection and counts it no more.
func (c *connection) Close() error {
	defer c.leave()
	return c.Conn.Close()
}

// Read reads, within Idle if reads are bounded.
func (c *connection) Read(into []byte) (int, error) {
	if c.reads {
		if err := c.Conn.SetReadDeadline(time.Now().Add(c.limits.Get().Idle)); err != nil {
			return 0, err
		}
	}
	return c.Conn.Read(into)
}

// longestWrite is how many bytes have to be taken by the peer within Idle.
const longestWrite = 1 << 20

// Write writes; each megabyte has to be taken within Idle.
func (c *connection) Write(bytes []byte) (written int, err error) {
	for written < len(bytes) || len(bytes) == 0 {
		part := bytes[written:]
		if len(part) > longestWrite {
			part = part[:longestWrite]
		}
		if err := c.Conn.SetWriteDeadline(time.Now().Add(c.limits.Get().Idle)); err != nil {
			return written, err
		}
		count, err := c.Conn.Write(part)
		written += count
		if err != nil || len(bytes) == 0 {
			return written, err
		}
	}
	return written, nil
}

// Values are the limits. Bytes are bytes; a time of 0 is none.
type Values struct {
	Connections, PerAddress, PerUser               int
	Handshake, Idle, Request, Drain, Step, Hook    time.Duration
	RequestBytes, Quota, JournalBytes, ChildMemory int64
	// IsIndexed lets search engines list what everyone may read.
	IsIndexed                           bool
	SecondChild                         int64
	DailyBytes                          int64
	SaveEvery, FrameIdle, DailyChild    time.Duration
	StreamBytes, AnswerBytes, LineBytes int64
	FetchBytes, SpoolBytes, DiskReserve int64
	StreamAge                           time.Duration
	StreamsByUser, StreamsByTenant      int
	Quotas, UserBytes                   map[string]int64
	UserChild                           map[string]time.Duration
	OwnedBytes                          int64
	OwnedTenants                        int
	UserOwnedBytes                      map[string]int64
	UserOwnedTenants                    map[string]int
	Mirror                              time.Duration
	MirrorBytes                         int64
	MirrorsAtOnce                       int
	LFSBytes                            int64
	// PublicURL is at which address users find the server over http, without a slash at its end; "" where nobody says it.
	PublicURL string
	PackCache int64
	// Fsck has the rules by which objects are refused that could be kept.
	Fsck fsck.Rules
	// levels has the levels of single messages, which Fsck has at the end of a file, whatever their lines' order.
	levels [][2]string
}

// Watched gives a reader of which each Read has to end within Idle; else `stop` is called, which closes the connection that it reads
// from. It is for the bodies of requests of http.
func (l *Limits) Watched(from io.Reader, stop func()) io.Reader { return &watched{from, l, stop} }

type watched struct {
	from   io.Reader
	limits *Limits
	stop   func()
}

func (w *watched) Read(into []byte) (int, error) {
	timer := time.AfterFunc(w.limits.Get().Idle, w.stop)
	defer timer.Stop()
	return w.from.Read(into)
}
