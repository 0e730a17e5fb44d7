package access

import (
	"context"
	"crypto/hmac"
	"crypto/rand"
	"crypto/sha256"
	"errors"
	"math"
	"net"
	"sync"
	"time"

	"golang.org/x/crypto/bcrypt"

	"gitpoold/fair"
)

// The kinds of those who wait for a hash: users who call from where they were let in before, and all others.
const (
	acquainted = fair.First
	strangers  = fair.Second
)

// oneByOne lets one try at a time out of each queue, however many queues there are.
var oneByOne = fair.Limits{Places: math.MaxInt32, OfKind: [2]int{math.MaxInt32, math.MaxInt32}, OfOneOfIt: [2]int{1, 1}}

// hashes bounds how many passwords are hashed at once, so that tries take no more than two processors. A hash takes little time, so those of one kind
// may have both places while nobody of the other waits.
var hashes = fair.Limits{Places: 2, OfKind: [2]int{2, 2}, OfOneOfIt: [2]int{1, 1}}

const (
	// patience is how long a password waits for its turn.
	patience = 20 * time.Second
	// proofLasts is how long a password that was right is not hashed again.
	proofLasts = 5 * time.Minute
	// longestPassword is what bcrypt looks at.
	longestPassword = 72
)

// hashCost is bcrypt's: a hash takes about a twentieth of a second.
var hashCost = 10

// Why a user is not let in.
var (
	ErrWrong = errors.New("the user or the password is wrong")
	ErrBusy  = errors.New("the server looks at as many passwords as it can; try again")
)

// Password is nil where this is the password of a user who calls from an address, else ErrWrong. Tries for one user that follow wrong ones wait up to a
// second. Then each waits for its turn, and is ErrBusy where that does not come within Patience, or the context ends.
func (a *Access) Password(ctx context.Context, user, password, address string) error {
	hash, known := a.rules.Get().hashOf(user)
	if known && a.proofs.has(user, hash, password) {
		return nil
	}
	if !ValidUser(user) && !known {
		// What is counted by users is not to grow with what clients call themselves.
		user = ""
	}
	from := Network(address)
	if !a.throttle.wait(ctx, "for "+user) {
		return ErrBusy
	}
	ctx, stop := context.WithTimeout(ctx, a.Patience)
	defer stop()
	queue := a.queueOf(user, from)
	done, err := a.queues.Acquire(ctx, strangers, queue, user)
	if err != nil {
		return ErrBusy
	}
	err = a.judge(ctx, user, password, from)
	if errors.Is(err, ErrWrong) {
		// The next one of this queue has its turn after a while, whoever it is by then.
		time.AfterFunc(a.throttle.note(queue, "for "+user), done)
	} else {
		done()
	}
	return err
}

// queueOf names the queue in which a try waits, one behind another: that of its network; or one of its own, where the user was let in from there before.
// So whoever guesses the passwords of others does not keep out those who are at home there.
func (a *Access) queueOf(user, from string) string {
	if a.met.has(user, from) {
		return "from " + from + " by " + user
	}
	return "from " + from
}

// judge compares a password with that of the user, when it has its turn.
func (a *Access) judge(ctx context.Context, user, password, from string) error {
	leave, err := a.enter(ctx, user, from)
	if err != nil {
		return ErrBusy
	}
	defer leave()
	hash, known := a.rules.Get().hashOf(user)
	compared := []byte(hash)
	if !known {
		compared = a.nobody
	}
	if bcrypt.CompareHashAndPassword(compared, []byte(password)) != nil || !known || len(password) > longestPassword {
		return ErrWrong
	}
	a.proofs.add(user, hash, password)
	a.met.add(user, from)
	return nil
}

// enter waits for a place to hash. Networks take turns, and the users of one among themselves; users who were let in from there before take turns apart.
func (a *Access) enter(ctx context.Context, user, from string) (leave func(), err error) {
	if a.met.has(user, from) {
		return a.places.Acquire(ctx, acquainted, user, from)
	}
	return a.places.Acquire(ctx, strangers, from, user)
}

// met remembers from where users were let in.
type met struct {
	mutex sync.Mutex
	from  map[string]map[string]bool
}

// mostMet is how many networks are remembered of one user. Beyond it all of them are new again.
const mostMet = 64

func (m *met) has(user, from string) bool {
	m.mutex.Lock()
	defer m.mutex.Unlock()
	return m.from[user][from]
}

func (m *met) add(user, from string) {
	m.mutex.Lock()
	defer m.mutex.Unlock()
	if m.from[user] == nil || len(m.from[user]) == mostMet {
		m.from[user] = map[string]bool{}
	}
	m.from[user][from] = true
}

// Network is what addresses are counted by: an address of IPv4, or the /64 of one of IPv6.
func Network(address string) string {
	host, _, err := net.SplitHostPort(address)
	if err != nil {
		host = address
	}
	ip := net.ParseIP(host)
	if ip == nil || ip.To4() != nil {
		return host
	}
	return ip.Mask(net.CIDRMask(64, 128)).String()
}

// proofs remember passwords that were right, by a digest under a key that only this process has.
type proofs struct {
	key   []byte
	mutex sync.Mutex
	known map[string]proof
}

type proof struct {
	digest []byte
	hash   string
	until  time.Time
}

func newProofs() proofs {
	key := make([]byte, sha256.Size)
	if _, err := rand.Read(key); err != nil {
		panic(err)
	}
	return proofs{key: key, known: map[string]proof{}}
}

func (p *proofs) digest(password string) []byte {
	mac := hmac.New(sha256.New, p.key)
	mac.Write([]byte(password))
	return mac.Sum(nil)
}

func (p *proofs) has(user, hash, password string) bool {
	p.mutex.Lock()
	it, found := p.known[user]
	p.mutex.Unlock()
	return hmac.Equal(it.digest, p.digest(password)) && found && it.hash == hash && time.Now().Before(it.until)
}

func (p *proofs) add(user, hash, password string) {
	p.mutex.Lock()
	defer p.mutex.Unlock()
	p.known[user] = proof{p.digest(password), hash, time.Now().Add(proofLasts)}
}

// throttle counts wrong tries. A count falls by one each half minute.
type throttle struct {
	mutex  sync.Mutex
	counts map[string]tries
}

type tries struct {
	count int
	last  time.Time
}

const (
	freeTries   = 3
	firstWait   = 100 * time.Millisecond
	forgetAfter = 30 * time.Second
	mostCounts  = 1 << 16
)

// The longest waits: between two tries of one queue, and of each try for a user, from wherever.
const (
	longestInQueue = 10 * time.Second
	longestForUser = time.Second
)

func newThrottle() throttle { return throttle{counts: map[string]tries{}} }

// left gives a count as it is now.
func (t tries) left(now time.Time) int {
	count := t.count - int(now.Sub(t.last)/forgetAfter)
	return max(0, count)
}

// waitOf is how long a try waits after so many wrong ones.
func waitOf(count int, longest time.Duration) time.Duration {
	wait := firstWait
	if count < freeTries {
		return 0
	}
	for ; count > freeTries && wait < longest; count-- {
		wait *= 2
	}
	return min(longest, wait)
}

// wait waits as long as the tries for a user before ask for, and tells whether the context lasted.
func (t *throttle) wait(ctx context.Context, user string) bool {
	t.mutex.Lock()
	wait := waitOf(t.counts[user].left(time.Now()), longestForUser)
	t.mutex.Unlock()
	if wait == 0 {
		return ctx.Err() == nil
	}
	timer := time.NewTimer(wait)
	defer timer.Stop()
	select {
	case <-timer.C:
		return true
	case <-ctx.Done():
		return false
	}
}

// note counts a wrong try, and tells how long the next one of its queue has to wait.
func (t *throttle) note(queue, user string) time.Duration {
	t.mutex.Lock()
	defer t.mutex.Unlock()
	now := time.Now()
	if len(t.counts) > mostCounts {
		t.forget(now)
	}
	for _, key := range []string{queue, user} {
		t.counts[key] = tries{t.counts[key].left(now) + 1, now}
	}
	return waitOf(t.counts[queue].count, longestInQueue)
}

// forget drops the counts that fell to nothing; where that is not enough, all.
func (t *throttle) forget(now time.Time) {
	for key, it := range t.counts {
		if it.left(now) == 0 {
			delete(t.counts, key)
		}
	}
	if len(t.counts) > mostCounts {
		t.counts = map[string]tries{}
	}
}
