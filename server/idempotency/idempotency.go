// Package idempotency keeps what streams were answered that ended well, by the tokens that clients gave them. A client that lost its connection
// before it was told sends the stream again with the same token, and gets the kept answer; nothing is carried out.
//
// A token comes into the journal with the End of its stream, in one record. So what the journal has is known after a crash as well. A save
// writes all tokens to a file before the journal drops the records of what it saved.
package idempotency

import (
	"encoding/base64"
	"errors"
	"fmt"
	"maps"
	"os"
	"path/filepath"
	"regexp"
	"slices"
	"sync"

	"gitpoold/configfile"
)

// What is kept of each tenant: its last tokens, and of the last replies as many as have no more bytes than this together.
const (
	MostAnswers = 64
	MostBytes   = 64 << 10
)

var token = regexp.MustCompile(`^[A-Za-z0-9._-]{1,64}$`)

// ValidToken tells whether a stream may have this token: 1 to 64 letters, digits, `.`, `_` and `-`.
func ValidToken(word string) bool { return token.MatchString(word) }

// Answer is what a stream with a token was answered. Where IsDropped, the stream is known to have ended, and its reply was too long to be kept.
type Answer struct {
	Token     string
	Reply     []byte
	IsDropped bool
}

// New gives an answer with a reply, which is dropped where it is too long to be kept.
func New(token string, reply []byte) Answer {
	if len(reply) > MostBytes {
		return Answer{Token: token, IsDropped: true}
	}
	return Answer{Token: token, Reply: append([]byte(nil), reply...)}
}

// With gives the answer of a stream that printed more.
func (a Answer) With(more []byte) Answer {
	if a.IsDropped {
		return a
	}
	return New(a.Token, append(append([]byte(nil), a.Reply...), more...))
}

// The first byte of a body says whether it has the reply.
const (
	hasReply  = 0
	isDropped = 1
)

// Body gives an answer as the body of a record of the journal.
func (a Answer) Body() []byte {
	kind := byte(hasReply)
	if a.IsDropped {
		kind = isDropped
	}
	body := append([]byte{kind, byte(len(a.Token))}, a.Token...)
	return append(body, a.Reply...)
}

// Parse reads what Body gave, and tells whether it is that.
func Parse(body []byte) (a Answer, ok bool) {
	if len(body) < 2 || body[0] > isDropped || len(body) < 2+int(body[1]) {
		return Answer{}, false
	}
	end := 2 + int(body[1])
	a = Answer{string(body[2:end]), append([]byte(nil), body[end:]...), body[0] == isDropped}
	return a, ValidToken(a.Token) && len(a.Reply) <= MostBytes
}

// Kept has the answers of all tenants of a pool. Its methods may be called by many goroutines at once.
type Kept struct {
	path string

	mutex     sync.Mutex
	all       map[string][]Answer
	isChanged bool
}

// Open reads the answers of a folder's file `answers`; one that is not there has none. One that is damaged is put aside and told: without it, a
// stream that a client sends again may be carried out again, and nothing else is lost.
func Open(folder string, tell func(format string, values ...any)) (*Kept, error) {
	k := &Kept{path: filepath.Join(folder, "answers"), all: map[string][]Answer{}}
	err := k.read()
	if errors.Is(err, errDamaged) || errors.As(err, new(*configfile.Lost)) {
		var aside string
		if aside, err = putAside(k.path); err == nil {
			tell("%s is damaged and is %s now; streams with tokens that ended before the last save are carried out again if they are sent again", k.path, aside)
		}
		k.all = map[string][]Answer{}
	}
	k.isChanged = false
	return k, err
}

// errDamaged says that a file has a line that is none of this package.
var errDamaged = errors.New("a line is no line TENANT TOKEN REPLY")

func (k *Kept) read() error {
	lines, err := configfile.Read(k.path)
	for at := 0; at < len(lines) && err == nil; at++ {
		err = k.takeLine(lines[at])
	}
	return err
}

// putAside gives a file a name that no other file has.
func putAside(path string) (aside string, err error) {
	aside = path + ".damaged"
	for number := 2; ; number++ {
		if _, err := os.Lstat(aside); errors.Is(err, os.ErrNotExist) {
			return aside, os.Rename(path, aside)
		}
		aside = fmt.Sprintf("%s.damaged-%d", path, number)
	}
}

// dropped stands in a line in the place of a reply that is not kept; no base64 has it.
const dropped = "-"

func (k *Kept) takeLine(words []string) error {
	if len(words) < 2 || len(words) > 3 || !ValidToken(words[1]) {
		return errDamaged
	}
	it := Answer{Token: words[1]}
	if len(words) == 3 && words[2] == dropped {
		it.IsDropped = true
	} else if len(words) == 3 {
		reply, err := base64.StdEncoding.DecodeString(words[2])
		if err != nil {
			return errDamaged
		}
		it.Reply = reply
	}
	k.Add(words[0], it)
	return nil
}

// Find gives what a tenant's stream with a token was answered, if it ended well and that is kept.
func (k *Kept) Find(tenant, token string) (Answer, bool) {
	k.mutex.Lock()
	defer k.mutex.Unlock()
	for _, it := range k.all[tenant] {
		if it.Token == token {
			return it, true
		}
	}
	return Answer{}, false
}

// Add keeps an answer, unless the tenant has one with the same token.
func (k *Kept) Add(tenant string, a Answer) {
	k.mutex.Lock()
	defer k.mutex.Unlock()
	have := k.all[tenant]
	for at := range have {
		if have[at].Token == a.Token {
			// The journal says it again to another child.
			return
		}
	}
	k.all[tenant], k.isChanged = bounded(append(have, a)), true
}

// bounded gives the last of some answers, and drops the replies of those before which there are too many bytes.
func bounded(all []Answer) []Answer {
	if len(all) > MostAnswers {
		all = all[len(all)-MostAnswers:]
	}
	kept, bytes := append([]Answer(nil), all...), 0
	for at := len(kept) - 1; at >= 0; at-- {
		if bytes += len(kept[at].Reply); bytes > MostBytes {
			kept[at] = Answer{Token: kept[at].Token, IsDropped: true}
		}
	}
	return kept
}

// Drop forgets what a tenant's stream with a token was answered.
func (k *Kept) Drop(tenant, token string) {
	k.mutex.Lock()
	defer k.mutex.Unlock()
	have := k.all[tenant]
	for at := range have {
		if have[at].Token == token {
			k.all[tenant], k.isChanged = append(append([]Answer(nil), have[:at]...), have[at+1:]...), true
			return
		}
	}
}

// Of gives the answers that are kept of a tenant, the oldest one first.
func (k *Kept) Of(tenant string) []Answer {
	k.mutex.Lock()
	defer k.mutex.Unlock()
	return append([]Answer(nil), k.all[tenant]...)
}

// Put keeps these answers of a tenant, in the place of all others.
func (k *Kept) Put(tenant string, all []Answer) {
	k.mutex.Lock()
	defer k.mutex.Unlock()
	k.isChanged = true
	delete(k.all, tenant)
	if len(all) > 0 {
		k.all[tenant] = bounded(all)
	}
}

// Save writes the file, if something has changed. What it wrote lasts when it returns nil; else the file is as it was.
func (k *Kept) Save() error {
	k.mutex.Lock()
	defer k.mutex.Unlock()
	if !k.isChanged {
		return nil
	}
	err := configfile.Write(k.path, k.lines())
	k.isChanged = err != nil
	return err
}

// lines are those of the file; the mutex is held.
func (k *Kept) lines() (lines []string) {
	names := slices.Sorted(maps.Keys(k.all))
	for _, name := range names {
		for _, it := range k.all[name] {
			line := name + " " + it.Token
			if it.IsDropped {
				line += " " + dropped
			} else if len(it.Reply) > 0 {
				line += " " + base64.StdEncoding.EncodeToString(it.Reply)
			}
			lines = append(lines, line)
		}
	}
	return lines
}
