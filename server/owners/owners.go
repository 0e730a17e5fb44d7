// Package owners keeps who made each tenant, and bounds what one user may have in all tenants that it made.
//
// The file `owners` of a server's folder has a line `TENANT USER` for each tenant that a push or a stream made, in the order in which that came; a
// later line of a tenant holds, and the user `-` forgets it. A line is on the disk before the push begins, so a push that was told has its owner. A
// tenant that the operator made, or that there was before the file, has none.
package owners

import (
	"errors"
	"fmt"
	"io"
	"os"
	"path/filepath"
	"strings"
	"sync"

	"gitpoold/configfile"
	"gitpoold/regular"
	"gitpoold/tenants"
)

// nobody stands in the place of the owner of a tenant that has none.
const nobody = "-"

// unlimited is the room of who has no limit.
const unlimited = 1 << 62

// Owners has the owners of a server's tenants. Its methods may be called by many goroutines at once.
type Owners struct {
	most  func(user string) (bytes int64, tenants int)
	bytes func(tenant string) int64

	path  string
	mutex sync.Mutex
	file  *os.File
	size  int64
	of    map[string]string
	all   map[string]map[string]bool
	// busy is how many pushes and streams of a tenant are at work, and taken how many bytes those of a user's tenants have brought so far.
	busy  map[string]int
	taken map[string]int64
}

// Open reads the owners of a folder. `most` gives how many bytes and tenants a user may have now, 0 for no limit, and `bytes` what a tenant has.
func Open(folder string, most func(user string) (int64, int), bytes func(tenant string) int64) (*Owners, error) {
	o := &Owners{path: filepath.Join(folder, "owners"), most: most, bytes: bytes, busy: map[string]int{}, taken: map[string]int64{}}
	if _, err := os.Stat(o.path); errors.Is(err, os.ErrNotExist) {
		made, err := os.OpenFile(o.path, os.O_RDWR|os.O_CREATE, 0o600)
		if err != nil {
			return nil, err
		}
		made.Close()
	}
	return o, o.read()
}

// read reads the file. A line without an end is what a crash has left of one that nobody was told of.
func (o *Owners) read() error {
	file, err := regular.Open(o.path, os.O_RDWR)
	if err != nil {
		return err
	}
	text, err := io.ReadAll(file)
	whole := text[:strings.LastIndexByte(string(text), '\n')+1]
	if err == nil && len(whole) < len(text) {
		err = file.Truncate(int64(len(whole)))
	}
	var lines [][]string
	if err == nil {
		lines, err = parse(o.path, string(whole))
	}
	if err != nil {
		file.Close()
		return err
	}
	if o.file != nil {
		o.file.Close()
	}
	o.file, o.size, o.of, o.all = file, int64(len(whole)), map[string]string{}, map[string]map[string]bool{}
	for _, words := range lines {
		o.set(words[0], words[1])
	}
	return nil
}

func parse(path, text string) (lines [][]string, err error) {
	for _, line := range strings.Split(text, "\n") {
		words := strings.Fields(line)
		if len(words) == 0 || strings.HasPrefix(words[0], "#") {
			continue
		}
		if len(words) != 2 {
			return nil, &configfile.Lost{Path: path, Reason: "has a line that is none of TENANT USER"}
		}
		lines = append(lines, words)
	}
	return lines, nil
}

// refresh reads the file again where the operator has put another one there, or has written to it. The mutex is held.
func (o *Owners) refresh() error {
	named, err := os.Stat(o.path)
	if err != nil {
		return err
	}
	mine, err := o.file.Stat()
	if err == nil && os.SameFile(named, mine) && named.Size() == o.size {
		return nil
	}
	return o.read()
}

// Close closes the file.
func (o *Owners) Close() error {
	o.mutex.Lock()
	defer o.mutex.Unlock()
	return o.file.Close()
}

// Of gives the owner of a tenant, or `-`.
func (o *Owners) Of(tenant string) string {
	o.mutex.Lock()
	defer o.mutex.Unlock()
	_ = o.refresh()
	if owner, has := o.of[tenant]; has {
		return owner
	}
	return nobody
}

// set sets the owner of a tenant in memory. The mutex is held, or nobody else has it yet.
func (o *Owners) set(tenant, user string) {
	if before, has := o.of[tenant]; has {
		delete(o.of, tenant)
		delete(o.all[before], tenant)
	}
	if user == nobody {
		return
	}
	o.of[tenant] = user
	if o.all[user] == nil {
		o.all[user] = map[string]bool{}
	}
	o.all[user][tenant] = true
}

// note sets the owner of a tenant once the file has it on the disk. The mutex is held.
func (o *Owners) note(tenant, user string) error {
	err := o.refresh()
	if err == nil {
		err = o.append([]byte(tenant + " " + user + "\n"))
	}
	if err != nil {
		return fmt.Errorf("who made a repository cannot be written: %w", err)
	}
	o.set(tenant, user)
	return nil
}

// append appends a line to the file. On an error the file is as it was.
func (o *Owners) append(line []byte) error {
	_, err := o.file.WriteAt(line, o.size)
	if err == nil {
		err = o.file.Sync()
	}
	if err != nil {
		_ = o.file.Truncate(o.size)
		return err
	}
	o.size += int64(len(line))
	return nil
}

// Forget forgets the owner of a tenant that is removed.
func (o *Owners) Forget(tenant string) error { return o.Put(tenant, nobody) }

// Put sets the owner of a tenant, such as of a copy. It lasts when Put returns nil.
func (o *Owners) Put(tenant, user string) error {
	o.mutex.Lock()
	defer o.mutex.Unlock()
	if before, has := o.of[tenant]; before == user || !has && user == nobody {
		return nil
	}
	return o.note(tenant, user)
}

// Room gives how many bytes a push by a user may bring to a tenant, by the limits of its owner. Who makes a tenant is refused by
// tenants.ErrUserTenants where that would be one too many.
func (o *Owners) Room(user, tenant string) (int64, error) {
	o.mutex.Lock()
	defer o.mutex.Unlock()
	owner, err := o.ownerFor(user, tenant)
	if err != nil {
		return 0, err
	}
	return o.room(owner)
}

func (o *Owners) room(owner string) (int64, error) {
	most, _ := o.most(owner)
	if owner == nobody || most == 0 {
		return unlimited, nil
	}
	room := most - o.taken[owner]
	for tenant := range o.all[owner] {
		room -= o.bytes(tenant)
	}
	if room <= 0 {
		return 0, tenants.ErrUserFull
	}
	return room, nil
}

// ownerFor gives the owner of a tenant, or who becomes it. The mutex is held.
func (o *Owners) ownerFor(user, tenant string) (string, error) {
	owner, has := o.of[tenant]
	isThere := o.bytes(tenant) > 0
	switch {
	case has && (isThere || o.busy[tenant] > 0 || owner == user):
		return owner, nil
	case isThere:
		return nobody, nil
	}
	if _, most := o.most(user); most > 0 && len(o.all[user]) >= most {
		o.forgetEmpty(user)
		if len(o.all[user]) >= most {
			return "", tenants.ErrUserTenants
		}
	}
	return user, nil
}

// forgetEmpty forgets the tenants of a user in which nothing came to be, as after a crash. The mutex is held.
func (o *Owners) forgetEmpty(user string) {
	for tenant := range o.all[user] {
		if o.busy[tenant] == 0 && o.bytes(tenant) == 0 && o.note(tenant, nobody) != nil {
			return
		}
	}
}

// share is the part of one push or stream in what its tenant's owner has.
type share struct {
	owners        *Owners
	owner, tenant string
	isNew         bool
	bytes, ahead  int64
}

// Enter begins a push or a stream of a user: the tenant has an owner from now on, on the disk. No other one of the tenant may be at work.
func (o *Owners) Enter(user, tenant string) (tenants.Reservation, error) {
	o.mutex.Lock()
	defer o.mutex.Unlock()
	owner, err := o.ownerFor(user, tenant)
	if err != nil {
		return nil, err
	}
	isNew := owner != nobody && o.of[tenant] != owner
	if isNew {
		if err := o.note(tenant, owner); err != nil {
			return nil, err
		}
	}
	o.busy[tenant]++
	return &share{owners: o, owner: owner, tenant: tenant, isNew: isNew}, nil
}

// takeFrom is how many bytes of a push are counted together: to count costs a look at all tenants of the owner.
const takeFrom = 1 << 20

// Take counts bytes of a push, beside those of others that are at work. It is ErrUserFull where the owner has no room for them.
func (s *share) Take(bytes int64) error {
	if s.ahead += bytes; s.ahead < takeFrom {
		return nil
	}
	o := s.owners
	o.mutex.Lock()
	defer o.mutex.Unlock()
	if room, err := o.room(s.owner); err != nil || room < s.ahead {
		return tenants.ErrUserFull
	}
	o.taken[s.owner] += s.ahead
	s.bytes, s.ahead = s.bytes+s.ahead, 0
	return nil
}

// Leave ends the push or the stream, whose bytes are the tenant's now. A tenant that was to be made by it is forgotten where it has left nothing.
func (s *share) Leave(hasLeft bool) {
	o := s.owners
	o.mutex.Lock()
	defer o.mutex.Unlock()
	if o.taken[s.owner] -= s.bytes; o.taken[s.owner] == 0 {
		delete(o.taken, s.owner)
	}
	if o.busy[s.tenant]--; o.busy[s.tenant] > 0 {
		return
	}
	delete(o.busy, s.tenant)
	if s.isNew && !hasLeft && o.bytes(s.tenant) == 0 {
		// Where it cannot be written, it is forgotten when the user makes one too many.
		_ = o.note(s.tenant, nobody)
	}
}
