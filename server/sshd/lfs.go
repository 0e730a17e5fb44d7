package sshd

import (
	"encoding/json"
	"strings"
	"time"

	"gitpoold/access"
	"gitpoold/lfs"
	"gitpoold/logs"
	"gitpoold/services"
)

// The commands of clients of Git LFS. They try the second one first, and go on where it is refused.
const (
	lfsAuthenticate = "git-lfs-authenticate"
	lfsTransfer     = "git-lfs-transfer"
)

// What clients of Git LFS are told.
const (
	lfsOverHTTP = "files of Git LFS go over http here, for which " + lfsAuthenticate + " gives a token"
	lfsUsage    = lfsAuthenticate + " takes a path and upload or download"
	lfsNowhere  = "this server does not know at which address it is found over http, where files of Git LFS go; its operator says it by " +
		"`gitpoold limits DIR public-url URL`"
)

// parseLFS reads the words of a command of Git LFS. A word may stand in single quotes.
func parseLFS(command string) (words []string, ok bool) {
	const longest = 1024
	words = strings.Fields(command)
	if len(words) == 0 || words[0] != lfsAuthenticate && words[0] != lfsTransfer {
		return nil, false
	}
	for at, it := range words {
		word, isWord := unquote(it)
		if !isWord || len(command) > longest {
			return words[:1], true
		}
		words[at] = word
	}
	return words, true
}

// runLFS lets a client of Git LFS in over http, and gives the status.
func (s *session) runLFS(words []string) uint32 {
	switch {
	case !s.LFS.IsUsed():
		return s.say(services.NoLFS)
	case words[0] == lfsTransfer:
		return s.say(lfsOverHTTP)
	case len(words) != 3 || words[2] != lfs.Upload && words[2] != lfs.Download:
		s.say(lfsUsage)
		return usage
	}
	right := access.Read
	if words[2] == lfs.Upload {
		right = access.Write
	}
	t, _, leave, err := s.enter(tenantOf(words[1]), right)
	if err != nil {
		return s.say(err.Error())
	}
	defer leave()
	record := logs.Request{Protocol: "ssh", Address: s.address, User: s.user, Tenant: t.Name(), What: strings.Join(words, " ")}
	record.Status = int(s.authenticate(t.Name(), right))
	s.Log.Request(record)
	return uint32(record.Status)
}

// authenticate tells a client at which address it goes on, and by what pass.
func (s *session) authenticate(tenant string, right access.Right) uint32 {
	base := s.PublicURL()
	switch {
	case !s.LFS.IsOn(tenant):
		return s.say(services.NoLFS)
	case base == "":
		return s.say(lfsNowhere)
	}
	shown := s.conn.Permissions.Extensions
	pass := lfs.Pass{Login: s.user, Tenant: tenant, Right: right, Until: time.Now().Add(lfs.PassLasts).Unix(), Key: []byte(shown[keyKey])}
	err := json.NewEncoder(s.channel).Encode(lfs.Action{Href: base + "/" + tenant + ".git/info/lfs",
		Header:    map[string]string{"Authorization": "Bearer " + s.LFS.Sign(pass, shown[hashKey])},
		ExpiresIn: int64(lfs.PassLasts / time.Second)})
	if err != nil {
		return failed
	}
	return ended
}
