package lfs

import (
	"crypto/hmac"
	"crypto/sha256"
	"encoding/base64"
	"encoding/json"
	"errors"
	"strings"
	"time"

	"gitpoold/access"
)

// Pass lets a login do something with the files of one tenant over http for a short time: who came over ssh has no password there. It holds as long
// as the key or the password that let the login in.
type Pass struct {
	Login, Tenant string
	Right         access.Right
	// Until is when it ends, in seconds since 1970.
	Until int64
	// Key is the key of ssh that let the login in, and empty where a password did.
	Key []byte
}

// PassLasts is for how long a pass holds.
const PassLasts = 30 * time.Minute

// written is how a pass is written: each has one text.
var written = base64.RawURLEncoding.Strict()

// ErrPass is the refusal of a pass.
var ErrPass = errors.New("the token is over, or not for this; let git-lfs ask for another one")

// Sign gives the text of a pass. The key under which it is signed is drawn at each start. `hash` is that of the login's password, if there is no key.
func (s *Store) Sign(p Pass, hash string) string {
	text, _ := json.Marshal(p)
	return written.EncodeToString(text) + "." + written.EncodeToString(s.mac(text, p, hash))
}

func (s *Store) mac(text []byte, p Pass, hash string) []byte {
	mac := hmac.New(sha256.New, s.key[:])
	mac.Write(text)
	if len(p.Key) == 0 {
		mac.Write([]byte(hash))
	}
	return mac.Sum(nil)
}

// Check reads the text of a pass for a tenant, and is ErrPass where it does not hold. `hashOf` gives the hash of a login's password as it is now, and
// `hasKey` tells whether a key is the login's.
func (s *Store) Check(text, tenant string, now time.Time, hashOf func(login string) string, hasKey func(login, key string) bool) (p Pass, err error) {
	body, sum, _ := strings.Cut(text, ".")
	said, err := written.DecodeString(body)
	if err == nil {
		err = json.Unmarshal(said, &p)
	}
	signed, badSum := written.DecodeString(sum)
	switch {
	case err != nil || badSum != nil:
	case !hmac.Equal(signed, s.mac(said, p, hashOf(p.Login))):
	case len(p.Key) > 0 && !hasKey(p.Login, string(p.Key)):
	case p.Tenant == tenant && now.Unix() < p.Until:
		return p, nil
	}
	return Pass{}, ErrPass
}
