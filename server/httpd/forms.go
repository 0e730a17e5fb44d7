package httpd

import (
	"crypto/hmac"
	"crypto/rand"
	"crypto/sha256"
	"encoding/hex"
	"strconv"
	"time"
)

// forms make and know the tokens of forms: what another site cannot know, and so cannot send in a user's name.
type forms struct{ key [sha256.Size]byte }

// newForms draws the key, which only this process has.
func newForms() *forms {
	f := &forms{}
	if _, err := rand.Read(f.key[:]); err != nil {
		panic(err)
	}
	return f
}

// formLasts is for how long a form may be sent after it was shown, and for at most twice as long.
const formLasts = 6 * time.Hour

// token gives the token of forms that a login is shown now.
func (f *forms) token(login string, now time.Time) string { return f.of(login, spanOf(now)) }

func spanOf(now time.Time) int64 { return now.Unix() / int64(formLasts/time.Second) }

func (f *forms) of(login string, span int64) string {
	mac := hmac.New(sha256.New, f.key[:])
	mac.Write([]byte(strconv.FormatInt(span, 10) + " " + login))
	return hex.EncodeToString(mac.Sum(nil))
}

// isToken tells whether this is a token that the login was shown not too long ago.
func (f *forms) isToken(text, login string, now time.Time) bool {
	span := spanOf(now)
	return hmac.Equal([]byte(text), []byte(f.of(login, span))) || hmac.Equal([]byte(text), []byte(f.of(login, span-1)))
}
