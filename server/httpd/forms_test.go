package httpd

import (
	"net/http/httptest"
	"testing"
	"time"
)

func TestTokensOfForms(t *testing.T) {
	f, other, now := newForms(), newForms(), time.Now()
	text := f.token("alice", now)
	for _, it := range []struct {
		by    *forms
		text  string
		login string
		after time.Duration
		is    bool
	}{
		{f, text, "alice", 0, true}, {f, text, "alice", formLasts, true}, {f, text, "alice", 2*formLasts + time.Second, false}, {f, text, "bob", 0, false},
		{f, text, "", 0, false}, {other, text, "alice", 0, false}, {f, "", "alice", 0, false}, {f, text[:len(text)-1], "alice", 0, false},
		{f, text, "alice", -2 * formLasts, false}, {f, f.token("", now), "alice", 0, false},
	} {
		if it.by.isToken(it.text, it.login, now.Add(it.after)) != it.is {
			t.Errorf("%+v", it)
		}
	}
}

func TestWhereFormsComeFrom(t *testing.T) {
	for _, it := range []struct {
		gateway, origin string
		has, is         bool
	}{
		{"", "", false, true}, {"same-origin", "http://example.com", true, true}, {"same-origin", "", false, true}, {"cross-site", "", false, false},
		{"same-site", "http://example.com", true, false}, {"none", "", false, false}, {"", "http://example.com", true, true},
		{"", "https://EXAMPLE.com", true, true}, {"", "http://example.com:80", true, false}, {"", "http://example.com.evil", true, false},
		{"", "null", true, false}, {"", "", true, false}, {"", "example.com", true, false}, {"", "http://a@example.com.evil/example.com", true, false},
	} {
		r := httptest.NewRequest("POST", "http://example.com/-/account", nil)
		if it.gateway != "" {
			r.Header.Set("Sec-Fetch-Site", it.gateway)
		}
		if it.has {
			r.Header["Origin"] = []string{it.origin}
		}
		if isOwnForm(r) != it.is {
			t.Errorf("%+v", it)
		}
	}
}
