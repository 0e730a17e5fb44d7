package httpd

import (
	"encoding/json"
	"io"
	"net/http"
	"net/http/httptest"
	"strings"
	"testing"

	"gitpoold/gateway"
	"gitpoold/limits"
	"gitpoold/logs"
	"gitpoold/metrics"
	"gitpoold/services"
)

// TestLFSIsRefusedInItsWords asks as git-lfs does, without a password: what it shows is a message in JSON of its own type, and it asks for no password
// and does not try again.
func TestLFSIsRefusedInItsWords(t *testing.T) {
	l, err := limits.Load(t.TempDir(), t.Logf)
	if err != nil {
		t.Fatal(err)
	}
	s := &server{&gateway.Gateway{Limits: l, Log: logs.New(io.Discard, metrics.New())}, nil}
	for _, it := range []struct{ method, path string }{
		{"POST", "/acme/site.git/info/lfs/objects/batch"}, {"POST", "/acme/site/info/lfs/objects/batch"}, {"POST", "/acme/site.git/info/lfs/locks/verify"},
		{"GET", "/acme/site.git/info/lfs/locks?limit=1"}, {"PUT", "/acme/site.git/info/lfs/objects/" + strings.Repeat("a", 64)},
		{"POST", "/acme/site.git/info/lfs"},
	} {
		w, r := httptest.NewRecorder(), httptest.NewRequest(it.method, it.path, strings.NewReader("{}"))
		r.Header.Set("Accept", lfsType)
		s.ServeHTTP(w, r)
		var answer struct{ Message string }
		if err := json.Unmarshal(w.Body.Bytes(), &answer); err != nil || answer.Message != services.NoLFS {
			t.Errorf("%s %s: %v, %s", it.method, it.path, err, w.Body)
		}
		if w.Code != http.StatusNotImplemented || w.Header().Get("Content-Type") != lfsType || w.Header().Get("WWW-Authenticate") != "" {
			t.Errorf("%s %s: %d %v", it.method, it.path, w.Code, w.Header())
		}
	}
}
