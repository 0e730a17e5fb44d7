package httpd

import (
	"context"
	"net"
	"net/http"
	"net/url"
	"strconv"
	"strings"

	"gitpoold/gateway"
)

// Redirect answers requests over plain http until ctx is done: by the same address over https, of which `port` is the port. Challenges of an authority
// for certificates are answered first, where there is one; it may be nil.
func Redirect(ctx context.Context, listener net.Listener, s *gateway.Gateway, port int, challenges func(http.Handler) http.Handler) error {
	var handler http.Handler = redirector(port)
	if challenges != nil {
		handler = challenges(handler)
	}
	return serve(ctx, listener, s, handler)
}

// redirector sends clients to a port of https.
type redirector int

// ServeHTTP answers by 308, so that what git posts is posted again. No body is read, and the connection ends.
func (port redirector) ServeHTTP(w http.ResponseWriter, r *http.Request) {
	w.Header().Set("Connection", "close")
	to, ok := port.address(r)
	if !ok {
		http.Error(w, "this host speaks https alone", http.StatusBadRequest)
		return
	}
	w.Header().Set("Location", to)
	w.WriteHeader(http.StatusPermanentRedirect)
}

// address gives the address of a request over https, unless the host that it names is none.
func (port redirector) address(r *http.Request) (string, bool) {
	host := r.Host
	if name, _, err := net.SplitHostPort(host); err == nil {
		host = name
	}
	host = strings.Trim(host, "[]")
	if host == "" || strings.ContainsAny(host, "/\\@?#% ") || r.URL.Host != "" && r.Method == http.MethodConnect {
		return "", false
	}
	if port != 443 || strings.Contains(host, ":") {
		host = net.JoinHostPort(host, strconv.Itoa(int(port)))
	}
	to := url.URL{Scheme: "https", Host: host, Path: r.URL.Path, RawPath: r.URL.RawPath, RawQuery: r.URL.RawQuery}
	return to.String(), true
}
