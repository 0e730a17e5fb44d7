// Package httpd serves Git's smart protocol over http: gitprotocol-http(5); and pages for browsers.
package httpd

import (
	"bytes"
	"context"
	"errors"
	"io"
	"log"
	"net"
	"net/http"
	"regexp"
	"strconv"
	"time"

	"gitpoold/access"
	"gitpoold/gateway"
	"gitpoold/logs"
	"gitpoold/pages"
	"gitpoold/services"
	"gitpoold/tenants"
)

// server answers requests.
type server struct {
	*gateway.Gateway
	forms *forms
}

// Most of a request's head. A client sends one of a few hundred bytes.
const headBytes = 32 << 10

// Serve answers requests until ctx is done. Then it takes no more connections, lets those requests end that have begun, for a while,
// and returns.
func Serve(ctx context.Context, listener net.Listener, s *gateway.Gateway) error {
	return serve(ctx, seenHeads{listener}, s, &server{s, newForms()})
}

// serve lets a handler answer requests until ctx is done.
func serve(ctx context.Context, listener net.Listener, s *gateway.Gateway, handler http.Handler) error {
	values := s.Limits.Get()
	h := &http.Server{
		Handler: handler, ReadHeaderTimeout: values.Handshake, IdleTimeout: values.Idle, MaxHeaderBytes: headBytes,
		ErrorLog:    log.New(lines{s.Log}, "", 0),
		ConnContext: func(ctx context.Context, c net.Conn) context.Context { return context.WithValue(ctx, connection{}, c) },
	}
	ended := make(chan error, 1)
	go func() { ended <- h.Serve(listener) }()
	select {
	case err := <-ended:
		return err
	case <-ctx.Done():
	}
	drain, stop := context.WithTimeout(context.Background(), s.Limits.Get().Drain)
	defer stop()
	if err := h.Shutdown(drain); err != nil {
		return h.Close()
	}
	return nil
}

// lines writes what net/http says to the log.
type lines struct{ log *logs.Log }

func (l lines) Write(text []byte) (int, error) {
	l.log.Printf("http: %s", bytes.TrimSpace(text))
	return len(text), nil
}

// connection is the key of a request's connection among the values of its context.
type connection struct{}

// stop closes the connection of a request.
func stop(r *http.Request) {
	if c, is := r.Context().Value(connection{}).(net.Conn); is {
		c.Close()
	}
}

var (
	servicePath = regexp.MustCompile(`^/(.+?)(?:\.git)?/(info/refs|git-upload-pack|git-receive-pack)$`)
	dumbPath    = regexp.MustCompile(`^/.+/(?:HEAD|objects/.*)$`)
)

// ServeHTTP answers one request and writes its line to the log.
func (s *server) ServeHTTP(w http.ResponseWriter, r *http.Request) {
	e := &exchange{server: s, w: &counting{ResponseWriter: w, status: http.StatusOK}, r: r, began: time.Now()}
	e.record = logs.Request{Protocol: "http", Address: address(r), What: r.Method + " " + r.URL.Path}
	defer e.log()
	// Whatever the peer does, its connection ends then.
	timer := time.AfterFunc(s.Limits.Get().Request, func() { stop(r) })
	defer timer.Stop()
	defer e.finish()
	switch {
	case !e.frame():
		e.hasFinished = true
		e.w.Header().Set("Connection", "close")
		e.fail(http.StatusBadRequest, "the head of this request does not say in one way how long its body is")
	case r.URL.Path == "/metrics" && isOwn(r):
		w.Header().Set("Content-Type", "text/plain; version=0.0.4")
		s.Metrics.Text(e.w)
	case r.URL.Path == "/healthz":
		_, _ = io.WriteString(e.w, e.health())
	default:
		e.route()
	}
}

// health tells whether this server takes pushes or follows another one.
func (e *exchange) health() string {
	if e.Elsewhere != nil && e.Elsewhere() != nil {
		return "ok following\n"
	}
	return "ok\n"
}

// route finds out whether a browser or git asks. What has the separator of pages in its path is none of git's.
func (e *exchange) route() {
	if e.r.URL.Path == pages.AccountPath {
		e.account()
		return
	}
	if place, isPage := pages.Parse(e.r.URL.Path); isPage {
		e.page(place)
		return
	}
	e.service()
}

// isOwn tells whether a request comes from this machine, and not through a front.
func isOwn(r *http.Request) bool {
	ip := net.ParseIP(address(r))
	return ip != nil && ip.IsLoopback() && r.Header.Get("X-Forwarded-For") == "" && r.Header.Get("Forwarded") == ""
}

func address(r *http.Request) string {
	host, _, err := net.SplitHostPort(r.RemoteAddr)
	if err != nil {
		return r.RemoteAddr
	}
	return host
}

// service finds what a path asks for.
func (e *exchange) service() {
	found := servicePath.FindStringSubmatch(e.r.URL.Path)
	if lfs := lfsPath.FindStringSubmatch(e.r.URL.Path); found == nil && lfs != nil {
		e.lfs(lfs[1], lfs[2])
		return
	}
	if found == nil && dumbPath.MatchString(e.r.URL.Path) {
		e.fail(http.StatusForbidden, "this server speaks Git's smart protocol alone; please upgrade git")
		return
	}
	if found == nil {
		e.notFound()
		return
	}
	e.record.Tenant = found[1]
	isAdvertisement := found[2] == "info/refs"
	if e.name = found[2]; isAdvertisement {
		e.name = e.r.URL.Query().Get("service")
	}
	if !services.IsService(e.name) {
		e.fail(http.StatusForbidden, "this server speaks Git's smart protocol alone; please upgrade git")
		return
	}
	e.right = services.Right(e.name)
	if isAdvertisement {
		e.with(http.MethodGet, (*exchange).advertise)
	} else {
		e.with(http.MethodPost, (*exchange).answer)
	}
}

// with checks the method and the user, and gives the tenant to an answer.
func (e *exchange) with(method string, answer func(*exchange, context.Context, tenants.Tenant)) {
	if e.r.Method != method {
		e.w.Header().Set("Allow", method)
		e.fail(http.StatusMethodNotAllowed, "this is asked by "+method)
		return
	}
	t, ok := e.open()
	if !ok {
		return
	}
	leave, err := e.Limits.Enter(e.record.User, e.record.Address)
	if err != nil {
		e.w.Header().Set("Retry-After", "1")
		e.fail(http.StatusTooManyRequests, err.Error())
		return
	}
	defer leave()
	meter := e.Daily.Meter(e.record.User, e.record.Address)
	if err := meter.Err(); err != nil {
		e.w.Header().Set("Retry-After", strconv.Itoa(int(meter.Left().Seconds())+1))
		e.fail(http.StatusTooManyRequests, err.Error())
		return
	}
	e.meter, e.w.meter = meter, meter
	watched, end := e.Watch(e.r.Context(), e.record.User, e.record.Tenant, e.right, func(error) { stop(e.r) })
	defer end()
	answer(e, watched, t)
}

// open finds the tenant, if the user has the right to it. Else it has answered.
func (e *exchange) open() (t tenants.Tenant, ok bool) {
	user, err := e.login()
	if errors.Is(err, access.ErrBusy) {
		e.w.Header().Set("Retry-After", busyFor)
		e.fail(http.StatusServiceUnavailable, err.Error())
		return t, false
	}
	if err != nil {
		e.askPassword(err.Error())
		return t, false
	}
	if t, err = e.Open(user, e.record.Tenant, e.right); err == nil && e.pass.Login != "" && e.pass.Right < e.right {
		err = gateway.ErrReadOnly
	}
	var blocked *access.Blocked
	switch {
	case err == nil:
		return t, true
	case errors.As(err, &blocked):
		e.fail(http.StatusForbidden, err.Error())
	case user == "":
		e.askPassword("this needs a user and a password")
	case errors.Is(err, gateway.ErrNotFound):
		e.fail(http.StatusNotFound, err.Error())
	default:
		e.fail(http.StatusForbidden, err.Error())
	}
	return t, false
}

// busyFor is after how many seconds it is worth trying again where too many wait.
const busyFor = "10"

// login tells who the user is, "" for a visitor without a password. It is access.ErrWrong or access.ErrBusy where the user is not let in.
func (e *exchange) login() (user string, err error) {
	if text := bearer(e.r); e.isLFS && text != "" {
		return e.showPass(text)
	}
	user, password, hasUser := e.r.BasicAuth()
	if hasUser && user != "" {
		err = e.Access.Password(e.r.Context(), user, password, e.record.Address)
	}
	if err == nil {
		e.record.User = user
	}
	return user, err
}

// challenge asks for a password.
const challenge = `Basic realm="gitpool", charset="UTF-8"`

func (e *exchange) askPassword(why string) {
	e.w.Header().Set("WWW-Authenticate", challenge)
	e.fail(http.StatusUnauthorized, why)
}
