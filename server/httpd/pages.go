package httpd

import (
	"bufio"
	"bytes"
	"errors"
	"fmt"
	"net"
	"net/http"
	"net/url"
	"regexp"
	"strings"
	"time"

	"gitpoold/access"
	"gitpoold/gateway"
	"gitpoold/limits"
	"gitpoold/pages"
)

// page answers a browser.
func (e *exchange) page(place pages.Place) {
	if e.r.Method != http.MethodGet && e.r.Method != http.MethodHead {
		e.w.Header().Set("Allow", "GET, HEAD")
		e.fail(http.StatusMethodNotAllowed, "a page is asked by GET")
		return
	}
	e.finish()
	v := pages.Visit{Place: place, Query: e.r.URL.Query(), Now: time.Now(), Markdown: e.Markdown, Highlight: e.Highlight,
		Network: access.Network(e.record.Address), IsIndexed: e.Limits.Get().IsIndexed, Origin: e.origin()}
	unescaped, _ := url.PathUnescape(place.URL())
	switch {
	case place.Kind == pages.Style || place.Kind == pages.Icon:
		e.send(pages.Static(place.Kind))
	case place.Kind == pages.Robots:
		e.send(v.Robots())
	case unescaped != e.r.URL.Path:
		// It says nothing of whether there is such a tenant.
		e.send(pages.Answer{Status: http.StatusFound, Location: place.URL()})
	default:
		e.enter(v)
	}
}

// enter finds out who asks for a page, and whether it is their turn.
func (e *exchange) enter(v pages.Visit) {
	e.record.Tenant = v.Place.Tenant
	user, err := e.login()
	if errors.Is(err, access.ErrBusy) {
		e.send(v.Refusal(http.StatusServiceUnavailable, "The server is busy", "Please try again in a moment."))
		return
	}
	if err != nil {
		e.askSignIn(v, "The user or the password is wrong.")
		return
	}
	v.User = user
	leave, err := e.Limits.Enter(user, e.record.Address)
	if err != nil {
		e.w.Header().Set("Retry-After", "1")
		e.send(v.Refusal(http.StatusTooManyRequests, "Too many requests at once", "Please try again in a moment."))
		return
	}
	defer leave()
	_, end := e.Watch(e.r.Context(), user, v.Place.Tenant, access.Read, func(error) { stop(e.r) })
	defer end()
	e.visit(v)
}

// visit lets a user in, or says that there is no such repository.
func (e *exchange) visit(v pages.Visit) {
	if v.Place.Kind == pages.Tenants || v.Place.Kind == pages.Sitemap {
		if err := e.Access.Blocked(v.User, "", access.Read); err != nil {
			e.send(v.Refusal(http.StatusForbidden, "Blocked", err.Error()))
			return
		}
		if to, wants := v.Query["sign-in"]; wants {
			e.signIn(v, to[0])
			return
		}
		v.Listed = func() []pages.Listed { return e.listed(v.User) }
		e.send(v.Answer(e.r.Context()))
		return
	}
	t, err := e.Open(v.User, v.Place.Tenant, access.Read)
	var blocked *access.Blocked
	switch {
	case errors.As(err, &blocked):
		e.send(v.Refusal(http.StatusForbidden, "Blocked", err.Error()))
		return
	case err != nil && v.User == "":
		e.askSignIn(v, "This needs a user and a password.")
		return
	case err != nil:
		e.send(v.Refusal(http.StatusNotFound, "No such repository", "There is no such repository, or you may not read it."))
		return
	}
	v.Repository = t
	v.CloneHTTP, v.CloneSSH = e.cloneURLs(v.User, v.Place.Tenant)
	v.Description = e.Catalogue.Description(v.Place.Tenant)
	answer := v.Answer(e.r.Context())
	if answer.End != nil {
		defer answer.End()
	}
	e.sendCounted(v, answer)
}

// taker is under which name the answers that a user has not taken yet are counted.
func (e *exchange) taker(user string) string {
	if user == "" {
		return "visitor " + access.Network(e.record.Address)
	}
	return user
}

// sendCounted sends an answer, which counts among those that wait until a user takes them: a file may be large, and its taker slow.
func (e *exchange) sendCounted(v pages.Visit, a pages.Answer) {
	taken, err := e.Limits.Wait(e.taker(v.User), len(a.Body))
	if errors.Is(err, limits.ErrAnswer) {
		e.send(v.Refusal(http.StatusTooManyRequests, "Too large", err.Error()+"; clone the repository instead."))
		return
	}
	if err != nil {
		e.w.Header().Set("Retry-After", "1")
		e.send(v.Refusal(http.StatusTooManyRequests, "Too many answers at once", "Please try again when the others have come."))
		return
	}
	defer taken()
	e.send(a)
}

// listed are the tenants that a user may see and that have something.
func (e *exchange) listed(user string) (all []pages.Listed) {
	said := e.Catalogue.Descriptions()
	for _, name := range e.Pool.Names() {
		right := e.Access.Right(user, name)
		if right == access.None {
			continue
		}
		if t, err := e.Pool.Tenant(name); err == nil {
			all = append(all, pages.Listed{Name: name, Description: said[name], Pushed: e.Catalogue.Pushed(name), CanPush: right >= access.Write,
				Repository: t})
		}
	}
	return all
}

func (e *exchange) askSignIn(v pages.Visit, why string) {
	e.w.Header().Set("WWW-Authenticate", challenge)
	e.send(v.Refusal(http.StatusUnauthorized, "Sign in", why))
}

// signIn asks who the user is, and leads back to the page from which they came.
func (e *exchange) signIn(v pages.Visit, to string) {
	if v.User == "" {
		e.askSignIn(v, "This needs a user and a password.")
		return
	}
	back := pages.Place{Kind: pages.Tenants}
	if path, err := url.PathUnescape(to); err == nil {
		if place, is := pages.Parse(path); is {
			back = place
		}
	}
	e.send(pages.Answer{Status: http.StatusSeeOther, Location: back.URL()})
}

var hostForm = regexp.MustCompile(`^(?:[A-Za-z0-9.-]{1,253}|\[[0-9A-Fa-f:.]{2,45}\])(?::[0-9]{1,5})?$`)

// origin is the front of the URLs of this server, by the name under which the browser found it; "" where that is none.
func (e *exchange) origin() string {
	switch {
	case !hostForm.MatchString(e.r.Host):
		return ""
	case isTLS(e.r) || strings.EqualFold(e.r.Header.Get("X-Forwarded-Proto"), "https"):
		return "https://" + e.r.Host
	}
	return "http://" + e.r.Host
}

// cloneURLs are what git takes, by the name under which the browser found the server.
func (e *exchange) cloneURLs(user, tenant string) (overHTTP, overSSH string) {
	host, who := e.r.Host, ""
	scheme, _, isKnown := strings.Cut(e.origin(), "://")
	if !isKnown {
		return "", ""
	}
	if user != "" {
		who = user + "@"
	}
	overHTTP = fmt.Sprintf("%s://%s%s/%s.git", scheme, who, host, tenant)
	if e.SSHPort != 0 && user != "" {
		name, _, err := net.SplitHostPort(host)
		if err != nil {
			name = strings.Trim(host, "[]")
		}
		overSSH = fmt.Sprintf("ssh://%s%s/%s.git", who, net.JoinHostPort(name, fmt.Sprint(e.SSHPort)), tenant)
	}
	return overHTTP, overSSH
}

// What a browser may do with an answer: a page may use the server's own style and icon, and show pictures that the server sends as such; that of an
// account, of a search and the list of repositories may send forms to the server; anything else may do nothing.
const (
	pagePolicy = "default-src 'none'; style-src 'self'; img-src 'self'; base-uri 'none'; form-action 'none'; frame-ancestors 'none'"
	formPolicy = "default-src 'none'; style-src 'self'; img-src 'self'; base-uri 'none'; form-action 'self'; frame-ancestors 'none'"
	filePolicy = "default-src 'none'; base-uri 'none'; form-action 'none'; frame-ancestors 'none'; sandbox"
)

// setPolicies says what a browser may do with an answer, and for how long it may keep it.
func setPolicies(h http.Header, a pages.Answer) {
	h.Set("X-Content-Type-Options", "nosniff")
	h.Set("Referrer-Policy", "no-referrer")
	h.Set("Cross-Origin-Resource-Policy", "same-origin")
	h.Set("Content-Security-Policy", filePolicy)
	h.Set("Cache-Control", "private, no-cache")
	h.Set("Vary", "Authorization")
	if a.IsPage {
		h.Set("Content-Security-Policy", pagePolicy)
	}
	if a.Asks {
		h.Set("Content-Security-Policy", formPolicy)
	}
	if a.HasForms {
		// A browser says where a form comes from only where it may say where a link comes from.
		h.Set("Content-Security-Policy", formPolicy)
		h.Set("Referrer-Policy", "same-origin")
		h.Set("Cache-Control", "no-store")
	}
	if a.IsStatic {
		h.Set("Cache-Control", "public, max-age=31536000, immutable")
		h.Del("Vary")
	}
}

// send sends an answer, or that the browser has it already.
func (e *exchange) send(a pages.Answer) {
	h := e.w.Header()
	setPolicies(h, a)
	if a.Tag != "" {
		h.Set("ETag", `"`+a.Tag+`"`)
	}
	if a.Name != "" {
		h.Set("Content-Disposition", a.Name)
	}
	if a.Status == http.StatusServiceUnavailable {
		h.Set("Retry-After", busyFor)
	}
	e.record.Err = a.Err
	switch {
	case a.Location != "":
		h.Set("Location", a.Location)
		e.w.WriteHeader(a.Status)
	case a.Stream != nil:
		h.Set("Content-Type", a.Kind)
		e.stream(a)
	case a.Status != http.StatusOK:
		h.Set("Content-Type", a.Kind)
		e.w.WriteHeader(a.Status)
		_, _ = e.w.Write(a.Body)
	default:
		h.Set("Content-Type", a.Kind)
		http.ServeContent(e.w, e.r, "", time.Time{}, bytes.NewReader(a.Body))
	}
}

// stream sends what is written as it comes. Where that ends too soon, so does the connection, and a browser says so.
func (e *exchange) stream(a pages.Answer) {
	if strings.Contains(e.r.Header.Get("If-None-Match"), `"`+a.Tag+`"`) {
		e.w.Header().Del("Content-Type")
		e.w.WriteHeader(http.StatusNotModified)
		return
	}
	e.w.WriteHeader(http.StatusOK)
	if e.r.Method == http.MethodHead {
		return
	}
	out := bufio.NewWriterSize(e.w, 64<<10)
	err := a.Stream(e.r.Context(), out)
	if err == nil {
		err = out.Flush()
	}
	if e.record.Err = err; err != nil {
		stop(e.r)
	}
}

// notFound answers a path at which nothing is: a browser gets a page.
func (e *exchange) notFound() {
	if !strings.Contains(e.r.Header.Get("Accept"), "text/html") {
		e.fail(http.StatusNotFound, gateway.ErrNotFound.Error())
		return
	}
	e.finish()
	v := pages.Visit{Place: pages.Place{Kind: pages.Tenants}}
	e.send(v.Refusal(http.StatusNotFound, "No such page", "There is nothing at this address."))
}
