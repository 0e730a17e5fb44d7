package httpd

import (
	"context"
	"encoding/json"
	"io"
	"net/http"
	"regexp"
	"strconv"
	"strings"
	"time"

	"gitpoold/access"
	"gitpoold/lfs"
	"gitpoold/services"
	"gitpoold/tenants"
)

// lfsPath is what clients of Git LFS ask for: below the address of a repository, and of no repository's name.
var lfsPath = regexp.MustCompile(`^/(.+?)(?:\.git)?/info/lfs(?:/(.*))?$`)

// lfsType is the type of what Git LFS says and hears. A client shows the message of an answer of this type alone.
const lfsType = "application/vnd.git-lfs+json"

// lfsRoutes are what a client may ask for. The right of a batch depends on what it says. An answer is said by 200, or it is nil and said already.
var lfsRoutes = []struct {
	method string
	path   *regexp.Regexp
	right  access.Right
	answer func(*exchange, context.Context, tenants.Tenant) (any, error)
}{
	{http.MethodPost, regexp.MustCompile(`^objects/batch$`), access.Read, (*exchange).batch},
	{http.MethodPost, regexp.MustCompile(`^objects/verify$`), access.Write, (*exchange).verify},
	{http.MethodGet, regexp.MustCompile(`^objects/(.+)$`), access.Read, (*exchange).download},
	{http.MethodPut, regexp.MustCompile(`^objects/(.+)$`), access.Write, (*exchange).upload},
	{http.MethodGet, regexp.MustCompile(`^locks$`), access.Read, (*exchange).listLocks},
	{http.MethodPost, regexp.MustCompile(`^locks$`), access.Write, (*exchange).lock},
	{http.MethodPost, regexp.MustCompile(`^locks/verify$`), access.Write, (*exchange).verifyLocks},
	{http.MethodPost, regexp.MustCompile(`^locks/([^/]+)/unlock$`), access.Write, (*exchange).unlock},
}

// lfs finds what a client of Git LFS asks for. Where no tenant keeps files, whoever asks is told so, without a password: a client goes on without locks
// then, shows the sentence where a file is to be sent or fetched, and tries neither again.
func (e *exchange) lfs(tenant, path string) {
	e.isLFS, e.record.Tenant = true, tenant
	if !e.LFS.IsUsed() {
		e.fail(http.StatusNotImplemented, services.NoLFS)
		return
	}
	var allowed []string
	for _, it := range lfsRoutes {
		words := it.path.FindStringSubmatch(path)
		if words != nil && it.method == e.r.Method {
			e.right, e.item = it.right, words[len(words)-1]
			answer := it.answer
			e.with(it.method, func(e *exchange, ctx context.Context, t tenants.Tenant) {
				if !e.LFS.IsOn(t.Name()) {
					e.fail(http.StatusNotImplemented, services.NoLFS)
					return
				}
				e.answerLFS(answer(e, ctx, t))
			})
			return
		}
		if words != nil {
			allowed = append(allowed, it.method)
		}
	}
	if len(allowed) == 0 {
		e.fail(http.StatusNotFound, "Git LFS asks for nothing at this address")
		return
	}
	e.w.Header().Set("Allow", strings.Join(allowed, ", "))
	e.fail(http.StatusMethodNotAllowed, "this is asked by "+strings.Join(allowed, " or "))
}

// bearer gives the text of a pass, by which a client goes on that was let in before.
func bearer(r *http.Request) string {
	scheme, text, _ := strings.Cut(r.Header.Get("Authorization"), " ")
	if !strings.EqualFold(scheme, "Bearer") {
		return ""
	}
	return strings.TrimSpace(text)
}

// showPass lets in whose pass holds for the tenant and the right.
func (e *exchange) showPass(text string) (user string, err error) {
	hasKey := func(login, key string) bool { return e.Access.IsStill(login, key, "") }
	e.pass, err = e.LFS.Check(text, e.record.Tenant, time.Now(), e.Access.Hash, hasKey)
	if err == nil {
		e.record.User = e.pass.Login
	}
	return e.record.User, err
}

// sayLFS answers in the words of Git LFS. The answer counts among those that wait until a user takes them.
func (e *exchange) sayLFS(status int, answer any) {
	e.finish()
	text, _ := json.Marshal(answer)
	if taken, err := e.Limits.Wait(e.taker(e.record.User), len(text)); err == nil {
		defer taken()
	} else {
		e.w.Header().Set("Retry-After", "1")
		text, _ = json.Marshal(map[string]string{"message": err.Error()})
		status = http.StatusTooManyRequests
	}
	e.w.Header().Set("Content-Type", lfsType)
	e.w.Header().Set("Cache-Control", "no-store")
	e.w.WriteHeader(status)
	_, _ = e.w.Write(text)
}

// answerLFS says an answer, or why there is none.
func (e *exchange) answerLFS(answer any, err error) {
	if err != nil {
		refusal := lfs.Refused(err)
		if e.record.Err = err; refusal.Status == http.StatusTooManyRequests {
			e.w.Header().Set("Retry-After", "1")
		}
		e.fail(refusal.Status, refusal.Why)
	} else if answer != nil {
		e.sayLFS(http.StatusOK, answer)
	}
}

// mostOfLFS is how many bytes the words of a client may have: a batch of a thousand files has some 110,000.
const mostOfLFS = 1 << 20

// hear reads what a client says.
func (e *exchange) hear(into any) error {
	if kind, _, _ := strings.Cut(e.r.Header.Get("Content-Type"), ";"); kind != lfsType || e.r.Header.Get("Content-Encoding") != "" {
		return &lfs.Refusal{Status: http.StatusUnsupportedMediaType, Why: "the body of this request has to be an " + lfsType}
	}
	held := e.Limits.Lines(e.record.User, e.record.Address)
	defer held.Free()
	text, err := io.ReadAll(&holding{e.lfsBody(mostOfLFS), held})
	if err == nil && json.Unmarshal(text, into) != nil {
		err = &lfs.Refusal{Status: http.StatusUnprocessableEntity, Why: "the body of this request is no JSON that Git LFS has here"}
	}
	return err
}

// lfsBody gives the body of a request, which has to come without long pauses.
func (e *exchange) lfsBody(most int64) io.Reader {
	watched := e.Limits.Watched(http.MaxBytesReader(e.w, e.r.Body, most), func() { stop(e.r) })
	return services.Counting{From: watched, Count: &e.record.In, Meter: e.meter}
}

// batch says how a client sends or fetches files.
func (e *exchange) batch(ctx context.Context, t tenants.Tenant) (any, error) {
	asked := lfs.Asked{Tenant: t.Name(), Most: e.Limits.Get().LFSBytes}
	err := e.hear(&asked.Batch)
	if err == nil {
		err = asked.Check()
	}
	if err != nil {
		return nil, err
	}
	if asked.Operation == lfs.Upload {
		e.right = access.Write
		var ok bool
		if t, ok = e.open(); !ok {
			return nil, nil
		}
		asked.Room = lfs.Room(ctx, t)
	}
	base, header, expires := e.lfsURL(), e.passHeader(), int64(lfs.PassLasts/time.Second)
	if e.pass.Until != 0 {
		expires = e.pass.Until - time.Now().Unix()
	}
	asked.Link = func(action, oid string) lfs.Action {
		if action == lfs.Verify {
			oid = lfs.Verify
		}
		return lfs.Action{Href: base + "/objects/" + oid, Header: header, ExpiresIn: expires}
	}
	return e.LFS.Answer(asked), nil
}

// lfsURL is the address of Git LFS of a tenant, as the operator says it, else as the client found it.
func (e *exchange) lfsURL() string {
	base := e.PublicURL()
	if base == "" {
		base = e.origin()
	}
	return base + "/" + e.record.Tenant + ".git/info/lfs"
}

// passHeader is by which header a client goes on: with the pass that it has, or one for who came by a password; nil for a visitor.
func (e *exchange) passHeader() map[string]string {
	text := bearer(e.r)
	switch {
	case e.record.User == "":
		return nil
	case text == "":
		text = e.LFS.Sign(lfs.Pass{Login: e.record.User, Tenant: e.record.Tenant, Right: e.right, Until: time.Now().Add(lfs.PassLasts).Unix()},
			e.Access.Hash(e.record.User))
	}
	return map[string]string{"Authorization": "Bearer " + text}
}

// oneRange is one part of a file. Who asks for several, or for none, gets the whole file.
var oneRange = regexp.MustCompile(`^bytes=(?:\d{1,18}-\d{0,18}|-0*[1-9]\d{0,17})$`)

// download sends a file, or the part of it that a client asks for.
func (e *exchange) download(_ context.Context, t tenants.Tenant) (any, error) {
	file, err := e.LFS.Get(t.Name(), e.item)
	if err != nil {
		return nil, err
	}
	defer file.Close()
	if !oneRange.MatchString(e.r.Header.Get("Range")) {
		e.r.Header.Del("Range")
	}
	head := e.w.Header()
	head.Set("Content-Type", "application/octet-stream")
	head.Set("Content-Security-Policy", filePolicy)
	head.Set("X-Content-Type-Options", "nosniff")
	head.Set("Cache-Control", "private, no-cache")
	head.Set("ETag", strconv.Quote(e.item))
	http.ServeContent(spending{e.w, e}, e.r, "", time.Time{}, file)
	return nil, nil
}

// spending ends an answer that is more than its user may take in a day.
type spending struct {
	http.ResponseWriter
	of *exchange
}

func (s spending) Write(data []byte) (int, error) {
	if err := s.of.meter.Err(); err != nil {
		stop(s.of.r)
		return 0, err
	}
	return s.ResponseWriter.Write(data)
}

// upload takes a file.
func (e *exchange) upload(ctx context.Context, t tenants.Tenant) (any, error) {
	of := lfs.Object{OID: e.item, Size: e.r.ContentLength}
	switch {
	case !lfs.ValidOID(of.OID):
		return nil, lfs.ErrOID
	case of.Size < 0:
		return nil, lfs.ErrLength
	case of.Size > e.Limits.Get().LFSBytes:
		return nil, lfs.ErrLarge
	case of.Size+lfs.Beside > lfs.Room(ctx, t):
		return nil, lfs.ErrRoom
	}
	return struct{}{}, e.LFS.Put(t, of, e.lfsBody(of.Size+1), e.mayGrow)
}

// mayGrow tells whether a file that comes in may grow: as far as its user may take more today, and the journal keeps its room on the disk.
func (e *exchange) mayGrow() error {
	if err := e.meter.Err(); err != nil {
		return err
	}
	return e.Limits.MayGrow(e.Folder)
}

// verify tells whether a file is there that was sent.
func (e *exchange) verify(_ context.Context, t tenants.Tenant) (any, error) {
	var of lfs.Object
	if err := e.hear(&of); err != nil {
		return nil, err
	}
	return of, e.LFS.Verify(t.Name(), of)
}
