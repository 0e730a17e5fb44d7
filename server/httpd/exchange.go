package httpd

import (
	"bytes"
	"compress/gzip"
	"context"
	"errors"
	"io"
	"net/http"
	"time"

	"gitpoold/access"
	"gitpoold/dailyquota"
	"gitpoold/lfs"
	"gitpoold/limits"
	"gitpoold/logs"
	"gitpoold/pktline"
	"gitpoold/services"
	"gitpoold/tenants"
	"gitpoold/uploadpack"
)

// exchange is one request and its answer.
type exchange struct {
	*server
	w      *counting
	r      *http.Request
	name   string // of the service
	began  time.Time
	record logs.Request
	meter  *dailyquota.Meter
	// right is what the request needs. The others are of Git LFS: the pass that was shown, and the file or the lock that is asked for.
	right access.Right
	isLFS bool
	pass  lfs.Pass
	item  string

	hasFinished bool
}

func (e *exchange) log() {
	e.record.Status, e.record.Out, e.record.Took = e.w.status, e.w.bytes, time.Since(e.began)
	e.Log.Request(e.record)
}

// mostLeft is how much of a body that was not read is taken, so that the connection can be used again.
const mostLeft = 256 << 10

// finish takes the rest of the body, within the time that a peer may be silent; net/http would wait for it without a limit. Where there
// is more than is worth taking, the connection ends after the answer. A client that asked whether to send a body has not sent it.
func (e *exchange) finish() {
	if e.hasFinished || e.r.ContentLength == 0 || e.r.Header.Get("Expect") != "" {
		return
	}
	e.hasFinished = true
	_, err := io.CopyN(io.Discard, e.Limits.Watched(e.r.Body, func() { stop(e.r) }), mostLeft)
	switch {
	case err == nil:
		e.w.Header().Set("Connection", "close")
		time.AfterFunc(e.Limits.Get().Idle, func() { stop(e.r) })
	case !errors.Is(err, io.EOF) && !errors.Is(err, http.ErrBodyReadAfterClose):
		stop(e.r)
	}
}

func (e *exchange) fail(status int, why string) {
	if e.isLFS {
		e.sayLFS(status, map[string]string{"message": why})
		return
	}
	e.finish()
	http.Error(e.w, why, status)
}

// head sets what stands before an answer: it is not to be kept anywhere.
func (e *exchange) head(kind string) {
	e.w.Header().Set("Content-Type", "application/x-"+e.name+"-"+kind)
	e.w.Header().Set("Cache-Control", "no-cache, max-age=0, must-revalidate")
	e.w.Header().Set("Pragma", "no-cache")
	e.w.Header().Set("Expires", "Fri, 01 Jan 1980 00:00:00 GMT")
}

// use is the use of the service that the request asks for.
func (e *exchange) use(t tenants.Tenant, in io.Reader, out *pktline.Writer) services.Use {
	return services.Use{Gateway: e.Gateway, Service: e.name, Version: services.Version(e.r.Header.Get("Git-Protocol")), User: e.record.User,
		Address: e.record.Address, Tenant: t, Meter: e.meter, In: in, Out: out}
}

// advertise answers info/refs.
func (e *exchange) advertise(ctx context.Context, t tenants.Tenant) {
	e.head("advertisement")
	out := pktline.NewWriter(e.w)
	use := e.use(t, nil, out)
	if e.name == services.ReceivePack || use.Version != 2 {
		out.Line("# service=%s", e.name)
		out.FlushPacket()
	}
	e.record.Err = use.Advertise(ctx)
	var refusal uploadpack.Refused
	switch {
	case e.record.Err == nil || e.w.bytes > 0:
	case errors.As(e.record.Err, &refusal):
		e.w.Header().Set("Retry-After", "1")
		e.fail(http.StatusTooManyRequests, refusal.Why)
	default:
		e.fail(http.StatusInternalServerError, uploadpack.Sentence(e.record.Err))
	}
}

// answer answers a POST to a service.
func (e *exchange) answer(ctx context.Context, t tenants.Tenant) {
	if e.r.Header.Get("Content-Type") != "application/x-"+e.name+"-request" {
		e.fail(http.StatusUnsupportedMediaType, "the body of this request has to be an application/x-"+e.name+"-request")
		return
	}
	body, err := e.body()
	if err != nil {
		e.fail(http.StatusBadRequest, "the body of this request is not what its Content-Encoding says")
		return
	}
	held := e.Limits.Lines(e.record.User, e.record.Address)
	defer held.Free()
	if e.name == services.UploadPack {
		body, err = whole(&holding{body, held})
	}
	if errors.Is(err, limits.ErrLines) {
		e.record.Err = err
		e.w.Header().Set("Retry-After", "1")
		e.fail(http.StatusTooManyRequests, err.Error())
		return
	}
	if err != nil {
		e.record.Err = err
		e.fail(http.StatusBadRequest, "the request is cut off, or longer than this server takes")
		return
	}
	e.head("result")
	out := pktline.NewWriter(e.w)
	e.record.Err = e.use(t, body, out).Serve(ctx, true)
	if err := out.Flush(); e.record.Err == nil {
		e.record.Err = err
	}
}

// whole reads all of the request of a fetch: once the answer has begun, the rest of it might be gone.
func whole(body io.Reader) (io.Reader, error) {
	request, err := io.ReadAll(body)
	return bytes.NewReader(request), err
}

// holding counts what is read of a body as long as it is held.
type holding struct {
	from io.Reader
	held *limits.Held
}

func (h *holding) Read(into []byte) (int, error) {
	n, err := h.from.Read(into)
	if full := h.held.Hold(int64(n)); full != nil {
		err = full
	}
	return n, err
}

// mostOfFetch is how many bytes the request of a fetch may have, which is held in memory.
const mostOfFetch = 32 << 20

// body gives the body of the request, inflated and no longer than the operator allows.
func (e *exchange) body() (io.Reader, error) {
	most := e.Limits.Get().RequestBytes
	if e.name == services.UploadPack && most > mostOfFetch {
		most = mostOfFetch
	}
	watched := e.Limits.Watched(http.MaxBytesReader(e.w, e.r.Body, most), func() { stop(e.r) })
	counted := services.Counting{From: watched, Count: &e.record.In, Meter: e.meter}
	switch e.r.Header.Get("Content-Encoding") {
	case "", "identity":
		return counted, nil
	case "gzip", "x-gzip":
		inflated, err := gzip.NewReader(counted)
		return &bounded{from: inflated, left: most}, err
	}
	return nil, errors.New("unknown encoding")
}

// counting counts what is written, and sends it at once: a client waits for it.
type counting struct {
	http.ResponseWriter
	status int
	bytes  int64
	meter  *dailyquota.Meter
}

func (c *counting) WriteHeader(status int) {
	c.status = status
	c.ResponseWriter.WriteHeader(status)
}

func (c *counting) Write(data []byte) (int, error) {
	n, err := c.ResponseWriter.Write(data)
	c.bytes += int64(n)
	c.meter.Add(n)
	if f, is := c.ResponseWriter.(http.Flusher); is {
		f.Flush()
	}
	return n, err
}

// bounded gives an error after so many bytes, where io.LimitReader would give the end.
type bounded struct {
	from io.Reader
	left int64
}

var errTooLong = uploadpack.Refused{Why: "the request has more bytes than this server takes"}

func (b *bounded) Read(to []byte) (int, error) {
	if b.left <= 0 {
		return 0, errTooLong
	}
	if int64(len(to)) > b.left {
		to = to[:b.left]
	}
	n, err := b.from.Read(to)
	b.left -= int64(n)
	return n, err
}
