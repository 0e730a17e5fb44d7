package httpd

import (
	"bytes"
	"compress/gzip"
	"io"
	"net/http/httptest"
	"path/filepath"
	"testing"

	"gitpoold/gateway"
	"gitpoold/limits"
	"gitpoold/services"
)

const mostOfTest = 64 << 10

func zipped(text []byte) []byte {
	var to bytes.Buffer
	w := gzip.NewWriter(&to)
	_, _ = w.Write(text)
	_ = w.Close()
	return to.Bytes()
}

// FuzzBody reads bodies of requests by their Content-Encoding: what comes out is what the body says, and never more than the limit.
func FuzzBody(f *testing.F) {
	folder := f.TempDir()
	l, err := limits.Load(folder, func(string, ...any) {})
	if err == nil {
		err = limits.Set(filepath.Join(folder, "limits"), "request-bytes", "64K")
	}
	if err != nil {
		f.Fatal(err)
	}
	l.Fresh()
	whole := zipped([]byte("0014command=ls-refs\n0000"))
	f.Add("", []byte("0000"))
	f.Add("gzip", whole)
	f.Add("gzip", whole[:len(whole)-5])
	f.Add("x-gzip", append(whole, whole...))
	f.Add("gzip", zipped(make([]byte, 1<<20)))
	f.Add("br", []byte("x"))
	f.Fuzz(func(t *testing.T, encoding string, text []byte) {
		r := httptest.NewRequest("POST", "/a.git/git-upload-pack", bytes.NewReader(text))
		r.Header["Content-Encoding"] = []string{encoding}
		e := exchange{server: &server{&gateway.Gateway{Limits: l}, nil}, w: &counting{ResponseWriter: httptest.NewRecorder()}, r: r,
			name: services.UploadPack}
		body, err := e.body()
		if err != nil {
			return
		}
		got, err := io.ReadAll(body)
		if len(got) > mostOfTest {
			t.Fatalf("%d bytes", len(got))
		}
		if want, failed := inflated(encoding, text); err == nil && (failed != nil || !bytes.Equal(got, want)) {
			t.Fatalf("%q: %d bytes, and not %d: %v", encoding, len(got), len(want), failed)
		}
	})
}

// inflated is what a body comes to without limits.
func inflated(encoding string, text []byte) ([]byte, error) {
	if encoding == "" || encoding == "identity" {
		return text, nil
	}
	r, err := gzip.NewReader(bytes.NewReader(text))
	if err != nil {
		return nil, err
	}
	return io.ReadAll(r)
}

// FuzzPath asks that a path is a service's or a page's, and that nothing which climbs names a tenant.
func FuzzPath(f *testing.F) {
	for _, path := range []string{"/acme/site.git/info/refs", "/a/git-upload-pack", "/a.git/git-receive-pack", "/../a/info/refs", "//info/refs",
		"/a\nb/info/refs", "/a.git.git/info/refs"} {
		f.Add(path)
	}
	f.Fuzz(func(t *testing.T, path string) {
		found := servicePath.FindStringSubmatch(path)
		if found != nil && (found[1] == "" || !isService(found[2])) {
			t.Fatalf("%q is %q", path, found)
		}
	})
}

func isService(name string) bool { return name == "info/refs" || services.IsService(name) }
