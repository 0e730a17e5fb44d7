// Backend serves the bare repositories of a folder by git http-backend, as a web server with CGI does: backend FOLDER.
// It prints its address.
package main

import (
	"fmt"
	"net"
	"net/http"
	"net/http/cgi"
	"os"
)

func main() {
	listener, err := net.Listen("tcp", "127.0.0.1:0")
	if err != nil {
		panic(err)
	}
	fmt.Println(listener.Addr())
	handler := &cgi.Handler{Path: "/usr/lib/git-core/git-http-backend", Env: []string{"GIT_PROJECT_ROOT=" + os.Args[1], "GIT_HTTP_EXPORT_ALL=1"},
		InheritEnv: []string{"HOME", "PATH"}}
	panic(http.Serve(listener, withProtocol{handler}))
}

// withProtocol gives http-backend a user, for it takes pushes from users alone, and a length of what came in chunks.
type withProtocol struct{ *cgi.Handler }

func (h withProtocol) ServeHTTP(w http.ResponseWriter, r *http.Request) {
	inner := *h.Handler
	inner.Env = append(append([]string{}, inner.Env...), "REMOTE_USER=alice", "GIT_PROTOCOL="+r.Header.Get("Git-Protocol"))
	inner.ServeHTTP(w, r)
}
