package main

import (
	"context"
	"crypto/tls"
	"errors"
	"fmt"
	"net"
	"net/http"
	"path/filepath"

	"gitpoold/configfile"
	"gitpoold/httpd"
)

// tlsFlags are those of https.
var tlsFlags = []string{"--certificate", "--certificate-key", "--acme", "--acme-email", "--acme-directory", "--redirect"}

// secured is how https is spoken, and what answers an authority over plain http; nil where http is plain.
type secured struct {
	config     *tls.Config
	challenges func(http.Handler) http.Handler
	// begin is called once the server listens; it may be nil.
	begin func(context.Context)
}

// secure reads what the flags say of https.
func (s *server) secure() (*secured, error) {
	flags := s.line.flags
	if flags["--acme"] == "" {
		if flags["--acme-email"] != "" || flags["--acme-directory"] != "" {
			return nil, errors.New("`--acme-email` and `--acme-directory` go with `--acme`")
		}
		return s.certificate()
	}
	if flags["--certificate"] != "" || flags["--certificate-key"] != "" {
		return nil, errors.New("certificates come from `--acme` or from `--certificate`, and not from both")
	}
	names, err := httpd.ParseNames(flags["--acme"])
	if err != nil {
		return nil, err
	}
	it, err := httpd.Certify(httpd.Authority{Names: names, Email: flags["--acme-email"], Directory: flags["--acme-directory"],
		Folder: filepath.Join(s.line.folder, "certificates")}, s.gateway.Log.Printf)
	if err != nil {
		return nil, err
	}
	return &secured{it.TLS(), it.Challenges, it.Keep}, nil
}

// acmeURL is the address of https at the first of the names that `--acme` gives, "" where there are none.
func (s *server) acmeURL() string {
	names, err := httpd.ParseNames(s.line.flags["--acme"])
	if err != nil || len(names) == 0 {
		return ""
	}
	if s.httpsPort == 443 {
		return "https://" + names[0]
	}
	return fmt.Sprintf("https://%s:%d", names[0], s.httpsPort)
}

// certificate reads the certificate's files, again when they have changed.
func (s *server) certificate() (*secured, error) {
	file, key := s.line.flags["--certificate"], s.line.flags["--certificate-key"]
	if file == "" && key == "" {
		return nil, nil
	}
	if file == "" || key == "" {
		return nil, errors.New("--certificate and --certificate-key go together")
	}
	followed, err := configfile.Follow(func() (tls.Certificate, error) { return tls.LoadX509KeyPair(file, key) }, s.gateway.Log.Printf, file, key)
	if err != nil {
		return nil, err
	}
	config := httpd.TLS(func(*tls.ClientHelloInfo) (*tls.Certificate, error) {
		it := followed.Get()
		return &it, nil
	})
	return &secured{config: config}, nil
}

// redirect listens for plain http, and sends its clients to https.
func (s *server) redirect() (*way, error) {
	address, has := s.line.flags["--redirect"]
	if !has {
		return nil, nil
	}
	if s.secured == nil {
		return nil, errors.New("`--redirect` goes with `--http` and a certificate")
	}
	listener, err := net.Listen("tcp", address)
	if err != nil {
		return nil, err
	}
	port, challenges := s.httpsPort, s.secured.challenges
	return &way{"redirects to https", s.gateway.Limits.Listen(listener),
		func(ctx context.Context, listener net.Listener) error {
			return httpd.Redirect(ctx, listener, s.gateway, port, challenges)
		}}, nil
}
