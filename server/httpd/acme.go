package httpd

import (
	"context"
	"crypto/tls"
	"errors"
	"net"
	"net/http"
	"os"
	"regexp"
	"strings"
	"time"

	"golang.org/x/crypto/acme"
	"golang.org/x/crypto/acme/autocert"
)

// Authority is where certificates come from: an authority that speaks ACME (RFC 8555).
type Authority struct {
	// Names are the names of the hosts that certificates are for. No other name is asked for.
	Names []string
	// Email may be told by the authority when a certificate ends; it may be empty.
	Email string
	// Directory is the address of the authority's directory; Let's Encrypt's where it is empty.
	Directory string
	// Folder keeps the account's key and the certificates.
	Folder string
}

// ErrNames is the answer where no name is given, or one that is none of a host.
var ErrNames = errors.New("`--acme` takes names of hosts, such as git.example.org, with commas between")

var hostName = regexp.MustCompile(`^[a-z0-9]([-a-z0-9]*[a-z0-9])?(\.[a-z0-9]([-a-z0-9]*[a-z0-9])?)+$`)

// ParseNames reads a list of names of hosts. An address is none, for most authorities give no certificates for those. It is ErrNames.
func ParseNames(text string) (names []string, err error) {
	for _, it := range strings.Split(text, ",") {
		name := strings.ToLower(strings.TrimSpace(it))
		if !hostName.MatchString(name) || net.ParseIP(name) != nil || len(name) > 253 {
			return nil, ErrNames
		}
		names = append(names, name)
	}
	return names, nil
}

// Certified is what keeps the certificates of some names: it asks for them, and again a month before they end.
type Certified struct {
	manager *autocert.Manager
	names   []string
	tell    func(string, ...any)
	between time.Duration
}

// Certify makes the folder of certificates. tell is told what comes of asking for one.
func Certify(a Authority, tell func(string, ...any)) (*Certified, error) {
	if err := os.MkdirAll(a.Folder, 0o700); err != nil {
		return nil, err
	}
	directory := a.Directory
	if directory == "" {
		directory = autocert.DefaultACMEDirectory
	}
	manager := &autocert.Manager{
		Prompt: autocert.AcceptTOS, Cache: autocert.DirCache(a.Folder), HostPolicy: autocert.HostWhitelist(a.Names...), Email: a.Email,
		Client: &acme.Client{DirectoryURL: directory, UserAgent: "gitpoold"},
	}
	return &Certified{manager, a.Names, tell, between}, nil
}

// TLS is how https is spoken with these certificates. The authority may look for its challenge over https too (tls-alpn-01).
func (c *Certified) TLS() *tls.Config { return TLS(c.manager.GetCertificate, acme.ALPNProto) }

// Challenges answers what the authority asks for over plain http (http-01), and gives all else to another handler.
func (c *Certified) Challenges(others http.Handler) http.Handler {
	return c.manager.HTTPHandler(others)
}

// between is how long to wait before a certificate is asked for again that could not be had. Authorities refuse whoever asks too often.
const between = 10 * time.Minute

// Keep asks for the certificate of each name, so that no client has to wait for it, until it has come or the context is done.
func (c *Certified) Keep(ctx context.Context) {
	for _, name := range c.names {
		go c.keep(ctx, name)
	}
}

func (c *Certified) keep(ctx context.Context, name string) {
	for {
		certificate, err := c.manager.GetCertificate(anyClient(name))
		if err == nil {
			c.tell("the certificate of %s holds until %s, and is renewed before", name, certificate.Leaf.NotAfter.UTC().Format(time.RFC3339))
			return
		}
		c.tell("there is no certificate of %s: %v; it is asked for again in %v", name, err, c.between)
		select {
		case <-ctx.Done():
			return
		case <-time.After(c.between):
		}
	}
}

// anyClient is a client that knows the usual suites, so that the certificate is the one that others get too.
func anyClient(name string) *tls.ClientHelloInfo {
	return &tls.ClientHelloInfo{
		ServerName: name, CipherSuites: []uint16{tls.TLS_ECDHE_ECDSA_WITH_AES_128_GCM_SHA256},
		SignatureSchemes: []tls.SignatureScheme{tls.ECDSAWithP256AndSHA256}, SupportedCurves: []tls.CurveID{tls.CurveP256},
		SupportedVersions: []uint16{tls.VersionTLS13, tls.VersionTLS12},
	}
}
