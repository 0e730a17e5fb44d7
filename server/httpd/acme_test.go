package httpd

import (
	"context"
	"crypto"
	"crypto/ecdsa"
	"crypto/elliptic"
	"crypto/rand"
	"crypto/sha256"
	"crypto/tls"
	"crypto/x509"
	"encoding/asn1"
	"encoding/base64"
	"encoding/json"
	"encoding/pem"
	"fmt"
	"io"
	"math/big"
	"net"
	"net/http"
	"net/http/httptest"
	"os"
	"path/filepath"
	"strings"
	"sync"
	"testing"
	"time"

	"golang.org/x/crypto/acme"

	"gitpoold/await"
)

// authority is a small server of ACME (RFC 8555), with one challenge for each name. It looks for the challenge at a host of its own choice, and signs
// what is asked for.
type authority struct {
	*httptest.Server
	t         *testing.T
	key       *ecdsa.PrivateKey
	root      *x509.Certificate
	challenge string
	// at is where the host of all names is: the address of http, or that of https.
	at string

	mutex   sync.Mutex
	account crypto.PublicKey
	name    string
	isValid bool
	orders  int
	refuses bool
	issued  []byte
}

func newAuthority(t *testing.T, challenge string) *authority {
	t.Helper()
	key, err := ecdsa.GenerateKey(elliptic.P256(), rand.Reader)
	if err != nil {
		t.Fatal(err)
	}
	template := &x509.Certificate{SerialNumber: big.NewInt(1), NotAfter: time.Now().Add(time.Hour), IsCA: true, BasicConstraintsValid: true,
		KeyUsage: x509.KeyUsageCertSign}
	der, err := x509.CreateCertificate(rand.Reader, template, template, key.Public(), key)
	if err != nil {
		t.Fatal(err)
	}
	root, err := x509.ParseCertificate(der)
	if err != nil {
		t.Fatal(err)
	}
	a := &authority{t: t, key: key, root: root, challenge: challenge}
	a.Server = httptest.NewServer(a)
	t.Cleanup(a.Close)
	return a
}

// posted is what a client signs and posts. The signature is not looked at.
type posted struct{ Protected, Payload string }

func (p posted) into(text string, to any) {
	bytes, err := base64.RawURLEncoding.DecodeString(text)
	if err == nil && len(bytes) > 0 {
		_ = json.Unmarshal(bytes, to)
	}
}

// ServeHTTP answers a request of ACME.
func (a *authority) ServeHTTP(w http.ResponseWriter, r *http.Request) {
	a.mutex.Lock()
	defer a.mutex.Unlock()
	var body posted
	_ = json.NewDecoder(r.Body).Decode(&body)
	w.Header().Set("Replay-Nonce", fmt.Sprint(time.Now().UnixNano()))
	w.Header().Set("Content-Type", "application/json")
	switch r.URL.Path {
	case "/directory":
		a.say(w, 200, map[string]string{"newNonce": a.URL + "/nonce", "newAccount": a.URL + "/account", "newOrder": a.URL + "/new", "revokeCert": a.URL + "/revoke",
			"keyChange": a.URL + "/change"})
	case "/nonce":
	case "/account":
		a.learn(body)
		w.Header().Set("Location", a.URL+"/account/1")
		a.say(w, 201, map[string]string{"status": "valid"})
	case "/new":
		a.begin(w, body)
	case "/order":
		a.order(w, 200)
	case "/authorization":
		a.authorization(w)
	case "/challenge":
		a.isValid = a.holds()
		a.say(w, 200, a.challengeOf())
	case "/finalize":
		a.sign(body)
		a.order(w, 200)
	case "/certificate":
		w.Header().Set("Content-Type", "application/pem-certificate-chain")
		_, _ = w.Write(a.issued)
	default:
		w.WriteHeader(404)
	}
}

func (a *authority) say(w http.ResponseWriter, status int, value any) {
	w.WriteHeader(status)
	_ = json.NewEncoder(w).Encode(value)
}

// learn reads the key of an account.
func (a *authority) learn(body posted) {
	var head struct{ JWK struct{ X, Y string } }
	body.into(body.Protected, &head)
	x, _ := base64.RawURLEncoding.DecodeString(head.JWK.X)
	y, _ := base64.RawURLEncoding.DecodeString(head.JWK.Y)
	a.account = &ecdsa.PublicKey{Curve: elliptic.P256(), X: new(big.Int).SetBytes(x), Y: new(big.Int).SetBytes(y)}
}

func (a *authority) begin(w http.ResponseWriter, body posted) {
	var order struct{ Identifiers []struct{ Value string } }
	body.into(body.Payload, &order)
	a.orders++
	if a.refuses {
		a.say(w, 403, map[string]any{"type": "urn:ietf:params:acme:error:rejectedIdentifier", "detail": "not this one"})
		return
	}
	a.name, a.isValid, a.issued = order.Identifiers[0].Value, false, nil
	w.Header().Set("Location", a.URL+"/order")
	a.order(w, 201)
}

func (a *authority) order(w http.ResponseWriter, status int) {
	order := map[string]any{"status": "pending", "identifiers": []map[string]string{{"type": "dns", "value": a.name}},
		"authorizations": []string{a.URL + "/authorization"}, "finalize": a.URL + "/finalize"}
	if a.isValid {
		order["status"] = "ready"
	}
	if a.issued != nil {
		order["status"], order["certificate"] = "valid", a.URL+"/certificate"
	}
	w.Header().Set("Location", a.URL+"/order")
	a.say(w, status, order)
}

func (a *authority) authorization(w http.ResponseWriter) {
	status := "pending"
	if a.isValid {
		status = "valid"
	}
	a.say(w, 200, map[string]any{"status": status, "identifier": map[string]string{"type": "dns", "value": a.name},
		"challenges": []any{a.challengeOf()}})
}

func (a *authority) challengeOf() map[string]string {
	return map[string]string{"type": a.challenge, "url": a.URL + "/challenge", "token": "a-token", "status": "pending"}
}

// wanted is what only the account can say of the challenge.
func (a *authority) wanted() string {
	thumb, err := acme.JWKThumbprint(a.account)
	if err != nil {
		a.t.Error(err)
	}
	return "a-token." + thumb
}

// holds looks for the challenge at the host.
func (a *authority) holds() bool {
	if a.challenge == "http-01" {
		r, err := http.NewRequest("GET", "http://"+a.at+"/.well-known/acme-challenge/a-token", nil)
		if err != nil {
			return false
		}
		r.Host = a.name
		answer, err := http.DefaultClient.Do(r)
		if err != nil {
			return false
		}
		defer answer.Body.Close()
		text, _ := io.ReadAll(answer.Body)
		return string(text) == a.wanted()
	}
	c, err := tls.Dial("tcp", a.at, &tls.Config{ServerName: a.name, NextProtos: []string{"acme-tls/1"}, InsecureSkipVerify: true})
	if err != nil {
		return false
	}
	defer c.Close()
	sum := sha256.Sum256([]byte(a.wanted()))
	value, _ := asn1.Marshal(sum[:])
	for _, it := range c.ConnectionState().PeerCertificates[0].Extensions {
		if it.Id.String() == "1.3.6.1.5.5.7.1.31" && string(it.Value) == string(value) {
			return c.ConnectionState().NegotiatedProtocol == "acme-tls/1"
		}
	}
	return false
}

// sign gives the certificate that a request asks for.
func (a *authority) sign(body posted) {
	var asked struct{ CSR string }
	body.into(body.Payload, &asked)
	der, _ := base64.RawURLEncoding.DecodeString(asked.CSR)
	request, err := x509.ParseCertificateRequest(der)
	if err != nil || !a.isValid {
		a.t.Errorf("finalized too early, or no request: %v", err)
		return
	}
	template := &x509.Certificate{SerialNumber: big.NewInt(2), NotAfter: time.Now().Add(90 * 24 * time.Hour), DNSNames: request.DNSNames}
	made, err := x509.CreateCertificate(rand.Reader, template, a.root, request.PublicKey, a.key)
	if err != nil {
		a.t.Error(err)
	}
	a.issued = append(pem.EncodeToMemory(&pem.Block{Type: "CERTIFICATE", Bytes: made}),
		pem.EncodeToMemory(&pem.Block{Type: "CERTIFICATE", Bytes: a.root.Raw})...)
}

// notes keeps what is told.
type notes struct {
	mutex sync.Mutex
	lines []string
}

func (n *notes) tell(format string, values ...any) {
	n.mutex.Lock()
	defer n.mutex.Unlock()
	n.lines = append(n.lines, fmt.Sprintf(format, values...))
}

func (n *notes) count(front string) (count int) {
	n.mutex.Lock()
	defer n.mutex.Unlock()
	for _, it := range n.lines {
		if strings.HasPrefix(it, front) {
			count++
		}
	}
	return count
}

// waitFor waits until so many lines begin so.
func (n *notes) waitFor(t *testing.T, front string, count int) {
	t.Helper()
	await.Until(t, fmt.Sprintf("%d lines that begin with %q", count, front), func() bool { return n.count(front) >= count })
}

// hosted is a host with https, and with plain http that redirects.
func hosted(t *testing.T, a *authority, folder string, told *notes) (c *Certified, https string) {
	t.Helper()
	c, err := Certify(Authority{Names: []string{"git.example.org"}, Directory: a.URL + "/directory", Folder: folder}, told.tell)
	if err != nil {
		t.Fatal(err)
	}
	listener, err := net.Listen("tcp", "127.0.0.1:0")
	if err != nil {
		t.Fatal(err)
	}
	secure := &http.Server{Handler: http.NotFoundHandler(), TLSConfig: c.TLS()}
	go func() { _ = secure.Serve(tls.NewListener(listener, c.TLS())) }()
	plain := httptest.NewServer(c.Challenges(redirector(443)))
	t.Cleanup(func() { secure.Close(); plain.Close() })
	a.at = plain.Listener.Addr().String()
	if a.challenge == "tls-alpn-01" {
		a.at = listener.Addr().String()
	}
	return c, listener.Addr().String()
}

// dial shakes hands as a client does that trusts the authority.
func dial(a *authority, address, name string) error {
	roots := x509.NewCertPool()
	roots.AddCert(a.root)
	c, err := tls.Dial("tcp", address, &tls.Config{ServerName: name, RootCAs: roots})
	if err == nil {
		c.Close()
	}
	return err
}

// TestCertificatesOfAnAuthority has both challenges. A certificate that is there is not asked for again, and none is asked for under another name.
func TestCertificatesOfAnAuthority(t *testing.T) {
	for _, challenge := range []string{"http-01", "tls-alpn-01"} {
		a, folder, told := newAuthority(t, challenge), filepath.Join(t.TempDir(), "certificates"), &notes{}
		c, address := hosted(t, a, folder, told)
		ctx, stop := context.WithCancel(context.Background())
		defer stop()
		c.Keep(ctx)
		told.waitFor(t, "the certificate of git.example.org holds until ", 1)
		if err := dial(a, address, "git.example.org"); err != nil {
			t.Fatalf("%s: %v", challenge, err)
		}
		if dial(a, address, "other.example.org") == nil || a.orders != 1 {
			t.Errorf("%s: another name is served, or asked for: %d orders", challenge, a.orders)
		}
		// Another start has it at once.
		again := &notes{}
		c, address = hosted(t, a, folder, again)
		if err := dial(a, address, "git.example.org"); err != nil || a.orders != 1 {
			t.Errorf("%s: %v, %d orders", challenge, err, a.orders)
		}
		if info, err := os.Stat(folder); err != nil || info.Mode().Perm() != 0o700 {
			t.Errorf("the folder of keys is open to others: %v, %v", info, err)
		}
		_ = c
	}
}

// TestAnAuthorityThatRefuses is asked again later, the log has its words, and clients are refused meanwhile.
func TestAnAuthorityThatRefuses(t *testing.T) {
	a, told := newAuthority(t, "http-01"), &notes{}
	a.refuses = true
	c, address := hosted(t, a, t.TempDir(), told)
	c.between = 50 * time.Millisecond
	ctx, stop := context.WithCancel(context.Background())
	c.Keep(ctx)
	const wanted = "there is no certificate of git.example.org: 403 urn:ietf:params:acme:error:rejectedIdentifier: not this one; it is asked for again in "
	told.waitFor(t, wanted, 1)
	told.waitFor(t, "there is no certificate of git.example.org: ", 3)
	if dial(a, address, "git.example.org") == nil {
		t.Error("a client is served without a certificate")
	}
	stop()
}

// TestNamesOfHosts has what can be no name of a host with a certificate.
func TestNamesOfHosts(t *testing.T) {
	if names, err := ParseNames("git.example.org, WWW.Example.org"); err != nil || strings.Join(names, " ") != "git.example.org www.example.org" {
		t.Errorf("%q, %v", names, err)
	}
	for _, it := range []string{"", "localhost", "10.0.0.1", "a..b", "-a.b", "*.example.org", "a.b,", "a b.c", "a.b/c", strings.Repeat("a.", 127) + "aa"} {
		if names, err := ParseNames(it); err != ErrNames {
			t.Errorf("%q: %q, %v", it, names, err)
		}
	}
}

// redirected gives where a request is sent to, and the status.
func redirected(port int, method, host, target string) (int, string) {
	r := httptest.NewRequest(method, target, strings.NewReader("a body that nobody reads"))
	r.Host = host
	w := httptest.NewRecorder()
	redirector(port).ServeHTTP(w, r)
	return w.Code, w.Header().Get("Location")
}

// TestPlainRequestsAreSentToHTTPS keeps host, path and query, by a status with which git posts again; a host that is none is refused.
func TestPlainRequestsAreSentToHTTPS(t *testing.T) {
	for _, it := range []struct {
		port                 int
		host, target, wanted string
	}{
		{443, "git.example.org", "/acme/site.git/info/refs?service=git-upload-pack", "https://git.example.org/acme/site.git/info/refs?service=git-upload-pack"},
		{443, "git.example.org:80", "/a%2Fb/%c3%a9?x=%20", "https://git.example.org/a%2Fb/%c3%a9?x=%20"},
		{8443, "git.example.org:8080", "/", "https://git.example.org:8443/"},
		{8443, "[::1]:8080", "/x", "https://[::1]:8443/x"},
		{443, "[::1]", "/x", "https://[::1]:443/x"},
		{443, "git.example.org", "//evil.example.org/x", "https://git.example.org//evil.example.org/x"},
	} {
		if status, to := redirected(it.port, "POST", it.host, "http://placeholder"+it.target); status != 308 || to != it.wanted {
			t.Errorf("%s%s: %d %s", it.host, it.target, status, to)
		}
	}
	for _, host := range []string{"", "a/b", "user@evil.example.org", "a b", "a?b", "a#b", `a\b`, "%41"} {
		if status, to := redirected(443, "GET", host, "/"); status != 400 || to != "" {
			t.Errorf("%q: %d %s", host, status, to)
		}
	}
}
