package httpd

import (
	"crypto/ecdsa"
	"crypto/elliptic"
	"crypto/rand"
	"crypto/rsa"
	"crypto/tls"
	"crypto/x509"
	"math/big"
	"net"
	"testing"
	"time"
)

// certified gives a certificate for a key that signs itself.
func certified(t *testing.T, key any, public any) *tls.Certificate {
	t.Helper()
	template := &x509.Certificate{SerialNumber: big.NewInt(1), NotAfter: time.Now().Add(time.Hour)}
	der, err := x509.CreateCertificate(rand.Reader, template, template, public, key)
	if err != nil {
		t.Fatal(err)
	}
	return &tls.Certificate{Certificate: [][]byte{der}, PrivateKey: key}
}

// shakesHands tells whether a client that has this configuration comes to terms with the server.
func shakesHands(server, client *tls.Config) bool {
	near, far := net.Pipe()
	defer near.Close()
	go func() {
		defer far.Close()
		_ = tls.Server(far, server).Handshake()
	}()
	_ = near.SetDeadline(time.Now().Add(20 * time.Second))
	client.InsecureSkipVerify = true
	return tls.Client(near, client).Handshake() == nil
}

// TestKeysOfTLSAreAgreedOnAnew has clients that know one suite of TLS 1.2 alone, or an old version.
func TestKeysOfTLSAreAgreedOnAnew(t *testing.T) {
	key, err := rsa.GenerateKey(rand.Reader, 2048)
	if err != nil {
		t.Fatal(err)
	}
	curve, err := ecdsa.GenerateKey(elliptic.P256(), rand.Reader)
	if err != nil {
		t.Fatal(err)
	}
	byRSA, byCurve := certified(t, key, key.Public()), certified(t, curve, curve.Public())
	for suite, its := range map[uint16]struct {
		certificate *tls.Certificate
		holds       bool
	}{
		tls.TLS_RSA_WITH_AES_128_GCM_SHA256:             {byRSA, false},
		tls.TLS_RSA_WITH_AES_256_CBC_SHA:                {byRSA, false},
		tls.TLS_RSA_WITH_3DES_EDE_CBC_SHA:               {byRSA, false},
		tls.TLS_ECDHE_RSA_WITH_AES_128_CBC_SHA:          {byRSA, false},
		tls.TLS_ECDHE_RSA_WITH_AES_128_GCM_SHA256:       {byRSA, true},
		tls.TLS_ECDHE_RSA_WITH_CHACHA20_POLY1305_SHA256: {byRSA, true},
		tls.TLS_ECDHE_ECDSA_WITH_AES_256_GCM_SHA384:     {byCurve, true},
	} {
		server := TLS(func(*tls.ClientHelloInfo) (*tls.Certificate, error) { return its.certificate, nil })
		if shakesHands(server, &tls.Config{MaxVersion: tls.VersionTLS12, CipherSuites: []uint16{suite}}) != its.holds {
			t.Errorf("%s: not %v", tls.CipherSuiteName(suite), its.holds)
		}
	}
	server := TLS(func(*tls.ClientHelloInfo) (*tls.Certificate, error) { return byRSA, nil })
	if shakesHands(server, &tls.Config{MinVersion: tls.VersionTLS10, MaxVersion: tls.VersionTLS11}) || !shakesHands(server, &tls.Config{MinVersion: tls.VersionTLS13}) {
		t.Error("TLS 1.1 is spoken, or 1.3 is not")
	}
}
