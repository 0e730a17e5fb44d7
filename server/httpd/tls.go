package httpd

import "crypto/tls"

// Certificates gives the certificate for a connection that a client begins.
type Certificates func(*tls.ClientHelloInfo) (*tls.Certificate, error)

// TLS is how https is spoken: TLS 1.3, or 1.2 with keys that are agreed on anew for each connection, so that whoever gets the certificate's key cannot
// read what was recorded before. More protocols are those by which certificates are asked for.
func TLS(certificates Certificates, more ...string) *tls.Config {
	return &tls.Config{MinVersion: tls.VersionTLS12, NextProtos: append([]string{"http/1.1"}, more...),
		CipherSuites: []uint16{
			tls.TLS_ECDHE_ECDSA_WITH_AES_128_GCM_SHA256, tls.TLS_ECDHE_RSA_WITH_AES_128_GCM_SHA256,
			tls.TLS_ECDHE_ECDSA_WITH_AES_256_GCM_SHA384, tls.TLS_ECDHE_RSA_WITH_AES_256_GCM_SHA384,
			tls.TLS_ECDHE_ECDSA_WITH_CHACHA20_POLY1305_SHA256, tls.TLS_ECDHE_RSA_WITH_CHACHA20_POLY1305_SHA256,
		},
		GetCertificate: certificates}
}
