package main

// The daemon's TLS certificate, for a port.

import (
	"crypto/tls"
	"fmt"
	"net"
	"os"
	"sync/atomic"
)

// A tlsSettings has the files of the daemon's own certificate for TLS, which the web server verifies, in PEM.
type tlsSettings struct {
	Certificate string `json:"certificate"`
	Key         string `json:"key"`
	// What the listener shows: what was read last and not refused.
	present atomic.Pointer[tls.Certificate]
}

// read reads the certificate and the key, and returns both. `t` is nil for a configuration without TLS: then it returns nil and no error. It fails as
// readFile does, if others than the owner and the group may use the file of the key, or if the files are no certificate and its key. The listener
// shows the certificate only after `use`.
func (t *tlsSettings) read() (*tls.Certificate, error) {
	if t == nil {
		return nil, nil
	}
	about, err := os.Stat(t.Key)
	if err != nil {
		return nil, err
	}
	if about.Mode().Perm()&0o007 != 0 {
		return nil, fmt.Errorf("%s: others may read or write the key: its mode is %v", t.Key, about.Mode().Perm())
	}
	chain, err := readFile(t.Certificate, mostConfig)
	if err != nil {
		return nil, err
	}
	key, err := readFile(t.Key, mostConfig)
	if err != nil {
		return nil, err
	}
	pair, err := tls.X509KeyPair(chain, key)
	if err != nil {
		return nil, fmt.Errorf("%s: %w", t.Certificate, err)
	}
	return &pair, nil
}

// use has the listener show a certificate from now on. For a configuration without TLS it does nothing.
func (t *tlsSettings) use(certificate *tls.Certificate) {
	if t != nil {
		t.present.Store(certificate)
	}
}

// wrap returns a listener that speaks TLS, 1.2 or later, on the connections of another one. It offers HTTP/1.1 alone, as a requestReader reads no
// HTTP/2.
func (t *tlsSettings) wrap(listener net.Listener) net.Listener {
	present := func(*tls.ClientHelloInfo) (*tls.Certificate, error) { return t.present.Load(), nil }
	return tls.NewListener(listener, &tls.Config{MinVersion: tls.VersionTLS12, GetCertificate: present, NextProtos: []string{"http/1.1"}})
}
