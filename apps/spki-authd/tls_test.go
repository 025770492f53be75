package main

// Tests of a daemon at a port. There it shows a TLS certificate, which the web server compares with the one that it expects, and the web server sends
// a secret: so neither can be another program. The daemon's certificate is that of Alice, for whom its list has an entry.

import (
	"bytes"
	"crypto/tls"
	"crypto/x509"
	"encoding/pem"
	"fmt"
	"net"
	"net/http"
	"os"
	"path/filepath"
	"strings"
	"testing"
	"time"
)

// tlsFiles writes the certificate and the key of a person for TLS, and returns their paths.
func tlsFiles(t *testing.T, who person) (certificate, key string) {
	t.Helper()
	octets, err := x509.MarshalPKCS8PrivateKey(who.private)
	if err != nil {
		t.Fatal(err)
	}
	return writeFile(t, "crt", who.pem()), writeFile(t, "key", string(pem.EncodeToMemory(&pem.Block{Type: "PRIVATE KEY", Bytes: octets})))
}

// tlsConfig returns the configuration of a daemon at a free port, with the certificate of a person, whom its list gives the right to each file. The
// secret is 32 times `s`.
func tlsConfig(t *testing.T, who person) string {
	t.Helper()
	listener, err := net.Listen("tcp", "127.0.0.1:0")
	if err != nil {
		t.Fatal(err)
	}
	address := listener.Addr().String()
	listener.Close()
	certificate, key := tlsFiles(t, who)
	folder := t.TempDir()
	list := "(3:acl(5:entry" + who.key + "(3:tag(5:files))))"
	return fmt.Sprintf(`{"listen": "tls:%s", "tls": {"certificate": %q, "key": %q}, "secret_file": %q, "control": "unix:%s/control", "log": "%s/log",
		"server": "nginx", "list": %q, "requests": [{"prefix": "/", "methods": {"GET": "read"}, "request": ["files", "{method}", "{path}"]}]}`,
		address, certificate, key, writeFile(t, "secret", strings.Repeat("s", 32)+"\n"), folder, folder, writeFile(t, "acl", list))
}

// askByTLS asks the daemon of a configuration, as a web server that verifies its certificate, whether a person may read a file. It returns the status, and
// fails if there is no answer, as where another certificate is shown.
func askByTLS(config *config, who person) (int, error) {
	client, err := config.client()
	if err != nil {
		return 0, err
	}
	request, err := http.NewRequest(http.MethodGet, "https://x/", nil)
	if err != nil {
		return 0, err
	}
	for name, value := range map[string]string{
		"X-Original-Method": "GET", "X-Original-URI": "/web/x", "X-Spki-Secret": strings.Repeat("s", 32), "X-Client-Cert": who.escaped(),
	} {
		request.Header.Set(name, value)
	}
	response, err := client.Do(request)
	if err != nil {
		return 0, err
	}
	response.Body.Close()
	return response.StatusCode, nil
}

// TestTLS starts a daemon at a port. A web server that expects its certificate is answered, and one that expects another certificate gets an error.
// What is asked without TLS is not granted.
func TestTLS(t *testing.T) {
	alice, mallory := newPerson(t), newPerson(t)
	path := writeFile(t, "config", tlsConfig(t, alice))
	config, err := readConfig(path)
	if err != nil {
		t.Fatal(err)
	}
	ended := make(chan int)
	var out, messages journal
	go func() { ended <- run([]string{"-config", path}, out.writer(), messages.writer()) }()
	waitForSocket(t, config.controlPath())
	if status, err := askByTLS(config, alice); status != 200 || err != nil {
		t.Errorf("%d, %v, %s", status, err, messages.String())
	}
	var stdout, stderr bytes.Buffer
	if status := run([]string{"-health", "-config", path}, &stdout, &stderr); status != 0 {
		t.Errorf("%d, %s", status, stderr.String())
	}
	if plain, err := http.Get("http://" + strings.TrimPrefix(config.Listen, tlsScheme)); err == nil && plain.StatusCode < 400 {
		t.Errorf("without TLS: %d", plain.StatusCode)
	}
	// (the client now expects another certificate than the daemon shows)
	config.TLS.Certificate, config.TLS.Key = tlsFiles(t, mallory)
	if status, err := askByTLS(config, alice); err == nil {
		t.Errorf("another certificate is expected: %d", status)
	}
	// (the daemon runs in this process, and ends by the signal that Ctrl-C sends)
	process, _ := os.FindProcess(os.Getpid())
	_ = process.Signal(os.Interrupt)
	if status := <-ended; status != 0 {
		t.Errorf("%d, %s", status, messages.String())
	}
}

// TestCertificatesAreReadAgain reloads a configuration with another certificate, which is shown from then on. A reload that is refused, for a wrong
// key or list, leaves the certificate as it was. A key that everyone may read is refused.
func TestCertificatesAreReadAgain(t *testing.T) {
	alice, mallory := newPerson(t), newPerson(t)
	config, err := parseConfig([]byte(tlsConfig(t, alice)))
	if err != nil {
		t.Fatal(err)
	}
	var keeper accessKeeper
	shown := func() []byte { return config.TLS.present.Load().Certificate[0] }
	if err := keeper.reload(config, !allowFewerEnded, time.Now()); err != nil || !bytes.Equal(shown(), alice.der) {
		t.Fatal(err)
	}
	config.TLS.Certificate, _ = tlsFiles(t, mallory)
	if err := keeper.reload(config, !allowFewerEnded, time.Now()); err == nil || !bytes.Equal(shown(), alice.der) {
		t.Error("a certificate of another key is shown")
	}
	config.TLS.Certificate, config.TLS.Key = tlsFiles(t, mallory)
	list := config.List
	config.List = filepath.Join(t.TempDir(), "none")
	if err := keeper.reload(config, !allowFewerEnded, time.Now()); err == nil || !bytes.Equal(shown(), alice.der) {
		t.Error("a refused reload has changed the certificate")
	}
	config.List = list
	if err := keeper.reload(config, !allowFewerEnded, time.Now()); err != nil || !bytes.Equal(shown(), mallory.der) {
		t.Error(err)
	}
	if err := os.Chmod(config.TLS.Key, 0o644); err != nil {
		t.Fatal(err)
	}
	if _, err := config.TLS.read(); err == nil {
		t.Error("a key that everyone may read is accepted")
	}
}

// TestListenSettings reads configurations of the socket or port at which the web server asks, right ones and wrong ones. A wrong one is refused with a
// reason.
func TestListenSettings(t *testing.T) {
	files := `"tls": {"certificate": "/c", "key": "/k"}`
	secret := `"secret_file": "/s"`
	control := `"control": "unix:/run/x/control"`
	// (a path of one octet too many, and one that is short enough, while that of its control socket, with controlSuffix behind it, has one octet too
	// many)
	long, longControl := "unix:/"+strings.Repeat("x", mostSocketPath), "unix:/"+strings.Repeat("x", mostSocketPath-len(controlSuffix))
	listen := func(address string, fields ...string) string {
		return strings.Replace(leastWith(strings.Join(fields, ", ")), "unix:/run/x/s", address, 1)
	}
	for _, text := range []string{
		listen("tls:127.0.0.1:9180", files, secret, control), listen("tls:[::1]:9180", files, secret, control), leastWith(`"socket_mode": "0666", ` + secret),
	} {
		if _, err := parseConfig([]byte(text)); err != nil {
			t.Errorf("%s: %v", text, err)
		}
	}
	for text, wanted := range map[string]string{
		listen("127.0.0.1:9180", files, secret, control): "a port without TLS is not taken", listen("[::1]:9180", secret, control): "a port without TLS is not taken",
		listen("tls:127.0.0.1:9180", secret, control): `"tls" is missing`, listen("tls:127.0.0.1:9180", files, control): "secret_file is missing",
		listen("tls:127.0.0.1:9180", `"tls": {"certificate": "/c"}`, secret, control): `"tls" is missing`,
		listen("tls:127.0.0.1:9180", files, secret):                                   `"control"`, listen("tls:192.0.2.1:9180", files, secret, control): "must be",
		listen("tls:localhost:9180", files, secret, control): "must be", leastWith(files): `"tls" is for a port`,
		listen("tls:127.0.0.1:", files, secret, control): "must be", listen("tls:[::1]:0", files, secret, control): "must be",
		listen(long, `"cache": 1`): "at most 107 octets", listen(longControl, `"cache": 1`): `"control"`,
		leastWith(`"control": "unix:/run/x/s"`): `another one than "listen"`, leastWith(`"control": "/run/x/c"`): "unix:/PATH",
	} {
		if _, err := parseConfig([]byte(text)); err == nil || !strings.Contains(err.Error(), wanted) {
			t.Errorf("%s: %v", text, err)
		}
	}
}

// TestHealthOfOtherCertificate has the client of -health expect Alice's certificate, where another program shows Mallory's: it fails, and does not send
// the secret.
func TestHealthOfOtherCertificate(t *testing.T) {
	alice, mallory := newPerson(t), newPerson(t)
	config, err := parseConfig([]byte(tlsConfig(t, alice)))
	if err != nil {
		t.Fatal(err)
	}
	certificate, key := tlsFiles(t, mallory)
	mallorys, err := tls.LoadX509KeyPair(certificate, key)
	if err != nil {
		t.Fatal(err)
	}
	listener, err := tls.Listen("tcp", strings.TrimPrefix(config.Listen, tlsScheme), &tls.Config{Certificates: []tls.Certificate{mallorys}})
	if err != nil {
		t.Fatal(err)
	}
	defer listener.Close()
	go func() {
		connection, err := listener.Accept()
		if err == nil {
			octets := make([]byte, 4096)
			if count, _ := connection.Read(octets); count > 0 {
				t.Errorf("sent to another program: %q", octets[:count])
			}
			connection.Close()
		}
	}()
	config.secret = []byte(strings.Repeat("s", 32))
	if err := config.checkAnswers(); err == nil || !strings.Contains(err.Error(), "another certificate") {
		t.Error(err)
	}
}
