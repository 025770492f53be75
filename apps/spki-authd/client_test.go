package main

// Tests of how the key of the client's TLS certificate is read from a header: the form escapedPEM is that of nginx, base64DER that of Caddy, Traefik
// and others, and xfcc that of Envoy.

import (
	"crypto/ecdsa"
	"crypto/elliptic"
	"crypto/rand"
	"crypto/rsa"
	"encoding/base64"
	"strings"
	"testing"
	"time"
)

// TestCertificateForms reads the key of Alice's certificate in the forms of nginx, Caddy, Traefik and Envoy.
func TestCertificateForms(t *testing.T) {
	alice, bob := newPerson(t), newPerson(t)
	encoded := base64.StdEncoding.EncodeToString(alice.der)
	for name, row := range map[string]struct{ form, text string }{
		"nginx": {escapedPEM, alice.escaped()}, "nginx, less is escaped": {escapedPEM, strings.ReplaceAll(alice.pem(), "\n", "%0A")},
		"caddy": {base64DER, encoded}, "traefik": {base64DER, encoded + "," + base64.StdEncoding.EncodeToString(bob.der)},
		"envoy":             {xfcc, `By=spiffe://x;Hash=ab;Cert="` + alice.escaped() + `";Subject="CN=\"a;b\",Cert=x"`},
		"envoy, Cert last":  {xfcc, `Hash=ab;Cert="` + alice.escaped() + `"`},
		"envoy, `;` at end": {xfcc, `cert="` + alice.escaped() + `";`},
	} {
		if key, err := keyOf(row.text, forms[row.form]); err != nil || string(key) != alice.key {
			t.Errorf("%s: %q, %v", name, key, err)
		}
	}
}

// TestWrongCertificateForms reads texts that are not one certificate in the form of a web server: each is refused.
func TestWrongCertificateForms(t *testing.T) {
	alice, bob := newPerson(t), newPerson(t)
	// (`half` is cut behind a multiple of four characters, so that it is still base64)
	encoded, quote := base64.StdEncoding.EncodeToString(alice.der), `"`
	element := `Cert="` + alice.escaped() + `"`
	for name, row := range map[string]struct{ form, text string }{
		"nothing": {escapedPEM, ""}, "no PEM": {escapedPEM, "x"}, "wrong escape": {escapedPEM, alice.escaped() + "%zz"},
		"two certificates": {escapedPEM, alice.escaped() + bob.escaped()}, "text in front": {escapedPEM, "x%0A" + alice.escaped()},
		"text behind": {escapedPEM, alice.escaped() + "x"}, "other block": {escapedPEM, strings.ReplaceAll(alice.escaped(), "CERTIFICATE", "PUBLIC%20KEY")},
		"truncated": {escapedPEM, alice.escaped()[:len(alice.escaped())/2]}, "base64 as PEM": {escapedPEM, encoded},
		"no end": {escapedPEM, strings.SplitAfter(alice.escaped(), "-----END")[0]}, "no line": {escapedPEM, strings.ReplaceAll(alice.escaped(), "%0A", "")},
		"no beginning":          {escapedPEM, strings.TrimPrefix(alice.escaped(), "-----BEGIN%20CERTIFICATE-----")},
		"two ends":              {escapedPEM, strings.TrimRight(alice.escaped(), "%0A") + "%0A-----END%20CERTIFICATE-----"},
		"a header in the block": {escapedPEM, strings.Replace(alice.escaped(), "-----%0A", "-----%0Aa:%20b%0A%0A", 1)},
		"over 64 KiB":           {escapedPEM, alice.escaped() + strings.Repeat("%0A", 65_536/3)},
		"no base64":             {base64DER, "~"}, "PEM as base64": {base64DER, alice.escaped()}, "no certificate": {base64DER, "AAAA"},
		"half": {base64DER, encoded[:len(encoded)/8*4]}, "an octet behind": {base64DER, base64.StdEncoding.EncodeToString(append(alice.der, 0))},
		"empty first": {base64DER, "," + encoded}, "spaces": {base64DER, " " + encoded},
		"two headers in one": {base64DER, encoded + ", " + base64.StdEncoding.EncodeToString(bob.der)},
		"no Cert":            {xfcc, "Hash=ab"}, "two Certs": {xfcc, element + ";" + element}, "two elements": {xfcc, "Hash=a," + element},
		"two elements, quoted": {xfcc, element + "," + element}, "no end quote": {xfcc, `Cert="` + alice.escaped()}, "escape at the end": {xfcc, `Cert="\`},
		"no field": {xfcc, alice.escaped()}, "quote inside": {xfcc, "Cert=a" + quote + alice.escaped()},
	} {
		if key, err := keyOf(row.text, forms[row.form]); err == nil {
			t.Errorf("%s: %q", name, key)
		}
	}
}

// TestManyBeginnings reads a hundred headers with the beginnings of thousands of blocks each, in up to 128 KiB, as a stranger can send them. The limit of
// time is only for what hangs: a reader that looks for the end of each block takes over 20 seconds.
func TestManyBeginnings(t *testing.T) {
	begun, text := time.Now(), strings.Repeat("-----BEGIN A-----%0A", 131_072/20)
	for _, value := range []string{text, text[:60_000], beginPEM + "%0A" + text[:60_000] + endPEM, `Cert="` + text[:60_000] + `"`} {
		for turn := 0; turn < 25; turn++ {
			for name, form := range forms {
				if key, err := keyOf(value, form); err == nil {
					t.Fatalf("%s: %q", name, key)
				}
			}
		}
	}
	if took := time.Since(begun); took > 10*time.Second {
		t.Error(took)
	}
}

// TestKindsOfKeys reads certificates with keys of several kinds: P-256 and RSA of 2,048 bits may be used, P-521 and RSA of 1,024 bits may not.
func TestKindsOfKeys(t *testing.T) {
	p256, err := ecdsa.GenerateKey(elliptic.P256(), rand.Reader)
	if err != nil {
		t.Fatal(err)
	}
	p521, err := ecdsa.GenerateKey(elliptic.P521(), rand.Reader)
	if err != nil {
		t.Fatal(err)
	}
	strong, err := rsa.GenerateKey(rand.Reader, 2048)
	if err != nil {
		t.Fatal(err)
	}
	weak, err := rsa.GenerateKey(rand.Reader, 1024)
	if err != nil {
		t.Fatal(err)
	}
	for name, row := range map[string]struct {
		der    []byte
		isUsed bool
	}{
		"P-256": {selfSigned(t, p256), true}, "P-521": {selfSigned(t, p521), false}, "RSA 2048": {selfSigned(t, strong), true},
		"RSA 1024": {selfSigned(t, weak), false},
	} {
		if _, err := keyOf(base64.StdEncoding.EncodeToString(row.der), fromBase64DER); (err == nil) != row.isUsed {
			t.Errorf("%s: %v", name, err)
		}
	}
}

// TestKeysAreKept reads Alice's certificate twice, the second time from what is kept, with the same result. A text that is no certificate fails twice.
func TestKeysAreKept(t *testing.T) {
	keys, alice := newKeys(escapedPEM), newPerson(t)
	for turn := 0; turn < 2; turn++ {
		if holder, err := keys.holderOf(alice.escaped()); err != nil || holder.key.Text() != alice.key || holder.keyDigest != hexDigest([]byte(alice.key)) {
			t.Errorf("turn %d: %v, %v", turn, holder, err)
		}
		if _, err := keys.holderOf(alice.escaped() + "x"); err == nil {
			t.Error("what is no certificate is kept")
		}
	}
}
