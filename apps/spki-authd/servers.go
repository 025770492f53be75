package main

// The headers that are read, and those of each web server if the configuration names no others.

import (
	"fmt"
	"net/textproto"
)

// headers has the names of the headers that are read. Without a name for the method, the URI or the host, that of the web server's own request is taken.
type headers struct {
	Method      string `json:"method"`
	URI         string `json:"uri"`
	Certificate string `json:"certificate"`
	Sequence    string `json:"sequence"`
	Secret      string `json:"secret"`
	ID          string `json:"id"`
	Host        string `json:"host"`
	Address     string `json:"address"`
}

// A server is how a web server asks if the configuration says nothing else: by these headers, with the client's certificate in the form of this name.
type server struct {
	headers headers
	form    string
}

// servers has each web server by its name in the configuration.
var servers = map[string]server{
	"nginx":   {headers{Method: "X-Original-Method", URI: "X-Original-Uri", Host: "X-Original-Host", Certificate: "X-Client-Cert"}, escapedPEM},
	"caddy":   {headers{Method: "X-Forwarded-Method", URI: "X-Forwarded-Uri", Host: forwardedHost, Certificate: "X-Client-Cert"}, base64DER},
	"traefik": {headers{Method: "X-Forwarded-Method", URI: "X-Forwarded-Uri", Host: forwardedHost, Certificate: "X-Forwarded-Tls-Client-Cert"}, base64DER},
	"envoy":   {headers{Certificate: "X-Forwarded-Client-Cert"}, xfcc},
}

// init adds HAProxy and Apache, which ask by a script of examples/ with the headers of nginx.
func init() {
	servers["haproxy"] = server{servers["nginx"].headers, base64DER}
	servers["apache"] = servers["haproxy"]
}

// The headers that every server has if no others are set; the one with the host of Caddy and Traefik; and the one in which a client can send its
// certificates, whose name cannot be set.
const (
	usualSequence = "X-Spki-Sequence"
	usualSecret   = "X-Spki-Secret"
	usualID       = "X-Request-Id"
	usualAddress  = "X-Real-Ip"
	forwardedHost = "X-Forwarded-Host"
	authorization = "Authorization"
)

// setUsual sets the names that were left out to those of `usual`, which has the headers of one web server, or to those of every server. It writes
// each name as net/http does, such as X-Client-Cert: in names of headers upper and lower case do not differ.
func (h *headers) setUsual(usual headers) {
	usual.Sequence, usual.Secret, usual.ID, usual.Address = usualSequence, usualSecret, usualID, usualAddress
	for place, name := range h.all() {
		setText(name, *usual.all()[place])
		*name = textproto.CanonicalMIMEHeaderKey(*name)
	}
}

// all returns pointers to the names, always in this order: so setUsual pairs those of two values by their places.
func (h *headers) all() []*string {
	return []*string{&h.Method, &h.URI, &h.Certificate, &h.Sequence, &h.Secret, &h.ID, &h.Host, &h.Address}
}

// check returns an error if two headers have one name, if one is called Authorization, if a name has an octet that is not visible, or if `form`, that
// of the certificate, is none of the three.
func (h headers) check(form string) error {
	if _, isForm := forms[form]; !isForm {
		return fmt.Errorf(`"certificate_form" is %q, and must be %s, %s or %s`, form, escapedPEM, base64DER, xfcc)
	}
	seen := map[string]bool{authorization: true}
	for _, name := range h.all() {
		if *name == "" {
			continue
		}
		if seen[*name] || !isVisible(*name) {
			return fmt.Errorf(`"headers" has %q twice, or this is no name of a header`, *name)
		}
		seen[*name] = true
	}
	return nil
}
