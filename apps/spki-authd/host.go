package main

// The host of a request. One that two servers could read in two ways is refused.

import (
	"errors"
	"net"
	"strings"
)

// errHost is the error for a missing host, and for each that two servers could read in two ways.
var errHost = errors.New("the host is missing or not clear")

// The most octets of a host, as DNS has them.
const mostHost = 253

// hostOf returns the host that a text such as `Files.example.org:443` has, in small letters without its port. It fails with errHost unless that is a
// name or an IPv4 address of at most mostHost letters, digits, single dots, hyphens and underscores, or an IPv6 address in brackets. A dot at the
// beginning or at the end, which some servers drop, is refused.
func hostOf(text string) (string, error) {
	host := text
	if colon := strings.LastIndexByte(text, ':'); colon >= 0 && !strings.HasSuffix(text, "]") {
		if host = text[:colon]; !isPort(text[colon+1:]) {
			return "", errHost
		}
	}
	if strings.HasPrefix(host, "[") && strings.HasSuffix(host, "]") {
		if address := net.ParseIP(host[1 : len(host)-1]); address == nil || !strings.Contains(host, ":") {
			return "", errHost
		}
		return strings.ToLower(host), nil
	}
	if host == "" || len(host) > mostHost || host[0] == '.' || host[len(host)-1] == '.' || strings.Contains(host, "..") {
		return "", errHost
	}
	host = strings.ToLower(host)
	for place := 0; place < len(host); place++ {
		octet := host[place]
		if !('a' <= octet && octet <= 'z' || '0' <= octet && octet <= '9' || octet == '.' || octet == '-' || octet == '_') {
			return "", errHost
		}
	}
	return host, nil
}

// isPort says whether a text may stand behind the colon of a host: at most five digits, or none. A number over 65535 is not refused.
func isPort(text string) bool {
	for place := 0; place < len(text); place++ {
		if text[place] < '0' || text[place] > '9' {
			return false
		}
	}
	return len(text) <= 5
}

// isHost says whether a text of the configuration is a host in the form that hostOf returns, so that it can equal the host of a request.
func isHost(text string) bool {
	host, err := hostOf(text)
	return err == nil && host == text
}
