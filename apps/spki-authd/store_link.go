//go:build spki_postgres

package main

// The network connections to a store in PostgreSQL.

import (
	"net"
	"time"
)

// A patient connection is that of a link. It reads and writes no longer than until link.until or, if that is zero, waits for each read and each write
// no longer than `patience`. Otherwise a network that is cut would hold a request for minutes.
type patient struct {
	net.Conn
	patience time.Duration
	link     *link
}

// deadline returns until when a read or a write may last that begins now.
func (p *patient) deadline() time.Time {
	if p.link.until.IsZero() {
		return time.Now().Add(p.patience)
	}
	return p.link.until
}

// Read reads the octets that arrive, and fails if none arrives before the deadline.
func (p *patient) Read(octets []byte) (int, error) {
	if err := p.SetReadDeadline(p.deadline()); err != nil {
		return 0, err
	}
	return p.Conn.Read(octets)
}

// Write writes octets, and fails if that takes longer than until the deadline.
func (p *patient) Write(octets []byte) (int, error) {
	if err := p.SetWriteDeadline(p.deadline()); err != nil {
		return 0, err
	}
	return p.Conn.Write(octets)
}
