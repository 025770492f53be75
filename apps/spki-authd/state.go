package main

// The state of a daemon, by which an operator sees whether two daemons have read the same lists and ended certificates. A list in a store counts as
// another one until both daemons have polled the same last change.

import (
	"errors"
	"fmt"
	"io"
	"strings"
)

var errStates = errors.New("the daemons have different lists or ended certificates")

// state returns one line: the digest of the lists (digestNow), the number of the entries in files, and the count and the digest of endedCertificates.
// Two daemons have the same line if the files of both have the same octets, the lists have the same hosts, prefixes and order, and the last change
// that was polled of each store is the same. checkStates and the operators' scripts compare these lines.
func (d *daemon) state() string {
	present := d.keeper.present.Load()
	return fmt.Sprintf("list %s entries %d ended %d %s\n", present.digestNow(), present.entries(), present.ended.count, present.ended.digest)
}

// checkStates prints the states of daemons, which it asks at these control sockets: unix:/PATH or /PATH. It fails with errStates if the states
// differ, and at once if a daemon does not answer.
func checkStates(controls []string, out io.Writer) error {
	seen := map[string]bool{}
	for _, each := range controls {
		text, err := sendOrder(strings.TrimPrefix(each, unixScheme), orderState)
		if err != nil {
			return err
		}
		seen[text] = true
		fmt.Fprint(out, text)
	}
	if len(seen) > 1 {
		return errStates
	}
	return nil
}
