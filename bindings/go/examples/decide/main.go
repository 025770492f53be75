// Command decide decides a request, as a service does that is written in Go.
//
// Usage: decide ACL SEQUENCE KEY WORD ..
//
// ACL is a file of the service, its access list. SEQUENCE and KEY are files of the client. The client must have proved that it holds the key:
// this program does not check that. The request is the list of the WORDs, or the word where there is one. Keys and signatures have the forms of
// docs/FORMATS.md, which `spki-cert` writes.
package main

import (
	"errors"
	"fmt"
	"os"
	"time"

	"conguraki/spki"
	"conguraki/spki/guard"
	"conguraki/spki/verify"
)

// isGranted says whether a request is granted. Each word is one string of it, whatever octets it has. The error, such as of a text that cannot be
// read, is a no too.
func isGranted(list *guard.Guard, sequence []byte, key spki.ProvenKey, words []string, now time.Time) (bool, error) {
	decision, err := list.Decide(guard.Question{Sequence: sequence, Key: key, Words: words, Time: now}, verify.Signature)
	if err != nil {
		return false, err
	}
	return decision.Granted(), nil
}

// run prints `granted` or `denied` for the arguments ACL SEQUENCE KEY WORD .. It returns an error if arguments are missing, a file cannot be read, or
// a text is refused.
func run(arguments []string) error {
	if len(arguments) < 4 {
		return errors.New("usage: decide ACL SEQUENCE KEY WORD [WORD ..]")
	}
	var texts [3][]byte
	for place := range texts {
		octets, err := os.ReadFile(arguments[place])
		if err != nil {
			return err
		}
		texts[place] = octets
	}
	list, err := guard.Open(texts[0], guard.Strict, guard.Limits{})
	if err != nil {
		return err
	}
	defer list.Close()
	// THE CLIENT MUST HAVE PROVED THAT IT HOLDS THE KEY: a public key is public.
	granted, err := isGranted(list, texts[1], spki.AssumeKey(texts[2]), arguments[3:], time.Now())
	if err != nil {
		return err
	}
	fmt.Println(map[bool]string{true: "granted", false: "denied"}[granted])
	return nil
}

// main ends with status 0 after `granted` and after `denied`, and otherwise with status 1 and a message.
func main() {
	if err := run(os.Args[1:]); err != nil {
		fmt.Fprintln(os.Stderr, err)
		os.Exit(1)
	}
}
