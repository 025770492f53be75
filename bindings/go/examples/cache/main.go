// Command cache is a build cache for one client, whose key TLS has proved: cache ACL FOLDER KEY SEQUENCE; then lines `read PATH`, `write PATH TEXT`.
package main

import (
	"bufio"
	"fmt"
	"log"
	"os"
	"path"
	"strings"
	"time"

	"conguraki/spki"
	"conguraki/spki/guard"
	"conguraki/spki/verify"
)

// must returns a value, or ends the program with a message if there is an error.
func must[T any](value T, err error) T {
	if err != nil {
		log.Fatal(err)
	}
	return value
}

// main answers each line: `denied`, `written N` or `not written N` for N octets, the octets of a file, or, to other actions too, `nothing is there`.
func main() {
	if len(os.Args) != 5 {
		log.Fatal("usage: cache ACL FOLDER KEY SEQUENCE")
	}
	list := must(guard.Open(must(os.ReadFile(os.Args[1])), guard.Strict, guard.Limits{}))
	key, sequence, decision, lastRequest := spki.AssumeKey(must(os.ReadFile(os.Args[3]))), must(os.ReadFile(os.Args[4])), guard.Decision{}, ""
	for lines := bufio.NewScanner(os.Stdin); lines.Scan() || must(false, lines.Err()); { // (an error, as for a line over 64 KiB, ends the program)
		words := append(strings.SplitN(lines.Text(), " ", 3), "", "") // (of the three words some may be missing)
		action, name, text := words[0], words[1], words[2]
		file, isNormal := os.Args[2]+name, name != "/" && path.Clean("/"+name) == name // (no `..`, which may lead out of FOLDER)
		if request := action + " " + name; request != lastRequest || !decision.HoldsAt(time.Now()) {
			lastRequest = request // (while its grant holds, the same request is not decided again. With an error the decision is a no)
			decision, _ = list.Decide(guard.Question{Key: key, Sequence: sequence, Words: []string{"cache", action, name}, Time: time.Now()}, verify.Signature)
		}
		if !isNormal || !decision.HoldsAt(time.Now()) {
			fmt.Println("denied")
		} else if action == "write" {
			fmt.Println(map[bool]string{true: "written", false: "not written"}[os.WriteFile(file, []byte(text), 0o600) == nil], len(text))
		} else if octets, err := os.ReadFile(file); err == nil && action == "read" {
			fmt.Println(string(octets))
		} else {
			fmt.Println("nothing is there")
		}
	}
}
