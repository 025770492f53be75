// Command service lets clients read packages, by signed requests. Usage: service ACL NAME, behind a server with TLS.
package main

import (
	"flag"
	"fmt"
	"log"
	"net"
	"net/http"
	"os"
	"path"
	"time"

	"conguraki/spki/guard"
	"conguraki/spki/httpsig"
	"conguraki/spki/verify"
)

// main serves at a free port, which it prints, or ends with status 1. A GET of a normal path that is granted gets 200 and no body, all else 403.
func main() {
	flag.Parse()
	octets, fileError := os.ReadFile(flag.Arg(0))
	list, listError := guard.Open(octets, guard.Strict, guard.Limits{})
	listener, portError := net.Listen("tcp", "127.0.0.1:0")
	if fileError != nil || listError != nil || portError != nil {
		log.Fatal(fileError, listError, portError)
	}
	fmt.Println(listener.Addr().(*net.TCPAddr).Port)
	verifier := httpsig.NewVerifier(flag.Arg(1)) // (the name by which clients ask for the service)
	log.Fatal(http.Serve(listener, http.HandlerFunc(func(answer http.ResponseWriter, request *http.Request) {
		var decision guard.Decision
		proof, err := verifier.Check(httpsig.MessageOf(request))
		isNormal := path.Clean(request.URL.Path) == request.RequestURI // (no `..`, no escape such as %2e, and no query)
		if err == nil && isNormal && request.Method == http.MethodGet {
			words := []string{"packages", "read", request.RequestURI}
			decision, err = list.Decide(guard.Question{Sequence: proof.Sequence, Key: proof.Key, Words: words, Time: time.Now()}, verify.Signature)
		}
		// (the nonce is taken only for a yes: strangers could fill the store of nonces)
		if err != nil || !decision.Granted() || verifier.Take(proof) != nil {
			http.Error(answer, "denied", http.StatusForbidden)
		}
	})))
}
