// Command yes answers 200 to each request, at the path of a Unix socket: what an authorization daemon costs is measured beside it. Its times and the
// most octets of a header are those of spki-authd.
package main

import (
	"log"
	"net"
	"net/http"
	"os"
	"time"
)

func main() {
	if len(os.Args) != 2 {
		log.Fatal("usage: yes SOCKET")
	}
	listener, err := net.Listen("unix", os.Args[1])
	if err != nil {
		log.Fatal(err)
	}
	server := http.Server{
		ReadTimeout: 5 * time.Second, WriteTimeout: 5 * time.Second, IdleTimeout: 75 * time.Second, MaxHeaderBytes: 262_144,
		Handler: http.HandlerFunc(func(response http.ResponseWriter, request *http.Request) { response.WriteHeader(http.StatusOK) }),
	}
	log.Fatal(server.Serve(listener))
}
