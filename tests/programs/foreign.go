// A client whose certificate for TLS is of another key than the one it holds, which the programs of OpenSSL refuse to be. Prints what it reads first
// of an answer and the error of reading, or that of the connection. Usage: go run foreign.go ADDRESS CERTIFICATE OWN-CERTIFICATE OWN-KEY.
package main

import (
	"crypto/tls"
	"encoding/pem"
	"fmt"
	"os"
)

// certificate returns the octets in DER of a file in PEM. It panics if there is none.
func certificate(path string) []byte {
	text, _ := os.ReadFile(path)
	block, _ := pem.Decode(text)
	return block.Bytes
}

func main() {
	own, err := tls.LoadX509KeyPair(os.Args[3], os.Args[4])
	if err != nil {
		panic(err)
	}
	foreign := tls.Certificate{Certificate: [][]byte{certificate(os.Args[2])}, PrivateKey: own.PrivateKey}
	client, err := tls.Dial("tcp", os.Args[1], &tls.Config{InsecureSkipVerify: true, Certificates: []tls.Certificate{foreign}})
	if err != nil {
		fmt.Println(err)
		return
	}
	fmt.Fprint(client, "GET /web/index.html HTTP/1.1\r\nHost: localhost\r\nConnection: close\r\n\r\n")
	answer := make([]byte, 65536)
	length, err := client.Read(answer)
	fmt.Println(string(answer[:length]), err)
}
