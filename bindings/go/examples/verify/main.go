// Command verify verifies signatures, so that a test can compare verifiers.
//
// It reads strings from standard input, each as LENGTH:OCTETS: a key, a message and the value of a signature, and so on. It writes 1 for each
// signature that is valid, and 0 for each other, without anything between them, and a line feed at the end.
package main

import (
	"bufio"
	"fmt"
	"io"
	"os"

	"conguraki/spki"
	"conguraki/spki/verify"
)

// nextString reads a string, LENGTH:OCTETS, and returns its octets. There is an error at the end of the input, and where no such string is.
func nextString(input *bufio.Reader) ([]byte, error) {
	var length uint32
	if _, err := fmt.Fscanf(input, "%d:", &length); err != nil {
		return nil, err
	}
	octets := make([]byte, length)
	_, err := io.ReadFull(input, octets)
	return octets, err
}

// main verifies one signature after the other. It ends with a line feed where nextString returns an error, as at the end of the input.
func main() {
	input, output := bufio.NewReader(os.Stdin), bufio.NewWriter(os.Stdout)
	defer output.Flush()
	for {
		var texts [3][]byte
		for place := range texts {
			octets, err := nextString(input)
			if err != nil {
				fmt.Fprintln(output)
				return
			}
			texts[place] = octets
		}
		signed := spki.Signature{Key: texts[0], Message: texts[1], Value: texts[2]}
		fmt.Fprint(output, map[bool]int{true: 1, false: 0}[verify.Signature(signed)])
	}
}
