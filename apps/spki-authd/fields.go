package main

// A check of the configuration's text: no object in it may have a field twice.

import (
	"bytes"
	"encoding/json"
	"errors"
	"fmt"
	"io"
	"strings"
)

// checkFields returns an error if an object in the text of a configuration has a field twice. encoding/json would take the last one, and a reader may
// see the first. Names that it treats as equal, such as those in upper and lower case, count as one, also in `methods`, where it tells them apart. A
// text that is no JSON is an error too, unless only its end is missing: parseConfig tests that.
func checkFields(octets []byte) error {
	decoder := json.NewDecoder(bytes.NewReader(octets))
	var open []*object
	for {
		token, err := decoder.Token()
		if errors.Is(err, io.EOF) {
			return nil
		}
		if err != nil {
			return err
		}
		if token == json.Delim('}') || token == json.Delim(']') {
			open = open[:len(open)-1]
			continue
		}
		if len(open) > 0 {
			if err := open[len(open)-1].note(token); err != nil {
				return err
			}
		}
		if token == json.Delim('{') || token == json.Delim('[') {
			open = append(open, &object{hasNames: token == json.Delim('{'), seen: map[string]bool{}})
		}
	}
}

// An object is what was read of an object or an array of JSON that is still open. hasNames is true for an object, and false for an array, which has no
// names. isValue is true where a value comes next, and seen has the names so far, in small letters.
type object struct {
	hasNames, isValue bool
	seen              map[string]bool
}

// note notes the next token of an object or an array, and fails if it is a name that the object has already. Of a nested object or array, its caller
// passes the first token alone.
func (o *object) note(token json.Token) error {
	if !o.hasNames {
		return nil
	}
	// (names and values alternate: if a value comes next now, this token is a name)
	o.isValue = !o.isValue
	if !o.isValue {
		return nil
	}
	// (encoding/json also takes the long s for s, and the sign of kelvin for k: in large letters the first is S, in small ones the second is k)
	name := strings.ToLower(strings.ToUpper(fmt.Sprint(token)))
	if o.seen[name] {
		return fmt.Errorf("%q is there twice", token)
	}
	o.seen[name] = true
	return nil
}
