// Why a request is granted or denied, by the lines of the library's command explain.

package guard

import (
	"fmt"
	"regexp"
	"strconv"
)

// An Explanation has the lines of the program's command explain.
type Explanation struct {
	text string
}

// A Reason is one line of an explanation.
type Reason struct {
	// Entry is the number of the entry that the line is about, from 1. It is 0 if the certificate stops all entries.
	Entry int
	// Item is the number of the certificate that stops it, among the items of the sequence, from 1. It is 0 if none does.
	Item int
	// Word is `grants`, or the cause, such as `TagLacks`, `NoDelegation` or `NotAccepted`.
	Word string
}

// reasonLine is a line of an explanation: the number of the entry, the number of the item, and the word. The text `no entries` is no such line.
var reasonLine = regexp.MustCompile(`(?m)^(?:entry (\d+) )?(?:item (\d+) )?(\w+)$`)

// String returns the lines as they are, without the last line feed.
func (e Explanation) String() string {
	return e.text
}

// Reasons returns the lines one by one. There is none if the access list is empty and no certificate stops all entries. Then the text is
// `no entries`.
func (e Explanation) Reasons() []Reason {
	var reasons []Reason
	for _, parts := range reasonLine.FindAllStringSubmatch(e.text, -1) {
		// (Atoi returns 0 for a number that the line does not have)
		entry, _ := strconv.Atoi(parts[1])
		item, _ := strconv.Atoi(parts[2])
		reasons = append(reasons, Reason{entry, item, parts[3]})
	}
	return reasons
}

// String returns the line, such as `entry 2 item 1 NotIssuer`.
func (r Reason) String() string {
	line := r.Word
	if r.Item > 0 {
		line = fmt.Sprintf("item %d %s", r.Item, line)
	}
	if r.Entry > 0 {
		line = fmt.Sprintf("entry %d %s", r.Entry, line)
	}
	return line
}
