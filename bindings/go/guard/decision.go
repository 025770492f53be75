// The answer yes or no of a Guard, by the library's line `yes entry N` or `no`.

package guard

import (
	"fmt"
	"strconv"
	"strings"
	"time"
)

// lastSecond is the last second of the year 9999, since 1970. No later time can be asked.
const lastSecond = 253_402_300_799

// A Decision says whether a request is granted. The zero value is a no.
type Decision struct {
	// entry is the number of the entry that grants the request, from 1, and 0 for a no.
	entry int
	// until is the last second of a grant, since 1970: lastSecond if no window ends.
	until int64
}

// Granted says whether the request is granted.
func (d Decision) Granted() bool {
	return d.entry > 0
}

// Entry returns the number of the first entry that grants the request, from 1. It is 0 if none does.
func (d Decision) Entry() int {
	return d.entry
}

// Until returns the last second of the grant: from the question's time to then, the same question with the same valid signatures is granted. It is
// the least not-after of the entry and of all certificates. After it another entry may grant it. It is zero if no window ends before the end of the
// year 9999, and for a no.
func (d Decision) Until() time.Time {
	if !d.Granted() || d.until >= lastSecond {
		return time.Time{}
	}
	return time.Unix(d.until, 0).UTC()
}

// HoldsAt says whether a decision that was kept still grants the request at a time, which must not precede the question's. It is false before 1970
// and past the year 9999, since only a clock that failed gives such a time. It does not know whether another list was read since, nor whether the
// verifier would now reject a signature.
func (d Decision) HoldsAt(now time.Time) bool {
	return d.Granted() && now.Unix() >= 0 && now.Unix() <= d.until
}

// String returns the line of the decision, `yes entry N` or `no`.
func (d Decision) String() string {
	if d.Granted() {
		return "yes entry " + strconv.Itoa(d.entry)
	}
	return "no"
}

// decisionOf returns the grant of a line `yes entry N`, until a second since 1970. It returns an error for each other line.
func decisionOf(line string, until int64) (Decision, error) {
	const prefix = "yes entry "
	entry, err := strconv.Atoi(strings.TrimPrefix(withoutLineFeed(line), prefix))
	if !strings.HasPrefix(line, prefix) || err != nil || entry < 1 {
		return Decision{}, fmt.Errorf("libspki_c is of another version than this module: %q", line)
	}
	return Decision{entry, until}, nil
}

// withoutLineFeed returns lines of the library without the last line feed. The library ends each line with one.
func withoutLineFeed(lines string) string {
	return strings.TrimSuffix(lines, "\n")
}
