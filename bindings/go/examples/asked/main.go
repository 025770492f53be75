// Command asked answers the questions of a test, so that another program can compare the answers.
//
// It reads strings from standard input, each as LENGTH:OCTETS, and writes each answer as one string, without its last line feed.
// A list of strings is first the number of its strings, itself a string, and then these. A question is, in this order:
//
//   - the strings COMMAND (`explain`, `reduce`, or any other word for a decision), POLICY (`strict`, or any other word for AllowSHA1), LIMITS
//     (`highest`, or any other word for the usual ones), ACL, SEQUENCE and KEY
//   - the request: `text` and a list of one string, its text, or `words` and the list of its strings
//   - the moment: `text` and a date, or `seconds` and the number of seconds since 1970
//   - a list of the signatures that the verifier accepts, three strings each: a key, a message and a value
package main

import (
	"bufio"
	"errors"
	"fmt"
	"io"
	"os"
	"strconv"
	"strings"
	"time"

	"conguraki/spki"
	"conguraki/spki/guard"
)

// An input reads questions from standard input. `fault` is the error of the last read alone, such as io.EOF at the end of the input, or nil.
type input struct {
	*bufio.Reader
	fault error
}

// nextString reads a string, LENGTH:OCTETS, and returns its octets. If the input ends or LENGTH is no number below 2^31, it sets i.fault, and the
// result must not be used.
func (i *input) nextString() string {
	digits, err := i.ReadString(':')
	if i.fault = err; err != nil {
		return ""
	}
	length, err := strconv.ParseUint(strings.TrimSuffix(digits, ":"), 10, 31)
	if i.fault = err; err != nil {
		return ""
	}
	octets := make([]byte, length)
	_, i.fault = io.ReadFull(i, octets)
	return string(octets)
}

// nextList reads the number of strings, and then these strings, which it returns. If the number cannot be read, or its text is no number below 2^31,
// it sets i.fault and returns nil. If the input ends within the list, i.fault is that of the last string, and the result must not be used.
func (i *input) nextList() []string {
	digits := i.nextString()
	if i.fault != nil {
		return nil
	}
	count, err := strconv.ParseUint(digits, 10, 31)
	if i.fault = err; err != nil {
		return nil
	}
	list := make([]string, count)
	for place := range list {
		list[place] = i.nextString()
	}
	return list
}

// A task is one question of the input. `list` is the text of the ACL, and `accepted` has the key, the message and the value of each signature that
// its verifier accepts.
type task struct {
	command, policy, limits, list string
	question                      guard.Question
	accepted                      map[[3]string]bool
}

// nextTask reads the next question. At the end of the input i.fault is io.EOF, and the task must not be used. Other faults are not found, since the
// next read replaces i.fault: the test writes whole questions.
func (i *input) nextTask() task {
	task := task{command: i.nextString(), policy: i.nextString(), limits: i.nextString(), list: i.nextString(), accepted: map[[3]string]bool{}}
	task.question.Sequence = []byte(i.nextString())
	task.question.Key = spki.AssumeKey([]byte(i.nextString()))
	form, request := i.nextString(), i.nextList()
	if form == "words" {
		task.question.Words = request
	} else if len(request) > 0 {
		task.question.Request = []byte(request[0])
	}
	unit, moment := i.nextString(), i.nextString()
	if seconds, err := strconv.ParseInt(moment, 10, 64); unit == "seconds" && err == nil {
		// (with 1 nanosecond, which a guard ignores. Without it, the first second of the year 1 would be the zero Time, and a question with the zero
		// Time is one whose Moment is given)
		task.question.Time = time.Unix(seconds, 1)
	} else {
		task.question.Moment = []byte(moment)
	}
	accepted := i.nextList() // (three strings for each signature)
	for place := 0; place+2 < len(accepted); place += 3 {
		task.accepted[[3]string{accepted[place], accepted[place+1], accepted[place+2]}] = true
	}
	return task
}

// answer opens a guard of the ACL and asks it the question. The command `explain` or `reduce` asks for an explanation or a reduction, any other one
// for the decision. It returns the lines of the answer without the last line feed, or the error of the guard, such as a *Refusal.
func (t task) answer() (string, error) {
	policy, limits := guard.AllowSHA1, guard.Limits{}
	if t.policy == "strict" {
		policy = guard.Strict
	}
	if t.limits == "highest" {
		limits = guard.Highest()
	}
	list, err := guard.Open([]byte(t.list), policy, limits)
	if err != nil {
		return "", err
	}
	defer list.Close()
	verify := func(signed spki.Signature) bool {
		return t.accepted[[3]string{string(signed.Key), string(signed.Message), string(signed.Value)}]
	}
	switch t.command {
	case "explain":
		explanation, err := list.Explain(t.question, verify)
		return linesOf(explanation), err
	case "reduce":
		return list.Reduce(t.question, verify)
	}
	decision, err := list.Decide(t.question, verify)
	return decision.String(), err
}

// linesOf returns the lines of an explanation, each put together from the parts of its Reason, so that the test compares these too. Where there is no
// Reason, the line is `no entries`.
func linesOf(explanation guard.Explanation) string {
	lines := make([]string, 0)
	for _, reason := range explanation.Reasons() {
		lines = append(lines, reason.String())
	}
	if len(lines) == 0 {
		return "no entries"
	}
	return strings.Join(lines, "\n")
}

// main writes the answer to each question, LENGTH:OCTETS, in order, until the input ends. The answer to a question with an error is the text of the
// error.
func main() {
	input, output := &input{Reader: bufio.NewReader(os.Stdin)}, bufio.NewWriter(os.Stdout)
	defer output.Flush()
	for {
		task := input.nextTask()
		if errors.Is(input.fault, io.EOF) {
			return
		}
		line, err := task.answer()
		if err != nil {
			line = err.Error()
		}
		fmt.Fprintf(output, "%d:%s", len(line), line)
	}
}
