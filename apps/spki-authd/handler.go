package main

// The answer to one request of the web server, with its line in the log. No request is granted whose line cannot be written.

import (
	"errors"
	"fmt"
	"net/http"
	"time"
)

var errNotLogged = errors.New("the log of grants takes no line")

// answerTo decides one request of the web server, and logs and counts the answer, which the caller sends. If anything fails, also the logging of a
// grant, the status is not 200. The log has the time of the decision, and the counts that of the decision and its line in the log.
func (d *decider) answerTo(request *http.Request) record {
	begun := d.now()
	result := d.answer(request, begun)
	took := d.now().Sub(begun)
	result.Time, result.Microseconds = stamp(begun), took.Microseconds()
	d.logAnswer(&result)
	end := d.now()
	d.clock.note(end)
	d.counts.note(&result, end.Sub(begun))
	return result
}

// logFault logs and counts the answer to a request that cannot be read, is too slow, or ends in a panic, and returns its record. `fault` is the reason.
// The time of the answer counts as 0.
func (d *decider) logFault(answer answer, fault error) record {
	result := record{Time: stamp(d.now())}.withReason(answer, fault)
	d.logAnswer(&result)
	d.counts.note(&result, 0)
	return result
}

// logAnswer sets the status of a record by its answer, and logs the record. A grant that cannot be logged becomes `failed`. Other lines may be lost.
func (d *decider) logAnswer(result *record) {
	// (`rooms` has buffers that are used again)
	buffer := rooms.Get().(*[]byte)
	defer rooms.Put(buffer)
	result.Status = result.Answer.status(d.config.RefusedStatus)
	if result.Answer == answerYes {
		*buffer = result.line(*buffer)
		err := d.logGrant(*buffer)
		if err == nil {
			return
		}
		result.Answer, result.Entry, result.Reason = answerFailed, 0, errNotLogged.Error()+": "+err.Error()
		result.Status = result.Answer.status(d.config.RefusedStatus)
	}
	*buffer = result.line(*buffer)
	d.logOther(*buffer)
}

// answer reads a request and decides it at a moment, without logging. One with a wrong secret is answered by `no`, one that fails with errBusy by
// `failed`, and any other that cannot be read by `refused`. After a panic the answer is `failed`.
func (d *decider) answer(request *http.Request, now time.Time) (result record) {
	defer func() {
		if fault := recover(); fault != nil {
			result = record{}.withReason(answerFailed, fmt.Errorf("panic: %v", fault))
		}
	}()
	read := d.config.inquiryOf
	if d.config.isPut(request) {
		read = d.config.inquiryOfPut
	}
	inquiry, err := read(request)
	if errors.Is(err, errSecret) {
		return record{}.withReason(answerNo, err)
	}
	if err != nil {
		reply := answerRefused
		if errors.Is(err, errBusy) {
			reply = answerFailed
		}
		return record{ID: inquiry.id, Host: inquiry.host, Target: targetForLog(inquiry.target)}.withReason(reply, err)
	}
	return d.decide(&inquiry, now)
}
