package main

// The metrics of the daemon, in Prometheus' text format.

import (
	"fmt"
	"strings"
)

// An exposition is a text in Prometheus' format, version 0.0.4.
type exposition struct {
	strings.Builder
}

// writeFamily writes the two lines that precede the values of one metric. `name` is without its prefix `spki_authd_`. `kind` is counter, gauge or
// histogram, and `help` is on one line, without a backslash.
func (e *exposition) writeFamily(name, kind, help string) {
	fmt.Fprintf(e, "# HELP spki_authd_%s %s\n# TYPE spki_authd_%s %s\n", name, help, name, kind)
}

// writeValue writes the line of one value of a metric. `name` is without its prefix `spki_authd_`. `labels` is as `{rule="1"}` or empty: no label has an
// octet that a client sends.
func (e *exposition) writeValue(name, labels string, value any) {
	fmt.Fprintf(e, "spki_authd_%s%s %v\n", name, labels, value)
}

// writeSingle writes all lines of a metric that has one value.
func (e *exposition) writeSingle(name, kind, help string, value any) {
	e.writeFamily(name, kind, help)
	e.writeValue(name, "", value)
}

// writeHistogram writes all lines of a metric of times in seconds. Each bucket's value also counts the shorter times, as Prometheus requires.
func (e *exposition) writeHistogram(name, help string, times *histogram) {
	e.writeFamily(name, "histogram", help)
	sum := uint64(0)
	for place := range times.buckets {
		sum += times.buckets[place].Load()
		bound := "+Inf"
		if place < len(bounds) {
			bound = fmt.Sprint(bounds[place].Seconds())
		}
		e.writeValue(name+"_bucket", fmt.Sprintf("{le=%q}", bound), sum)
	}
	e.writeValue(name+"_sum", "", float64(times.nanoseconds.Load())/1e9)
	e.writeValue(name+"_count", "", sum)
}

// exposition returns all metrics of the daemon, in Prometheus' format. docs/OPERATING.md and bench/dashboard.py use their names.
func (d *daemon) exposition() string {
	text, present, last := new(exposition), d.keeper.present.Load(), d.keeper.last.Load()
	text.writeFamily("decisions_total", "counter", "Answers by answer and by the number of the rule, which is 0 where no rule was reached.")
	for rule, counts := range d.counts.decisions {
		for place := range counts {
			text.writeValue("decisions_total", fmt.Sprintf("{answer=%q,rule=\"%d\"}", answers[place], rule), counts[place].Load())
		}
	}
	text.writeHistogram("seconds", "The time of an answer, with its line in the log.", &d.counts.seconds)
	text.writeFamily("signatures_total", "counter", "Signatures that were known to be valid, verified, or spared since they could change nothing.")
	text.writeValue("signatures_total", `{how="known"}`, d.counts.known.Load())
	text.writeValue("signatures_total", `{how="verified"}`, d.counts.verified.Load())
	text.writeValue("signatures_total", `{how="spared"}`, d.counts.spared.Load())
	text.writeSingle("list_entries", "gauge", "Entries of all lists in files.", present.entries())
	text.writeSingle("ended_certificates", "gauge", "Digests in the file of ended certificates.", present.ended.count)
	text.writeFamily("state_info", "gauge", "The digests of the lists and of the ended certificates.")
	// (such a metric always has the value 1: its labels say all)
	text.writeValue("state_info", fmt.Sprintf("{ended=%q,list=%q}", present.ended.digest, present.digestNow()), 1)
	text.writeSingle("reloads_total", "counter", "Reloads, with that of the start.", d.keeper.reloads.Load())
	text.writeSingle("reloads_refused_total", "counter", "Reloads that were refused.", d.keeper.refused.Load())
	text.writeSingle("last_reload_refused", "gauge", "1 if the last reload was refused.", oneIf(last.fault != nil))
	text.writeSingle("read_timestamp_seconds", "gauge", "When the lists in force were read.", present.read.Unix())
	text.writeSingle("start_timestamp_seconds", "gauge", "When the daemon was started.", d.begun.Unix())
	text.writeSingle("clock_seconds", "gauge", "The time of the daemon's clock.", d.now().Unix())
	text.writeSingle("clock_back_total", "counter", "How often the time of day went back.", d.clock.timesBack.Load())
	text.writeStores(present)
	text.writeSingle("log_lines_total", "counter", "Lines in the log of grants.", d.granted.written.Load())
	text.writeSingle("log_failures_total", "counter", "Grants that became 503, since their lines could not be written in time.", d.granted.failed.Load())
	text.writeSingle("lines_lost_total", "counter", "Other lines that were dropped.", d.other.lost()+d.messages.lost())
	return text.String()
}

// oneIf returns 1 for true, and 0 for false.
func oneIf(isTrue bool) int {
	if isTrue {
		return 1
	}
	return 0
}
