package main

// The start of the daemon, and -test, which only reads its files.

import (
	"fmt"
	"io"
	"os"
	"os/signal"
	"runtime"
	"runtime/debug"
	"syscall"
	"time"

	"conguraki/spki/verify"
)

// Go's collector runs when the heap has grown by so many percent, to five times what is in use. Little is in use, so this saves time and costs a few MiB.
// With many nonces and kept certificates more is in use: it runs more often from so many octets on, since the unit of systemd allows 512 MiB in all.
const (
	gcPercent = 400
	gcOctets  = 384 << 20
)

// signals has the channels by which the daemon gets its signals. Each kind has one of its own, so that none is lost while one of another kind waits.
type signals struct {
	reload, reopen, end chan os.Signal
}

// listenToSignals returns the channels to which the signals come from now on: SIGHUP, SIGUSR1, and SIGTERM or SIGINT. SIGPIPE is ignored, so that the
// daemon goes on where the reader of its lines is gone.
func listenToSignals() signals {
	signals := signals{make(chan os.Signal, 1), make(chan os.Signal, 1), make(chan os.Signal, 1)}
	signal.Ignore(syscall.SIGPIPE)
	signal.Notify(signals.reload, syscall.SIGHUP)
	signal.Notify(signals.reopen, syscall.SIGUSR1)
	signal.Notify(signals.end, syscall.SIGTERM, syscall.SIGINT)
	return signals
}

// start reads the configuration and its files, and runs the daemon until a signal ends it. With -test it only reads and tests the files, and prints
// what decider.test prints. `out` gets that, or the lines of answers other than grants, and `messages` the events. It fails as readConfig,
// openLedger, openDecider, decider.test and daemon.listenAndServe do.
func start(words words, out, messages io.Writer) error {
	signals := listenToSignals()
	debug.SetGCPercent(gcPercent)
	debug.SetMemoryLimit(gcOctets)
	boundProcessors()
	// (the main loop, which reads all lists, stays in this thread: malloc has a heap for each thread, so the memory of an old list is used again)
	runtime.LockOSThread()
	defer runtime.UnlockOSThread()
	config, err := readConfig(words.config)
	if err != nil {
		return err
	}
	if words.noCache {
		*config.Cache = 0
	}
	if words.isTest {
		decider, err := openDecider(config, false)
		if err != nil {
			return err
		}
		return decider.test(out)
	}
	// (first of all: while another daemon writes this log, it grants requests, and keeps what a start would remove)
	ledger, err := openLedger(config.Log, config.LogSync)
	if err != nil {
		return err
	}
	if config.Signatures != nil {
		// (a signed request says in whole seconds when it was made, and one from before the start is refused. The daemon before this one may have granted
		// one of this second, whose nonce is forgotten: so this daemon starts with the next second)
		time.Sleep(time.Until(time.Now().Truncate(time.Second).Add(time.Second)))
	}
	decider, err := openDecider(config, true)
	if err != nil {
		// (nothing was granted, so no line can be lost)
		_ = ledger.close()
		return err
	}
	daemon := &daemon{decider: decider, ledger: ledger, signals: signals, orders: make(chan order), begun: decider.now()}
	daemon.startWriters(out, messages)
	return daemon.listenAndServe()
}

// openDecider returns a decider for a configuration, whose files it has read. mayRemove says whether files of sequences that clients left may be
// removed. It fails as openChains and accessKeeper.reload do. daemon.startWriters sets logGrant and logOther.
func openDecider(config *config, mayRemove bool) (*decider, error) {
	decider := newDecider(config)
	var err error
	if decider.chains, err = openChains(config, decider.isNamed, decider.now(), mayRemove); err != nil {
		return nil, err
	}
	// (the first reload: no certificate has ended before it, so it does not matter whether fewer may have)
	return decider, decider.keeper.reload(config, false, decider.now())
}

// newDecider returns a decider for a configuration. Its caller opens `chains`, reads the lists by keeper.reload, and sets logGrant and logOther.
func newDecider(config *config) *decider {
	decider := &decider{
		config: config, keys: newKeys(config.CertificateForm), cache: newCache(*config.Cache), sequences: newSequences(*config.Cache), now: time.Now,
		counts: newCounts(len(config.Requests)), byKey: newRateLimiter(config.Limits.KeyRate), byAddress: newRateLimiter(config.Limits.AddressRate),
		byLeaving: newMinuteLimiter(config.Limits.LeaveRate), explanations: newRateLimiter(config.Limits.ExplainRate), verify: verify.Signature,
	}
	decider.requests = newRequestVerifier(config, func() time.Time { return decider.now() })
	return decider
}

// test prints the number of entries of each list, or the status of its store. It returns why the log cannot be written, the socket's group cannot be
// set, or a store cannot be read or is stale, or nil. It opens neither a socket nor the log.
func (d *decider) test(out io.Writer) error {
	if err := checkLedgerPath(d.config.Log); err != nil {
		return err
	}
	if err := checkOpenable(d.config.Log); err != nil {
		return err
	}
	if d.config.SocketGroup != "" {
		if _, err := d.config.groupOfSocket(); err != nil {
			return err
		}
	}
	for _, each := range d.keeper.present.Load().lists {
		if each.store != nil {
			if err := each.store.test(out); err != nil {
				return fmt.Errorf("%s: %w", each.List, err)
			}
			continue
		}
		fmt.Fprintf(out, "%s: %d entries\n", each.List, each.guard.Entries())
	}
	if d.chains != nil {
		// (where a store has the chains, it must answer for any key)
		_, err := d.chains.currentOf(hexDigest(nil), d.now())
		return err
	}
	return nil
}
