// Command spki-authd says, for a web server, whether the holder of a TLS client certificate, or of the key that has signed a request, may do what it
// requests. README.md says how it is asked and what it answers.
package main

import (
	"errors"
	"flag"
	"fmt"
	"io"
	"os"
	"strings"
	"syscall"

	"conguraki/spki/guard"
)

// Exit statuses: all was done; something failed, such as a file that is refused, a daemon that cannot be asked or started, a check or the output; and
// a word of the command line is wrong.
const (
	statusDone    = 0
	statusRefused = 1
	statusWords   = 2
)

// words are what the command line says: a field for each flag. wordsOf says what the flags mean.
type words struct {
	config    string
	list      string
	isTest    bool
	isHealth  bool
	isState   bool
	isMetrics bool
	isReload  bool
	isFewer   bool
	isReopen  bool
	noCache   bool
	probe     string
	isStopped bool
	isVersion bool
	// The control sockets whose daemons are compared.
	controls controls
}

// controls are the values of -of, which may be given more than once. They implement flag.Value.
type controls []string

// String returns the values with spaces between them.
func (c *controls) String() string { return strings.Join(*c, " ") }

// Set adds the value of one more -of. It never fails.
func (c *controls) Set(value string) error { *c = append(*c, value); return nil }

// main runs the program, and exits with its status.
func main() {
	if err := replaceClosed(); err != nil {
		fmt.Fprintln(os.Stderr, "spki-authd:", err)
		os.Exit(statusRefused)
	}
	os.Exit(run(os.Args[1:], os.Stdout, os.Stderr))
}

// replaceClosed opens /dev/null in place of standard input, output and error where they are closed. Otherwise the file that is opened next has the
// number of one of them, and what is printed is written to that file, such as the log of grants. It is opened for reading alone, so that printing fails
// as before. (From Go 1.21 on the runtime opens it before, for writing too.) It fails if /dev/null cannot be opened.
func replaceClosed() error {
	for number := 0; number <= 2; number++ {
		var about syscall.Stat_t
		if syscall.Fstat(number, &about) == nil {
			continue
		}
		// (it gets the least number that is free, which is this one)
		if _, err := syscall.Open(os.DevNull, syscall.O_RDONLY, 0); err != nil {
			return fmt.Errorf("%s: %w", os.DevNull, err)
		}
	}
	return nil
}

// A printer writes the output of a command, and keeps the first error of that, so that the exit status says whether the output is whole.
type printer struct {
	to    io.Writer
	fault error
}

// Write prints octets. After an error it prints nothing more.
func (p *printer) Write(octets []byte) (count int, err error) {
	if p.fault == nil {
		count, p.fault = p.to.Write(octets)
	}
	return count, p.fault
}

// run does what the words of the command line say, and returns the exit status, for -help statusDone. It writes errors to `messages`. A command fails
// if `out` does; the daemon does not, so it gets `out` itself.
func run(arguments []string, out, messages io.Writer) int {
	words, err := wordsOf(arguments, messages)
	if errors.Is(err, flag.ErrHelp) {
		return statusDone
	}
	if err != nil {
		return statusWords
	}
	printed := &printer{to: out}
	switch {
	case words.isVersion:
		fmt.Fprintln(printed, "spki-authd", guard.Version)
	case words.list != "":
		err = checkList(words.list, printed)
	case len(words.controls) > 0:
		err = checkStates(words.controls, printed)
	case words.probe != "":
		err = probeSite(words.probe, words.isStopped, printed)
	case words.isHealth || words.order() != "":
		err = askDaemon(words, printed)
	case words.isTest:
		err = start(words, printed, messages)
	default:
		err = start(words, out, messages)
	}
	if err == nil {
		err = printed.fault
	}
	if err != nil {
		fmt.Fprintln(messages, "spki-authd:", err)
		return statusRefused
	}
	return statusDone
}

// wordsOf reads the words of the command line, without the program's name. The error says what is wrong in them, and is written to `messages` too. For
// -help it writes the help there, and fails with flag.ErrHelp.
func wordsOf(arguments []string, messages io.Writer) (words, error) {
	var words words
	flags := flag.NewFlagSet("spki-authd", flag.ContinueOnError)
	flags.SetOutput(messages)
	flags.StringVar(&words.config, "config", "/etc/spki-authd/config.json", "the `FILE` of the configuration")
	flags.StringVar(&words.list, "check", "", "read an access `LIST`, say whether it is one, and end")
	flags.BoolVar(&words.isTest, "test", false, "read the configuration and its files, and end")
	flags.BoolVar(&words.isHealth, "health", false, "ask the daemon of the configuration whether it answers and how it is, and end")
	flags.BoolVar(&words.isReload, "reload", false, "have it read its files again; the status is 1 if one is refused")
	flags.BoolVar(&words.isFewer, "fewer", false, "with -reload: certificates that have ended may count again")
	flags.BoolVar(&words.isReopen, "reopen", false, "have it open its log again, after that was renamed")
	flags.BoolVar(&words.isMetrics, "metrics", false, "print its metrics for Prometheus")
	flags.BoolVar(&words.isState, "state", false, "print the digests of its lists and of its ended certificates")
	flags.Var(&words.controls, "of", "with -state: the `CONTROL` socket of a daemon; of several, say whether they have the same state")
	flags.BoolVar(&words.noCache, "no-cache", false, "verify each signature each time")
	flags.StringVar(&words.probe, "probe", "", "ask the finished site at this `URL` for what it must deny, say what it grants, and end")
	flags.BoolVar(&words.isStopped, "stopped", false, "with -probe: the daemon is stopped meanwhile")
	flags.BoolVar(&words.isVersion, "version", false, "print the version")
	err := flags.Parse(arguments)
	if err != nil {
		return words, err
	}
	// (`-check "$LIST"` must not start the daemon where LIST is not set)
	flags.Visit(func(each *flag.Flag) {
		if each.Value.String() == "" {
			err = fmt.Errorf("-%s is empty", each.Name)
		}
	})
	if err == nil {
		err = words.check(flags.Args())
	}
	if err != nil {
		fmt.Fprintln(messages, "spki-authd:", err)
	}
	return words, err
}

// check returns an error for words beside the flags, which are in `rest`, for an empty -of among several, for a flag without the one that it is for,
// and for two flags of which each says what to do.
func (w *words) check(rest []string) error {
	for _, control := range w.controls {
		if control == "" {
			return errors.New("-of is empty")
		}
	}
	switch {
	case len(rest) > 0:
		return fmt.Errorf("%q is no flag", rest[0])
	case w.isStopped && w.probe == "":
		return errors.New("-stopped goes with -probe")
	case w.isFewer && !w.isReload:
		return errors.New("-fewer is for -reload")
	case len(w.controls) > 0 && !w.isState:
		return errors.New("-of is for -state")
	}
	if tasks := w.tasks(); len(tasks) > 1 {
		return fmt.Errorf("%s and %s do not go together", tasks[0], tasks[1])
	}
	return nil
}

// tasks returns those flags that are given and say what to do. If there is none, the daemon starts.
func (w *words) tasks() []string {
	var tasks []string
	for _, task := range []struct {
		flag    string
		isGiven bool
	}{
		{"-check", w.list != ""}, {"-test", w.isTest}, {"-health", w.isHealth}, {"-reload", w.isReload}, {"-reopen", w.isReopen},
		{"-metrics", w.isMetrics}, {"-state", w.isState}, {"-probe", w.probe != ""}, {"-version", w.isVersion},
	} {
		if task.isGiven {
			tasks = append(tasks, task.flag)
		}
	}
	return tasks
}

// order returns the order that the flags give to the running daemon, or an empty text if they give none. That of -health is none of these:
// checkHealth sends it, behind a request.
func (w *words) order() string {
	switch {
	case w.isReload && w.isFewer:
		return orderReloadFewer
	case w.isReload:
		return orderReload
	case w.isReopen:
		return orderReopen
	case w.isMetrics:
		return orderMetrics
	case w.isState:
		return orderState
	}
	return ""
}

// askDaemon prints the health of the daemon of a configuration, or gives it an order and prints its answer. It fails if the configuration is refused, and
// as checkHealth and sendOrder do.
func askDaemon(words words, out io.Writer) error {
	config, err := readConfig(words.config)
	if err != nil {
		return err
	}
	if words.isHealth {
		return checkHealth(config, out)
	}
	text, err := sendOrder(config.controlPath(), words.order())
	fmt.Fprint(out, text)
	return err
}

// checkList prints how many entries the access list at a path has, or returns why it is refused, by the strict policy and the usual limits.
func checkList(path string, out io.Writer) error {
	read, err := readList(path, guard.Strict, usualLimits)
	if err != nil {
		return err
	}
	defer read.guard.Close()
	fmt.Fprintf(out, "%s: %d entries\n", path, read.guard.Entries())
	return nil
}
