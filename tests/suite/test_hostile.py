"""Runs the program under hostile conditions: allocations, reads and writes fail in turn, texts are cut short, standard input and output
fail, limits are tried from both sides, the stack is small, and texts need the most work. `test_one_call` does each call of the libraries by itself
while requests for memory fail, on at most two rows each of test_calls.py. `refuse.c` is compiled and preloaded, and lets the chosen calls fail.
Each part is a test. A part is a function that yields tasks. A task is a function and its words, such as `refused_in_turn, example, ""`: it runs the
`program`, an object of `harness.refusing`, and returns the number of runs, of refused calls, and the faults as texts. A run that `ended` has an
`answer`: the status, the output and the errors. `ended.refused` is how many of its calls were refused, and `ended.asked` has how many it made of each
kind. A part prints the numbers of tasks, runs, refused calls and faults. The longest are tests only of `tests/run --long`, which `.ci/deep` runs."""
import os
import pathlib
import resource
import sys
import time
from concurrent.futures import ProcessPoolExecutor
from dataclasses import dataclass
from errno import EINTR, EIO
from itertools import count

import rows
from harness import built, needs
from harness.refusing import PIPE, Program, compiled
from harness.support import BENCH, COMMANDS, EXAMPLES, braced, group, loaded, room_for, string, tables_here, text_of
from rows import chains, limits
from rows.limits import MOST_OCTETS
from suite import test_calls

sys.path.append(BENCH)
import memory  # noqa: E402

# The most octets of an example whose requests for memory are refused.
MOST_REFUSED = 3000
# Up to the first number of requests for memory, each is refused in turn. Where there are more, every Nth is, at least the second number of them.
ALL_REQUESTS, SOME_REQUESTS = 1000, 100
# Limits of the memory of a run, in MiB.
LIMITS = (12, 16, 24, 32, 64, 128)
# The most faults that a part prints.
MOST_FAULTS = 20
# Of so many examples one runs under valgrind.
VALGRIND_STEP = 9
# How often the program calls `read` before it gives up. It calls `write` as often, and once more for each octet of its answer.
MOST_ASKS = 2097152
# What one text may take: seconds, and MiB.
MOST_SECONDS, MOST_MEMORY = 10, 256
STACK = 256 * 1024  # (the octets of a small stack)
# The example on which the requests before the first read are refused too.
WORDS_REFUSED = "no-entries.csexp"
# How runs end: the status, the output and the errors.
MEMORY = (2, b"refused Memory\n", b"")
SHORT = (2, b"refused form Short\n", b"")
TOO_LONG = (2, b"refused form TooLong\n", b"")
READ_FAULT = (3, b"", b"spki: read fault\n")
WRITE_FAULT = (3, b"", b"spki: write fault\n")
UNSAID_FAULT = (3, b"", b"")

# What commands write on cases of examples/ and of chains.py: the status and the line. A command that the program does not have is passed over.
FILES = {
    "first-run.csexp": {"check": "0 yes entry 1", "explain": "0 entry 1 grants",
                        "reduce": "0 entry 1 (five (subject (public-key (test a))) (tag (ftp host)))"},
    "shorter-request.csexp": {"check": "1 no", "explain": "1 entry 1 TagLacks"},
    "second-entry.csexp": {"check": "0 yes entry 2"},
    "no-entries.csexp": {"check": "1 no", "explain": "1 no entries", "reduce": "1 no entries"},
    "bad-date.csexp": {"check": "2 refused at BadDate", "explain": "2 refused at BadDate", "reduce": "2 refused at BadDate"},
    "delegation.sexp": {"check": "0 yes entry 1", "explain": "0 entry 1 grants",
                        "reduce": "0 entry 1 (five (subject (public-key (test b))) (tag (*)))"}}
CHAINS = {"whole chain": {"explain": "0 entry 1 grants", "reduce": "0 entry 1 (five (subject (public-key (test d))) (propagate) (tag (*)))"}, **{
    name: {"explain": line, "reduce": line} for name, line in [
        ("certificate 2: key not shown", "1 item 3 KeyNotShown"), ("certificate 2: digest differs", "1 item 3 DigestDiffers"),
        ("certificate 2: signer differs", "1 item 3 SignerDiffers"), ("certificate 2: not accepted", "1 item 3 NotAccepted"),
        ("chain in another order", "1 entry 1 item 1 NotIssuer"), ("entry that does not delegate", "1 entry 1 item 1 NoDelegation"),
        ("windows: certificate from 2024-06-01_00:00:01", "1 entry 1 item 1 NoValidity"), ("too large", "2 refused TooLarge")]}}
# Redirections of the shell, and how a run with them ends. FILE has the text of a case.
ENDS = [
    ("< FILE > /dev/full", WRITE_FAULT), ("< FILE >&-", WRITE_FAULT), ("< FILE 1< /dev/null", WRITE_FAULT),
    ("< FILE > /dev/full 2>&-", UNSAID_FAULT), ("< FILE > /dev/full 2> /dev/full", UNSAID_FAULT), ("< / 2>&-", UNSAID_FAULT),
    ("< /", READ_FAULT), ("<&-", READ_FAULT), ("0> /dev/null", READ_FAULT), ("< / >&-", READ_FAULT), ("<&- >&-", READ_FAULT),
    ("< /dev/null", SHORT), ("< /dev/zero", TOO_LONG)]


@dataclass
class Example:
    """A command and a text. `answer` is how a run on it ends: the status, the output and the errors; None where that is not known beforehand. An
    example of `most_work` for `within_limits` has only the beginning of the output there."""

    name: str
    command: str
    text: bytes
    answer: tuple | bytes | None

    def __str__(self):
        return f"{self.command} on {self.name}"


def outcome_of(line):
    """How a run ends: the status, the output and the errors. `line` has the status, a space and the line of output. There are no errors."""
    status, words = line.split(" ", 1)
    return int(status), words.encode() + b"\n", b""


# ---- examples

def file_examples():
    """Yields as examples, for each case of FILES, its commands there, the three conversions and `intersect`."""
    for name, lines in FILES.items():
        text = pathlib.Path(EXAMPLES, name).read_bytes()
        canonical = text if name.endswith(".csexp") else chains.canonical(text.decode())
        yield Example(name, "canonical", text, (0, canonical, b""))
        yield Example(name, "transport", text, (0, braced(canonical) + b"\n", b""))
        yield Example(name, "advanced", text, None)
        yield Example(name, "intersect", text, outcome_of("2 refused intersect Shape"))
        for command, line in lines.items():
            yield Example(name, command, text, outcome_of(line))


def chain_examples():
    """Yields the cases of chains.py as examples, and for those of CHAINS what other commands write too."""
    for name, command, text, status, answer in chains.rows():
        yield Example(name, command, text, (status, answer, b""))
        for other, line in CHAINS.get(name.removeprefix("chains:"), {}).items():
            yield Example(name, other, text, outcome_of(line))


def table_examples():
    """Yields the rows of the tables as examples."""
    for table in tables_here():
        for place, command, text, status, answer in rows.rows_of(table):
            yield Example(place, command, text, (status, answer, b""))


def limit_examples():
    """Yields the rows of limits.py as examples: texts just within a limit, and just beyond it."""
    for name, command, text, status, answer in limits.rows():
        yield Example(name, command, text, (status, answer, b""))


def examples_of(*sources, most=MOST_OCTETS * 2):
    """The examples that these functions yield whose text has at most `most` octets, by default all, and whose command the program has."""
    return [example for source in sources for example in source() if example.command in COMMANDS and len(example.text) <= most]


def three_certificates():
    """The text of a case with three certificates in each form of S-expressions: canonical, advanced, in braces."""
    text = chains.case(chains.entry("a"), *chains.chain())
    canonical = chains.canonical(text)
    return canonical, text.encode(), braced(canonical)


def first_run():
    """The first case of examples/ as a text in each form of S-expressions: canonical, advanced, in braces. The advanced one loses its last line feed:
    without it each proper beginning is incomplete."""
    canonical = pathlib.Path(EXAMPLES, "first-run.csexp").read_bytes()
    return canonical, text_of("examples/texts/case.sexp").encode().rstrip(), braced(canonical)


def most_work():
    """Yields the texts that need the most work known: a name, the command, the text, and what the answer begins with."""
    scripts = (os.path.join(BENCH, f"{name}.py") for name in ("check", "convert", "intersect", "chains", "linear"))
    check, convert, intersect, long_chains, linear = map(loaded, scripts)
    for make in (check.many_entries, check.many_structures, check.many_certificates, check.many_members, check.lists_in_lists,
                 check.one_string, check.no_value):
        text, answer = make(MOST_OCTETS)
        yield make.__name__, "check", text, answer
    for make in (long_chains.by_keys, long_chains.by_hashes, long_chains.through_names):
        yield make.__name__, "check", make(long_chains.LENGTHS[-1]), b"yes entry 1\n"
    for shape in linear.SHAPES:
        yield shape.name, "check", shape.text(MOST_OCTETS)[1], b"no\n"
    large_tag_and_set = linear.large_tag_and_set(entries=1, certificates=linear.BEHIND_LARGE, members=linear.MEMBERS)
    yield linear.large_tag_and_set.__name__, "check", large_tag_and_set, b"no\n"
    for what, text, answer in long_chains.widest():
        yield what, "check", text, answer
        yield what, "explain", text, b"entry 1 "
        yield what, "reduce", text, b"entry 1 "
    for what, tag in (("(*)", check.STAR), ("a", check.string("a"))):
        for command, answer in (("check", b"no\n"), ("explain", b"entry 1 NotTheKey\n"), ("reduce", b"entry 1 (five ")):
            yield f"ten {what} behind a large tag", command, long_chains.behind_a_large_tag(more=10, tag=tag), answer
    for what, text in long_chains.large_tags():
        for command, answer in (("check", b"no\n"), ("explain", b"entry 1 NotTheKey\n")):
            yield what, command, text, answer
    for make in convert.SHAPES:
        for command in convert.FORMS:
            yield make.__name__, command, make(MOST_OCTETS), b""
    for make in (intersect.strings, intersect.long_strings, intersect.other_strings, intersect.prefixes):
        yield make.__name__, "intersect", intersect.intersection(*make(999)), b"("  # (the most: two tags of 1,000 nodes)
    for what, make in intersect.WIDEST.items():
        yield f"most {what}", "intersect", intersect.intersection(*make(332 if what == "lists" else 999)), b"("  # (a list has 3 nodes)


# ---- what is done with an example: each returns the number of runs, the number of refusals, and the faults

def refused_in_turn(program, example, behind):
    """Runs of an example in which the Nth request for memory is refused, for each N up to one more than it makes, or for some 100 of them if these
    are over 1,000. `behind` is "", or ".." if all later requests are refused too. The requests before the first read are for the words of the command
    line, and the same on each text, so only the example WORDS_REFUSED has them refused. The crate clap, which reads these words, may do without the
    memory, and the answer is then as ever. Returns the number of runs, of refusals, and the faults."""
    whole = program.run(example.command, example.text)
    answer = example.answer or whole.answer
    asked, refusals, faults = whole.asked["memory"], 0, []
    first = 1 if example.name == WORDS_REFUSED else whole.before_reads + 1
    requests = asked + 1 - first
    step = 1 if requests <= ALL_REQUESTS else requests // SOME_REQUESTS
    numbers = [*range(first, asked + 1, step), asked + 1]
    for number in numbers:
        ended = program.run(example.command, example.text, memory=f"{number}{behind}")
        allowed = [answer] if not ended.refused else [MEMORY, answer] if number <= whole.before_reads else [MEMORY]
        if ended.answer not in allowed or bool(ended.refused) != (number <= asked):
            faults.append(f"{example}: request {number}{behind} of {asked} refused: {ended}")
        refusals += ended.refused
    return len(numbers) + 1, refusals, faults


def call_refused(program, row, behind):
    """Runs of `test_one_call` on a row of test_calls.py, with requests for memory refused as by `refused_in_turn`: one, and if `behind` is ".." all
    later ones too. Returns the number of runs, of refusals, and the faults."""
    one_call = Program(built.existing(built.ONE_CALL), program.library)
    answer = 0, row.answer.hex().encode() + b"\n", b""
    return refused_in_turn(one_call, Example(row.place, row.call, row.line(), answer), behind)


def cut_short(program, command, text, lengths):
    """Runs of a command on the first octets of a text, as many as each number in `lengths` says. Each must refuse them as Short. Returns the number
    of runs, of refusals, and the faults."""
    faults = []
    for length in lengths:
        ended = program.run(command, text[:length])
        if ended.answer != SHORT:
            faults.append(f"{command} on {length} octets of {text[:16]!r}: {ended}")
    return len(lengths), 0, faults


def failing_in_turn(program, example, call, error, wanted):
    """Runs of an example in which each call of `read` or `write` (`call`) is for one octet, and the Nth is refused, for each N until none is: it
    fails with the error `error`, a number such as EIO, or if this is 0 returns no octet. `wanted(example, N)` is how such a run must end. Returns the
    number of runs, of refusals, and the faults."""
    refusals, faults = 0, []
    for number in count(1):
        ended = program.run(example.command, example.text, step=1, **{call: number, "with": error})
        if ended.answer != (wanted(example, number) if ended.refused else example.answer):
            faults.append(f"{example}: {call} {number} with error {error}: {ended}")
        if not ended.refused:
            break
        refusals += ended.refused
    return number, refusals, faults


# `wanted` of failing_in_turn: how a run of an example must end if its Nth call (`number`) fails with an error, or returns 0.

def read_fault(example, number):
    """How a run must end if its Nth read (`number`) fails: as a read fault, whichever read it is."""
    return READ_FAULT


def write_fault(example, number):
    """How a run must end if its Nth write (`number`) fails or takes no octet: each write before it has taken one octet."""
    return 3, example.answer[1][:number - 1], WRITE_FAULT[2]


def asked_again(example, number):
    """How a run must end if its Nth read or write (`number`) is interrupted: as any other, since the call is made again."""
    return example.answer


def ended_early(example, number):
    """How a run must end if its Nth read (`number`) returns no octet, which means the end of the text. Each read before it has returned one octet, so
    the text is refused as Short, unless it was read as a whole before."""
    return SHORT if number <= len(example.text) else example.answer


def interrupted_for_ever(program, example, call, asks, wanted):
    """A run in which each read or each write (`call`) fails with EINTR. It must call `asks` times, and then end as `wanted`. Returns the number of
    runs, of refusals, and the faults."""
    ended = program.run(example.command, example.text, step=1, **{call: "1..", "with": EINTR})
    right = ended.answer == wanted and ended.asked[call] == asks
    return 1, ended.refused, [] if right else [f"{example}: {call} interrupted for ever: {ended}, {ended.asked[call]} asks"]


def one_run(program, what, wanted, call, *words):
    """One run by the method `call` of a Program, with `words`, which must end as `wanted`. Returns 1 run, 0 refusals, and a fault if it does not."""
    ended = getattr(program, call)(*words)
    return 1, 0, [] if ended.answer == wanted else [f"{what}: {ended}"]


def with_small_stack(program, example):
    """One run with a small stack, which must end as one with a large stack does. Returns the number of runs, of refusals, and the faults."""
    wanted = example.answer or program.run(example.command, example.text).answer
    return one_run(program, f"{example} in {STACK} octets of stack", wanted, "limited", example.command, example.text, resource.RLIMIT_STACK, STACK)


def in_less_memory(program, example):
    """Runs with each of LIMITS, in MiB, as the address space of the program: each must give the right answer or MEMORY. Returns the number of runs,
    of those with MEMORY, and the faults."""
    refusals, faults = 0, []
    wanted = example.answer or program.run(example.command, example.text).answer
    for mebibytes in LIMITS:
        ended = program.limited(example.command, example.text, resource.RLIMIT_AS, mebibytes << 20)
        refusals += ended.answer == MEMORY
        if ended.answer not in (MEMORY, wanted):
            faults.append(f"{example} in {mebibytes} MiB: {ended}; {len(ended.out)} octets, expected status {wanted[0]} and {len(wanted[1])}")
    return len(LIMITS), refusals, faults


def within_limits(program, example):
    """An example of much work, which must take at most MOST_SECONDS and MOST_MEMORY MiB, and end with the status 0, 1 or 2. Its output must begin
    with that of the example. Prints its line of a table. Returns 1 for one example, 0 refusals, and the faults."""
    ended = program.run(example.command, example.text)
    seconds, mebibytes = memory.used(program.path, example.command, example.text)
    print(f"{example.name:<40}{example.command:<10}{len(example.text):>9}{len(ended.out):>9}{seconds:>8.2f} s{mebibytes:>8.1f} MiB", flush=True)
    right = ended.status in (0, 1, 2) and ended.out.startswith(example.answer)
    within = seconds <= MOST_SECONDS and mebibytes <= MOST_MEMORY
    return 1, 0, [] if right and within else [f"{example}: {ended}, {seconds:.2f} s, {mebibytes:.1f} MiB"]


def with_valgrind(program, example, plan):
    """One run under valgrind, with the settings of refuse.c in `plan`. It must end as ever, or as MEMORY if memory is refused, with no lost memory
    and no forbidden access. By `nouserintercepts` the `malloc` of refuse.c is in use. Returns the number of runs, of refusals, and the faults."""
    leaks = ["--leak-check=full", "--show-leak-kinds=definite", "--errors-for-leak-kinds=definite", "--error-exitcode=99"]
    words = ["valgrind", "-q", "--soname-synonyms=somalloc=nouserintercepts", *leaks]
    wanted = example.answer or program.run(example.command, example.text).answer
    ended = program.run(example.command, example.text, before=words, **plan)
    right = ended.answer in (MEMORY, wanted) if ended.refused else ended.answer == wanted
    return 1, ended.refused, [] if right else [f"{example} under valgrind with {plan}: {ended}"]


def run_task(function, program, *words):
    """Calls the function of a task with the program and its words. Returns the numbers of runs and refusals, and the faults, also an OSError."""
    try:
        return function(program, *words)
    except OSError as fault:
        return 1, 0, [f"{words[0]}: {fault}"]


# ---- the parts: the tasks of each, as functions and their words

def memory_refused(behind):
    """Tasks that refuse each request for memory in turn, and with `behind` ".." all later ones, on examples of at most MOST_REFUSED octets."""
    for example in examples_of(file_examples, chain_examples, table_examples, most=MOST_REFUSED):
        yield refused_in_turn, example, behind


def calls_refused():
    """Tasks that refuse requests for memory of single calls of the libraries: one request, or all from one on."""
    for row in test_calls.examples():
        for behind in ("", ".."):
            yield call_refused, row, behind


def truncation():
    """Tasks that cut texts short at each octet, 100 lengths a task, and tasks that put whitespace behind a case, which is still read."""
    commands = [(command, text) for command in COMMANDS for text in first_run()]
    for command, text in commands + [("check", text) for text in three_certificates()]:
        for start in range(0, len(text), 100):
            yield cut_short, command, text, range(start, min(start + 100, len(text)))
    for text in three_certificates():
        for more in (b"", b" ", b" \t\v\f\r\n"):
            yield one_run, "whitespace behind a case", outcome_of("0 yes entry 1"), "run", "check", text + more


def ends_failing():
    """Tasks in which reads and writes fail: in turn, for ever, and by what the shell redirects them to."""
    whole = Example("first-run.csexp", "check", first_run()[0], outcome_of("0 yes entry 1"))
    short = Example("a short text", "canonical", b"(abc def)", (0, b"(3:abc3:def)", b""))
    for example in (whole, short):
        for error, wanted in ((EIO, read_fault), (EINTR, asked_again), (0, ended_early)):
            yield failing_in_turn, example, "read", error, wanted
        for error, wanted in ((EIO, write_fault), (EINTR, asked_again), (0, write_fault)):
            yield failing_in_turn, example, "write", error, wanted
    yield interrupted_for_ever, whole, "read", MOST_ASKS, READ_FAULT
    yield interrupted_for_ever, whole, "write", MOST_ASKS + len(whole.answer[1]), WRITE_FAULT
    for command in COMMANDS:
        for words, wanted in ENDS:
            words = words.replace("FILE", os.path.join(EXAMPLES, "first-run.csexp"))
            yield one_run, f"{command} {words}", wanted, "redirected", command, words


def long_answer(members, octets):
    """The text of an intersection of two sets, each of so many equal strings of so many octets, and the answer: a set with a member for each pair."""
    tag = group(string("*"), string("set"), *[string("a" * octets)] * members)
    return group(string("intersect"), tag, tag), b"(* set" + (b" " + b"a" * octets) * members ** 2 + b")\n"


def long_answers():
    """Tasks with answers that are longer than a page of memory, 4,096 octets, to files that are full, and with less memory than they are long."""
    text, whole = long_answer(members=100, octets=1)
    for most in (0, 4095, 4096, 4097, 3 * 4096, len(whole) - 1):
        wanted = 3, whole[:most], WRITE_FAULT[2]
        yield one_run, f"a file of at most {most} octets", wanted, "limited", "intersect", text, resource.RLIMIT_FSIZE, most
    yield one_run, "a long answer", (0, whole, b""), "run", "intersect", text
    text, whole = long_answer(members=200, octets=1200)
    yield one_run, f"an answer of {len(whole)} octets in 24 MiB", (0, whole, b""), "limited", "intersect", text, resource.RLIMIT_AS, 24 << 20


def pipes_and_files():
    """Tasks with pipes whose reader leaves after 0 or 5 octets, pipes that do not block, full files, and texts that come octet by octet. If `dies` is
    true a run begins with the usual effect of SIGPIPE, the signal of a pipe without a reader, which would end it: it must report a write fault."""
    long = b"(" + b"3:abc" * 200000 + b")"  # (longer than PIPE, the octets that a pipe holds)
    whole = first_run()[0]
    for dies in (False, True):
        for command in COMMANDS:
            yield one_run, f"{command} with no reader", WRITE_FAULT, "reader_gone", command, whole, 0, dies
        yield one_run, "a reader that leaves", (3, long[:5], WRITE_FAULT[2]), "reader_gone", "canonical", long, 5, dies
    for text in (*first_run(), *three_certificates()):
        yield one_run, "one octet at a time", outcome_of("0 yes entry 1"), "in_packets", "check", text
    for most in range(12):  # (octets, fewer than the answer has)
        wanted = 3, b"yes entry 1\n"[:most], WRITE_FAULT[2]
        yield one_run, f"a file of at most {most} octets", wanted, "limited", "check", whole, resource.RLIMIT_FSIZE, most
    yield one_run, "a reader that cannot wait", READ_FAULT, "without_waiting", "check", b""
    yield one_run, "a writer that cannot wait", (3, long[:PIPE], WRITE_FAULT[2]), "without_waiting", "canonical", long


def at_limits():
    """Tasks with one run on each text at the limits."""
    for example in examples_of(limit_examples):
        yield one_run, example, example.answer, "run", example.command, example.text


def in_small_stack():
    """Tasks with a small stack, on the texts at the limits and those that need the most work."""
    for example in examples_of(limit_examples) + [Example(what, command, text, None) for what, command, text, _ in most_work()]:
        yield with_small_stack, example


def less_memory():
    """Tasks with each of LIMITS as the memory of a run, on the texts that need the most work."""
    for what, command, text, _ in most_work():
        yield in_less_memory, Example(what, command, text, None)


def work():
    """Tasks that measure time and memory, on the texts that need the most work. Prints the heading of the table that they print."""
    print(f"{'text':<40}{'command':<10}{'octets':>9}{'written':>9}{'time':>10}{'memory':>12}")
    for what, command, text, begins in most_work():
        yield within_limits, Example(what, command, text, begins)


def under_valgrind():
    """Tasks under valgrind on every VALGRIND_STEP-th example: with no request for memory refused, with the 5th, and with all from the 40th on."""
    for example in examples_of(file_examples, chain_examples)[::VALGRIND_STEP]:
        for number in ("0", "5", "40.."):
            yield with_valgrind, example, {"memory": number}


PARTS = {
    "request_refused": lambda: memory_refused(behind=""), "all_requests_refused_from_one_on": lambda: memory_refused(behind=".."),
    "call_by_call": calls_refused, "less_and_less_memory": less_memory, "texts_cut_short": truncation, "reads_and_writes_refused": ends_failing,
    "pipes_and_files_that_fail": pipes_and_files, "long_answers": long_answers, "limits_from_both_sides": at_limits,
    "small_stack": in_small_stack, "under_valgrind": under_valgrind, "most_work": work}
LONGEST = ("less_and_less_memory", "small_stack", "under_valgrind", "most_work")


@needs.needs("cc")
class Hostile(built.OfProgram):
    """The parts, each with several processes: a test for each is added below, for those of LONGEST only in the long tests."""

    @classmethod
    def setUpClass(cls):
        super().setUpClass()
        cls.refusing = Program(cls.program, compiled(room_for(cls)))

    def check_part(self, part, tasks):
        """No task of a part may find a fault. `tasks` yields them, each a function and its words. Prints a line: `part`, numbers and seconds."""
        begun = time.perf_counter()
        with ProcessPoolExecutor() as pool:
            started = [pool.submit(run_task, function, self.refusing, *words) for function, *words in tasks()]
            results = [task.result() for task in started]
        faults = [fault for *_, of_task in results for fault in of_task]
        runs, refusals = (sum(result[place] for result in results) for place in (0, 1))
        print(f"{part:<36}{len(results):>9}{runs:>9}{refusals:>11}{len(faults):>8}{time.perf_counter() - begun:>9.1f} s")
        if faults:
            self.fail("\n".join(faults[:MOST_FAULTS]))


def made_test(part):
    """The test of a part, by its name in PARTS."""
    tools = ["valgrind"] if part == "under_valgrind" else []
    return needs.needs(*tools)(lambda self: self.check_part(part, PARTS[part]))


for name in PARTS:
    if built.IS_LONG or name not in LONGEST:
        setattr(Hostile, f"test_{name}", made_test(name))
