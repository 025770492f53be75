"""The words of the command line of `spki-cert`, and its help."""
import argparse
import functools
import itertools
import os
import re
from collections.abc import Sequence
from typing import IO, Any, NoReturn

from . import __version__
from .files import DAY_ENDS, Refused, moment_of, write_output
from .forms import suggestion
from .keys import KINDS

# (`key new` is a command of its own to argparse)
NEW_KEY = "key-new"
DESCRIPTION = """Makes, signs, shows and explains certificates of SPKI, with the keys that you have.

A key holds rights. An access list, which belongs to a service, says what a key may do. The holder of a key may
delegate a right by a certificate, where the list or the certificate before allows it by (propagate). A right is a
tag, a pattern for requests: (packages read) contains the request (packages read /a). `(* prefix /web/)` contains what
begins so, and `(* set read write)` what one of its members contains."""
EPILOG = """the first certificate, with a key of OpenSSH:
  spki-cert sign --by ~/.ssh/id_ed25519 --to bob.pub --tag '(packages read (* prefix /web/))' --days 30 -o to-bob.sexp
  spki-cert show to-bob.sexp

exit status: 0 done, yes, or nothing found; 1 no, or something found; 2 a file or a word is refused; 3 reading or
writing failed, or a signal ended it; 4 a certificate or an entry was not made, or a file not adopted, because it is
probably a mistake: --yes does it, or for --chain --anyway
Files are OpenSSH, PEM or S-expressions, and `-` is a stream. SPKI_LABELS names a file or folder as --labels does."""


class Once(argparse._StoreAction):
    """The action of an option with one value, which may be given once. To argparse alone, the last of several values would count."""

    def __call__(self, parser: argparse.ArgumentParser, namespace: argparse.Namespace, values: Any, option: str | None = None) -> None:
        """Stores the value. `option` is None for a word that is none. Raises Refused, by `parser.error`, for an option that was given before, also if
        that was its default value."""
        options_given = vars(namespace).setdefault("options_given", set())
        if option and self.dest in options_given:
            parser.error(f"{option} is given twice")
        options_given.add(self.dest)
        setattr(namespace, self.dest, values)


class CommandParser(argparse.ArgumentParser):
    """Parses the words of a command line. Raises Refused for wrong ones. No option may be abbreviated: `--name`, the beginning of `--named`, is an
    option too."""

    def __init__(self, **settings: Any) -> None:
        """Makes `Once` the action of each option or word that names none, or `store`. `settings` are those of ArgumentParser."""
        super().__init__(formatter_class=argparse.RawDescriptionHelpFormatter, allow_abbrev=False, **settings)
        for name in (None, "store"):
            self.register("action", name, Once)

    def parse_known_args(self, args: Sequence[str] | None = None, namespace: Any = None) -> Any:
        """Parses the words as argparse does, which calls this also for the words of a command, by the command's own parser. Raises Refused for a word
        that is not known, and says which option or command may be meant. Returns the values, and the words left over, of which there are none."""
        # (the main parser has commands, and that of a command has none)
        options = [name[2:] for action in self._actions for name in action.option_strings if name.startswith("--")]
        commands = [name for action in self._actions if isinstance(action, argparse._SubParsersAction) for name in action.choices]
        for word in itertools.takewhile(lambda word: word != "--", args or []):
            # (to argparse a word with a space in it is no option)
            if not commands and word.startswith("--") and " " not in word:
                self.refuse_unknown_option(word, options)
            if commands and not word.startswith("-"):
                if word not in commands:
                    self.error(f"{word}: no such command{suggestion(os.fsencode(word), map(os.fsencode, commands))}")
                break
        values, left_over = super().parse_known_args(args, namespace)
        if left_over:
            # (a dash that a word processor made longer, or one of two that is missing)
            word, bare = left_over[0], left_over[0].lstrip("-\N{EN DASH}\N{EM DASH}")
            near = "; give all options before the words" if word == "--" else f"; is `--{bare}` meant?" if bare in options else ""
            self.error(f"{word}: " + ("one word too many; put quotes around what has spaces or parentheses" if bare == word
                                      else f"no such option{near}"))
        return values, left_over

    def refuse_unknown_option(self, word: str, options: list[str]) -> None:
        """Raises Refused if the word `--NAME` or `--NAME=VALUE` is none of the options of this command, whose names are given without the dashes.
        Says which other commands have this option, and which one may be meant."""
        option = word.partition("=")[0]
        if option[2:] in options:
            return
        having = ", ".join(command for command, names in commands_with_options().items() if option in names)
        others = f" of {self.prog.split()[-1]}, but of {having}" if having else ""
        # (`--name` of `sign` or `entry` is a frequent mistake)
        others += "; to define a name: `spki-cert name`; a note: `--comment`" if word.startswith("--name") and having else ""
        # (the suggestion names an option without its dashes, which are put in front)
        near = suggestion(os.fsencode(option[2:]), map(os.fsencode, options)).replace("`", "`--", 1)
        self.error(f"{word}: no such option{others}{near}")

    def _print_message(self, message: str, file: IO[str] | None = None) -> None:
        """Writes the text of --help or --version to standard output. argparse calls this: its own version may hide that writing failed."""
        write_output(message)

    def error(self, message: str) -> NoReturn:
        """Raises Refused for words that argparse refuses. argparse calls this: its own version prints the message and exits."""
        raise Refused(f"{message.removeprefix('argument ')} ({self.prog} --help)")


def count_of(text: str) -> int:
    """The number in a word of the command line, from 1 to 999,999,999. Raises ArgumentTypeError for another word; for a date it advises --until."""
    if re.fullmatch(r"[0-9]{4}[-/.][0-9].*", text):
        raise argparse.ArgumentTypeError(f"{text} is a date, and a number is wanted; a date is given by --until {text[:10]}")
    if not re.fullmatch(r"[0-9]{1,9}", text) or int(text) == 0:
        raise argparse.ArgumentTypeError(f"{text or 'nothing'} is no number from 1 to 999,999,999")
    return int(text)


def not_empty(text: str) -> str:
    """A word of the command line as it is. Raises ArgumentTypeError if it is empty."""
    if not text:
        raise argparse.ArgumentTypeError("this is empty")
    return text


def one_line(text: str) -> str:
    """A word of the command line as it is. Raises ArgumentTypeError if it is empty, or has line breaks or other control characters of ASCII."""
    if re.search("[\0-\x1f\x7f]", text):
        raise argparse.ArgumentTypeError("this has line breaks or other controls in it")
    return not_empty(text)


# What options have alike, in the words of `add_argument`. MANY is for those that may be given several times.
FLAG: dict[str, Any] = {"action": "store_true"}
FILE: dict[str, Any] = {"metavar": "FILE", "type": not_empty}
DATE: dict[str, Any] = {"metavar": "DATE", "type": lambda text: moment_of(not_empty(text))}
MANY: dict[str, Any] = {"action": "append", "default": []}
# What argparse is told of each option and word. Where a command has its own, the name of the command is in front.
OPTIONS: dict[str, dict[str, Any]] = {
    "files": {"metavar": "FILE", "nargs": "+"},
    "key files": {"metavar": "FILE", "nargs": "+", "help": "a key"},
    "end files": {"metavar": "FILE", "nargs": "*", "help": "a sequence, whose last certificate is meant"},
    "file": {**FILE, "type": one_line, "help": "the private key to make; the public key is FILE.pub"},
    "paths": {"metavar": "PATH", "nargs": "+"},
    "words": {"metavar": "WORD", "nargs": "*", "help": "the strings of the request"},
    "--hash": {**FLAG, "help": "write the hash of the key, which may name it"},
    "--type": {"choices": KINDS, "default": KINDS[0], "help": "ed25519 if it is not given"},
    "--pem": {**FLAG, "help": "write the private key in PEM, which TLS programs read, instead of OpenSSH's form"},
    "--no-passphrase": {**FLAG, "help": "do not encrypt it"},
    "--json": {**FLAG, "help": "write JSON, for programs"},
    "--output": {**FILE, "help": "where to write it, instead of standard output"},
    "--force": {**FLAG, "help": "write over a file of the same kind that is there, unless it is read or holds a key"},
    "--svg": {**FILE, "help": "draw the chain, or the first file, as a picture"},
    "--labels": {"metavar": "PATH", **MANY, "help": "what keys are called: a folder, by its files, or a file such as authorized_keys, by comments"},
    "--at": {**DATE, "help": "the moment, as 2026-03-01 or 2026-03-01_12:00:00 in UTC; now if it is not given"},
    "--braces": {**FLAG, "help": "write each file on one line in braces instead, as `Authorization: SPKI {..}` has it"},
    "--key": {"metavar": "N", "type": count_of, "dest": "number", "help": "which key of a file of public keys, if it has several"},
    "--by": {"metavar": "KEY", "required": True, "type": not_empty, "help": "who signs: a private key, or a public key that ssh-agent holds"},
    "--to": {"metavar": "KEY", "type": not_empty, "help": "the subject: a file with its key, or an S-expression as '(hash sha256 #..#)'"},
    "--named": {"metavar": "NAME", **MANY, "type": one_line, "help": "a name of --to, whose holder says who that is, or without --to of the issuer"},
    "--name": {"metavar": "NAME", "required": True, "type": one_line, "help": "the name that the issuer gives to the subject"},
    "--tag": {"metavar": "TAG", "type": not_empty, "help": "the requests that are allowed, as '(packages read (* prefix /web/))'"},
    "--propagate": {**FLAG, "help": "the subject may delegate the right"},
    "--try": {"metavar": "WORD", "nargs": "+", **MANY, "dest": "tries", "help": "a request that the tag is to contain, by its words"},
    "--from": {**DATE, "dest": "begins", "help": "valid from this day or moment on"},
    "--days": {"metavar": "N", "type": count_of, "help": "valid for so many days from now"},
    "--until": {**DATE, "type": lambda text: moment_of(not_empty(text), DAY_ENDS), "help": "valid until this day or moment, in UTC"},
    "--comment": {"metavar": "TEXT", "type": one_line, "help": "a comment, which grants nothing"},
    f"{NEW_KEY} --comment": {"metavar": "TEXT", "type": one_line, "help": "what the key is called; the name of the file if it is not given"},
    "--yes": {**FLAG, "help": "make it although it is probably a mistake"},
    "entry --yes": {**FLAG, "help": "make it although it is probably a mistake, or remove several entries"},
    "end --yes": {**FLAG, "help": "with --adopt: take also a file that has no digests, or another number of them than its last line says"},
    "--chain": {**FILE, "help": "the sequence by which the issuer has the right: it is verified, and written in front"},
    "--anyway": {**FLAG, "help": "make it although by --chain its issuer cannot give it"},
    "--acl": {**FILE, "help": "the access list to put it in, which is made if it is not there"},
    "--store": {"metavar": "DATABASE", "type": not_empty, "help": "the store of spki-store to put it in, by settings of libpq as 'dbname=acl'"},
    "--remove": {**FLAG, "help": "remove the entries for --to from the list instead, and write them: several only with --yes"},
    "ask --acl": {**FILE, "help": "the access list"},
    "ask --key": {**FILE, "help": "the key that requests"},
    "--cert": {"metavar": "PATH", "nargs": "+", "action": "extend", "default": [],
               "help": "sequences with certificates, or folders of them; put -- before the request if it is the last option"},
    "--case": {**FILE, "help": "a whole case instead, whose rows say which signatures are valid"},
    "--open": {**FLAG, "help": "the open policy, under which hashes by SHA-1 name keys"},
    "--save": {**FILE, "help": "write the case of the decision, for `spki check`"},
    "--sequence": {**FILE, "help": "write the certificates of the decision, in order, to be shown to the service"},
    "--ended": {"metavar": "FILE", "required": True, "help": "the file of the digests that no longer count"},
    "--place": {"metavar": "N", "type": int, "help": "the N-th certificate of FILE, instead of the last one"},
    "--digest": {"metavar": "HEX", **MANY, "help": "the SHA-256 of a certificate, as the log of spki-authd has it"},
    "--reason": {"metavar": "TEXT", "default": "", "help": "why it ends: it is written behind the digest, with the date"},
    "address": {"metavar": "URL"},
    "request words": {"metavar": "OPTION", "nargs": "*", "default": [], "help": "after --: more options of curl"},
    "request --cert": {**FILE, "help": "the sequence with the certificates of this key, which is sent and signed too"},
    "--method": {"metavar": "METHOD", "help": "GET if it is not given, and PUT with --body"},
    "--body": {**FILE, "help": "the body of the request, whose digest is signed"},
    "--curl": {**FLAG, "help": "have curl send the request"},
    "--undo": {**FLAG, "help": "take the digests out again: spki-authd then needs -reload -fewer"},
    "--list": {**FLAG, "help": "print the digests with date and reason, and the last line of the file"},
    "--adopt": {**FLAG, "help": "take the lines of a file without a last line, or with a wrong one, as they are"}}
# The options that all commands have which make a certificate or an entry.
FIELDS = "--to --key --named --from --comment --yes --force --days|--until"
# What each command does, in one line and in several, an example, and its options and words. Of those joined by `|` at most one may be given.
COMMANDS: dict[str, tuple[str | None, str | None, str, str]] = {
    "key": ("write a key as SPKI has it, or make one: key new FILE", """\
Writes the SPKI key of a key of OpenSSH, PEM (SPKI, PKCS#8, PKCS#1) or an S-expression: Ed25519, RSA, ECDSA P-256 or P-384.
Of a private key it writes the public one. `spki-cert key new FILE` makes a new key: `spki-cert key new --help`.""",
            "key --hash ~/.ssh/id_ed25519.pub", "files --key --json --output --force --hash"),
    NEW_KEY: (None, """\
Makes a key. FILE is the private key, with mode 600 and a passphrase that is asked for on the terminal, and FILE.pub
the public key. OpenSSH reads both.""", "key new alice", "file --type --comment --pem --no-passphrase"),
    "sign": ("sign a certificate that gives a right", """\
Signs a certificate, and writes it with its signature as a sequence, which its subject shows to the service.
What is probably a mistake is made only with --yes: a certificate without an end, for (*), for longer than its
issuer has the right, with a tag that grants nothing, or if a request of --try is not granted. What the issuer
cannot give by --chain is signed only with --anyway.""",
             "sign --by alice --to bob.pub --tag '(packages (* set read write))' --days 30 -o to-bob.sexp",
             f"{FIELDS} --by --chain --anyway --output --propagate --try --tag"),
    "name": ("sign a certificate that defines a name", """\
Signs a certificate that defines a name: the issuer calls the subject so. Rights that are given to the name are the subject's.""",
             "name --by alice --name builders --to bob.pub --days 365 -o bob-builds.sexp", f"{FIELDS} --by --chain --anyway --output --name"),
    "entry": ("write an entry of an access list", """\
Writes an entry of an access list: what a key, a hash or a name may do. With --acl it is put at the end of that list, which is
made if it is not there, and with --store into a store in PostgreSQL, by `spki-store add`. What is probably a mistake is
written only with --yes, as by `spki-cert sign`.""",
              "entry --to alice.pub --tag '(packages)' --propagate --acl acl.sexp",
              f"{FIELDS} --tag --propagate --try --output|--acl|--store --remove"),
    "show": ("say in words what a list, a certificate, a sequence or a case says", """\
Shows access lists, certificates, sequences and cases: who, to whom, what, until when, delegated or not, and valid or not.
Its status is 1 if a signature is not valid or not there.""",
             "show acl.sexp to-bob.sexp", "files --labels --at --json --svg --force --braces"),
    "ask": ("decide a request, and say why", """\
Decides a request by an access list and certificates, as a service does, and says why or why not. All certificates
that are given are looked through for a chain from the list to the key. The words after the options are the request.""",
            "ask --acl acl.sexp --key bob.pub --cert to-bob.sexp -- packages read /web/index.html",
            "words --labels --at --json --svg --force --acl --key --cert --case --open --save --sequence"),
    "check": ("say what is wrong in files, and what is probably a mistake", """\
Checks each file that is given, and each file of a folder: S-expressions (.sexp, .csexp, .tsexp, or no suffix), what begins as a
certificate, and keys. Prints what a service would refuse, with line and column, and what is legal and probably a mistake. Lines
with `refused:` are errors.""",
              "check certificates/", "paths --json"),
    "end": ("end a certificate before its date", """\
Ends certificates before their date: puts their digests into the file that `spki-authd` reads as "ended". They count from the next
reload on. Of a FILE its last certificate is meant, or that of --place, and its signature must be valid. Without FILE and --digest it
makes the file if it is not there.

The file has a last line with the number and the digest of the others, and is refused if it was cut or changed by hand.""",
            "end to-bob.sexp --reason 'laptop stolen' --ended ended", "files --ended --place --digest --reason --undo|--list|--adopt --yes"),
    "request": ("sign an HTTP request, and print its fields or have curl send it", """\
Signs an HTTP request (RFC 9421), and prints the fields that prove it: curl takes them by `-H @-`. They count for this request
alone, once, and for 300 seconds. With --curl it has curl send the request, and the words after -- are more options of curl. KEY is
the file of a private key, or of the public one of a key that ssh-agent holds.""",
                "request --by alice https://files.example.org/web/index.html", "address words --by --cert --method --body --curl"),
    "completion": ("write the completion of bash: eval \"$(spki-cert completion)\"", None, "", "")}


def parser_of_commands() -> argparse.ArgumentParser:
    """The parser of the command line, by COMMANDS and OPTIONS. It gives the name of the command as `command`. `key new` is NEW_KEY there, which the
    help does not list."""
    parser = CommandParser(prog="spki-cert", description=DESCRIPTION, epilog=EPILOG)
    parser.add_argument("--version", action="version", version=f"spki-cert {__version__}", help="write the version")
    # (for commands without these options, whose functions are shared with others)
    parser.set_defaults(name=None, tag=None, propagate=False, tries=[])
    commands = parser.add_subparsers(dest="command", required=True, metavar="COMMAND")
    for name, (summary, description, example, groups) in COMMANDS.items():
        # (a command without a summary is not listed in the help)
        settings: dict[str, Any] = {"help": summary} if summary else {"prog": "spki-cert key new"}
        epilog = f"example: spki-cert {example}" if example else None
        command = commands.add_parser(name, description=description, epilog=epilog, **settings)
        for group in groups.split():
            adder = command.add_mutually_exclusive_group() if "|" in group else command
            for option in group.split("|"):
                shorter = ["-o"] if option == "--output" else []
                # (what OPTIONS has under the name of the command comes first, as `ask --acl`)
                adder.add_argument(*shorter, option, **OPTIONS.get(f"{name} {option}", OPTIONS.get(option, {})))
    return parser


# The script of `completion`, with `{commands}` and `{cases}` to be filled in.
COMPLETION = """_spki_cert() {{
    local word=${{COMP_WORDS[COMP_CWORD]}}
    if [[ $COMP_CWORD -eq 1 ]]; then
        COMPREPLY=($(compgen -W '{commands}' -- "$word"))
    elif [[ $word == -* ]]; then
        case ${{COMP_WORDS[1]}} in
{cases}
        esac
    fi
}}
complete -o default -F _spki_cert spki-cert"""


@functools.cache
def commands_with_options() -> dict[str, list[str]]:
    """The options of each command but NEW_KEY, by the command's name."""
    commands = next(action for action in parser_of_commands()._actions if isinstance(action, argparse._SubParsersAction)).choices
    return {name: [option for action in parser._actions for option in action.option_strings]
            for name, parser in commands.items() if name != NEW_KEY}


def completion() -> str:
    """A script of bash, which completes the commands and their options."""
    commands = commands_with_options()
    cases = (f"""            {name}) COMPREPLY=($(compgen -W '{" ".join(options)}' -- "$word")) ;;""" for name, options in commands.items())
    return COMPLETION.format(commands=" ".join(commands), cases="\n".join(cases))
