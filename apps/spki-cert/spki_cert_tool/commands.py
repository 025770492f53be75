"""The commands of `spki-cert`. Each is a function of the words that were given, and returns the exit status: DONE, NO, REFUSED, or UNCONFIRMED for
what is probably a mistake. `given.WORD` is the value of the option or word WORD in `arguments`. Each raises Refused or BadKey for what it does not
take, which `main` tells on standard error. `write` takes pairs of a path and octets, and writes those without a path to standard output.
Modules that few commands need are imported where they are used, so that the others start faster."""
import argparse
import base64
import contextlib
import json
import os
import signal
import subprocess
import sys
import termios
import warnings
from collections.abc import Callable, Iterable, Iterator
from typing import NoReturn

from .arguments import NEW_KEY, completion, parser_of_commands
from .certificates import Terms, headed, members, terms_of
from .ending import end
from .files import (DONE, FAILED, NO, READ, REFUSED, TERMINAL, UNCONFIRMED, Refused, key_at, locked, now, octets_of, passphrase_for, remark_on_mode,
                    say, signer_at, target_of, tell, text_at, value_headed, value_of, value_of_word, write, write_output)
from .keys import BadKey, file_of, hash_of, is_key_file, is_private, kind_of, new_private, openssh_line, principal_of
from .making import (certificate_of, fields_of, list_with, list_without, signed_sequence, text_of, warnings_of, warnings_of_certificate,
                     warnings_of_list)
from .places import has_private_key, read_text
from .requesting import request
from .sexp import Value, canonical, on_one_line
from .showing import FAULTS, Labels, lines_of, rows_of, what_is
from .structures import PRINCIPALS, read_subject, read_tag

# The signals that end the program by `end_by_signal`.
ENDING = (signal.SIGHUP, signal.SIGINT, signal.SIGQUIT, signal.SIGTERM)
NOT_SHOWN = "only an access list, a certificate, a sequence or a case is shown; for a key there is `spki-cert key`"


# ---- key


def key(given: argparse.Namespace) -> int:
    """Writes the SPKI keys of files, or with --hash their hashes, or with --json both and the algorithms. Of a private key it writes the
    public one."""
    keys = [(path, key_at(path, given.number, is_private_too=True)) for path in given.files]
    rows = [{"file": path, "key": on_one_line(key), "hash": on_one_line(hash_of(key)), "algorithm": kind_of(key)} for path, key in keys]
    text = b"".join(text_of(hash_of(key) if given.hash else key) for _, key in keys)
    write((given.output, json.dumps(rows, indent=1).encode() + b"\n" if given.json else text), force=given.force)
    return DONE


def new_key(given: argparse.Namespace) -> int:
    """Makes a key pair as two files, and writes over none: `given.file` is the private key, and `given.file`.pub the public one. Without
    --no-passphrase it asks for a passphrase, and once more unless that is empty. If the public one cannot be written, the private one stays."""
    path = given.file
    if path.endswith(".pub"):
        raise Refused(f"{path}: a private key is not called .pub; give {path[:-4]}, and the public key is {path}")
    existing = [name for name in (path, f"{path}.pub") if os.path.lexists(name)]
    if existing or path == "-":
        raise Refused(f"{existing[0]} is there already, and a key is not written over" if existing else "a new key needs the name of a file")
    passphrase = b"" if given.no_passphrase else passphrase_for(f"the new {path} (empty: none)")
    if passphrase and passphrase_for(f"the new {path} again") != passphrase:
        raise Refused("the passphrases differ; nothing was written")
    # (raises Refused if the public key cannot be written, before the private one is)
    target_of(f"{path}.pub", b"", force=False, edits=False)
    private = new_private(given.type)
    comment = os.fsencode(given.comment or os.path.basename(path))
    write((path, file_of(private, passphrase, given.pem)), mode=0o600)
    write((f"{path}.pub", openssh_line(private.public_key()) + b" " + comment + b"\n"))
    write_output(f"made {path}, which is secret, and {path}.pub\n")
    return DONE


# ---- sign, name, entry


def sign(given: argparse.Namespace) -> int:
    """Signs and writes a certificate that gives a right or, for the command `name`, defines a name. What is probably a mistake needs --yes, and what
    the issuer cannot give by --chain needs --anyway: without them nothing is written, and UNCONFIRMED is returned."""
    from .asking import what_cannot_be_given
    fields, subject = fields_given(given), subject_of(given)
    chain = value_of(given.chain, "sequence") if given.chain else None
    signer = signer_at(given.by)
    certificate = certificate_of(signer.key, subject, fields, os.fsencode(given.name) if given.name is not None else None)
    terms = terms_of(certificate)
    # (until when the chain must be valid. With --days 30 it is a day less: a chain that was signed some hours ago for 30 days is no mistake)
    chain_until = now(given.days - 1) if given.days is not None else terms.ends
    warnings = [*remark_on_mode(given.by), *warnings_of_certificate(terms, given.tag, chain_until, chain, [*map(request_of, given.tries)])]
    try:
        lacking = what_cannot_be_given(chain, certificate, signer.key, os.path.basename(given.by)) if chain is not None else []
    except Refused as why:
        # (the library refuses the chain, or cannot be loaded: then --anyway is needed too)
        lacking = list(why.lines)
    # (a list, so that both are called, and all warnings are told)
    if not all([confirm(given.anyway, "--anyway", lacking), confirm(given.yes, "--yes", warnings)]):
        return UNCONFIRMED
    tell(*remark_on_name(given, terms))
    write((given.output, text_of(signed_sequence(certificate, signer, chain))), force=given.force)
    return DONE


def entry(given: argparse.Namespace) -> int:
    """Writes an entry, adds it to an access list or a store, or with --remove removes the entries of --to from a list. A list in a file is locked
    meanwhile."""
    if given.to is None:
        raise Refused("an entry needs --to, a key, a hash or a name")
    fields = (given.tag, given.propagate or None, given.tries or None, given.begins, given.days, given.until, given.comment)
    if given.remove and (given.acl is None or any(field is not None for field in fields)):
        raise Refused("--remove needs --acl, and goes with no --tag and no other field: it removes all entries of --to")
    with locked(given.acl) if given.acl not in (None, "-") else contextlib.nullcontext():
        return (remove if given.remove else add)(given)


def add(given: argparse.Namespace) -> int:
    """Writes an entry for the subject of --to: into the list of --acl, into the store of --store, or else alone. Returns UNCONFIRMED if it is
    probably a mistake, and there is no --yes. With --store it returns the exit status of `spki-store`."""
    new_entry: Value = [b"entry", subject_of(given), *fields_given(given)]
    is_there = given.acl == "-" or given.acl is not None and os.path.exists(given.acl)
    before = list_at(given.acl) if is_there else b"(acl)"
    # (also without --acl: it raises Refused for an entry that a service would refuse)
    text = list_with(new_entry, before)
    terms = terms_of(new_entry)
    warnings = [*warnings_of(terms, given.tag, [*map(request_of, given.tries)]), *warnings_of_list(new_entry, before)]
    if not confirm(given.yes, "--yes", warnings):
        return UNCONFIRMED
    tell(*remark_on_name(given, terms))
    if given.store is not None:
        return add_to_store(text_of(new_entry), given.store)
    if not given.acl:
        write((given.output, text_of(new_entry)), force=given.force)
        return DONE
    write((given.acl, text), force=given.force, edits=is_there)
    return say(*([] if is_there else [f"made {given.acl}"]), "entries added: 1", is_aside=given.acl == "-")


def add_to_store(text: bytes, settings: str) -> int:
    """Has `spki-store`, from the folder beside that of this command or as it is installed, add an entry to a store, a table in PostgreSQL. `text` is
    the entry, and `settings` say which database, as `dbname=acl`, in the form of libpq. Returns the exit status of `spki-store`, or FAILED if a
    signal ended it. Raises Refused if it cannot be run."""
    beside = os.path.join(os.path.dirname(os.path.realpath(__file__)), "..", "..", "spki-store", "spki-store")
    program = beside if os.path.exists(beside) else "spki-store"
    try:
        status = subprocess.run([program, "add", "-"], input=text, env={**os.environ, "SPKI_STORE": settings}).returncode
    except OSError as why:
        raise Refused(f"{program}: {why.strerror}; --store needs it (apps/spki-store); nothing was written") from None
    return status if status >= 0 else FAILED


def remove(given: argparse.Namespace) -> int:
    """Removes the entries for the subject of --to from an access list. Writes them as they stood, first, so that they can be put into the list again.
    Returns NO if there are none, or if there are several and no --yes. The list of a stream is written in any case, since its reader waits for it,
    and that of a file only if it changes."""
    before, is_stream = list_at(given.acl), given.acl == "-"
    # (the key itself: a hash by one algorithm would not find entries by another)
    text, removed = list_without(subject_of(given, naming=lambda key: key), before)
    is_removed = len(removed) == 1 or bool(removed) and given.yes
    if is_removed:
        say(*(entry for *_, entry in removed), is_aside=is_stream)
    if is_removed or is_stream:
        write((given.acl, text if is_removed else before), edits=True)
    advice = "" if is_removed else f"; {given.to} has {len(removed)}, and --yes removes all of them"
    if not removed:
        advice = f"; {given.to} has none; `spki-cert show {given.acl}` lists them"
    tell(*(f"entry {number}, {tag}{': removed' if is_removed else ''}" for number, tag, _ in removed),
         f"entries removed: {len(removed) if is_removed else 0}{advice}")
    return DONE if is_removed else NO


def list_at(path: str) -> bytes:
    """Reads the text of an access list that is edited. Raises Refused if it is no regular file or stream, cannot be read, or would be refused by a
    service."""
    if path != "-" and os.path.exists(path) and not os.path.isfile(path):
        raise Refused(f"{path}: this is no regular file, and only such a list is edited; nothing was written")
    return text_at(path, "acl")[0]


def confirm(is_given: bool, option: str, warnings: Iterable[str]) -> bool:
    """Tells the warnings about something that is to be made. Returns whether to make it: there are no warnings, or the option that overrules them,
    which is called `option`, is given (`is_given`)."""
    lines = list(warnings)
    is_made = is_given or not lines
    tell(*(f"spki-cert: {line}" for line in lines), *([] if is_made else [f"spki-cert: nothing was written; {option} makes it as it is"]))
    return is_made


def remark_on_name(given: argparse.Namespace, terms: Terms) -> Iterator[str]:
    """Yields a line that says who decides who the subject of a new certificate or entry is, if that is a name of another key than the issuer's."""
    labels = Labels()
    if os.path.isfile(given.to or ""):
        labels.add_path(given.to)
    if decider := labels.decider_of(terms):
        what = "who has this right" if terms.name is None else "whom this name means"
        advice = "; without --to it is a name of yours" if given.command != "entry" else ""
        yield f"spki-cert: {decider} decides who is {labels.label_of_subject(terms.subject)}, and so {what}{advice}"


def fields_given(given: argparse.Namespace) -> list[Value]:
    """The fields that the options give a certificate or an entry: tag, validity, delegation and comment. Raises Refused for a right without --tag,
    for a tag that cannot be read, or for --days that end after the year 9999."""
    if given.tag is None and given.name is None:
        raise Refused("a right needs --tag")
    tag = value_of_word(os.fsencode(given.tag), "--tag", read_tag) if given.tag is not None else None
    return fields_of(tag, given.begins, now(given.days) if given.days is not None else given.until, given.propagate, given.comment or "")


def subject_of(given: argparse.Namespace, naming: Callable[[Value], Value] = principal_of) -> Value:
    """The subject that --to and --named say: a key, a hash, or a name. Without --to it is a name of the issuer, which only a certificate has: for an
    entry the caller has tested that --to is given. `naming` returns the principal for the key of a file. Raises Refused if --to cannot be read, or if
    the two say no subject, or one that an entry cannot have."""
    if given.to is None:
        if not given.named:
            raise Refused("a certificate needs --to, or --named for a name of the issuer")
        return [b"name", *map(os.fsencode, given.named)]
    # (--to is an S-expression itself, or the name of a file with a key)
    is_itself = given.to.lstrip().startswith(("(", "{"))
    to = value_of_word(os.fsencode(given.to), "--to", read_subject) if is_itself else naming(key_at(given.to, given.number))
    if headed(to, b"name") and given.named:
        raise Refused("--to is a name already, so --named is one too many")
    subject: Value = [b"name", to, *map(os.fsencode, given.named)] if given.named else to
    if given.command == "entry" and headed(subject, b"name") and not headed(members(subject)[0], *PRINCIPALS):
        raise Refused(f"--to {given.to}: a name in an entry needs the key that defines it: give --to KEY --named NAME")
    return subject


def request_of(words: list[str]) -> Value:
    """The request of some words: the list of them, or the string if there is one."""
    strings: list[Value] = [os.fsencode(word) for word in words]
    return strings[0] if len(strings) == 1 else strings


# ---- show, ask, check


def labels_of(given: argparse.Namespace, *paths: str) -> Labels:
    """The labels by which keys are called, from the files and folders of --labels, of SPKI_LABELS, and of `paths`. The first label of a key stays.
    Raises Refused for a file that cannot be read."""
    labels = Labels()
    for path in (*given.labels, os.environ.get("SPKI_LABELS", ""), *paths):
        if path:
            labels.add_path(path)
    return labels


def show(given: argparse.Namespace) -> int:
    """Says what access lists, certificates, sequences and cases say: in words or in JSON, and the first one also as a picture; or writes all of them
    in braces, and nothing else. Returns NO if one has a certificate that does not count, and else DONE."""
    labels, moment = labels_of(given), given.at or now()
    values = [(path, value_headed(path, (b"acl", b"cert", b"sequence", b"case"), NOT_SHOWN)) for path in given.files]
    if given.braces:
        write_output(b"".join(b"{%s}\n" % base64.b64encode(canonical(value)) for _, value in values))
        return DONE
    if given.svg:
        from .drawing import svg_of
        write((given.svg, svg_of(values[0][1], labels)), force=given.force)
    shown = [(path, value, [*rows_of(value, moment, labels)]) for path, value in values]
    if given.json:
        say(json.dumps([{"file": path, "shows": rows} for path, _, rows in shown], indent=1))
    # (no words where the picture goes to standard output)
    elif given.svg != "-":
        for path, value, rows in shown:
            say(f"{path}: {what_is(value)}", *(f"  {line}" for row in rows for line in lines_of(row)))
    return NO if any(row.get("fault") for _, _, rows in shown for row in rows) else DONE


def ask(given: argparse.Namespace) -> int:
    """Decides a request by an access list and certificates, or that of --case. Says why, and writes the files of --sequence, --save and --svg.
    Returns DONE if the request is granted, otherwise NO."""
    from .asking import Asked, Words, asked_of_case, best_answer, case_of
    if given.case and (given.acl or given.key or given.cert or given.words or given.at or given.open):
        raise Refused("--case is a whole question: it goes with no --acl, --key, --cert, --at, --open and no request")
    if given.case:
        asked = asked_of_case(value_of(given.case, "case"), labels_of(given))
    elif not (given.acl and given.key and given.words):
        raise Refused("the request is missing: `-- packages read`" if given.acl and given.key else "ask needs --acl and --key, or --case")
    else:
        key = key_at(given.key)
        # (a folder of --cert may have public keys too, which give labels; a file of --cert is a sequence, and labels no key)
        labels = labels_of(given, *filter(os.path.isfile, [given.key]), *filter(os.path.isdir, given.cert))
        # (--open asks for the open policy, under which hashes by SHA-1 name keys)
        access_list, (paths, sequences, left_out) = value_of(given.acl, "acl"), sequences_at(given.cert)
        asked = Asked(access_list, key, request_of(given.words), given.at or now(), labels, sequences, is_strict=not given.open, paths=paths,
                      left_out=left_out)
    answer = best_answer(asked)
    lines = list(Words(asked, answer).lines())
    # (the sequence that grants is neither empty nor one of those that were given, but put together from their certificates)
    if answer.entry is not None and answer.sequence not in [*asked.sequences, [b"sequence"]] and not given.sequence:
        lines.append("  these certificates are picked and put in order: --sequence FILE writes them for the service")
    parts = [(path, text_of(value)) for path, value in ((given.sequence, answer.sequence), (given.save, case_of(asked, answer.sequence))) if path]
    if given.svg:
        from .drawing import svg_of_answer
        parts.append((given.svg, svg_of_answer(asked, answer)))
    write(*parts, force=given.force)
    if given.json:
        reasons = [reason._asdict() for reason in answer.reasons]
        lines = [json.dumps({"granted": answer.entry is not None, "entry": answer.entry, "reasons": reasons, "words": lines}, indent=1)]
    say(*lines, is_aside="-" in (given.sequence, given.save, given.svg))
    return DONE if answer.entry is not None else NO


def sequences_at(paths: list[str]) -> tuple[list[str], list[Value], list[str]]:
    """The paths and the values of sequences: of each file that is given itself, and of those in given folders. And a line on each file of a folder
    that is perhaps a certificate and is left out, since it has no signature or would be refused. Raises Refused for a given file that is no
    sequence, and for one that cannot be read."""
    from .checking import files_below, remarks_on
    found, left_out = list[tuple[str, Value]](), list[str]()
    for path, is_given in files_below(paths):
        if is_given:
            found.append((path, value_of(path, "sequence")))
            continue
        octets = octets_of(path)
        (wrong, _, _), node = read_text(octets)
        if wrong is None and node.head == b"sequence":
            found.append((path, node.value))
        elif wrong is None and node.head == b"cert":
            left_out.append(f"{path}: {FAULTS['UnsignedCert']} (UnsignedCert)")
        elif not is_key_file(octets) and not is_private(octets):
            # (an empty file is looked at as if it were given: a disk was perhaps full)
            left_out += [str(remark) for remark in remarks_on(path, now(), is_given=not octets.strip())[1] if remark.is_refused][:1]
    return [path for path, _ in found], [value for _, value in found], left_out


def check(given: argparse.Namespace) -> int:
    """Says what is wrong in files. How many they are is in the JSON, or else on standard error. Returns REFUSED if a service would refuse one of
    them or one cannot be read, NO if there are other remarks, and else DONE."""
    from .checking import files_below, remarks_on
    moment = now()
    # (for each file its path, whether that itself is given, what the file is, or None if it is left out, and the remarks on it)
    files = [(path, is_given, *remarks_on(path, moment, is_given)) for path, is_given in files_below(given.paths)]
    kinds = [(path, kind) for path, is_given, kind, _ in files if is_given and kind]
    remarks = [remark for *_, of_file in files for remark in of_file]
    left_out = sum(kind is None for _, _, kind, _ in files)
    read = len(files) - left_out
    refused = len({remark.path for remark in remarks if remark.is_refused})
    if given.json:
        rows = [{"file": remark.path, "line": remark.line, "column": remark.column, "refused": remark.is_refused, "text": remark.text}
                for remark in remarks]
        say(json.dumps({"files": read, "left_out": left_out, "kinds": dict(kinds), "remarks": rows}, indent=1))
    else:
        say(*(f"{path}: {kind}" for path, kind in kinds), *map(str, remarks))
        tell(f"{read} files, {refused} refused, {len(remarks)} remarks; {left_out} other files left out")
    return REFUSED if refused else NO if remarks else DONE


COMMANDS: dict[str, Callable[[argparse.Namespace], int]] = {
    "key": key, NEW_KEY: new_key, "sign": sign, "name": sign, "entry": entry, "show": show, "ask": ask, "check": check, "end": end,
    "request": request, "completion": lambda _: say(completion())}


def main() -> int:
    """Runs the command of the command line. Returns the exit status, and tells why it failed. --help and --version raise SystemExit behind their
    text."""
    words = sys.argv[1:]
    READ.clear()
    try:
        if any(has_private_key(os.fsencode(word)) for word in words):
            raise Refused("a private key is among the words of this command, where other users and the history of the shell have it: replace it by a "
                          "new one, and give the name of its file")
        # (argparse has no commands of two words)
        given = parser_of_commands().parse_args([NEW_KEY, *words[2:]] if words[:2] == ["key", "new"] else words)
        return COMMANDS[given.command](given)
    except Refused as why:
        tell(*(f"spki-cert: {line}" if place == 0 else line for place, line in enumerate(why.lines)))
        return why.status
    except BadKey as why:
        tell(f"spki-cert: {why}")
        return REFUSED
    except ModuleNotFoundError as why:
        source = "pip install ./bindings/python" if why.name in ("spki_verify", "spki_http") else f"Debian: python3-{why.name}"
        tell(f"spki-cert: the module {why.name} is not there ({source})")
    except OSError as why:
        tell(f"spki-cert: {why.filename or 'reading or writing'}: {why.strerror or why}")
    except KeyboardInterrupt:
        tell("spki-cert: ended by SIGINT")
    except SystemExit:
        raise
    # (a panic of `cryptography` is no Exception)
    except BaseException as why:
        tell(f"spki-cert: a fault of spki-cert itself, please report it: {type(why).__name__} {why}")
    return FAILED


def end_by_signal(number: int, frame: object) -> NoReturn:
    """Handles a signal: gives the terminal its settings back, tells which signal it was, and ends the program with status FAILED. No file is half
    written, since a signal waits until a file is in its place."""
    for descriptor, attributes in TERMINAL:
        # (a terminal that was closed, the reason of SIGHUP, has no settings any more)
        with contextlib.suppress(termios.error):
            termios.tcsetattr(descriptor, termios.TCSAFLUSH, attributes)
    # (standard error may be closed)
    with contextlib.suppress(OSError):
        os.write(2, f"spki-cert: ended by {signal.Signals(number).name}\n".encode())
    os._exit(FAILED)


def run() -> NoReturn:
    """The program: runs `main`, with an end by each signal of ENDING that is not ignored, and exits with its status. `os._exit` does it, which is
    faster: all output is flushed when it is written, so nothing is left to be written. Warnings of libraries are not shown."""
    warnings.simplefilter("ignore")
    for number in ENDING:
        if signal.getsignal(number) is not signal.SIG_IGN:
            signal.signal(number, end_by_signal)
    try:
        status = main()
    except SystemExit as end:
        status = end.code if isinstance(end.code, int) else DONE
    os._exit(status)
