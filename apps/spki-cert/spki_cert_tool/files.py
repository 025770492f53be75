"""Reads the files and words that a command is given. One function writes files: whole or not at all, never over a key, and over a file that was read
only if the command edits it."""
import contextlib
import errno
import fcntl
import getpass
import os
import re
import signal
import stat
import sys
import termios
import time
from collections.abc import Iterator
from datetime import datetime, timedelta, timezone
from typing import Any, TextIO, Union

from .agent import AgentSigner
from .certificates import DATE_FORMAT, is_in_calendar
from .forms import MOST_OCTETS, Node, Wrong, suggestion
from .keys import BadKey, FileSigner, is_key_file, is_private, read_private, read_public
from .places import lines_of_fault, may_be_secret, name_foreign, read_form, read_text
from .sexp import Value
from .structures import MOMENT, Reader

# The exit statuses of all commands.
DONE, NO, REFUSED, FAILED, UNCONFIRMED = 0, 1, 2, 3, 4
# The time of day at which a day that is given as an end ends.
DAY_ENDS = "_23:59:59"
# How long a lock is waited for that another program holds.
SECONDS_TO_LOCK = 30
Signer = Union[FileSigner, AgentSigner]
# What is escaped where a text is written to a stream: control characters but tab and line feed.
CONTROLS = re.compile("[\0-\x08\x0b-\x1f\x7f-\x9f]")
# How the file of ended certificates begins, and an S-expression.
ENDED, HEAD = re.compile(rb"(?:#[^\n]*\n|\s)*(?:[0-9a-f]{64}\b|end \d)"), re.compile(rb"\s*\(\s*(?:\d+:)?([\w-]+)")
# The files that this command has read, by device and inode, and INPUT once it has read standard input. Only a file that is edited is written over.
READ: set[tuple[int, int]] = set()
INPUT = (-1, -1)
# What names of files hardly have, and keys do.
PASTED = re.compile(r"[A-Za-z0-9+/=]{40,}|[A-Za-z0-9+=]{24,}|\n.*", re.DOTALL)
# A date in another notation: year, month, day, and perhaps hour, minute, second and zone.
NEARLY_DATE = re.compile(r"(\d{4})[-/.](\d\d?)[-/.](\d\d?)(?:[T_ ]+(\d\d?):(\d\d)(?::(\d\d))?)?(Z|[+-]\d\d:?\d\d| ?UTC)?", re.ASCII)
# The terminal's descriptor and its settings before, while a passphrase is asked for on it: `end_by_signal` restores them. Otherwise empty.
TERMINAL: list[tuple[int, list[Any]]] = []


class Refused(Exception):
    """What is wrong with a file or a word, in lines for people to read. `status` is the exit status of the command that it ends."""

    status = REFUSED

    def __init__(self, *lines: str) -> None:
        super().__init__(*lines)
        self.lines = lines


class Failed(Refused):
    """Writing failed."""

    status = FAILED


# ---- streams


def write_at_once(stream: TextIO | None, text: str | bytes) -> None:
    """Writes to a stream of the system and flushes it. In a `str`, CONTROLS and what the stream's encoding does not have are escaped. `bytes` are
    written as they are. Raises OSError, also if the stream was closed before the program began (None), or ValueError if it was closed since."""
    if stream is None:
        raise OSError(errno.EBADF, "it is closed")
    if isinstance(text, str):
        text = CONTROLS.sub(lambda control: f"\\x{ord(control[0]):02x}", text).encode(stream.encoding or "ascii", "backslashreplace")
    stream.flush()
    rest = memoryview(text)
    while rest:
        # (without a buffer, by `python3 -u`, a part may be written, or None is returned, since it would have to wait)
        written = stream.buffer.write(rest)
        if written is None:
            raise BlockingIOError(errno.EAGAIN, os.strerror(errno.EAGAIN))
        rest = rest[written:]
    stream.buffer.flush()


def write_output(text: str | bytes) -> None:
    """Writes to standard output, if there is something to write. Raises Failed, with a line that says why. It has no line, so nothing is told, if the
    reader of a pipe has ended, as `head` does once it has its lines."""
    try:
        if text:
            write_at_once(sys.stdout, text)
    except BrokenPipeError:
        raise Failed() from None
    except (OSError, ValueError) as why:
        raise Failed(f"standard output: {getattr(why, 'strerror', None) or why}") from None


def tell(*lines: str) -> None:
    """Writes lines to standard error, if that is possible."""
    # (it is closed or full, or no stream of the system, and nobody can be told)
    with contextlib.suppress(OSError, ValueError, AttributeError):
        write_at_once(sys.stderr, "".join(f"{line}\n" for line in lines))


def say(*lines: str, is_aside: bool = False) -> int:
    """Writes lines to standard output, or with `is_aside` to standard error, where standard output gets a file. Returns DONE."""
    if is_aside:
        tell(*lines)
    else:
        write_output("".join(f"{line}\n" for line in lines))
    return DONE


# ---- reading


def identity(state: os.stat_result) -> tuple[int, int]:
    """What a file is known by in READ, whatever its path is: its device and inode."""
    return state.st_dev, state.st_ino


def octets_of(path: str, most: int = MOST_OCTETS + 1) -> bytes:
    """The octets of a file, or of standard input for `-`: at most `most`, or all for -1. By default it is one more than a text may have, so that
    callers see that there are more. Notes in READ what was read. Raises Refused if it cannot be read, and for a second reading of standard input."""
    try:
        if path != "-":
            with open(path, "rb") as file:
                READ.add(identity(os.fstat(file.fileno())))
                return file.read(most)
        if INPUT in READ or sys.stdin is None:
            raise Refused(f"-: standard input {'is one file, and was read already' if INPUT in READ else 'is closed'}")
        READ.add(INPUT)
        # (standard input is perhaps no file of the system)
        with contextlib.suppress(OSError, ValueError):
            READ.add(identity(os.fstat(sys.stdin.fileno())))
        return sys.stdin.buffer.read(most)
    except OSError as why:
        raise refusal_to_read(path, why) from None


def refusal_to_read(path: str, why: OSError) -> Refused:
    """The exception for a file that cannot be read, perhaps with a similar name in its folder. Of a path that is not there and is perhaps a key
    itself, what may be secret is not repeated."""
    without_secrets, (folder, name) = PASTED.sub("..", path), os.path.split(path)
    if without_secrets != path and not os.path.lexists(path):
        return Refused(f"{without_secrets}: this is no file, and perhaps a key itself: write it into a file; --to also takes '(hash sha256 #..#)'")
    if isinstance(why, IsADirectoryError):
        return Refused(f"{path}: this is a folder, and a file is wanted")
    neighbours = list[bytes]()
    # (of a folder that cannot be listed no name is suggested)
    with contextlib.suppress(OSError):
        neighbours += map(os.fsencode, os.listdir(folder or "."))
    return Refused(f"{path}: {why.strerror}{suggestion(os.fsencode(name), neighbours)}")


def text_at(path: str, kind: str = "") -> tuple[bytes, Node]:
    """The octets of a file, and its value, which must be of a kind: acl, sequence, case, or any for an empty one. Raises Refused for one of another
    kind, if the file cannot be read, or with the place if a service would refuse it."""
    octets = octets_of(path)
    diagnosis, node = read_text(octets, f"refused {kind}" if kind else "")
    if diagnosis[0] is not None:
        raise Refused(*lines_of_fault(path, diagnosis))
    # (`read_text` accepts a whole case too: a refusal that begins so may be that of a part of a case)
    if kind and node.head != kind.encode():
        raise refusal_of_case(path, kind)
    return octets, node


def refusal_of_case(path: str, wanted: str) -> Refused:
    """The exception for a file that is a whole case, where a value with the head `wanted` is read."""
    return Refused(f"{path}: this is a whole case, and `({wanted} ..)` is wanted")


def value_of(path: str, kind: str) -> Value:
    """The value of a file, which must be of a kind: acl, sequence, case. Raises Refused as `text_at` does."""
    return text_at(path, kind)[1].value


def value_headed(path: str, heads: tuple[bytes, ...], wanted: str) -> Value:
    """The value of a file, which must have one of these heads. Otherwise raises Refused with `wanted`, which says what is wanted. Raises Refused also
    as `text_at` does."""
    _, node = text_at(path)
    if node.head not in heads:
        raise Refused(f"{path}: {wanted}")
    return node.value


def value_of_word(octets: bytes, what: str, read: Reader) -> Value:
    """The value of a word of the command line, which `read` must accept. Raises Refused with the place, where the word is called `what`."""
    (wrong, text, places), node = read_form(octets)
    try:
        if wrong is None:
            read(node)
            return node.value
    except Wrong as why:
        wrong = why
        # (what is in braces was not written by hand)
        if places is None:
            name_foreign(octets, wrong)
    if wrong.kind == "Trailing":
        whole = octets.decode(errors="surrogateescape")
        # (several lists are probably meant as a set of tags, and several strings as one list)
        front = "* set " if whole.lstrip().startswith("(") else ""
        wrong.why = f"these are several values; a list is in parentheses, as '({front}{whole})'"
    if not octets.strip():
        wrong.why = "this has only spaces"
    raise Refused(*lines_of_fault(what, (wrong, text, places)))


def passphrase_for(path: str) -> bytes:
    """Asks for the passphrase of what is called `path` on the terminal, and nowhere else. Raises BadKey without a terminal, or if the input ends or
    is no text."""
    try:
        with open("/dev/tty", "rb") as terminal:
            TERMINAL.append((terminal.fileno(), termios.tcgetattr(terminal)))
            return os.fsencode(getpass.getpass(f"Passphrase of {path}: "))
    except EOFError:
        raise BadKey("the input ended where the passphrase was asked for") from None
    except ValueError:
        raise BadKey("the passphrase has octets that are no text in this encoding") from None
    except (OSError, termios.error):
        raise BadKey("there is no terminal to ask for the passphrase: use ssh-agent, or for a new key --no-passphrase") from None
    finally:
        TERMINAL.clear()


def key_at(path: str, number: int | None = None, is_private_too: bool = False) -> Value:
    """The public key of a file in any form: the one with this number, from 1, which must be given if there are several. Raises Refused, also for a
    private key unless `is_private_too`."""
    with octets_of_key(path) as octets:
        if is_private(octets) and not is_private_too:
            raise BadKey(f"this is a private key, which nobody else may have; give the public one{', ' + path + '.pub' if path != '-' else ''}")
        return read_public(octets, lambda: passphrase_for(path), number)


def signer_at(path: str) -> Signer:
    """What signs by the key of a file: a private key itself, or ssh-agent for a public one. Raises Refused if the file cannot be read, or has no key
    that is used or several, if its passphrase is not given, or if ssh-agent does not answer or does not hold the key."""
    with octets_of_key(path) as octets:
        if is_private(octets):
            return FileSigner(read_private(octets, lambda: passphrase_for(path)))
        # (a public key asks for no passphrase)
        return AgentSigner(read_public(octets, lambda: b""))


@contextlib.contextmanager
def octets_of_key(path: str) -> Iterator[bytes]:
    """The octets of a file, for the block that reads its key. BadKey and Wrong in the block become Refused with the file's name."""
    octets = octets_of(path)
    try:
        yield octets
    except BadKey as why:
        raise Refused(f"{path}: {why}") from None
    except Wrong:
        # (no lines: `read_text` accepts a whole case too)
        lines = lines_of_fault(path, read_text(octets, "refused key")[0])
        raise Refused(*lines) if lines else refusal_of_case(path, "public-key") from None


def remark_on_mode(path: str) -> Iterator[str]:
    """Yields a remark if a regular file has a private key and others have some access to it, else nothing. Standard input, `-`, has no mode. Raises
    Refused if others have access and the file cannot be read."""
    # (what is not there has no mode)
    with contextlib.suppress(OSError):
        state = os.stat(path)
        mode = stat.S_IMODE(state.st_mode)
        if path != "-" and stat.S_ISREG(state.st_mode) and mode & 0o077 and is_private(octets_of(path)):
            yield f"{path} is a private key that others have access to: its mode is {mode:o}; chmod 600 {path}"


def now(days: int = 0) -> bytes:
    """The moment that is so many days from now, 0 or more, as a date of a certificate. Raises Refused if that is after the year 9999."""
    try:
        return (datetime.now(timezone.utc) + timedelta(days)).strftime(DATE_FORMAT).encode()
    except OverflowError:
        raise Refused(f"{days} days from now is after the year 9999") from None


def moment_of(text: str, time_of_day: str = "_00:00:00") -> bytes:
    """The moment of a word: a date with its time, or a day, to which `time_of_day` is added. Raises Refused for any other word, and says how it is
    written if it is a date in another notation."""
    whole = os.fsencode(text if "_" in text else text + time_of_day)
    if MOMENT.fullmatch(whole) and is_in_calendar(whole):
        return whole
    advised, why = "YYYY-MM-DD or YYYY-MM-DD_HH:MM:SS", "no date in the form that is read"
    if parts := NEARLY_DATE.fullmatch(text):
        # (what is missing is "0": the time of day, of which group 4 is the hour, or the zone)
        *numbers, zone = parts.groups("0")
        rewritten = "{:04}-{:02}-{:02}_{:02}:{:02}:{:02}".format(*map(int, numbers))
        if not is_in_calendar(rewritten.encode()):
            why = "no calendar has this moment"
        # (in another zone than UTC it is another moment, which is not computed)
        elif zone[0] not in "+-":
            advised = rewritten if parts[4] else rewritten[:10]
        why = why if zone == "0" else "give no zone: each moment is in UTC"
    raise Refused(f"{text}: {why}; write {advised}, in UTC")


# ---- writing


def target_of(path: str, new: bytes, force: bool, edits: bool) -> tuple[str, os.stat_result | None]:
    """The file that a path leads to, and its state before it is written, or None if there is none. `new` are the octets to be written. Raises Refused
    if the file must not be written. One that the command has read needs `edits`, and only one name; it may be a key, since the command edits it.
    Another one that is there needs `force`, and must be empty or of the kind that is written, and neither a key, or what may be one, nor the file of
    ended certificates."""
    place = os.path.realpath(path)
    try:
        before = os.stat(place)
        is_read = identity(before) in READ
        if not stat.S_ISREG(before.st_mode):
            raise Refused(f"{path}: this is no regular file, and only such a file is written; nothing was written")
        if is_read and not edits:
            raise Refused(f"{path}: this command reads this file, so it is not written over; nothing was written")
        if not before.st_mode & 0o222:
            raise Refused(f"{path}: its mode {stat.S_IMODE(before.st_mode):o} says that it is not to be written; nothing was written")
        if not os.access(place, os.W_OK):
            raise Refused(f"{path}: this account may not write it, or its file system is only for reading; nothing was written")
        # (a new file takes the place of the old one, so that other names would keep the old octets)
        if is_read and before.st_nlink > 1:
            raise Refused(f"{path}: it has {before.st_nlink} names, of which only one would be changed; nothing was written")
        with open(place, "rb") as file:
            old = file.read(MOST_OCTETS)
        is_key = is_key_file(old) or may_be_secret(old) or head_of_text(old) == b"public-key"
        if not is_read and (is_key or ENDED.match(old)):
            what = "a key, or what may be one," if is_key else "the file of ended certificates"
            raise Refused(f"{path}: {what} is there already, and is not written over; nothing was written")
        if not is_read and (advice := advice_on_existing(path, old, new, force)):
            raise Refused(f"{path}: this file is there already; {advice}; nothing was written")
        return place, before
    except FileNotFoundError:
        if not os.path.isdir(os.path.dirname(place)):
            raise Refused(f"{path}: the folder {os.path.dirname(place)} is not there; nothing was written") from None
        return place, None
    except OSError as why:
        raise Refused(f"{path}: {why.strerror}; nothing was written") from None


def advice_on_existing(path: str, old: bytes, new: bytes, force: bool) -> str:
    """What to do where a file is there already, in words, or nothing if `force` lets it be written over. `old` are its octets, and `new` those to be
    written. If they are of another kind, the path is probably a mistake. An empty file is of each kind, and a certificate of that of a sequence."""
    if not old.strip() or what_begins(old).replace("(cert ", "(sequence ") == what_begins(new):
        return "" if force else "--force writes over it"
    front = "--force replaces only a file of its kind; " if force else ""
    if head_of_text(old) == b"acl":
        return f"{front}`spki-cert entry --acl {path}` adds an entry to this list"
    return f"{front}{what_begins(old)}: give another name"


def what_begins(octets: bytes) -> str:
    """What kind of file octets are by how they begin, in words, of those that are written here."""
    if (head := head_of_text(octets)) is not None:
        return f"it has `({head.decode()} ..)`"
    begin = octets.lstrip()[:4]
    return "it is a picture" if begin == b"<svg" else "it is JSON" if begin[:1] == b"[" else "it is another text"


def head_of_text(octets: bytes) -> bytes | None:
    """The word that the list in a file begins with, also in braces, as HEAD finds it: in canonical form with the digits that may be right behind it.
    None if the file does not begin as a list with a word in front."""
    # (`inner` is the text itself, or that in its braces)
    (_, inner, _), _ = read_text(octets)
    match = HEAD.match(inner)
    return match[1] if match is not None else None


def write(*parts: tuple[str | None, bytes], mode: int = 0o644, force: bool = False, edits: bool = False) -> None:
    """Writes octets to files, each by its path, once it is known that none of them is refused. Those with None or `-` as path go to standard output
    afterwards. Each file is written whole or not at all. With `force` it may be there already, and with `edits` it may be one that was read. One
    that was there keeps its mode and its owner, and a new one gets `mode`. Raises Refused, if nothing was written, or Failed: files before the
    one that it names are written."""
    targets = [(path, *target_of(path, octets, force, edits), octets) for path, octets in parts if path is not None and path != "-"]
    places = [place for _, place, _, _ in targets]
    if len(set(places)) < len(places):
        raise Refused(f"{targets[-1][0]}: two results are to be written to one file; nothing was written")
    for name, place, before, octets in targets:
        try:
            replace(place, octets, mode, before)
        except OSError as why:
            raise Failed(f"{name}: {why.strerror}; the file is as before") from None
    write_output(b"".join(octets for path, octets in parts if path in (None, "-")))


def replace(place: str, octets: bytes, mode: int, before: os.stat_result | None) -> None:
    """Puts a file in its place, by a temporary one beside it. `before` is the state of the file that is replaced, which keeps its mode, its owner
    and, as far as the system permits, its attributes. For None there is none, and the new file has `mode`. A signal waits until the file is there.
    Raises OSError if the file is as before, and Failed, which says what it is, after it was put in its place or if the temporary one stays."""
    # (here, so that commands that write no file start faster)
    import tempfile
    signals_before, temporary, state = signal.pthread_sigmask(signal.SIG_BLOCK, signal.valid_signals()), "", "as before"
    try:
        handle, temporary = tempfile.mkstemp(prefix=".spki-cert-", dir=os.path.dirname(place))
        with open(handle, "wb") as file:
            if before is not None:
                os.fchown(handle, before.st_uid, before.st_gid)
                copy_attributes(place, before, handle)
            os.fchmod(handle, mode if before is None else stat.S_IMODE(before.st_mode))
            file.write(octets)
            file.flush()
            os.fsync(handle)
        put_in_place(temporary, place, is_new=before is None)
        state = "written"
        wait_for_disk(place)
    finally:
        try:
            os.unlink(temporary)
        except FileNotFoundError:
            # (it was renamed, or its name is still empty)
            pass
        except OSError as why:
            raise Failed(f"{place}: the file is {state}, and its temporary file {temporary} cannot be deleted: {why.strerror}") from None
        finally:
            signal.pthread_sigmask(signal.SIG_SETMASK, signals_before)


def copy_attributes(place: str, before: os.stat_result, handle: int) -> None:
    """Gives an open file the extended attributes of the one at `place`, such as its access control list, as far as the system permits. `before` is
    the state of that one. All is done by descriptors: who owns the folder may exchange files there meanwhile, and this may be root. Raises OSError,
    also if another file is at `place` by now."""
    source, names = os.open(place, os.O_RDONLY | os.O_NOFOLLOW | os.O_NONBLOCK), list[str]()
    try:
        if identity(os.fstat(source)) != identity(before):
            raise OSError(errno.ESTALE, "another file was put there meanwhile")
        with as_far_as_permitted():
            names = os.listxattr(source)
        for name in names:
            with as_far_as_permitted():
                os.setxattr(handle, name, os.getxattr(source, name))
    finally:
        os.close(source)


@contextlib.contextmanager
def as_far_as_permitted() -> Iterator[None]:
    """Passes over an error of the block if it says that the file system or this user cannot keep an attribute, or that the
    attribute is gone."""
    try:
        yield
    except OSError as why:
        if why.errno not in (errno.EPERM, errno.EACCES, errno.ENOTSUP, errno.ENODATA, errno.EINVAL):
            raise


def put_in_place(temporary: str, place: str, is_new: bool) -> None:
    """Gives a temporary file its name `place`. If `is_new`, it may keep its old name too, which `replace` deletes, and a file that somebody else has
    made there meanwhile stays, if the file system has links. Raises OSError."""
    if not is_new:
        os.replace(temporary, place)
        return
    try:
        os.link(temporary, place)
    except OSError:
        if os.path.lexists(place):
            raise
        # (a file system without links)
        os.rename(temporary, place)


def wait_for_disk(place: str) -> None:
    """Waits until the name of a file is on the disk. Does nothing if its folder may not be read, or the file system cannot sync folders (EINVAL).
    Raises Failed if the system reports another error: the file is in its place then."""
    try:
        handle = os.open(os.path.dirname(place), os.O_RDONLY)
    except PermissionError:
        return
    except OSError as why:
        raise not_on_disk(place, why) from None
    try:
        os.fsync(handle)
    except OSError as why:
        if why.errno != errno.EINVAL:
            raise not_on_disk(place, why) from None
    finally:
        # (nothing was written by this handle that a fault could lose)
        with contextlib.suppress(OSError):
            os.close(handle)


def not_on_disk(place: str, why: OSError) -> Failed:
    """The exception for a file that is in its place, although the system does not say that its name there is on the disk."""
    return Failed(f"{place}: the file is written, but the system does not say that its name is on the disk: {why.strerror}")


@contextlib.contextmanager
def locked(path: str) -> Iterator[None]:
    """Holds the lock of the folder of a file that is edited, so that no other edit is lost. Raises Refused if it is not free for SECONDS_TO_LOCK,
    or if the folder cannot be opened, and OSError if its file system has no locks."""
    end = time.monotonic() + SECONDS_TO_LOCK
    try:
        folder = os.open(os.path.dirname(os.path.realpath(path)), os.O_RDONLY)
    except OSError as why:
        raise Refused(f"{path}: the folder {why.filename}: {why.strerror}; nothing was written") from None
    try:
        while True:
            with contextlib.suppress(BlockingIOError):
                fcntl.flock(folder, fcntl.LOCK_EX | fcntl.LOCK_NB)
                break
            if time.monotonic() > end:
                raise Refused(f"{path}: another program has locked it for {SECONDS_TO_LOCK} seconds; nothing was written")
            # (`flock` has no time limit of its own, so it is tried 20 times a second)
            time.sleep(0.05)
        yield
    finally:
        os.close(folder)
