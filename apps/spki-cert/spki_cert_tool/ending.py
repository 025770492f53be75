"""Ends certificates before their date: writes the file `ended` of the digests that no longer count, which `spki-authd` reads.

A line of the file is empty, a comment that begins with `#`, or the SHA-256 digest of a certificate in 64 lowercase hexadecimal digits, which ` # `
and a comment may follow. The last line is `end COUNT SHA256`: the number of digests, and the digest of all octets before this line. So a file
that was cut, or changed by another program, is noticed by each reader. A digest is that of the canonical form of a certificate, which its
signature signs. No text of a certificate gets into the file.
"""
import argparse
import hashlib
import os
import re
import stat
from collections.abc import Iterable

from .certificates import Keys, certificates_in, fault_of_signature, headed, keys_in
from .files import DONE, NO, UNCONFIRMED, Refused, locked, now, octets_of, say, tell, value_headed, write
from .keys import digest_of
from .showing import FAULTS

# The most octets of the file, since `spki-authd` reads no more, and the most letters of a reason.
MOST_ENDED, MOST_REASON = 1 << 24, 200
HEAD = b"# SHA-256 of certificates that no longer count. Only `spki-cert end` may change this file."
# A digest as --digest takes it, and a line of the file that has one.
DIGITS = re.compile(r"[0-9A-Fa-f]{64}")
ENDED = re.compile(rb"([0-9a-f]{64})(?: # ([^\n]*))?")
# (a number of thousands of digits would be no number to `int`)
LAST = re.compile(rb"end (0|[1-9][0-9]{0,17}) ([0-9a-f]{64})")
# A line as people write it: digits in capitals too, spaces, a comment right behind it. (Blanks match in one way, so that many take linear time.)
BY_HAND = re.compile(rb"[ \t]*(?:([0-9A-Fa-f]{64})[ \t]*)?(?:#([^\n]*))?")
# A comment that begins with a date, as `add` writes it, and perhaps a reason behind it.
DATED = re.compile(r"(\d{4}-\d\d-\d\d)(?: (.*))?")


# ---- the text of the file


def visible(text: str) -> str:
    """A text as one line of visible ASCII. Controls become spaces, several spaces one, and those at its ends none. Other characters are written by
    their numbers."""
    plain = text.encode("ascii", "backslashreplace").decode()
    return " ".join("".join(letter if " " <= letter <= "~" else " " for letter in plain).split())


def rows_of(lines: Iterable[bytes]) -> list[re.Match[bytes]]:
    """The matches of ENDED for the lines that have a digest: group 1 is the digest, and group 2 the comment or None."""
    return [row for line in lines if (row := ENDED.fullmatch(line))]


def digests_of(lines: Iterable[bytes]) -> set[str]:
    """The digests in the lines of the file, in hexadecimal."""
    return {row[1].decode() for row in rows_of(lines)}


def last_line(lines: list[bytes]) -> bytes:
    """The last line `end COUNT SHA256` of a file whose other lines are these: how many of them have a digest, and the SHA-256 of them all."""
    return b"end %d %s" % (len(rows_of(lines)), hashlib.sha256(b"\n".join([*lines, b""])).hexdigest().encode())


def lines_in(path: str) -> list[bytes]:
    """The lines of the file before the last one. Raises Refused if they or the last line are not in the form, or do not belong together, and Refused
    or OSError as `read_ended` does."""
    # (`rest` is what follows the last line feed, and must be empty. An empty line is put in front, since an empty file has only one to unpack)
    *lines, last, rest = [b"", *read_ended(path).split(b"\n")]
    lines, last_match = lines[1:], LAST.fullmatch(last)
    advice = f"compare it with a copy; then `spki-cert end --adopt --ended {path}` takes its lines as they are"
    if rest or last_match is None:
        raise Refused(f"{path}: the last line is not `end COUNT SHA256`: the file was cut, or written by hand; {advice}")
    faulty = [number for number, line in enumerate(lines, 1) if line and not line.startswith(b"#") and not ENDED.fullmatch(line)]
    if faulty:
        raise Refused(f"{path}: line {faulty[0]} is no digest of 64 lowercase hexadecimal digits, no comment and not empty; {advice}")
    if last != last_line(lines):
        count, actual = int(last_match[1]), len(rows_of(lines))
        differs = f"says {count} digests, and there are {actual}" if count != actual else "has another SHA-256 than the lines before it"
        raise Refused(f"{path}: the last line {differs}: the file was cut, or changed by hand; {advice}")
    return lines


def lines_by_hand(path: str) -> tuple[list[bytes], bool]:
    """The lines of a file that people have written or changed, rewritten in the form of the file, and whether they have as many digests as its last
    line says. A last line that begins with `end `, right or wrong, is left out. If there is none, the second value is True, and for one in another
    form False. Raises Refused for a line that is neither a digest, a comment nor empty, and Refused or OSError as `read_ended` does."""
    octets = read_ended(path)
    lines = octets.removesuffix(b"\n").split(b"\n") if octets else []
    last = lines.pop() if lines and lines[-1].startswith(b"end ") else None
    rewritten = []
    for number, line in enumerate(lines, 1):
        match = BY_HAND.fullmatch(line.rstrip(b"\r"))
        if match is None:
            raise Refused(f"{path}: line {number} is no digest of 64 hexadecimal digits, no comment and not empty: remove or mend it; "
                          "nothing was written")
        digest, comment = match.groups()
        if digest:
            rewritten.append(digest.lower() + (b" # " + comment.strip() if comment and comment.strip() else b""))
        else:
            rewritten.append(b"" if comment is None else b"#" + comment)
    last_match = LAST.fullmatch(last) if last is not None else None
    return rewritten, last is None or last_match is not None and int(last_match[1]) == len(rows_of(rewritten))


# ---- the file


def read_ended(path: str) -> bytes:
    """The octets of the file. Only an ordinary file is opened: opening a FIFO or a device may wait, or do something. The file is replaced as a
    whole, so one state of it is read. Raises OSError if there is none, or what is there cannot be looked at, and Refused for one that is
    not ordinary, has more than MOST_ENDED octets, or cannot be read."""
    if not stat.S_ISREG(os.stat(path).st_mode):
        raise Refused(f"{path}: it is no ordinary file")
    octets = octets_of(path, MOST_ENDED + 1)
    if len(octets) > MOST_ENDED:
        raise Refused(f"{path}: more than {MOST_ENDED} octets, which `spki-authd` does not read")
    return octets


def write_lines(path: str, lines: list[bytes]) -> None:
    """Writes the file anew: these lines, and the last line that belongs to them. A file that was not there may be read by all users. Raises Refused
    if it would be too long or may not be written, and Failed if writing fails."""
    octets = b"\n".join([*lines, last_line(lines), b""])
    if len(octets) > MOST_ENDED:
        raise Refused(f"{path}: it would have more than {MOST_ENDED} octets, which `spki-authd` does not read; nothing was written")
    write((path, octets), edits=True)


# ---- the certificates that are meant


def digest_at(path: str, place: int | None, is_verified: bool) -> tuple[str, str, str | None]:
    """The digest in hexadecimal of a certificate in a file, what it is called, which is the file and its number among the certificates, and with
    `is_verified` why it does not count: one of FAULTS, else None. `place` is the number, from 1, or None for the last one. A file that is a
    certificate has one. Raises Refused if there is no such certificate, or if the file cannot be read or is of another kind."""
    value = value_headed(path, (b"cert", b"sequence"), "only a certificate of a sequence is ended")
    signed = certificates_in(value)
    certificates = [value] if headed(value, b"cert") else [each.terms.value for each in signed]
    count = len(certificates)
    number = count if place is None else place
    if not 1 <= number <= count:
        raise Refused(f"{path}: there is no certificate{'' if place is None else f' {place}'}; it has {count}")
    fault = None
    if is_verified:
        fault = fault_of_signature(signed[number - 1], Keys(keys_in(value))) if signed else "UnsignedCert"
    return digest_of(certificates[number - 1]).hex(), f"{path}, certificate {number} of {count}", fault


def digests_named(given: argparse.Namespace, is_verified: bool = False) -> tuple[dict[str, str], list[str]]:
    """The digests of all certificates that the command line names, each with what it is called: first those of the FILEs, then those of --digest,
    each in the order given. A certificate that is named twice keeps the first name. With `is_verified` also a line for each FILE whose certificate
    does not count, unless --digest names it too. Raises Refused for a --digest without 64 hexadecimal digits, and for a FILE as `digest_at` does."""
    for digest in given.digest:
        if not DIGITS.fullmatch(digest):
            raise Refused(f"--digest {digest}: a digest has 64 hexadecimal digits; `spki-cert show FILE` prints that of a certificate")
    digits, names, faults = [digest.lower() for digest in given.digest], dict[str, str](), list[str]()
    for digest, name, fault in [digest_at(path, given.place, is_verified) for path in given.files] + [(digest, digest, None) for digest in digits]:
        names.setdefault(digest, name)
        if fault and digest not in digits:
            faults.append(f"{name}: not ended: {FAULTS[fault]} ({fault}); if this text itself is meant: --digest {digest}")
    return names, faults


# ---- the commands


def make(given: argparse.Namespace) -> int:
    """Makes the file without digests if it is not there. Otherwise says how many it has. Returns DONE. Raises Refused if a file is there that
    `lines_in` refuses."""
    with locked(given.ended):
        if os.path.lexists(os.path.realpath(given.ended)):
            return say(f"{given.ended}: it is there already, and whole; digests: {len(rows_of(lines_in(given.ended)))}")
        write_lines(given.ended, [HEAD])
    return say(f"{given.ended}: made; digests: 0")


def add(given: argparse.Namespace) -> int:
    """Ends certificates: adds their digests to the file, each with today's date in UTC and at most MOST_REASON letters of --reason as a
    comment. Says which of them had ended before: they are not written twice. If a FILE has one whose signature is not valid, perhaps since it was
    altered, none is ended, and NO is returned. Raises Refused, OSError or Failed as `digests_named`, `lines_in` and `write_lines` do."""
    digests, faults = digests_named(given, is_verified=True)
    if faults:
        tell(*(f"spki-cert: {fault}" for fault in faults), "spki-cert: nothing was written")
        return NO
    # (of the present moment, as 2026-03-01_12:00:00, the first 10 octets are the date)
    comment = f"{now()[:10].decode()} {visible(given.reason)[:MOST_REASON]}".rstrip()
    with locked(given.ended):
        lines = lines_in(given.ended)
        ended_before = digests_of(lines)
        lines += [f"{digest} # {comment}".encode() for digest in digests if digest not in ended_before]
        count = len(digests_of(lines)) - len(ended_before)
        if count:
            write_lines(given.ended, lines)
    return say(*(f"{name}: {'it had ended before' if digest in ended_before else 'ended'}" for digest, name in digests.items()),
               *(["--digest is compared with no certificate: give the FILE of the certificate if you have it"] if given.digest else []),
               f"digests added: {count}" + ("; they count from the next reload of spki-authd on" if count else ""))


def undo(given: argparse.Namespace) -> int:
    """Takes digests out of the file: all that are named, or none. Returns NO if one of them is not there."""
    digests, _ = digests_named(given)
    with locked(given.ended):
        lines = lines_in(given.ended)
        ended_before = digests_of(lines)
        missing = [name for digest, name in digests.items() if digest not in ended_before]
        if missing:
            tell(*(f"spki-cert: {name}: it has not ended; nothing was written" for name in missing))
            return NO
        # (a digest is the first 64 octets of its line)
        write_lines(given.ended, [line for line in lines if line[:64].decode(errors="replace") not in digests])
    return say(*(f"{name}: taken out" for name in digests.values()),
               f"digests taken out: {len(digests)}; the next reload needs `spki-authd -reload -fewer`")


def line_listed(row: re.Match[bytes]) -> str:
    """The line that is printed for a digest, a match of ENDED: with its date and reason. If its comment begins with no date, all of
    it is the reason, and the date is `-`."""
    comment = visible((row[2] or b"").decode(errors="backslashreplace"))
    dated = DATED.fullmatch(comment)
    date, reason = dated.groups() if dated else ("-", comment)
    return f"{row[1].decode()} {date} {reason or ''}".rstrip()


def list_all(given: argparse.Namespace) -> int:
    """Prints all digests with their dates and reasons, and the last line, by which two copies of the file are compared. Returns DONE."""
    lines = lines_in(given.ended)
    return say(*map(line_listed, rows_of(lines)), last_line(lines).decode())


def adopt(given: argparse.Namespace) -> int:
    """Takes the lines of a file that people have written or changed, and gives it its last line. If it has no digests, or a last line that does not
    say how many, it is left as it is without --yes, and UNCONFIRMED is returned."""
    with locked(given.ended):
        lines, has_right_count = lines_by_hand(given.ended)
        rows = rows_of(lines)
        is_taken = given.yes or bool(rows) and has_right_count
        if is_taken:
            write_lines(given.ended, lines)
    say(*map(line_listed, rows), f"digests: {len(rows)}")
    if not is_taken:
        differs = "its last line says another number of digests" if rows else "it has no digests"
        tell(f"spki-cert: {given.ended}: {differs}: was it cut? Nothing was written; --yes takes it as it is")
    return DONE if is_taken else UNCONFIRMED


def end(given: argparse.Namespace) -> int:
    """The command `end`: ends certificates, undoes that, lists what has ended, or makes or adopts the file. Returns the exit status. Raises Refused
    for options that do not go together, or for a file that cannot be read or written."""
    names_some = bool(given.files or given.digest)
    for is_fault, text in (
            (given.ended == "-", "--ended is a file that is replaced, and no stream"),
            (given.place is not None and len(given.files) != 1, "--place goes with one FILE"),
            (given.undo and not names_some, "--undo needs a FILE or --digest"),
            ((given.list or given.adopt) and names_some, "--list and --adopt are about all digests: they go with no FILE and no --digest"),
            (given.yes and not given.adopt, "--yes goes with --adopt"),
            (given.reason and (given.undo or not names_some), "--reason goes with a FILE or --digest that is ended")):
        if is_fault:
            raise Refused(text)
    without_option = add if names_some else make
    action = undo if given.undo else list_all if given.list else adopt if given.adopt else without_option
    try:
        return action(given)
    except FileNotFoundError:
        raise Refused(f"{given.ended}: it is not there; `spki-cert end --ended {given.ended}` makes it") from None
    except OSError as why:
        raise Refused(f"{given.ended}: {why.strerror}; nothing was written") from None
