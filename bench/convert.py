#!/usr/bin/env python3
"""Times the three conversions of `spki` on large texts beside nettle's `sexp-conv` on the same texts, and prints how the time grows with the octets
and how much memory it takes. Each kind of text is made by a function, with at most `size` octets, for three sizes. Times are processor times, the
least of some runs. Where `spki` takes over its limit of the time of `sexp-conv`, their instructions are compared too, and the lesser ratio counts:
the times of runs of some milliseconds differ by a fifth from machine to machine.

Build the program first (`rt run` in crates/spki), and install `sexp-conv` (Debian: nettle-bin).
Usage: bench/convert.py [PROGRAM]
"""
import base64
import os
import random
import shutil
import subprocess
import sys
import tempfile

from counting import counted, choose_counter
from memory import peak, processor_seconds

sys.path.append(os.path.join(os.path.dirname(os.path.abspath(__file__)), "..", "tests"))
from shared import PROGRAM as BUILT, braced  # noqa: E402

PROGRAM = sys.argv[1] if len(sys.argv) > 1 else BUILT
PEER = "sexp-conv"
FORMS = ("canonical", "advanced", "transport")
SIZES = [64 * 1024, 256 * 1024, 1024 * 1024]
RUNS = 7
# At most so much of the time of `sexp-conv`, so many times the time for 4 times the octets, and so many MiB.
LIMIT_PEER, LIMIT_RATIO, LIMIT_MEMORY = 0.40, 5.0, 256


def filled(size, piece):
    """A list of one piece over and over, in at most `size` octets."""
    return b"(" + piece * ((size - 2) // len(piece)) + b")"


def short_tokens(size):
    """Tokens of one octet."""
    return filled(size, b"a ")


def tokens(size):
    """Two longer tokens in turn."""
    return filled(size, b"public-key ftp.example.org ")


def quoted_strings(size):
    """Quoted strings, every second one with escapes."""
    return filled(size, b'"2024-01-01_00:00:00" "say \\"yes\\"" ')


def one_string(size):
    """One quoted string."""
    return b'"' + b"x y " * ((size - 2) // 4) + b'"'


def deep_lists(size):
    """Lists as deep as the limit allows."""
    return filled(size, b"(a " * 63 + b"b" + b")" * 63 + b" ")


def short_lists(size):
    """Lists of two strings."""
    return filled(size, b"(a b)")


def hints(size):
    """Strings with display hints."""
    return filled(size, b'[text/plain]"two words" [x]3:fgh ')


def binary_strings(size):
    """Strings of 32 octets each, in canonical form."""
    chance, length = random.Random(size), len(b"32:") + 32
    return b"(" + b"".join(b"32:" + chance.randbytes(32) for _ in range((size - 2) // length)) + b")"


def one_binary_string(size):
    """One string of octets of all kinds, in canonical form."""
    # (its length has no more digits than `size`, and a colon is behind it)
    length = size - len(str(size)) - 1
    return str(length).encode() + b":" + random.Random(size).randbytes(length)


def base64_strings(size):
    """Strings of 96 octets in base64."""
    return filled(size, b"|" + base64.b64encode(random.Random(0).randbytes(96)) + b"|\n")


def hexadecimal_strings(size):
    """Strings of 64 octets in hexadecimal digits."""
    return filled(size, b"#" + random.Random(0).randbytes(64).hex().encode() + b"#\n")


def braces(size):
    """Short strings, in braces: as base64, which has four octets for three. Four octets are left for the braces and what base64 fills up with."""
    return braced(filled(3 * (size - 4) // 4, b"3:abc1:d"))


SHAPES = (short_tokens, tokens, quoted_strings, one_string, deep_lists, short_lists, hints, binary_strings, one_binary_string,
          base64_strings, hexadecimal_strings, braces)


class Text:
    """A text in a file, from which the programs read it."""

    def __init__(self, octets):
        """Writes these octets to a file, which is removed with the object."""
        self.octets = octets
        self.file = tempfile.NamedTemporaryFile()
        self.file.write(octets)
        self.file.flush()

    def conversion_by(self, command):
        """What a command, given by its words, writes of the text. Raises CalledProcessError if it fails."""
        with open(self.file.name, "rb") as reader:
            return subprocess.run(command, stdin=reader, stdout=subprocess.PIPE, check=True).stdout

    def seconds(self, command):
        """The processor seconds of one run of a command."""
        with open(self.file.name, "rb") as reader:
            return processor_seconds(command, stdin=reader, stdout=subprocess.DEVNULL, check=True)[1]


def spki_command(form):
    """The command of `spki` that converts to a form."""
    return [PROGRAM, form]


def peer_command(form):
    """The command of `sexp-conv` that converts to a form."""
    return [PEER, "-s", form]


def measure(form, texts):
    """The seconds of `spki` on each text, those of `sexp-conv` on the last and largest, and the MiB of `spki` on that. On the largest the two
    programs run in turn, so that other work on the machine disturbs both alike."""
    times, peer_seconds = [], float("inf")
    for text in texts:
        times.append(min(text.seconds(spki_command(form)) for _ in range(RUNS)))
    for _ in range(RUNS):
        times[-1] = min(times[-1], texts[-1].seconds(spki_command(form)))
        peer_seconds = min(peer_seconds, texts[-1].seconds(peer_command(form)))
    return times, peer_seconds, peak(PROGRAM, form, texts[-1].octets)


def ratio_beside_peer(form, text, seconds, peer_seconds):
    """The ratio of the seconds of `spki` to those of `sexp-conv`. If it is over its limit, the ratio of their instructions, if that is less: then
    OSError is raised if neither perf nor valgrind is there."""
    ratio = seconds / peer_seconds
    if ratio <= LIMIT_PEER:
        return ratio
    count = choose_counter()
    # (by whole paths, so that no counter has to look for a program)
    commands = [[shutil.which(command[0]), *command[1:]] for command in (spki_command(form), peer_command(form))]
    own, of_peer = (counted(count, command, text.octets) for command in commands)
    return min(ratio, own / of_peer)


def print_target(name, worst, limit):
    """Prints the worst value beside its limit, the most that it may be. Returns whether it is within the limit."""
    is_within = worst <= limit
    print(f"{name}: {worst:.2f} (at most {limit}): {'pass' if is_within else 'miss'}")
    return is_within


def main():
    """Measures all. Ends with status 1 if a limit is passed, if a program is missing, or if the two write other canonical forms of a text."""
    for program in (PROGRAM, PEER):
        if shutil.which(program) is None:
            sys.exit(f"{program} is not there")
    print(f"{'text':<20}{'to':<11}" + "".join(f"{size // 1024:>8} KiB" for size in SIZES)
          + "   ratios        sexp-conv  spki/sexp-conv      peak")
    slowest, steepest, largest = 0.0, 0.0, 0.0
    for make in SHAPES:
        texts = [Text(make(size)) for size in SIZES]
        if texts[0].conversion_by(spki_command("canonical")) != texts[0].conversion_by(peer_command("canonical")):
            sys.exit(f"{make.__name__}: the canonical forms differ")
        for form in FORMS:
            times, peer_seconds, memory = measure(form, texts)
            ratios = [after / before for before, after in zip(times, times[1:])]
            ratio = ratio_beside_peer(form, texts[-1], times[-1], peer_seconds)
            slowest = max(slowest, ratio)
            steepest = max([steepest] + ratios)
            largest = max(largest, memory)
            print(f"{make.__name__:<20}{form:<11}" + "".join(f"{seconds * 1000:>9.1f} ms" for seconds in times)
                  + "   " + " ".join(f"{growth:5.2f}" for growth in ratios)
                  + f"   {peer_seconds * 1000:>9.1f} ms {ratio:>11.2f}   {memory:>9.1f} MiB")
    are_within = [
        print_target("slowest beside sexp-conv", slowest, LIMIT_PEER),
        print_target("steepest for 4 times the octets", steepest, LIMIT_RATIO),
        print_target("largest peak in MiB", largest, LIMIT_MEMORY),
    ]
    if not all(are_within):
        sys.exit(1)


if __name__ == "__main__":
    main()
