"""A page to try Conguraki in: parts of a question, the answer, the reason and the picture, as one types.

Serves the page on 127.0.0.1, prints its address and opens it in the browser. Nothing is sent to any other host. The library for C decides,
or the program `spki` where the library is not built.

Usage: python3 apps/playground [--port N] [--no-browser] [--engine library|program] [--seconds N]
"""
import argparse
import json
import os
import signal
import sys
import threading
import webbrowser

from asking import JOBS
from engine import TOP, choose_engine
from examples import EXAMPLES, OTHERS
from server import MOST_BODY, Server
from workers import SECONDS, Workers

# The most seconds of a question.
MOST_SECONDS = 3600


def seconds_of(text):
    """The seconds of a word of the command line. Raises ArgumentTypeError if they are no number from 1 to MOST_SECONDS."""
    # (`isascii`, since `isdigit` also takes other digits than 0 to 9; and four digits, since `int` raises ValueError for thousands of them)
    if not (text.isascii() and text.isdigit() and len(text) < 5 and 1 <= int(text) <= MOST_SECONDS):
        raise argparse.ArgumentTypeError(f"{text} is no number from 1 to {MOST_SECONDS}")
    return int(text)


def parse_options():
    """The options of the command line, as argparse has them: `port`, `no_browser`, `engine` and `seconds`."""
    parser = argparse.ArgumentParser(prog="apps/playground", description=__doc__.split("\n")[0])
    parser.add_argument("--port", type=int, default=0, help="the port; the default is one that is free")
    parser.add_argument("--no-browser", action="store_true", help="print the address only")
    parser.add_argument("--engine", choices=("library", "program"), help="who decides; the default is the library where it is built")
    parser.add_argument("--seconds", type=seconds_of, default=SECONDS, help=f"how long a question may take; the default is {SECONDS}")
    return parser.parse_args()


def start_json(engine_name):
    """The octets of `start.json`, by which the page begins: the examples, the first texts of the boxes in its other panels, how many octets a
    question may have, and the name of the engine that decides."""
    with open(os.path.join(TOP, "examples", "guide", "granted.sexp"), encoding="utf-8") as file:
        others = {**OTHERS, "case": file.read()}
    return json.dumps({"engine": engine_name, "examples": EXAMPLES, "others": others, "mostOctets": MOST_BODY}).encode()


def print_or_say_why(text):
    """Prints a text, and returns whether that worked. If not, prints why on standard error, and puts /dev/null in place of standard output: Python
    writes again at its end what is left in the buffer. Where there is no standard output, nothing is printed, and that counts as done."""
    try:
        print(text, flush=True)
    except OSError as why:
        print(f"standard output: {why.strerror}", file=sys.stderr)
        os.dup2(os.open(os.devnull, os.O_WRONLY), sys.stdout.fileno())
        return False
    return True


def main():
    """Serves the page until it is ended by ctrl-c or SIGTERM. The first line that it prints is the address, which a program that starts it reads, and
    the second says what decides. Returns the exit status: 0, or 2 if it cannot start or cannot print these lines. Then it prints why to standard
    error. Wrong options end the process with status 2 too."""
    options = parse_options()
    try:
        engine = choose_engine(options.engine)
    except LookupError as why:
        print(why, file=sys.stderr)
        return 2
    workers = Workers(options.engine, options.seconds)
    try:
        server = Server(options.port, workers, JOBS, start_json(engine.name))
    # (an OverflowError is that of a number that no port has)
    except (OSError, OverflowError) as why:
        print(f"port {options.port}: {why}", file=sys.stderr)
        workers.end()
        return 2
    with server:
        # (raises SystemExit, so that the processes are ended below)
        signal.signal(signal.SIGTERM, lambda *_: sys.exit(0))
        try:
            if not print_or_say_why(f"{server.address}\n{engine.name} decides; ctrl-c ends the page"):
                return 2
            if not options.no_browser:
                # (a browser in the terminal ends only when its user leaves it, and must be answered before)
                threading.Thread(target=webbrowser.open, args=(server.address,), daemon=True).start()
            server.serve_forever()
        except KeyboardInterrupt:
            print_or_say_why("")
        finally:
            workers.end()
    return 0


if __name__ == "__main__":
    sys.exit(main())
