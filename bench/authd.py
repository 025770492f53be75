#!/usr/bin/env python3
"""Measures spki-authd beside a handler that answers 200 to each request, both in Go, and ends with another status where a limit is passed.

The list has 10,000 entries. Each request shows three certificates by Ed25519. The signatures of nine requests of ten were verified before, and
those of the tenth were not: the caches are too small for them.

- Requests a second through nginx with `auth_request`, beside nginx alone: the most that 32, 64 or 128 connections get. The daemon must reach
  0.55 of the handler's.
- The processor time of a request.
- The 99th percentile of the time at half of that load: at most 10 ms.
- Under load, with a reload each second: wrong answers, and the resident memory.
- The same for a short time with Go's race detector.

SYNC=each or SYNC=never has the daemon write its log of grants to the disk before each grant, or not at all. Otherwise it does so each second.

Needs nginx, wrk, Go and `cryptography` (Debian: nginx, wrk, golang-go, python3-cryptography). Build the library first (crates/spki_c/archive.py).
Usage: bench/authd.py [--seconds N] [--soak N] [LIBRARY]
"""
import argparse
import os
import shutil
import sys
import tempfile
import time
from concurrent.futures import ThreadPoolExecutor

from authd_site import Site, processor_seconds, reload, resident

sys.path.append(os.path.join(os.path.dirname(os.path.abspath(__file__)), "..", "tests"))
from shared import LIBRARY  # noqa: E402

# The numbers of connections with which a rate is measured. With fewer the processors are idle at times, as each connection waits for its answer.
CONNECTIONS = 32, 64, 128
WAYS = "nginx alone", "nginx and handler", "nginx and daemon"
# The least part of the handler's rate, the most milliseconds of the 99th percentile, and the most growth of the memory.
LEAST_RATIO, MOST_P99, MOST_GROWTH = 0.55, 10.0, 1.10
RACE_SECONDS = 10
# The share of a soak after which the memory is compared: what is first used, such as the heap, has grown by then.
SETTLED = 0.25


def arguments():
    """The parsed command line: `seconds` of each measurement, `soak` seconds under load with reloads, and the path of the `library`."""
    parser = argparse.ArgumentParser(description=__doc__, formatter_class=argparse.RawDescriptionHelpFormatter)
    parser.add_argument("--seconds", type=int, default=10, help="of each measurement")
    parser.add_argument("--soak", type=int, default=60, help="seconds under load with reloads")
    parser.add_argument("library", nargs="?", default=LIBRARY)
    return parser.parse_args()


def measure_ways(site, seconds):
    """The Figures of each of WAYS, by its name, with the number of connections that gets the highest rate. Each number is measured twice.
    Prints all."""
    best = {}
    for connections in 2 * CONNECTIONS:
        for name, port in zip(WAYS, site.nginx):
            figures = site.load(port, seconds, connections)
            print(f"{name:<20}{connections:>4} connections: {figures}", flush=True)
            if name not in best or figures.rate > best[name].rate:
                best[name] = figures
    return best


def print_processor_time(site, daemon, seconds):
    """Prints the processor time of a request in the handler and in the daemon, whose process `daemon` is, from a load of `seconds` on each. Other
    programs change it less than they change a rate."""
    _, port_of_handler, port_of_daemon = site.nginx
    for name, process, port in (("handler", site.handler, port_of_handler), ("daemon", daemon, port_of_daemon)):
        before = processor_seconds(process)
        figures = site.load(port, seconds, CONNECTIONS[0])
        print(f"{name}: {(processor_seconds(process) - before) / figures.requests * 1e6:.0f} µs of processor time a request", flush=True)


def measure_half_load(site, seconds, full):
    """The Figures at about half of the rate of `full`, which are those at the highest rate: each connection waits some random time before each
    request. Prints them."""
    connections = CONNECTIONS[-1]
    delay = round(1000 * connections / (full.rate / 2))
    figures = site.load(site.nginx[2], seconds, connections, delay)
    print(f"{'daemon, half load':<20}{figures}", flush=True)
    return figures


def run_soak(site, process, seconds):
    """The figures under load with a reload each second, and a list of the daemon's resident memory a second after each reload, in KiB."""
    memory = []
    with ThreadPoolExecutor(1) as pool:
        load = pool.submit(site.load, site.nginx[2], seconds, CONNECTIONS[0])
        while not load.done():
            reload(process)
            time.sleep(1)
            memory.append(resident(process))
    return load.result(), memory


def growth(memory):
    """The memory in the last quarter of a soak since it settled, divided by that in the first quarter. `memory` is the list that `run_soak` returns.
    Before it has settled it grows in any case."""
    settled = memory[round(len(memory) * SETTLED):]
    part = max(1, len(settled) // 4)
    return sum(settled[-part:]) / sum(settled[:part])


def faults_of_races(site):
    """Asks a daemon with the race detector under load, with a reload each second. Prints the figures, and returns a list of what is wrong: a race,
    wrong answers, or a daemon that ends with another status than 0. It is empty if nothing is."""
    site.build("-race")
    process = site.start_all()
    figures, _ = run_soak(site, process, RACE_SECONDS)
    site.end()
    print(f"{'race detector':<20}{figures}, status {process.returncode}", flush=True)
    log = site.end_of_log(site.program)
    return [f"a race, or wrong answers: {log}"] if "DATA RACE" in log or figures.errors or process.returncode else []


def faults_of(site, options):
    """Measures and prints all figures, by the options of the command line. Returns a list of what is wrong in them, which is empty if nothing is."""
    site.build()
    process = site.start_all()
    figures = measure_ways(site, options.seconds)
    print_processor_time(site, process, options.seconds)
    half = measure_half_load(site, options.seconds, figures["nginx and daemon"])
    soak, memory = run_soak(site, process, options.soak)
    site.end()
    title = f"{options.soak} s of reloads"
    print(f"{title:<20}{soak}; {memory[0] / 1024:.0f} MiB at first, {max(memory) / 1024:.0f} at most, "
          f"{memory[-1] / 1024:.0f} at last, grown by {growth(memory):.3f} since it settled", flush=True)
    ratio = figures["nginx and daemon"].rate / figures["nginx and handler"].rate
    print(f"nginx and daemon: {ratio:.2f} of the handler's requests", flush=True)
    faults = [f"nginx and daemon: {ratio:.2f}, under {LEAST_RATIO} of the handler's requests"] if ratio < LEAST_RATIO else []
    faults += [f"p99 over {MOST_P99} ms"] if half.p99 > MOST_P99 else []
    faults += ["the memory grows"] if growth(memory) > MOST_GROWTH else []
    faults += [f"{name}: wrong answers" for name, each in {**figures, "half": half, "soak": soak}.items() if each.errors]
    return faults + faults_of_races(site)


def main():
    """Measures all. Returns the exit status: 1 if a limit is exceeded, an answer is wrong, threads race, or the daemon that looks for races does not
    end with status 0. Without nginx, wrk or Go it measures nothing, says so, and returns 0."""
    options = arguments()
    if not all(map(shutil.which, ("nginx", "wrk", "go"))):
        # (`.ci/deep` reads both lines: what is left out is listed, and nothing has passed)
        print("spki-authd is left out\n0 passed, 0 failed")
        return 0
    with tempfile.TemporaryDirectory() as folder:
        site = Site(folder, os.path.abspath(options.library))
        try:
            faults = faults_of(site, options)
        finally:
            site.end()
    print("".join(f"{line}\n" for line in faults), end="")
    return 1 if faults else 0


if __name__ == "__main__":
    sys.exit(main())
