#!/usr/bin/env python3
"""Draws docs/pictures/dashboard.svg from a run of spki-authd behind nginx, by what `spki-authd -metrics` says each second.

The run is that of authd.py under half of its load: a list of 10,000 entries, and chains of three certificates. After a quarter the root,
the first issuer of each chain, is taken from the list, after a half a reload is refused, and after three quarters the list is put back.

Needs what authd.py needs. Usage: bench/dashboard.py [--seconds N] [LIBRARY]
"""
import argparse
import concurrent.futures
import os
import re
import subprocess
import sys
import tempfile
import time
from xml.sax.saxutils import escape

from authd_site import Site

sys.path.append(os.path.join(os.path.dirname(os.path.abspath(__file__)), "..", "tests"))
from shared import LIBRARY, TOP  # noqa: E402

PICTURE = os.path.join(TOP, "docs", "pictures", "dashboard.svg")
# The connections of the load, and the mean ms that each waits before a request.
CONNECTIONS, DELAY = 32, 4
VALUE = re.compile(r"^spki_authd_(\w+)(?:\{(.*)\})? ([0-9.e+-]+)$", re.MULTILINE)
# Of the panels, in pixels: width, height, the left and the top of the first, and from one row to the next.
WIDTH, HEIGHT, LEFT, TOP_OF_PANEL, ROW = 370, 150, 60, 40, 215
COLOURS = "#1b6ca8", "#c0392b", "#7f8c8d", "#d68910"


def metrics(site):
    """The values of the metrics now, by name without `spki_authd_` and the text of the labels, which is empty if there are none."""
    text = subprocess.run([site.program, "-metrics", "-config", site.path("config.json")], stdout=subprocess.PIPE, text=True, check=True).stdout
    return {(name, labels): float(value) for name, labels, value in VALUE.findall(text)}


def change_list(site, seconds):
    """Takes the root's entry from the list after a quarter of `seconds`, has a broken list refused after a half, and puts the list back after three
    quarters. The daemon reads the list after each change."""
    with open(site.list, "rb") as file:
        whole = file.read()
    # (the root has the last entry)
    without = whole[:whole.rindex(b"(5:entry")] + b")"
    for text in (without, b"(3:acl", whole):
        time.sleep(seconds / 4)
        with open(site.list, "wb") as file:
            file.write(text)
        # (the reload of the broken list fails, so the status is not looked at)
        subprocess.run([site.program, "-reload", "-config", site.path("config.json")], stdout=subprocess.DEVNULL, stderr=subprocess.DEVNULL)


def sample(site, seconds):
    """Runs the load and the changes for so many seconds. Returns a list of the metrics about each second, each as `metrics` returns them. Raises
    SystemExit if wrk fails."""
    samples = []
    with concurrent.futures.ThreadPoolExecutor() as pool:
        running = [pool.submit(site.load, site.nginx[2], seconds, CONNECTIONS, DELAY), pool.submit(change_list, site, seconds)]
        for _ in range(seconds):
            samples.append(metrics(site))
            time.sleep(1)
    for each in running:
        each.result()
    return samples


def rates(samples, name, labels):
    """By how much a metric grew in each second. `samples` has the metrics at each second, as `sample` returns them. The value of the metric is the
    sum of all values of this name whose labels contain the text `labels`."""
    values = [sum(value for key, value in metrics_then.items() if key[0] == name and labels in key[1]) for metrics_then in samples]
    return [after - before for before, after in zip(values, values[1:])]


def quantile(samples, share):
    """For each second the least bound of the daemon's histogram, in milliseconds, within which a share (0.99) of its answers came: the greatest
    bound if fewer did, the least of all if there was no answer. `samples` is as for `rates`."""
    # (the labels of a bucket are `le="0.005"`: so many answers took at most 0.005 seconds)
    bounds = sorted({float(labels[4:-1]) for name, labels in samples[0] if name == "seconds_bucket" and "Inf" not in labels})
    by_bound = [rates(samples, "seconds_bucket", f'le="{bound:g}"') for bound in bounds]
    least = []
    for second, count in enumerate(rates(samples, "seconds_count", "")):
        sufficient = [bound for bound, numbers in zip(bounds, by_bound) if numbers[second] >= share * count]
        least.append(1000 * (sufficient or bounds[-1:])[0])
    return least


def panels(samples):
    """Yields the title of each panel, and a list of its lines, each a name and a list of a value for each second. `samples` is as for `rates`."""
    yield "Answers a second", [(answer, rates(samples, "decisions_total", f'answer="{answer}"')) for answer in ("yes", "no", "failed")]
    yield "Bound of 99 of 100 answers, ms", [("p99", quantile(samples, 0.99))]
    yield "Signatures a second", [(how, rates(samples, "signatures_total", f'how="{how}"')) for how in ("known", "verified", "spared")]
    # (without the first sample, as the rates, which are differences of two)
    gauges = (("entries in 1,000", "list_entries", 1000), ("last reload refused", "last_reload_refused", 1))
    yield "List", [(title, [values[name, ""] / unit for values in samples[1:]]) for title, name, unit in gauges]


def elements_of(place, title, lines):
    """Yields the elements of a panel in SVG. Its place is 0 to 3, by rows of two. `lines` are those of `panels`, for two samples or more."""
    left, top = LEFT + place % 2 * (WIDTH + 80), TOP_OF_PANEL + place // 2 * ROW
    most = max(max(values) for _, values in lines) or 1
    # (with four digits that count)
    written_most = f"{float(f'{most:.4g}'):,.10g}"
    yield f'<text x="{left}" y="{top - 8}" font-weight="bold">{escape(title)}</text>'
    yield f'<rect x="{left}" y="{top}" width="{WIDTH}" height="{HEIGHT}" fill="none" stroke="#999"/>'
    yield f'<text x="{left - 6}" y="{top + 10}" text-anchor="end">{written_most}</text>'
    yield f'<text x="{left - 6}" y="{top + HEIGHT}" text-anchor="end">0</text>'
    for number, (name, values) in enumerate(lines):
        step = WIDTH / max(1, len(values) - 1)
        points = " ".join(f"{left + second * step:.1f},{top + HEIGHT - value / most * HEIGHT:.1f}" for second, value in enumerate(values))
        yield f'<polyline points="{points}" fill="none" stroke="{COLOURS[number]}" stroke-width="1.5"/>'
        yield f'<text x="{left + number * 130}" y="{top + HEIGHT + 16}" fill="{COLOURS[number]}">{escape(name)}</text>'


def main():
    """Runs the daemon and draws the picture."""
    parser = argparse.ArgumentParser(description=__doc__, formatter_class=argparse.RawDescriptionHelpFormatter)
    parser.add_argument("--seconds", type=int, default=60)
    parser.add_argument("library", nargs="?", default=LIBRARY)
    options = parser.parse_args()
    with tempfile.TemporaryDirectory() as folder:
        site = Site(folder, os.path.abspath(options.library))
        try:
            site.build()
            site.start_all()
            samples = sample(site, options.seconds)
        finally:
            site.end()
    parts = [part for place, (title, lines) in enumerate(panels(samples)) for part in elements_of(place, title, lines)]
    with open(PICTURE, "w", encoding="utf-8") as file:
        file.write('<svg xmlns="http://www.w3.org/2000/svg" width="900" height="450" font-family="sans-serif" font-size="12">\n'
                   '<rect width="900" height="450" fill="white"/>\n' + "\n".join(parts) + "\n</svg>\n")


if __name__ == "__main__":
    main()
