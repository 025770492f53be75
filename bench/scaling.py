#!/usr/bin/env python3
"""Simulates stores larger than one machine: how many daemons and replicas they need, when a removal counts everywhere, and what the loss of a third
does. Prints each number with how it is known: measured (by bench/store.py, on four busy cores), simulated here, or assumed. It takes a minute.

- Which keys ask follows Zipf's law. How many decisions find their rows kept is computed by Che's approximation, and compared with a cache of
  10,000 of 1,000,000 keys that is simulated request by request.
- A removal counts once the last daemon has polled it: the time to the replica, the wait for the next poll, and the poll itself, of each daemon. The
  time of the last of all daemons is drawn 300 times.
- A third of the daemons is lost: a proxy that sends each key to a daemon of its own sends the keys of the lost ones to others, whose caches do not
  have them. The cache of the remaining ones is simulated request by request, in proportion.

Usage: bench/scaling.py
"""
import math
import random
from collections import OrderedDict

# Measured by bench/store.py. In seconds of a processor: a decision by kept rows (HIT), one whose rows are read, which is on the clock and so more
# (MISS), the rows of a decision in PostgreSQL (ROWS), and a request over HTTP (HTTP), which has a TLS certificate, a line in the log, and a decision,
# nine of ten by kept rows. OCTETS are those of an entry in all tables, and ADDS the changes a second of one primary.
HIT, MISS, ROWS, HTTP = 6e-6, 163e-6, 150e-6, 45e-6
OCTETS, ADDS = 469, 217
# Assumed: the octets of a key that a daemon keeps; the entries, the decisions a second and Zipf's exponent; the cores of a machine, the share of
# them in use, the octets of a daemon's cache and the fewest replicas; the median delay of a replica in seconds and its log-normal spread; and the
# days that an entry stays.
KEPT = 2560
ENTRIES, RATE, SKEW = 10 ** 9, 10 ** 6, 1.0
CORES, BUSY, CACHE, LEAST = 16, 0.6, 32 << 30, 3
DELAY, DELAY_SPREAD = 0.005, 1.0
DAYS = 90
# The daemon's own constant.
POLL = 0.25
SEED = 1


def rank_of(count, skew, chance):
    """The rank of one of `count` keys by Zipf's law, from 1, for a `chance` from 0 to 1: the inverse of the integral of its density."""
    if skew == 1:
        return int(math.exp(chance * math.log(count)))
    return int(((count ** (1 - skew) - 1) * chance + 1) ** (1 / (1 - skew)))


def bands(count, skew):
    """Yields the ranks of `count` keys in bands, for Zipf's law with the exponent `skew`: the chance that a request is for the one key in the middle
    of the band, and how many keys the band has, which may be a fraction. The first bands have one key each, others are a twentieth of a decade."""
    total = math.log(count) if skew == 1 else (count ** (1 - skew) - 1) / (1 - skew)
    begin = 1.0
    while begin < count:
        end = min(max(begin + 1, begin * 1.12), count + 1.0)
        middle = math.sqrt(begin * end)
        yield middle ** -skew / total, end - begin
        begin = end


def hits_of(count, skew, kept):
    """The share of requests whose key is among those kept, of a cache that drops what was asked for longest ago, by Che's approximation. `time` is
    the number of requests after which a key is dropped: it is narrowed down until so many keys are kept."""
    if kept >= count:
        return 1.0
    spread = list(bands(count, skew))
    low, high = 0.0, 1e15
    for _ in range(200):
        time = (low + high) / 2
        # (`-expm1(-chance * time)` is the chance that a key was asked for in that time)
        size = sum(number * -math.expm1(-chance * time) for chance, number in spread)
        low, high = (low, time) if size > kept else (time, high)
    weight = sum(chance * number for chance, number in spread)
    return sum(chance * number * -math.expm1(-chance * low) for chance, number in spread) / weight


class Cache:
    """A cache of at most so many keys."""

    def __init__(self, most):
        """An empty cache, of at most `most` keys. `keys` is to have first the one that was asked for longest ago."""
        self.most, self.keys = most, OrderedDict()

    def has(self, key):
        """Whether the cache has a key. It has it afterwards, and drops the one that was asked for longest ago if it is full."""
        is_there = key in self.keys
        self.keys[key] = None
        self.keys.move_to_end(key)
        if len(self.keys) > self.most:
            self.keys.popitem(last=False)
        return is_there


def simulated_hits(chance, count, kept, requests):
    """The share of the second half of so many requests that a cache of `kept` of `count` keys answers. `chance` is a `random.Random`."""
    cache, hits = Cache(kept), 0
    for turn in range(requests):
        is_there = cache.has(rank_of(count, SKEW, chance.random()))
        hits += is_there and turn >= requests // 2
    return hits / (requests - requests // 2)


def machines(rate, hits):
    """The daemons and the replicas that so many decisions a second need, and their misses a second. `hits` is the share of decisions by kept rows."""
    misses = rate * (1 - hits)
    # (the seconds of a processor that all daemons together take in a second: rather too many, as HTTP has a decision too)
    seconds = rate * (HTTP + hits * HIT + (1 - hits) * MISS)
    return math.ceil(seconds / (CORES * BUSY)), max(LEAST, math.ceil(misses * ROWS / (CORES * BUSY))), misses


def last_poll(chance, daemons, replicas):
    """The seconds after the commit of a removal at which the last daemon has read it. `chance` is a `random.Random`."""
    delays = [DELAY * math.exp(chance.gauss(0, DELAY_SPREAD)) for _ in range(replicas)]
    # (of each daemon the delay of its replica, the wait for its next poll, and the poll)
    return max(delays[place % replicas] + chance.random() * POLL + ROWS for place in range(daemons))


def after_loss(chance, count, kept, daemons):
    """The share of hits before a third of the daemons is lost, and a list of those in ten parts of the requests after it. Each of `count` keys has
    its daemon, whose cache keeps at most `kept`. `chance` is a `random.Random`."""
    caches = [Cache(kept) for _ in range(daemons)]
    lost = daemons // 3

    def finds_kept(is_whole):
        """Makes a request by chance. Returns whether its key was kept. `is_whole`: no daemon is lost."""
        key = rank_of(count, SKEW, chance.random())
        # (the numbers 1 and 2 give each key two daemons that do not depend on each other)
        place = hash((key, 1)) % daemons
        if not is_whole and place < lost:
            place = lost + hash((key, 2)) % (daemons - lost)
        return caches[place].has(key)

    # (the caches fill first)
    for _ in range(1_000_000):
        finds_kept(is_whole=True)
    before = sum(finds_kept(is_whole=True) for _ in range(50_000)) / 50_000
    return before, [sum(finds_kept(is_whole=False) for _ in range(50_000)) / 50_000 for _ in range(10)]


def print_row(how, what, value):
    """Prints a number: how it is known, what it is, and its value."""
    print(f"{how:<9} {what:<66} {value}")


def main():
    """Computes and prints all numbers."""
    chance = random.Random(SEED)
    print_row("measured", "daemon, HTTP and log of a request; decision kept, decision read",
              f"{HTTP * 1e6:.0f}, {HIT * 1e6:.0f}, {MISS * 1e6:.0f} µs")
    print_row("measured", "PostgreSQL, processor time of the rows of a decision", f"{ROWS * 1e6:.0f} µs")
    print_row("measured", "octets of an entry in all tables", f"{OCTETS}")
    print_row("assumed", "octets of a kept key", f"{KEPT}")
    print_row("assumed", "entries, decisions a second, Zipf's exponent", f"{ENTRIES:,}, {RATE:,}, {SKEW}")
    print_row("assumed", "cores of a machine, share in use, cache of a daemon, least replicas", f"{CORES}, {BUSY}, {CACHE >> 30} GiB, {LEAST}")
    print_row("assumed", "median delay of a replica, its log-normal spread", f"{DELAY * 1e3:.0f} ms, {DELAY_SPREAD}")
    approximate = hits_of(10 ** 6, SKEW, kept=10 ** 4)
    simulated = simulated_hits(chance, count=10 ** 6, kept=10 ** 4, requests=2_000_000)
    print_row("simulated", "hits of 10,000 of 1,000,000 keys: Che, request by request", f"{approximate:.3f}, {simulated:.3f}")
    hits_of_each = hits_of(ENTRIES, SKEW, CACHE // KEPT)
    daemons, replicas, misses = machines(RATE, hits_of_each)
    print_row("simulated", "each daemon sees all keys: hits, misses a second", f"{hits_of_each:.3f}, {misses:,.0f}")
    print_row("simulated", "  daemons, replicas", f"{daemons}, {replicas}")
    # (where each key has its daemon, the caches of all daemons act as one)
    hits_of_all = hits_of(ENTRIES, SKEW, daemons * CACHE // KEPT)
    daemons, replicas, misses = machines(RATE, hits_of_all)
    print_row("simulated", "each key has its daemon: hits, misses a second", f"{hits_of_all:.3f}, {misses:,.0f}")
    print_row("simulated", "  daemons, replicas", f"{daemons}, {replicas}")
    print_row("simulated", "octets of the store", f"{ENTRIES * OCTETS / 1e9:,.0f} GB")
    times = sorted(last_poll(chance, daemons, replicas) for _ in range(300))
    print_row("simulated", "a removal counts everywhere: median, 99th percentile", f"{times[150] * 1e3:.0f}, {times[296] * 1e3:.0f} ms")
    # (each entry is added and removed)
    changes = 2 * ENTRIES / (DAYS * 86_400)
    print_row("assumed", f"changes a second where an entry stays {DAYS} days", f"{changes:.0f}")
    print_row("measured", "changes a second of one primary, each a transaction", f"{ADDS}")
    # (the caches of all 12 daemons together keep a fifth of the keys)
    before, hits = after_loss(chance, count=10 ** 5, kept=10 ** 5 // 60, daemons=12)
    print_row("simulated", "hits before and after a third of the daemons is lost",
              f"{before:.3f}; " + ", ".join(f"{each:.3f}" for each in hits[:3]) + f" .. {hits[-1]:.3f}")
    remaining = daemons - daemons // 3
    print_row("simulated", "share in use of the daemons that remain", f"{min(1.0, BUSY * daemons / remaining):.2f}")
    print_row("simulated", "misses a second that the replicas that remain can answer", f"{(replicas - replicas // 3) * CORES / ROWS:,.0f}")


if __name__ == "__main__":
    main()
