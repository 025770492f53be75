"""The moments at which an answer can change, which are the limits in the texts, and the answer between them.

A limit is included: a right that is valid from a moment on holds at this moment, and one that is valid until a moment holds at it too.
So an answer can change at each not-before, and right after each not-after. Dates are compared as strings, without a calendar.
"""
import re

DATE = re.compile(rb"(\d{4})-(\d\d)-(\d\d)_(\d\d):(\d\d):(\d\d)\Z")
# The first and the last date, as six numbers from the year to the second.
FIRST, LAST = (0, 1, 1, 0, 0, 0), (9999, 12, 31, 23, 59, 60)
# How many changes are looked at: the library is asked once for each.
MOST_LIMITS = 100


def parts_of(date):
    """The six numbers of a date, from the year to the second. None if the library reads no such date."""
    match = DATE.match(date)
    parts = tuple(map(int, match.groups())) if match else ()
    return parts if match and all(first <= part <= last for first, part, last in zip(FIRST, parts, LAST)) else None


def date_of(parts):
    """The date, as octets YYYY-MM-DD_HH:MM:SS, of six numbers."""
    return b"%04d-%02d-%02d_%02d:%02d:%02d" % parts


def next_date(parts):
    """The next date, also as six numbers: there is no calendar, so each month has 31 days and a minute a second 60. None after the last one."""
    for place in reversed(range(len(parts))):
        if parts[place] < LAST[place]:
            return (*parts[:place], parts[place] + 1, *FIRST[place + 1:])
    return None


def limits_of(value):
    """The limits in a value, which is `bytes` or a list: the sets of the moments of `not-before` and of `not-after`, by these words, each moment as
    six numbers. A list of this form in a tag counts too: it is no limit, and only makes one question more."""
    limits, waiting = {b"not-before": set(), b"not-after": set()}, [value]
    while waiting:
        part = waiting.pop()
        if not isinstance(part, list):
            continue
        if len(part) == 2 and part[0] in (b"not-before", b"not-after") and isinstance(part[1], bytes) and parts_of(part[1]):
            limits[part[0]].add(parts_of(part[1]))
        waiting += part
    return limits


def spans(values, answer):
    """The spans between two changes of an answer, in their order, as the page gets them: a dictionary, where `spans` has for each its answer and the
    limits at both ends, and `limits` has the limit of each change as a date, also if the answer stays the same. The limits are those in `values`, an
    access list and a sequence, and `answer` is a function that returns the answer at a date, which is octets. A change is a moment from which the
    answer may be another. Only the first MOST_LIMITS changes are looked at: `isWhole` says whether these are all."""
    all_limits = [limits_of(value) for value in values]
    # (by the moment from which the answer may change: the word and the limit as the page shows them)
    begins = {moment: ("from", moment) for limits in all_limits for moment in limits[b"not-before"]}
    ends = {next_date(moment): ("after", moment) for limits in all_limits for moment in limits[b"not-after"] if next_date(moment)}
    # (where an end and a begin change the answer at the same moment, the begin is shown)
    all_changes = {**ends, **begins}
    changes = dict(sorted(all_changes.items())[:MOST_LIMITS])
    spans_begun = spans_without_ends(changes, answer)
    # (each span ends where the next one begins, and the last one has no end)
    ended = [{**span, "end": following["begin"]} for span, following in zip(spans_begun, spans_begun[1:])] + spans_begun[-1:]
    limits_shown = sorted({date_for_page(moment) for _, moment in changes.values()})
    return {"spans": ended, "limits": limits_shown, "isWhole": len(all_changes) <= MOST_LIMITS}


def spans_without_ends(changes, answer):
    """The spans with their answers and where they begin: None for the first. Neighbours with the same answer are one. `changes` has the limits by
    the moments from which the answer may change, in their order, and `answer` returns the answer at a date."""
    begun = []
    for moment, limit in [(FIRST, None), *changes.items()]:
        line = answer(date_of(moment))
        if not begun or begun[-1]["answer"] != line:
            begun.append({"answer": line, "begin": limit and limit_for_page(limit)})
    return begun


def date_for_page(parts):
    """A date, given as six numbers, as the page shows it."""
    return date_of(parts).decode().replace("_", " ")


def limit_for_page(limit):
    """A limit, a pair of a word and a moment as six numbers, for the page. The word is `from` if the span begins with this moment, and `after` if it
    begins after it."""
    word, moment = limit
    return {"word": word, "moment": date_for_page(moment)}
