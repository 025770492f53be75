"""Until when a yes holds: chains whose windows end, and the last second that the library must say. The answers are worked out by hand from
docs/FORMATS.md, the seconds by `date -u -d 'YYYY-MM-DD HH:MM:SS' +%s`."""
from rows.chains import cert, entry, key, signed

NO_END = 253402300799  # (the last second of the year 9999, to which a yes holds where no window ends: no later moment can be asked)
GROUP = f"(name {key('a')} friends)"
# Of each row: its name; the limits of the entry, of a certificate by a and of a definition of a's name, each a date or none; the moment; the end.
ROWS = [
    ("nothing ends", "", "", "", "2024-01-01_00:00:00", NO_END),
    ("the entry", "2024-06-30_12:00:00", "", "", "2024-01-01_00:00:00", 1719748800),
    ("a certificate", "", "2024-06-30_12:00:00", "", "2024-01-01_00:00:00", 1719748800),
    ("a definition of a name", "", "", "2024-06-30_12:00:00", "2024-01-01_00:00:00", 1719748800),
    ("the entry first", "2024-03-01_00:00:00", "2024-06-30_12:00:00", "2024-05-05_05:05:05", "2024-01-01_00:00:00", 1709251200),
    ("a certificate first", "2024-06-30_12:00:00", "2024-03-01_00:00:00", "2024-05-05_05:05:05", "2024-01-01_00:00:00", 1709251200),
    ("a definition first", "2024-06-30_12:00:00", "2024-05-05_05:05:05", "2024-03-01_00:00:00", "2024-01-01_00:00:00", 1709251200),
    ("all alike", *["2024-03-01_00:00:00"] * 3, "2024-01-01_00:00:00", 1709251200),
    ("now", "", "2024-01-01_00:00:00", "", "2024-01-01_00:00:00", 1704067200),
    ("a day that the month lacks", "2023-02-30_00:00:00", "", "", "2023-01-01_00:00:00", 1677628799),
    ("a day that the month of a leap year lacks", "", "2024-02-31_07:00:00", "", "2024-01-01_00:00:00", 1709251199),
    ("a leap second", "2016-12-31_23:59:60", "", "", "2016-01-01_00:00:00", 1483228799),
    ("the last date", "", "9999-12-31_23:59:60", "", "2024-01-01_00:00:00", 253402300799),
    ("before 1970", "", "1969-12-31_23:59:59", "", "1960-01-01_00:00:00", -1),
    ("a leap day before 1970", "", "1960-02-29_00:00:01", "", "1960-01-01_00:00:00", -310521599),
    ("the year 1", "0001-01-01_00:00:00", "", "", "0000-12-31_00:00:00", -62135596800)]


def window_until(limit):
    """The field of a window that ends at a date, or nothing if the date is empty."""
    return f'(valid (not-after "{limit}"))' if limit else ""


def parts_of(of_entry, of_certificate, of_definition):
    """The list, the sequence and the key that asks, c, as texts: an entry for a, a certificate by a for the name `friends` of a, and a definition by
    which c is a member of that name. The arguments are the last moments of the entry, the certificate and the definition, each empty for none."""
    right = cert(key("a"), GROUP, f"(tag (*)) {window_until(of_certificate)}")
    friend = f"(cert (issuer {GROUP}) (subject {key('c')}) {window_until(of_definition)})"
    acl = f"(acl {entry('a', f'(propagate) (tag (*)) {window_until(of_entry)}')})"
    return [acl, f"(sequence {signed(right, key('a'))} {signed(friend, key('a'))})", key("c")]
