#!/usr/bin/env python3
"""Compares the good texts of an input of `texts` with what python-dateutil's tzical makes of them.

    python3 tools/check_dateutil.py crates/texts/stdin crates/texts/stdout

Takes the rows from the output of `texts`, and the same text as dateutil reads it: wrapped in a
VCALENDAR, and without the TZUNTIL line, which dateutil does not know. Compares the UTC offset at and
around each onset, and at the window's end. A local time that comes twice is asked for with fold 1
where it is the second one. Texts whose DTSTART lines do not rise are told apart: there dateutil takes
the row with the latest DTSTART, while our rows are in order by their onsets; no real zone has such rows.
Ends with status 1 if an instant differs in any other text.
"""
import io
import platform
import sys
from datetime import datetime, timedelta

import dateutil
from dateutil.tz import tzical

EPOCH = datetime(1970, 1, 1)


def texts_of(data):
    """The texts of the input."""
    while data:
        head, data = data.split(b"\n", 1)
        count = int(head.split()[1])
        yield data[:count]
        data = data[count:]


def rows_of(lines):
    """For each text the window's end and its rows, or None where it was refused."""
    for line in lines:
        words = line.split()
        if words[0] == "read":
            end, rows = int(words[3]), []
        elif words[0] == "row":
            rows.append(tuple(map(int, words[1:])))
        else:
            yield (end, rows) if words[0] == "written" else None


def wrapped(text):
    """The text as dateutil takes it."""
    lines = text.decode("ascii").split("\r\n")[:-1]
    kept = [line for line in lines if not line.startswith("TZUNTIL:")]
    return "\r\n".join(["BEGIN:VCALENDAR", *kept, "END:VCALENDAR", ""])


def instants(rows, place, end):
    """Instants of a row: its ends, and those about its change of offset."""
    onset, before, after, _ = rows[place]
    last = (rows[place + 1][0] if place + 1 < len(rows) else end) - 1
    shift = abs(after - before)
    near = (onset, onset + 1, onset + shift - 1, onset + shift, onset + shift + 1, (onset + last) // 2, last)
    return sorted({t for t in near if onset <= t <= last})


class Tally:
    """How many texts and instants were compared, and those that differ."""

    def __init__(self):
        self.texts = self.instants = 0
        self.other = []

    def line(self):
        """The tally in words."""
        return f"{self.texts} texts, {self.instants} instants, {len(self.other)} differ"


def compare(text, end, rows, tally):
    """Compares one text with what dateutil makes of it."""
    zone = tzical(io.StringIO(wrapped(text))).get()
    tally.texts += 1
    for place, (onset, before, after, _) in enumerate(rows):
        for instant in instants(rows, place, end):
            local = EPOCH + timedelta(seconds=instant + after)
            fold = 1 if instant + after < onset + before else 0
            offset = local.replace(tzinfo=zone, fold=fold).utcoffset()
            tally.instants += 1
            if offset != timedelta(seconds=after):
                tally.other.append((text.split(b"\r\n")[1].decode(), instant, after, offset))


def main(stdin, stdout):
    """Compares, and prints how many instants agree."""
    with open(stdin, "rb") as data, open(stdout, encoding="ascii") as lines:
        pairs = list(zip(texts_of(data.read()), rows_of(lines), strict=True))
    rising, folded = Tally(), Tally()
    for text, found in pairs:
        if found is None:
            continue
        end, rows = found
        starts = [onset + before for onset, before, _, _ in rows]
        tally = rising if starts == sorted(set(starts)) else folded
        compare(text, end, rows, tally)
    print(f"Python {platform.python_version()}, dateutil {dateutil.__version__}")
    print(f"DTSTART lines rise: {rising.line()}")
    print(f"they do not: {folded.line()}")
    for name, instant, offset, other in rising.other + folded.other:
        print(f"{name} at {instant}: {offset}, dateutil {other}")
    return 1 if rising.other else 0


if __name__ == "__main__":
    sys.exit(main(*sys.argv[1:]))
