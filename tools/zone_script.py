#!/usr/bin/env python3
"""Prints the lines of a script that publish the tables of time zones, from Python's zoneinfo.

    python3 tools/zone_script.py Europe/Amsterdam Asia/Tokyo ..

For each zone: its rows over the years 1900 to 2099, and a line that publishes them. The first lines
are comments with the version of the time zone data. A table that does not fit into 512 rows is
refused here. Other zones are made by naming them; the rest of a script, its setup and its calls, is
written by hand around these lines (demo/day.txt is such a script).

    python3 tools/zone_script.py --standard Europe/Amsterdam

prints instead the table of a zone that gives up daylight saving time at the end of 2029.

The changes are found by bisection, so they are those of the data that Python finds: they may differ
from one release of that data to another.
"""
import sys
import zoneinfo
from datetime import datetime, timedelta, timezone
from pathlib import Path
from zoneinfo import ZoneInfo

EPOCH = datetime(1970, 1, 1, tzinfo=timezone.utc)
START, END = -2208988800, 4102444800
STEP = 86400  # changes of one zone are further apart than a day
MOST_ROWS = 512
LAST_CHANGE = 1893456000  # 2030-01-01T00:00:00Z


def version():
    """The version of the time zone data, where it is told."""
    for folder in zoneinfo.TZPATH:
        for name in ("tzdata.zi", "+VERSION"):
            path = Path(folder) / name
            if path.is_file():
                return path.read_text(encoding="ascii").split("\n", 1)[0].removeprefix("# version ")
    try:
        import tzdata

        return tzdata.IANA_VERSION
    except ImportError:
        return "not told"


def state(zone, instant):
    """The offset in seconds and whether daylight saving time is in force, at an instant."""
    local = (EPOCH + timedelta(seconds=instant)).astimezone(zone)
    offset = local.utcoffset()
    return offset.days * 86400 + offset.seconds, 1 if local.dst() else 0


def changes(zone):
    """The instants of the era, after its start, at which the state changes."""
    low = START
    while low < END - 1:
        high = min(low + STEP, END - 1)
        if state(zone, low) != state(zone, high):
            a, b = low, high
            while a + 1 < b:
                middle = (a + b) // 2
                if state(zone, middle) == state(zone, low):
                    a = middle
                else:
                    b = middle
            yield b
        low = high


def rows(zone, last=END):
    """The rows over the era, with no change after the last one: onset, offset before, offset from then on, observance."""
    before, day = state(zone, START)
    table = [(START, before, before, day)]
    for onset in changes(zone):
        if onset < last:
            offset, day = state(zone, onset)
            table.append((onset, before, offset, day))
            before = offset
    return table


def main(words):
    """Prints the lines for the zones."""
    last = LAST_CHANGE if "--standard" in words else END
    print(f"# time zone data: {version()}")
    for name in words:
        if name == "--standard":
            continue
        table = rows(ZoneInfo(name), last)
        if len(table) > MOST_ROWS:
            sys.exit(f"{name}: {len(table)} rows")
        print(f"# {name}: {len(table)} rows")
        for row in table:
            print("row", *row)
        print(f"publish {name} {START} {END}")


if __name__ == "__main__":
    main(sys.argv[1:])
