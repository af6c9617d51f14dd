#!/usr/bin/env python3
"""Zone texts, good and damaged, and what the program `texts` must print for them.

A zone text is a condensed VTIMEZONE: a zone name and a window of rows, as
docs/FORMATS.md tells, from which alone this program was written. This program makes many such texts: windows
of real zones, cut from the system's time zone data, made-up windows at the edges
of what the format allows, and texts with one thing wrong, each of which must be
refused at a known byte. It has a writer and a reader of its own; what is known of
a text by its making (its window, or the byte at which it fails) is asserted
against that reader before anything is printed.

    python3 tools/zone_texts.py stdin   > stdin     the input of `texts`
    python3 tools/zone_texts.py stdout  > stdout    the output that `texts` must print
    python3 tools/zone_texts.py list                a line for each text: its number, the
                                              place of its head line in the input,
                                              its outcome and what it is

The same time zone data gives the same bytes each time: all chance has fixed seeds.
"""

import random
import re
import sys
from datetime import datetime, timedelta, timezone
from itertools import islice, permutations
from typing import NamedTuple, Optional
from zoneinfo import ZoneInfo

ERA_START = -2208988800
ERA_END = 4102444800
MOST_ROWS = 64
MOST_OFFSET = 86399
DAY = 86400
SEARCH_STEP = 2 * DAY
EPOCH = datetime(1970, 1, 1)

CRLF = b"\r\n"
HEAD_LINES = 3
ROW_LINES = 5
TZID_LINE = 1
TZUNTIL_LINE = 2


class Row(NamedTuple):
    """A row of a window: at `onset` the offset goes from `before` to `after`."""

    onset: int
    before: int
    after: int
    day: int


class Window(NamedTuple):
    """A zone's name, with the end and the rows of its window."""

    name: str
    end: int
    rows: tuple


class Case(NamedTuple):
    """A text and what is known of it by its making.

    `window` is what a good text must give, `place` the byte at which a damaged
    one must fail; `floor` is a byte before which it cannot fail.
    """

    label: str
    text: bytes
    window: Optional[Window] = None
    place: Optional[int] = None
    floor: int = 0


class Refused(Exception):
    """A text that cannot be read, and the byte at which it fails."""

    def __init__(self, place):
        super().__init__(place)
        self.place = place


# Writing


def time_words(instant):
    """The digits of a date and time, as in 20240331T020000."""
    moment = EPOCH + timedelta(seconds=instant)
    return "%04d%02d%02dT%02d%02d%02d" % moment.timetuple()[:6]


def offset_words(offset):
    """An offset as a sign, hhmm, and ss where the seconds are not 00."""
    minutes, seconds = divmod(abs(offset), 60)
    words = "%s%02d%02d" % ("-" if offset < 0 else "+", minutes // 60, minutes % 60)
    return words + "%02d" % seconds if seconds else words


def observance(day):
    """The component's name for a row."""
    return "DAYLIGHT" if day else "STANDARD"


def row_lines(row):
    """The five lines of a row."""
    return [
        "BEGIN:" + observance(row.day),
        "DTSTART:" + time_words(row.onset + row.before),
        "TZOFFSETFROM:" + offset_words(row.before),
        "TZOFFSETTO:" + offset_words(row.after),
        "END:" + observance(row.day),
    ]


def window_lines(window):
    """All lines of a window's text, as bytes without CR LF.

    The rows are written as they are: a window that breaks the rules gives the
    text that would be its own.
    """
    lines = [
        "BEGIN:VTIMEZONE",
        "TZID:" + window.name,
        "TZUNTIL:" + time_words(window.end) + "Z",
    ]
    for row in window.rows:
        lines += row_lines(row)
    lines.append("END:VTIMEZONE")
    return [line.encode("ascii") for line in lines]


def joined(lines):
    """The text of these lines."""
    return b"".join(line + CRLF for line in lines)


def written(window):
    """The text of a window."""
    return joined(window_lines(window))


# Reading


class Lines:
    """The lines of a text, taken one after the other."""

    def __init__(self, text):
        self.text = text
        self.place = 0
        self.next = 0

    def take(self):
        """The next line; a text that has no whole line left fails at its length."""
        stop = self.text.find(CRLF, self.next)
        if stop < 0:
            raise Refused(len(self.text))
        self.place = self.next
        self.next = stop + len(CRLF)
        return self.text[self.place : stop]

    def need(self, condition):
        """Refuses the line just taken unless the condition holds."""
        if not condition:
            raise Refused(self.place)

    def take_value(self, prefix, parse):
        """The value of the next line, which starts with the prefix."""
        line = self.take()
        self.need(line.startswith(prefix))
        value = parse(line[len(prefix) :])
        self.need(value is not None)
        return value


def parsed_name(value):
    """A zone name, or None."""
    if re.fullmatch(rb"[A-Za-z0-9/_+-]{1,48}", value):
        return value.decode("ascii")
    return None


def parsed_time(value):
    """The instant of a date and time without Z, read as UTC, or None."""
    match = re.fullmatch(
        rb"([0-9]{4})([0-9]{2})([0-9]{2})T([0-9]{2})([0-9]{2})([0-9]{2})", value
    )
    if not match:
        return None
    fields = [int(group) for group in match.groups()]
    if not 1899 <= fields[0] <= 2100:
        return None
    try:
        moment = datetime(*fields)
    except ValueError:
        return None
    return (moment - EPOCH) // timedelta(seconds=1)


def parsed_end(value):
    """A time, with its Z, at which some window can end, or None."""
    if not value.endswith(b"Z"):
        return None
    end = parsed_time(value[:-1])
    if end is None or not ERA_START < end <= ERA_END:
        return None
    return end


def parsed_offset(value):
    """An offset, or None."""
    match = re.fullmatch(rb"([+-])([0-9]{2})([0-9]{2})([0-9]{2})?", value)
    if not match:
        return None
    hours, minutes = int(match[2]), int(match[3])
    seconds = int(match[4] or b"0")
    if hours > 23 or minutes > 59 or seconds > 59:
        return None
    if match[4] == b"00":
        return None
    offset = hours * 3600 + minutes * 60 + seconds
    if match[1] == b"+":
        return offset
    return -offset if offset else None


def read_row(lines, day, rows, end):
    """The rest of a row, after its opening line."""
    start = lines.take_value(b"DTSTART:", parsed_time)
    before = lines.take_value(b"TZOFFSETFROM:", parsed_offset)
    after = lines.take_value(b"TZOFFSETTO:", parsed_offset)
    row = Row(start - before, before, after, day)
    lines.need(lines.take() == b"END:" + observance(day).encode("ascii"))
    lines.need(ERA_START <= row.onset < end)
    if rows:
        lines.need(row.onset > rows[-1].onset)
        lines.need(row.before == rows[-1].after)
    return row


def read(text):
    """The window of a text; raises Refused where there is none."""
    openings = {b"BEGIN:STANDARD": 0, b"BEGIN:DAYLIGHT": 1}
    lines = Lines(text)
    lines.need(lines.take() == b"BEGIN:VTIMEZONE")
    name = lines.take_value(b"TZID:", parsed_name)
    end = lines.take_value(b"TZUNTIL:", parsed_end)
    rows = []
    while True:
        line = lines.take()
        if line == b"END:VTIMEZONE" and rows:
            break
        lines.need(line in openings and len(rows) < MOST_ROWS)
        rows.append(read_row(lines, openings[line], rows, end))
    if lines.next != len(text):
        raise Refused(lines.next)
    return Window(name, end, tuple(rows))


# Windows of real zones


def state_at(zone, instant):
    """A zone's offset in seconds, and whether it is daylight, at an instant."""
    moment = EPOCH.replace(tzinfo=timezone.utc) + timedelta(seconds=instant)
    local = moment.astimezone(zone)
    return local.utcoffset() // timedelta(seconds=1), int(bool(local.dst()))


def changes(zone, start, end):
    """The rows of a zone's changes in [start, end), found by search."""
    low = start - 1
    state = state_at(zone, low)
    while low < end - 1:
        high = min(low + SEARCH_STEP, end - 1)
        if state_at(zone, high) == state:
            low = high
            continue
        while high - low > 1:
            middle = (low + high) // 2
            if state_at(zone, middle) == state:
                low = middle
            else:
                high = middle
        low, old, state = high, state, state_at(zone, high)
        yield Row(high, old[0], state[0], state[1])


def midnight(day):
    """The instant at which a day, written as in 20240331, starts in UTC."""
    moment = datetime(day // 10000, day // 100 % 100, day % 100)
    return (moment - EPOCH) // timedelta(seconds=1)


def real_window(name, start, end):
    """A zone's window over [start, end).

    Where no change falls on its start, the first row is made: its `before` is
    its `after`.
    """
    zone = ZoneInfo(name)
    rows = list(changes(zone, start, end))
    if not rows or rows[0].onset != start:
        offset, day = state_at(zone, start)
        rows.insert(0, Row(start, offset, offset, day))
    assert len(rows) <= MOST_ROWS, name
    return Window(name, end, tuple(rows))


def first_change(name, start):
    """The instant of a zone's first change from `start` on."""
    return next(changes(ZoneInfo(name), start, ERA_END)).onset


def from_change(name, start, end):
    """A window that starts exactly at the first change from `start` on."""
    return real_window(name, first_change(name, start), end)


def to_onset(name, start, end):
    """A window that ends one second after its last onset."""
    window = real_window(name, start, end)
    return window._replace(end=window.rows[-1].onset + 1)


def full_window(name, start):
    """A window of exactly 64 rows, up to where the 65th would start or the era ends."""
    rows = list(islice(changes(ZoneInfo(name), start, ERA_END), MOST_ROWS + 1))
    assert len(rows) >= MOST_ROWS, name
    end = rows[MOST_ROWS].onset if len(rows) > MOST_ROWS else ERA_END
    return Window(name, end, tuple(rows[:MOST_ROWS]))


# Zone, first day and last day of windows that start between changes.
BETWEEN = [
    ("Africa/Johannesburg", 19400101, 19460101),
    ("Africa/Monrovia", 19150101, 19750101),
    ("Africa/Lagos", 19000101, 19200101),
    ("Africa/Nairobi", 19260101, 19620101),
    ("Africa/Juba", 20150101, 20220101),
    ("Africa/Sao_Tome", 20170101, 20200101),
    ("America/St_Johns", 19870101, 19910101),
    ("America/Caracas", 20050101, 20180101),
    ("America/Argentina/Buenos_Aires", 20060101, 20100101),
    ("America/Juneau", 19790101, 19850101),
    ("America/Nuuk", 20210101, 20260101),
    ("America/Port-au-Prince", 20150101, 20190101),
    ("America/Montevideo", 19000601, 19250101),
    ("America/La_Paz", 19280101, 19350101),
    ("America/Paramaribo", 19050101, 19860101),
    ("America/North_Dakota/New_Salem", 20020101, 20050101),
    ("Antarctica/Troll", 20040101, 20080101),
    ("Antarctica/Vostok", 20230101, 20240101),
    ("Asia/Kathmandu", 19850101, 19870101),
    ("Asia/Kolkata", 19000101, 19460101),
    ("Asia/Pyongyang", 20140101, 20200101),
    ("Asia/Riyadh", 19400101, 19500101),
    ("Asia/Yangon", 19100101, 19500101),
    ("Asia/Manila", 19440101, 19790101),
    ("Asia/Tehran", 20180101, 20230101),
    ("Atlantic/Azores", 19110101, 19180101),
    ("Australia/Lord_Howe", 19800101, 19870101),
    ("Australia/Eucla", 20060101, 20100101),
    ("Europe/Amsterdam", 19150101, 19200101),
    ("Europe/Amsterdam", 19360101, 19420101),
    ("Europe/Dublin", 19160101, 19180101),
    ("Europe/London", 19400101, 19480101),
    ("Europe/Moscow", 19160101, 19310101),
    ("Indian/Maldives", 19500101, 19700101),
    ("Indian/Mauritius", 20080101, 20100101),
    ("Pacific/Apia", 20110101, 20130101),
    ("Pacific/Chatham", 20100101, 20130101),
    ("Pacific/Kiritimati", 19930101, 19960101),
    ("Pacific/Kwajalein", 19650101, 19950101),
    ("Pacific/Marquesas", 19110101, 19130101),
    ("Etc/UTC", 20000101, 20500101),
    ("Etc/GMT+12", 19500101, 19500102),
    ("Etc/GMT-14", 20300101, 20400101),
]

# The same of windows that start at the zone's first change from the day on.
FROM_CHANGE = [
    ("Africa/Bissau", 19110101, 19760101),
    ("Africa/Casablanca", 20230101, 20250101),
    ("America/St_Johns", 20060101, 20120101),
    ("America/Guyana", 19110101, 19930101),
    ("Asia/Colombo", 19400101, 20070101),
    ("Asia/Singapore", 19300101, 19830101),
    ("Atlantic/Reykjavik", 19390101, 19430101),
    ("Australia/Lord_Howe", 20000101, 20020601),
    ("Europe/Dublin", 20180101, 20200101),
    ("Europe/Paris", 19100101, 19170101),
    ("Pacific/Chatham", 20230101, 20250601),
    ("Pacific/Niue", 19500101, 19800101),
]

# The same of windows that end one second after the last onset before the day.
TO_ONSET = [
    ("Africa/Algiers", 19100101, 19200101),
    ("America/Bogota", 19100101, 19950101),
    ("America/Sao_Paulo", 20160101, 20200101),
    ("Antarctica/Palmer", 20140101, 20170101),
    ("Asia/Kathmandu", 19100101, 19900101),
    ("Asia/Gaza", 20200101, 20230101),
    ("Indian/Chagos", 19050101, 20000101),
    ("Pacific/Honolulu", 19320101, 19480101),
]

# Zones and the last day of windows from the era's start on.
FROM_ERA = [
    ("Africa/Monrovia", 19200101),
    ("America/Anchorage", 19190101),
    ("Asia/Kolkata", 19430101),
    ("Europe/Amsterdam", 19180101),
    ("Pacific/Apia", 19600101),
]

# Zones and the first day of windows to the era's end.
TO_ERA = [
    ("Africa/Johannesburg", 20260101),
    ("America/Santiago", 20960101),
    ("Antarctica/Troll", 20970101),
    ("Asia/Kathmandu", 20500101),
    ("Europe/Amsterdam", 20940615),
    ("Pacific/Chatham", 20980101),
]

# Zones and the first day of windows of 64 rows.
FULL = [
    ("America/New_York", 19900101),
    ("Australia/Lord_Howe", 20000101),
    ("Europe/Dublin", 20680101),
]


def real_windows():
    """All windows of real zones, each with what it is."""
    for name, start, end in BETWEEN:
        yield "between changes", real_window(name, midnight(start), midnight(end))
    for name, start, end in FROM_CHANGE:
        yield "from a change", from_change(name, midnight(start), midnight(end))
    for name, start, end in TO_ONSET:
        yield "to an onset", to_onset(name, midnight(start), midnight(end))
    for name, end in FROM_ERA:
        yield "from the era's start", real_window(name, ERA_START, midnight(end))
    for name, start in TO_ERA:
        yield "to the era's end", real_window(name, midnight(start), ERA_END)
    for name, start in FULL:
        yield "64 rows", full_window(name, midnight(start))


# Made-up windows


LONGEST_NAME = "ABCDEFGHIJKLMNOPQRSTUVWXYZ/abcdefghij_0123456789"


def single(name, onset, before, after, end, day=0):
    """A window of one row."""
    return Window(name, end, (Row(onset, before, after, day),))


def chain(name, onsets, offsets, end):
    """A window of these onsets; offsets are the one before them and one for each."""
    rows = []
    for number, onset in enumerate(onsets):
        rows.append(Row(onset, offsets[number], offsets[number + 1], number % 2))
    return Window(name, end, tuple(rows))


def edge_windows():
    """Windows with extreme offsets and times, which look wrong and are not."""
    most = MOST_OFFSET
    yield single("Edge/First-second", ERA_START, 0, 0, ERA_START + 1)
    yield single("Edge/DTSTART-in-1899", ERA_START, -most, most, ERA_START + 1)
    yield single("Edge/DTSTART-in-1900", ERA_START, most, -most, ERA_START + 1, 1)
    yield single("Edge/Last-second", ERA_END - 1, 0, 0, ERA_END)
    yield single("Edge/DTSTART-in-2100", ERA_END - 1, most, most, ERA_END)
    yield single("Edge/DTSTART-in-2099", ERA_END - 1, -most, -most, ERA_END, 1)
    yield single("Edge/One-second-of-2100", ERA_END - 1, 1, 0, ERA_END)
    yield single("Edge/One-second-of-1899", ERA_START, -1, 0, ERA_END)
    yield single("Edge/Era", ERA_START, 0, 0, ERA_END)
    yield chain("Edge/Both", [ERA_START, ERA_END - 1], [-most, most, -most], ERA_END)
    ends = range(ERA_END - MOST_ROWS, ERA_END)
    yield chain("Edge/Seconds", ends, [most, -most] * 33, ERA_END)
    yield chain("Edge/Falling-DTSTART", [0, 1, 2], [most, 0, -most, 1], 3)
    yield chain("Edge/No-change", [5, 6, 7, 8], [60, 60, 60, 60, 60], 9)


def small_offset_windows():
    """Windows whose offsets are next to those that another form is for."""
    for offset in (1, -1, 59, -60, 3599, -3600, 86340, -82800):
        yield chain("Small/Offset", [0, DAY], [0, offset, 0], 2 * DAY)


def leap_day_windows():
    """Windows with changes on leap days, or that leap days part."""
    for day in (19040229, 20000229, 20960229):
        yield single("Leap/Day", midnight(day), 0, 0, midnight(day) + DAY)
    march = midnight(20000301)
    yield chain("Leap/Local-only", [march, march + 1], [-1, 1, -7200], march + 2)
    march = midnight(19000301)
    yield chain("Leap/None-in-1900", [march, march + 1], [-1, 1, 0], march + 2)


def name_windows():
    """Windows under the shortest, the longest and the oddest names."""
    for name in ("Z", "/", "+", "0", LONGEST_NAME, "-" * 48, "TZUNTIL"):
        yield single(name, 0, 3600, 3600, DAY)


def chance_windows():
    """Windows of random names, onsets and offsets."""
    rng = random.Random(1899)
    for count in (1, 3, 7, 20, MOST_ROWS):
        letters = [rng.choice(LONGEST_NAME + "+-") for _ in range(rng.randint(1, 48))]
        instants = sorted(rng.sample(range(ERA_START, ERA_END + 1), count + 1))
        offsets = [rng.randint(-MOST_OFFSET, MOST_OFFSET) for _ in range(count + 1)]
        yield chain("".join(letters), instants[:-1], offsets, instants[-1])


def made_windows():
    """All made-up windows, each with what it is."""
    for windows in (
        edge_windows,
        small_offset_windows,
        leap_day_windows,
        name_windows,
        chance_windows,
    ):
        for window in windows():
            yield windows.__name__.replace("_", " "), window


def good_cases():
    """All texts that are made to be read."""
    for kind, window in list(real_windows()) + list(made_windows()):
        label = "good: %s, %s" % (kind, window.name)
        yield Case(label, written(window), window=window)


# Damage to one text


def start_of(lines, index):
    """The byte at which a line starts."""
    return len(joined(lines[:index]))


def row_line(number, line):
    """The index of a line of a row, both counted from 0."""
    return HEAD_LINES + ROW_LINES * number + line


def row_count(lines):
    """The number of rows in the lines of a text."""
    return (len(lines) - HEAD_LINES - 1) // ROW_LINES


def with_line(label, lines, index, line):
    """The text with one line replaced by another, at which it fails."""
    changed = lines[:index] + [line] + lines[index + 1 :]
    return Case("%s, line %d" % (label, index), joined(changed), place=start_of(lines, index))


def with_extra(label, lines, index, extra):
    """The text with a line put before another; it fails at the line put in."""
    changed = lines[:index] + [extra] + lines[index:]
    return Case("%s, line %d" % (label, index), joined(changed), place=start_of(lines, index))


def truncations(lines, lengths):
    """The text cut to these lengths; a text that ends early fails at its length."""
    text = joined(lines)
    for length in lengths:
        yield Case("cut to %d" % length, text[:length], place=length)


def cut_places(lines):
    """Lengths of every sort: around each line's start, within it and around its CR."""
    lengths = set()
    for index, line in enumerate(lines):
        start = start_of(lines, index)
        stop = start + len(line)
        lengths |= {start, start + 1, start + len(line) // 2, stop - 1, stop, stop + 1}
    return sorted(lengths)


def tails(lines, others):
    """Bytes after the text, which fail at their own offset."""
    text = joined(lines)
    extras = [b"X", b"\r", b"\n", b" ", b"\0", CRLF, b"\n\r", b" \r\n", b"END:VTIMEZONE"]
    extras += [b"END:VTIMEZONE\r\n", b"BEGIN:VTIMEZONE\r\n", b"BEGIN:STANDARD\r\n"]
    extras += [text] + others
    for extra in extras:
        label = "%d bytes after the end" % len(extra)
        yield Case(label, text + extra, place=len(text))


def line_forms(line):
    """Forms of a line that cannot stand where it stands, each with what it is."""
    name, value = line.split(b":")
    half = len(name) // 2
    yield "in lower case", line.lower()
    yield "its name in lower case", name.lower() + b":" + value
    yield "a leading space", b" " + line
    yield "a trailing space", line + b" "
    yield "a space after the colon", name + b": " + value
    yield "a leading tab", b"\t" + line
    yield "a trailing NUL", line + b"\0"
    yield "a CR inside", name + b"\r:" + value
    yield "a CR inside its value", line[:-1] + b"\r" + line[-1:]
    yield "an LF inside", name[:half] + b"\n" + name[half:] + b":" + value
    yield "a CR before the CR LF", line + b"\r"
    yield "an LF before the CR LF", line + b"\n"
    yield "an LF in front", b"\n" + line
    yield "no colon", name + value
    yield "two colons", name + b"::" + value
    yield "a colon at its end", line + b":"
    yield "a semicolon", name + b";" + value
    yield "emptied", b""
    yield "its name alone", name
    yield "no value", name + b":"
    yield "its value alone", value
    yield "no first byte", line[1:]
    yield "an unknown property", b"X-" + line
    yield "a parameter", name + b";X=Y:" + value
    if name != b"TZID":
        yield "no last byte", line[:-1]
        yield "its last byte twice", line + line[-1:]


def line_damage(lines, indexes):
    """Lines in forms that cannot stand."""
    for index in indexes:
        for label, form in line_forms(lines[index]):
            yield with_line(label, lines, index, form)


def line_moves(lines):
    """Lines missing, doubled, swapped with the next one, and empty ones between."""
    for index, line in enumerate(lines):
        start = start_of(lines, index)
        without = lines[:index] + lines[index + 1 :]
        yield Case("missing, line %d" % index, joined(without), place=start)
        yield with_extra("doubled", lines, index + 1, line)
        yield with_extra("an empty line before", lines, index, b"")
        if index + 1 < len(lines):
            pair = [lines[index + 1], line]
            swapped = lines[:index] + pair + lines[index + 2 :]
            yield Case("swapped, line %d" % index, joined(swapped), place=start)


def line_ends(lines):
    """Lines that do not end in CR LF: they go on to the next CR LF, if there is one."""
    for index, line in enumerate(lines):
        for label, end in (("LF", b"\n"), ("CR", b"\r"), ("LF CR", b"\n\r"), ("no", b"")):
            text = joined(lines[:index]) + line + end + joined(lines[index + 1 :])
            last = index + 1 == len(lines)
            place = len(text) if last else start_of(lines, index)
            yield Case("%s end, line %d" % (label, index), text, place=place)
    for label, end in (("LF", b"\n"), ("CR", b"\r"), ("LF CR", b"\n\r")):
        text = joined(lines).replace(CRLF, end)
        yield Case("%s at every end" % label, text, place=len(text))


BAD_NAMES = [
    b"",
    b"A" * 49,
    b"a" * 300,
    LONGEST_NAME.encode("ascii") + b"-",
    LONGEST_NAME.encode("ascii")[1:] + b".",
    b"Europe/New York",
    b"Europe/Amsterdam ",
    b" Europe/Amsterdam",
    b"Europe.Amsterdam",
    b"Europe:Amsterdam",
    b"Europe,Amsterdam",
    b"Europe;Amsterdam",
    b"Europe\\Amsterdam",
    b"Etc/GMT*1",
    b"Etc/GMT@1",
    b"Etc/GMT[1",
    b"Etc/GMT]1",
    b"Etc/GMT^1",
    b"Etc/GMT`1",
    b"Etc/GMT{1",
    b"Etc/GMT~1",
    b"Etc/GMT=1",
    b"Etc\0",
    b"\0",
    b"Etc\x7f",
    b"\x80",
    b"\xff",
    b"Bogot\xe1",
    "Bogotá".encode("utf-8"),
    b"A\tB",
    b"A\rB",
    b"A\nB",
    b"\r",
    b"\n",
    b'"Etc/UTC"',
]

BAD_DATES = [
    b"18990229",
    b"19000229",
    b"21000229",
    b"20230229",
    b"20240230",
    b"20240431",
    b"20240631",
    b"20240931",
    b"20241131",
    b"20240132",
    b"20241301",
    b"20240001",
    b"20240100",
    b"20240000",
    b"20249901",
    b"18981231",
    b"21010101",
    b"00000101",
    b"99991231",
    b"12024010",
    b"2024011",
    b"202401010",
    b"240101",
    b"2024-01-01",
    b"2024 101",
    b"2024+101",
    b"2O240101",
    b"2024010/",
    b"2024010:",
    b"/0240101",
    b":0240101",
    b"2024\xb2101",
    b"",
]

BAD_TIMES = [
    b"240000",
    b"240001",
    b"990000",
    b"006000",
    b"009900",
    b"000060",
    b"000099",
    b"235960",
    b"246060",
    b"00000",
    b"0000",
    b"0000000",
    b"000000.0",
    b"000000,5",
    b"00:00:00",
    b"00 000",
    b"-10000",
    b"0000+1",
    b"00000/",
    b"00000:",
    b"0000OO",
    b"",
]


def bad_times():
    """Dates and times, without Z, that are none."""
    yield from (date + b"T000000" for date in BAD_DATES)
    yield from (b"20240101T" + time for time in BAD_TIMES)
    yield from (b"20240101t000000", b"20240101 000000", b"20240101000000", b"20240101")
    yield from (b"T", b"", b"T000000", b" 20240101T000000", b"20240101T000000 ")
    yield from (b"20240101TT000000", b"20240101T000000\r", b"+20240101T000000")


# Values that no TZUNTIL has, though most hold a time.
BAD_ENDS = [
    b"19000101T000000Z",
    b"18991231T235959Z",
    b"18990101T000000Z",
    b"18981231T235959Z",
    b"21000101T000001Z",
    b"21000101T235959Z",
    b"21000201T000000Z",
    b"21001231T235959Z",
    b"21010101T000000Z",
    b"20250101T000000",
    b"20250101T000000z",
    b"20250101T000000ZZ",
    b"Z20250101T000000",
    b"20250101T000000Z ",
    b"20250101T000000 Z",
    b"20250101T000000+0000",
    b"20250101T000000+0000Z",
    b"20250101T000000Y",
    b"20250101T000000[",
    b"21000101T000000",
    b"Z",
    b"z",
]

# Values that no DTSTART has, though they hold a time.
BAD_STARTS = [
    b"20240101T000000Z",
    b"20240101T000000z",
    b"20240101T000000+0100",
    b"Europe/Amsterdam:20240101T000000",
]

BAD_OFFSETS = [
    b"-0000",
    b"+000000",
    b"-000000",
    b"+010000",
    b"-010000",
    b"+235900",
    b"-003000",
    b"+2400",
    b"-2400",
    b"+240000",
    b"-240001",
    b"+2500",
    b"+9900",
    b"+0060",
    b"-0060",
    b"+0160",
    b"+2360",
    b"+0099",
    b"+006001",
    b"+000060",
    b"-000060",
    b"+235960",
    b"-000199",
    b"0100",
    b"010000",
    b"1",
    b" 0100",
    b"+",
    b"-",
    b"",
    b"+0",
    b"+01",
    b"-010",
    b"+01000",
    b"-00193",
    b"+0019320",
    b"+00193201",
    b"+01:00",
    b"+01 00",
    b"+0100 ",
    b"+0100Z",
    b"++100",
    b"+-100",
    b"-+100",
    b"*0100",
    b",0100",
    b".0100",
    b"+0I00",
    b"+010O",
    b"+010/",
    b"+010:",
    b"+/100",
    b"+:100",
    b"+0x10",
    b"+00193/",
    b"+00193:",
    b"+0019 1",
    b"+0019-1",
    b"\xe2\x88\x920100",
    b"+01\0\0",
    b"Z",
    b"UTC",
]


def bad_names(lines):
    """The text under names that are none."""
    for name in BAD_NAMES:
        yield with_line("name %r" % name[:60], lines, TZID_LINE, b"TZID:" + name)
    split = with_line("name with CR LF", lines, TZID_LINE, b"TZID:A\r\nB")
    yield split._replace(place=split.place + len(b"TZID:A\r\n"))


def bad_ends(lines):
    """The text with ends that are none."""
    for value in BAD_ENDS + [time + b"Z" for time in bad_times()]:
        yield with_line("end %r" % value, lines, TZUNTIL_LINE, b"TZUNTIL:" + value)


def bad_starts(lines, number):
    """The text with a row's DTSTART that is no time."""
    for value in BAD_STARTS + list(bad_times()):
        index = row_line(number, 1)
        yield with_line("start %r" % value, lines, index, b"DTSTART:" + value)


def bad_offsets(lines, number):
    """The text with offsets of a row that are none."""
    for line, prefix in ((2, b"TZOFFSETFROM:"), (3, b"TZOFFSETTO:")):
        for value in BAD_OFFSETS:
            index = row_line(number, line)
            yield with_line("offset %r" % value, lines, index, prefix + value)


# Damage to one window: what is judged at a row's closing line


def at_closing(label, window, number):
    """The text of a window that breaks the rules, which fails where a row closes."""
    lines = window_lines(window)
    place = start_of(lines, row_line(number, 4))
    return Case("%s, row %d" % (label, number), joined(lines), place=place)


def with_row(window, number, **fields):
    """The window with fields of a row replaced."""
    rows = list(window.rows)
    rows[number] = rows[number]._replace(**fields)
    return window._replace(rows=tuple(rows))


def bad_onsets(window):
    """Onsets outside the era or the window, or not after the onset before."""
    for number in range(len(window.rows)):
        onsets = [ERA_START - 1, window.end, window.end + 1]
        if number:
            last = window.rows[number - 1].onset
            onsets += [last, last - 1, last - 3600, ERA_START]
        for onset in onsets:
            changed = with_row(window, number, onset=onset)
            yield at_closing("onset %d" % onset, changed, number)


def bad_befores(window):
    """Rows whose `before` is not the `after` of the row before."""
    for number in range(1, len(window.rows)):
        before = window.rows[number].before
        others = {0, -before, before + 1, before - 1, before + 3600, MOST_OFFSET}
        for other in sorted(others - {before}):
            if abs(other) <= MOST_OFFSET:
                changed = with_row(window, number, before=other)
                yield at_closing("from %d" % other, changed, number)


def early_ends(window):
    """Windows that end at or before one of their onsets."""
    for number, row in enumerate(window.rows):
        last = window.rows[number - 1].onset if number else ERA_START
        for end in sorted({row.onset, last + 1}):
            if ERA_START < end <= row.onset:
                changed = window._replace(end=end)
                yield at_closing("end %d" % end, changed, number)


def row_moves(window):
    """Rows doubled, missing, and swapped at the window's start."""
    for number, row in enumerate(window.rows):
        rows = window.rows[: number + 1] + (row,) + window.rows[number + 1 :]
        yield at_closing("row doubled", window._replace(rows=rows), number + 1)
        if 0 < number < len(window.rows) - 1 and row.before != row.after:
            rows = window.rows[:number] + window.rows[number + 1 :]
            yield at_closing("row missing", window._replace(rows=rows), number)
    if len(window.rows) > 1:
        rows = (window.rows[1], window.rows[0]) + window.rows[2:]
        yield at_closing("rows swapped", window._replace(rows=rows), 1)
        rows = window.rows[::-1]
        yield at_closing("rows reversed", window._replace(rows=rows), 1)


def closing_only():
    """Windows whose every line can stand but for one closing line."""
    rising = chain("Bad/Rising-DTSTART", [0, -18000], [0, 36000, 0], DAY)
    yield at_closing("onset falls while DTSTART rises", rising, 1)
    era = chain("Bad/Era", [ERA_START, ERA_END - 1], [0, 0, 0], ERA_END)
    most = MOST_OFFSET
    first = with_row(era, 0, onset=ERA_START - 1, before=most)
    yield at_closing("before the era though DTSTART is in it", first, 0)
    last = with_row(era, 0, after=-most)
    last = with_row(last, 1, onset=ERA_END, before=-most)
    yield at_closing("after the era though DTSTART is in it", last, 1)
    years = [midnight(18990101), midnight(18991231), midnight(21000102)]
    for onset in years + [midnight(21010101) - 1]:
        far = single("Bad/Year", onset, 0, 0, ERA_END)
        yield at_closing("a year that dates can have", far, 0)


# Damage to the order of lines


def mismatches(lines):
    """Rows that open as one component and close as the other."""
    other = {b"STANDARD": b"DAYLIGHT", b"DAYLIGHT": b"STANDARD"}
    for number in range(row_count(lines)):
        opening, closing = row_line(number, 0), row_line(number, 4)
        kind = lines[opening][len(b"BEGIN:") :]
        yield with_line("closes as the other", lines, closing, b"END:" + other[kind])
        opened = with_line("opens as the other", lines, opening, b"BEGIN:" + other[kind])
        yield opened._replace(place=start_of(lines, closing))
        for name in (b"VTIMEZONE", b"WINTER", b"Standard", b"", kind + kind):
            yield with_line("opens as %r" % name, lines, opening, b"BEGIN:" + name)
            yield with_line("closes as %r" % name, lines, closing, b"END:" + name)


def property_orders(lines):
    """The properties of a row in every order but the right one, or one of them thrice."""
    for number in range(row_count(lines)):
        first = row_line(number, 1)
        right = lines[first : first + 3]
        orders = [list(order) for order in permutations(right)][1:]
        for order in orders + [[line] * 3 for line in right]:
            changed = lines[:first] + order + lines[first + 3 :]
            wrong = [index for index in range(3) if order[index] != right[index]][0]
            place = start_of(changed, first + wrong)
            yield Case("order of properties, row %d" % number, joined(changed), place=place)


FOREIGN_LINES = [
    b"TZNAME:CET",
    b"COMMENT:x",
    b"RRULE:FREQ=YEARLY;BYMONTH=3;BYDAY=-1SU",
    b"X-LIC-LOCATION:Europe/Amsterdam",
    b"LAST-MODIFIED:20240101T000000Z",
    b"TZUNTIL:20250101T000000Z",
    b"END:VTIMEZONE",
    b"BEGIN:VTIMEZONE",
    b"BEGIN:STANDARD",
    b"END:STANDARD",
    b"BEGIN:DAYLIGHT",
    b"END:DAYLIGHT",
    b"DTSTART:20240331T020000",
    b"TZOFFSETFROM:+0100",
    b"TZOFFSETTO:+0200",
    b" folded",
    b":",
    b"\r",
]


def foreign_lines(lines, indexes):
    """Lines put where they cannot stand."""
    for index in indexes:
        for line in FOREIGN_LINES:
            if not may_stand(lines, index, line):
                yield with_extra("foreign %r" % line, lines, index, line)


def may_stand(lines, index, line):
    """Whether a foreign line may stand before the line of this index."""
    here = lines[index]
    if index >= HEAD_LINES and (index - HEAD_LINES) % ROW_LINES == 0:
        openings = (b"BEGIN:STANDARD", b"BEGIN:DAYLIGHT")
        return line in openings or (line == b"END:VTIMEZONE" and index > HEAD_LINES)
    if here.startswith((b"BEGIN:", b"END:")):
        return line == here
    return line.split(b":")[0] == here.split(b":")[0]


def folds(lines):
    """Lines folded: the first part fails, or, where it can stand, the second."""
    for index, line in enumerate(lines):
        for at in (1, len(line) // 2, len(line) - 1, len(line)):
            parts = [line[:at], b" " + line[at:]]
            changed = lines[:index] + parts + lines[index + 1 :]
            whole = at == len(line) or (index == TZID_LINE and at > len(b"TZID:"))
            place = start_of(changed, index + whole)
            yield Case("folded, line %d" % index, joined(changed), place=place)


def no_rows(lines):
    """Texts without rows."""
    head, end = lines[:HEAD_LINES], lines[-1:]
    place = start_of(lines, HEAD_LINES)
    yield Case("no rows", joined(head + end), place=place)
    yield Case("no rows, twice the end", joined(head + end + end), place=place)
    yield Case("no rows, no line end", joined(head) + end[0], place=place + len(end[0]))


def wrappings(lines):
    """Texts with something before or around them."""
    text = joined(lines)
    for front in (b"\xef\xbb\xbf", b"\n", b"\r", b" ", b"\0", CRLF, b"BEGIN:VCALENDAR\r\n"):
        yield Case("after %r" % front, front + text, place=0)
    around = b"BEGIN:VCALENDAR\r\n" + text + b"END:VCALENDAR\r\n"
    yield Case("in a calendar", around, place=0)
    yield Case("in lower case", text.lower(), place=0)
    yield Case("all in wide letters", text.decode("ascii").encode("utf-16-le"), place=2 * len(text))


def two_faults(lines):
    """Texts with two faults, of which the first counts."""
    name = lines[:TZID_LINE] + [b"TZID:"] + lines[TZID_LINE + 1 :]
    text = joined(name)
    place = start_of(lines, TZID_LINE)
    yield Case("bad name, and cut", text[: len(text) - 20], place=place)
    yield Case("bad name, then cut", text[: place + 8], place=place)
    yield Case("bad name, cut in its CR LF", text[: place + 6], place=place + 6)
    yield Case("bad name, and bytes after", text + b"X", place=place)
    cut = joined(lines[:-1])
    for rest in (b"nonsense", b"END:VTIMEZONE\n", b"\r", b"\n", b"\0" * 9):
        yield Case("bad last line without its end", cut + rest, place=len(cut + rest))


def fragments():
    """Short texts of no base."""
    yield Case("empty", b"", place=0)
    for text in (b"\r", b"\n", b"\n\r", b"\0", b"B", b"nonsense", b"text 5\n", b"BEGIN:VTIMEZONE"):
        yield Case("%r" % text, text, place=len(text))
    for text in (CRLF, b"\r\r\n", b"\n\r\n", b"x\r\n", b"TZID:Etc/UTC\r\n", b"BEGIN:STANDARD\r\n"):
        yield Case("%r" % text, text, place=0)
    yield Case("the opening line twice", b"BEGIN:VTIMEZONE\r\n" * 2, place=17)
    yield Case("17000 bytes in no line", b"A" * 17000, place=17000)


def too_many_rows():
    """Texts of more than 64 rows, which fail at the opening line of the 65th."""
    count = MOST_ROWS + 2
    onsets = range(-count, 0)
    lines = window_lines(chain("Bad/Rows", onsets, [0] * (count + 1), 0))
    opening, closing, end = row_line(MOST_ROWS, 0), row_line(MOST_ROWS, 4), lines[-1]
    place = start_of(lines, opening)
    cut = joined(lines[:opening]) + lines[opening]
    yield Case("66 rows", joined(lines), place=place)
    yield Case("65 rows", joined(lines[: closing + 1] + [end]), place=place)
    yield Case("65th row opens", joined(lines[: opening + 1]), place=place)
    yield Case("65th row cut", cut, place=len(cut))
    yield with_line("65th row of another kind", lines, opening, b"BEGIN:WINTER")


def full_damage():
    """Damage to a text of 64 rows."""
    window = full_window("America/New_York", midnight(19900101))
    lines = window_lines(window)
    text = joined(lines)
    yield from truncations(lines, (len(text) - 1, 3000))
    yield Case("64 rows, 16385 bytes in all", text.ljust(16385, b"\n"), place=len(text))
    changed = with_row(window, MOST_ROWS - 1, onset=window.end)
    yield at_closing("the last onset at the end", changed, MOST_ROWS - 1)
    changed = with_row(window, 40, before=0)
    yield at_closing("a from that does not follow", changed, 40)


# Damage by chance


def line_start(text, place):
    """The start of the line that a byte of a text is in."""
    return text.rfind(CRLF, 0, place) + len(CRLF) if CRLF in text[:place] else 0


def mutate(rng, text):
    """The text with one byte replaced, put in, taken out or swapped; and its place."""
    at = rng.randrange(len(text) - 1)
    byte = bytes([rng.choice(b"0123456789AZaz\r\n :+-/_TZ\0\xff")])
    kind = rng.randrange(4)
    if kind == 0:
        return text[:at] + byte + text[at + 1 :], at
    if kind == 1:
        return text[:at] + byte + text[at:], at
    if kind == 2:
        return text[:at] + text[at + 1 :], at
    return text[:at] + text[at + 1 : at + 2] + text[at : at + 1] + text[at + 2 :], at


def mutations(texts, count):
    """Texts with one to three random bytes changed: most of them are damaged."""
    rng = random.Random(2100)
    for number in range(count):
        whole = texts[number % len(texts)]
        text, first = mutate(rng, whole)
        for _ in range(rng.choice((0, 0, 0, 1, 2))):
            text, at = mutate(rng, text)
            first = min(first, at)
        floor = line_start(whole, first)
        yield Case("chance: bytes changed", text, floor=floor)


def splices(texts, count):
    """The first lines of one text with the last lines of another."""
    rng = random.Random(1970)
    for _ in range(count):
        front = rng.choice(texts).split(CRLF)[:-1]
        back = rng.choice(texts).split(CRLF)[:-1]
        head = front[: rng.randint(1, len(front) - 1)]
        tail = back[rng.randint(1, len(back) - 1) :]
        yield Case("chance: two texts", joined(head + tail), floor=len(joined(head)))


# All texts


def base_windows():
    """The windows whose texts are damaged."""
    march = first_change("Europe/Amsterdam", midnight(20240101))
    gone = first_change("Pacific/Apia", midnight(20111001))
    return {
        "Amsterdam": real_window("Europe/Amsterdam", midnight(20240101), march + 1),
        "example": real_window("Europe/Amsterdam", midnight(20240101), midnight(20250101)),
        "old": from_change("Europe/Amsterdam", midnight(19160101), midnight(19170101)),
        "Johns": real_window("America/St_Johns", midnight(20190601), midnight(20200101)),
        "Apia": real_window("Pacific/Apia", midnight(20110801), gone + DAY),
        "Etc": real_window("Etc/GMT+12", midnight(19700101), midnight(19700102)),
        "Howe": real_window("Australia/Lord_Howe", midnight(20220101), midnight(20230101)),
        "edge": chain(
            LONGEST_NAME,
            [ERA_START, ERA_END - 1],
            [-MOST_OFFSET, MOST_OFFSET, -MOST_OFFSET],
            ERA_END,
        ),
    }


def order_damage(lines):
    """All damage to the order of a text's lines."""
    yield from line_moves(lines)
    yield from mismatches(lines)
    yield from property_orders(lines)
    yield from no_rows(lines)
    yield from wrappings(lines)
    yield from two_faults(lines)


def window_damage(window):
    """All damage to a window that shows at a closing line."""
    yield from bad_onsets(window)
    yield from bad_befores(window)
    yield from early_ends(window)
    yield from row_moves(window)


def damage_plan(bases):
    """The damaged texts of all bases, as pairs of the base's name and a text."""
    lines = {name: window_lines(window) for name, window in bases.items()}
    one_row = joined(lines["Etc"])
    plan = [
        ("Etc", line_damage(lines["Etc"], range(9))),
        ("Amsterdam", line_damage(lines["Amsterdam"], (8, 10, 13))),
        ("old", line_damage(lines["old"], (6, 11))),
        ("Amsterdam", line_ends(lines["Amsterdam"])),
        ("edge", islice(line_ends(lines["edge"]), 1, None, 3)),
        ("Etc", truncations(lines["Etc"], range(len(one_row)))),
        ("example", truncations(lines["example"], cut_places(lines["example"])[::3])),
        ("old", truncations(lines["old"], cut_places(lines["old"])[::5])),
        ("Amsterdam", bad_names(lines["Amsterdam"])),
        ("Etc", bad_ends(lines["Etc"])),
        ("edge", islice(bad_ends(lines["edge"]), 0, None, 4)),
        ("Etc", bad_starts(lines["Etc"], 0)),
        ("Amsterdam", islice(bad_starts(lines["Amsterdam"], 1), 0, None, 3)),
        ("Etc", bad_offsets(lines["Etc"], 0)),
        ("Johns", islice(bad_offsets(lines["Johns"], 1), 0, None, 3)),
        ("Etc", foreign_lines(lines["Etc"], range(9))),
        ("Howe", foreign_lines(lines["Howe"], (8, 18))),
        ("Etc", folds(lines["Etc"])),
        ("Apia", islice(folds(lines["Apia"]), 0, None, 3)),
    ]
    for name in ("Etc", "Amsterdam", "edge", "Johns"):
        plan.append((name, tails(lines[name], [one_row])))
    for name in ("Etc", "old"):
        plan.append((name, order_damage(lines[name])))
    for name in ("Etc", "old", "Johns", "Apia", "Howe", "edge"):
        plan.append((name, window_damage(bases[name])))
    return plan


def damaged_cases(bases):
    """All damaged texts, those by chance among them."""
    for name, cases in damage_plan(bases):
        for case in cases:
            yield case._replace(label="%s: %s" % (name, case.label))
    for cases in (fragments, closing_only, too_many_rows, full_damage):
        yield from cases()
    texts = [written(window) for window in bases.values()]
    yield from mutations(texts, 120)
    yield from splices(texts, 40)


def checked(case):
    """The case, after what is known of it was asserted against the reader."""
    try:
        window = read(case.text)
    except Refused as refusal:
        assert case.window is None, case
        assert case.place in (None, refusal.place), (case, refusal.place)
        assert case.floor <= refusal.place <= len(case.text), case
    else:
        assert case.place is None, case
        assert case.window in (None, window), case
        assert written(window) == case.text, case
    return case


def all_cases():
    """All texts once each, good ones and damaged ones mixed."""
    found = {}
    for case in list(good_cases()) + list(damaged_cases(base_windows())):
        found.setdefault(case.text, checked(case))
    cases = list(found.values())
    random.Random(64).shuffle(cases)
    return cases


def answer(text):
    """What `texts` must print for a text."""
    try:
        window = read(text)
    except Refused as refusal:
        return "refused 15 %d\n" % refusal.place
    first = window.rows[0].onset
    words = ["read %s %d %d %d" % (window.name, first, window.end, len(window.rows))]
    words += ["row %d %d %d %d" % row for row in window.rows]
    words.append("written %d" % len(text))
    return "".join(line + "\n" for line in words)


def head_line(text):
    """The line before a text."""
    return b"text %d\n" % len(text)


def listing(cases):
    """A line for each text: number, place in the input, outcome and label."""
    place = 0
    for number, case in enumerate(cases, 1):
        outcome = answer(case.text).splitlines()[0].split(" ")
        outcome = outcome[0] if outcome[0] == "read" else " ".join(outcome)
        yield "%d at %d: %s: %s\n" % (number, place, outcome, case.label)
        place += len(head_line(case.text)) + len(case.text)


def main(words):
    """Prints what the one word asks for."""
    if len(words) != 1 or words[0] not in ("stdin", "stdout", "list"):
        sys.exit("usage: zone_texts.py stdin | stdout | list")
    cases = all_cases()
    if words[0] == "stdin":
        output = b"".join(head_line(case.text) + case.text for case in cases)
    elif words[0] == "stdout":
        output = "".join(answer(case.text) for case in cases).encode("ascii")
    else:
        output = "".join(listing(cases)).encode("ascii")
    sys.stdout.buffer.write(output)


if __name__ == "__main__":
    main(sys.argv[1:])
