#!/usr/bin/env python3
"""Makes random scripts of calls for a time zone depot.

    python3 tools/random_scripts.py COUNT SEED DIR

writes COUNT scripts as DIR/0000.txt, DIR/0001.txt and so on. The script with
the number N is made of the seed SEED + N alone, so that it can be made again:

    python3 tools/random_scripts.py 1 SEED+N DIR

As a module: `script(rng)` makes one script with a `random.Random`.

The scripts are dense in what is hard: losses on both lines, zones that are
fetched again over nested and overlapping intervals while others are
published, tables at the limits of their sizes, too many names, storage that
runs out, and now and then a line that is not understood.
"""

import random
import sys
from pathlib import Path

ERA = (-2_208_988_800, 4_102_444_800)
I64 = (-2 ** 63, 2 ** 63 - 1)
I32 = (-2 ** 31, 2 ** 31 - 1)
ROW_BUDGET = 2500
SPOILED = 0.03
ODDLY_DRESSED = 0.2

OFFSETS = [0, 0, 3600, 3600, 7200, 7200, -18000, 20700, 1, -1, 1172, 86399,
           -86399]
BAD_OFFSETS = [86400, -86400, 100000, *I32]

GOOD_NAMES = ["A", "B", "Z", "a", "0", "-", "+", "_", "/", "AA", "A/B", "A/b",
              "Europe/Amsterdam", "Europe/Paris", "America/Port-au-Prince",
              "Etc/GMT+1", "Etc/GMT-1", "UTC", "root", "Asia/Ust_Nera",
              "x" * 47, "x" * 48, "x" * 47 + "y", "y" + "x" * 47]
BAD_NAMES = [b"x" * 49, b"x" * 47 + b"yz", b"y" * 64, b"z" * 200, b"a.b",
             b"A:", b"A\tB", b"A\r", b"A\x00", b"\x00", b"\xc3\xa9", b"\xff",
             b"A\x7f", b"#A", b"A,B", b"A\\B", b"@", b"[", b"`", b"{",
             b"x" * 47 + b"."]


# ------------------------------------------------------------- what to write

class Plan:
    """What one script is about, and the lines written so far.

    A line is a list of words (bytes). `tables` has the accepted-looking
    tables of each name in the order of their publication.
    """

    def __init__(self, rng, kind):
        """Draws names, span, intervals and instants of a kind of script."""
        self.rng = rng
        self.kind = kind
        self.lines = []
        self.calls = 0
        self.rows = 0
        self.names = draw_names(rng, kind)
        self.silent_names = draw_silent_names(rng, self.names)
        self.tables = {}
        self.span = draw_span(rng)
        self.grid = draw_grid(rng, self.span) if kind == "dense" else []
        self.anchors = draw_anchors(rng, self.span)
        self.intervals = draw_intervals(rng, self)

    def write(self, *words):
        """Adds a line; numbers and strings become words."""
        self.lines.append([to_word(word) for word in words])
        if words[0] != "row":
            self.calls += 1

    def chance(self, probability):
        """True with the probability."""
        return self.rng.random() < probability

    def pick(self, values):
        """One of the values."""
        return self.rng.choice(values)


def to_word(value):
    """A word as bytes."""
    if isinstance(value, bytes):
        return value
    return str(value).encode()


def draw_names(rng, kind):
    """A few good names, or many in a crowd."""
    if kind == "crowd":
        count = rng.choice([8, 9, 10, 12, 16, 17, 18, 20])
    elif kind == "mixed":
        count = rng.randint(1, 10)
    else:
        count = rng.choice([1, 2, 2, 2, 2, 3, 3, 3, 4, 5])
    return rng.sample(GOOD_NAMES, count)


def draw_silent_names(rng, names):
    """The names that are never published: mostly none."""
    if rng.random() < 0.7:
        return []
    return rng.sample(names, rng.randint(0, max(1, len(names) // 4)))


def draw_span(rng):
    """A span inside the era; often the era itself."""
    if rng.random() < 0.5:
        return ERA
    if rng.random() < 0.2:
        return rng.choice([(ERA[0], 0), (0, ERA[1]), (ERA[0] + 1, ERA[1] - 1),
                           (0, 1), (1000, 1002)])
    start = rng.randint(-10 ** 9, 10 ** 9)
    return start, start + rng.choice([500, 10 ** 5, 10 ** 8, 10 ** 9])


def draw_grid(rng, span):
    """Many onsets at equal distances, for cuts of about 64 rows."""
    count = rng.choice([62, 63, 64, 65, 66, 66, 70, 130, 130, 511, 512])
    room = span[1] - span[0]
    step = max(1, min(room // (count + 2), rng.choice([1, 2, 10, 86400])))
    first = span[0] + rng.choice([0, 0, 1, step, rng.randint(0, room // 4)])
    if first == ERA[0]:
        first += 1
    return [first + index * step for index in range(count)]


def draw_anchors(rng, span):
    """Some rising instants inside the span, for intervals and onsets."""
    start, end = span
    middle = rng.randint(start, end)
    reach = min(end - start, rng.choice([10, 100, 10 ** 6, 10 ** 9]))
    low = max(start, min(middle, end - reach))
    inside = [rng.randint(low, low + reach) for _ in range(5)]
    return sorted({*inside, low, low + reach})


def draw_intervals(rng, plan):
    """A few intervals that are nested in and overlap one another."""
    if plan.grid:
        return draw_grid_intervals(rng, plan)
    anchors = plan.anchors
    if len(anchors) < 3:
        return [plan.span]
    whole = (anchors[0], anchors[-1])
    left = (anchors[0], anchors[-2])
    right = (anchors[1], anchors[-1])
    inner = (anchors[1], anchors[-2])
    shapes = [whole, left, right, inner,
              (anchors[0], anchors[1]), (anchors[-2], anchors[-1]),
              (whole[0], whole[1] - 1), (whole[0] + 1, whole[1]),
              (anchors[0], anchors[0] + 1), plan.span,
              (plan.span[0], anchors[1]), (anchors[1], plan.span[1])]
    shapes = [shape for shape in shapes if inside(shape, plan.span)]
    count = rng.choice([2, 3, 3, 4, 4, 5, 6, 12])
    chosen = [whole, *rng.sample(shapes, min(count, len(shapes)))]
    return [shape for shape in chosen if inside(shape, plan.span)]


def draw_grid_intervals(rng, plan):
    """Intervals with about 64 onsets of the grid."""
    grid = plan.grid
    step = grid[1] - grid[0]
    found = [plan.span, (grid[0], min(grid[0] + 5 * step, plan.span[1]))]
    for _ in range(5):
        width = rng.choice([10, 62, 63, 63, 64, 64, 65, 66])
        first = grid[0] + rng.randint(0, max(0, len(grid) - width)) * step
        shape = (first + rng.choice([-1, 0, 0, 1]),
                 first + width * step + rng.choice([-1, 0, 0, 1]))
        if inside(shape, plan.span):
            found.append(shape)
    return found


def inside(inner, outer):
    """Whether one interval rises and lies in another."""
    return outer[0] <= inner[0] < inner[1] <= outer[1]


# -------------------------------------------------------------------- tables

def rechain(rows):
    """Makes each row's offset before it the one after the row before."""
    chained = rows[:1]
    for onset, _, after, day in rows[1:]:
        chained.append((onset, chained[-1][2], after, day))
    return chained


def table_of(plan, onsets):
    """A table with the onsets and random offsets."""
    onsets = sorted({onset for onset in onsets if ERA[0] < onset < ERA[1]})
    rows = [(onset, plan.pick(OFFSETS), plan.pick(OFFSETS), plan.pick([0, 1]))
            for onset in [ERA[0], *onsets]]
    return rechain(rows)


def near_anchors(plan):
    """Onsets at which something may go wrong, and others."""
    edges = [edge for interval in plan.intervals for edge in interval]
    points = plan.anchors + edges + list(plan.span)
    points += [point + plan.pick([-1, 1]) for point in points]
    return points


def sparse_table(plan):
    """A table with a few onsets."""
    points = near_anchors(plan)
    count = min(len(points), plan.pick([0, 0, 1, 2, 3, 4, 6, 8]))
    return table_of(plan, plan.rng.sample(points, count))


def dense_table(plan):
    """A table with all, most or some onsets of the grid."""
    grid = list(plan.grid)
    if plan.chance(0.3):
        for _ in range(plan.pick([1, 1, 2, 3])):
            grid.pop(plan.rng.randrange(len(grid)))
    elif plan.chance(0.2):
        grid = grid[::3]
    return table_of(plan, grid)


def new_table(plan):
    """A table that fits the plan."""
    if plan.grid and plan.rows < ROW_BUDGET and plan.chance(0.6):
        return dense_table(plan)
    return sparse_table(plan)


def changed_table(plan, table):
    """A table that differs a little."""
    rows = list(table)
    place = plan.rng.randrange(len(rows))
    onset, before, after, day = rows[place]
    change = plan.pick(["after", "day", "before", "drop", "add", "shift"])
    if change == "after":
        rows[place] = (onset, before, plan.pick(OFFSETS), day)
    elif change == "day":
        rows[place] = (onset, before, after, 1 - day)
    elif change == "before":
        rows[0] = (rows[0][0], plan.pick(OFFSETS), rows[0][2], rows[0][3])
    elif change == "drop" and place > 0:
        rows.pop(place)
    elif change == "shift" and place > 0:
        rows[place] = (onset + plan.pick([-1, 1]), before, after, day)
    else:
        added = plan.pick(near_anchors(plan))
        rows.append((added, 0, plan.pick(OFFSETS), plan.pick([0, 1])))
        rows.sort()
    return rechain(rows)


def bad_table(plan):
    """Rows that are most likely no table."""
    rows = sparse_table(plan)
    place = plan.rng.randrange(len(rows))
    onset, before, after, day = rows[place]
    way = plan.pick(["none", "start", "twice", "chain", "offset", "late",
                     "many", "order"])
    if way == "none":
        return []
    if way == "start":
        start = ERA[0] + plan.pick([-1, 1])
        return [(start, *rows[0][1:]), *rows[1:]]
    if way == "twice":
        return rechain(rows[:place + 1] + rows[place:])
    if way == "chain":
        after = rows[-1][2] + plan.pick([-1, 1])
        return rows + [(rows[-1][0] + 1, after, 0, 0)]
    if way == "offset":
        rows[place] = (onset, before, plan.pick(BAD_OFFSETS), day)
        return rechain(rows) if plan.chance(0.5) else rows
    if way == "late":
        late = plan.pick([ERA[1], ERA[1] + 1, I64[1], I64[0], ERA[1] - 1])
        return rechain(rows + [(late, 0, 0, 0)])
    if way == "many" and plan.rows < ROW_BUDGET:
        count = plan.pick([511, 512, 512, 513])
        return table_of(plan, range(count))
    return rechain(rows[:1] + rows[:0:-1])


# --------------------------------------------------------------------- calls

def any_interval(plan):
    """An interval to fetch: mostly one of the plan's few."""
    if plan.chance(0.92):
        return plan.pick(plan.intervals)
    start, end = plan.pick(plan.intervals)
    span = plan.pick([plan.span, plan.span, ERA])
    return plan.pick([
        (start, start), (end, start), (start, end + 1), (start - 1, end),
        (start + 1, end), (start, end - 1),
        (span[0] - 1, end), (start, span[1] + 1), (span[0], span[1]),
        (span[0] - 1, span[1]), (span[0], span[1] + 1),
        (span[0], span[0] + 1), (span[1] - 1, span[1]),
        (span[1], span[1] + 1), (span[0] - 1, span[0]), ERA, I64,
        (I64[1], I64[0]), (I64[0], end), (start, I64[1])])


def any_name(plan):
    """A name of the plan."""
    return plan.pick(plan.names)


def instants_near(interval):
    """Instants at the edges of an interval."""
    start, end = interval
    return [start, start, end - 1, end - 1, end, start - 1, start + 1,
            (start + end) // 2]


def onsets_within(tables, interval):
    """The onsets of the last two tables that lie in an interval."""
    return [row[0] for table in tables[-2:] for row in table
            if interval[0] <= row[0] <= interval[1]]


def any_instant(plan, name, interval):
    """An instant to query: at an edge, at an onset, or somewhere."""
    way = plan.rng.random()
    onsets = onsets_within(plan.tables.get(name, []), interval)
    if way < 0.45 or (way < 0.9 and not onsets):
        instant = plan.pick(instants_near(interval))
    elif way < 0.9:
        instant = plan.pick(onsets) - plan.pick([0, 0, 1, 1, -1])
    elif way < 0.97:
        instant = plan.rng.randint(*plan.span)
    else:
        instant = plan.pick([*I64, *ERA, ERA[1] - 1, ERA[0] - 1])
    return min(max(instant, I64[0]), I64[1])


def write_rows(plan, rows):
    """Gathers rows; now and then another call comes in between."""
    plan.rows += len(rows)
    for place, row in enumerate(rows):
        plan.write("row", *row)
        if place < 20 and plan.chance(0.01):
            do_query(plan)


def write_table(plan, name, rows):
    """Gathers and publishes rows over the era."""
    write_rows(plan, rows)
    plan.write("publish", name, *ERA)


def loud_names(plan):
    """The names that are published."""
    return [name for name in plan.names if name not in plan.silent_names]


def do_publish(plan):
    """Publishes one of the names."""
    loud = loud_names(plan)
    if loud:
        publish_name(plan, plan.pick(loud))


def publish_name(plan, name):
    """Publishes a new table, a changed one, the same, or an earlier one."""
    tables = plan.tables.setdefault(name, [])
    way = plan.rng.random()
    if not tables or way < (0.4 if plan.grid else 0.15):
        table = new_table(plan)
    elif way < 0.5 or plan.rows > ROW_BUDGET:
        table = tables[-1]
    elif way < 0.85:
        table = changed_table(plan, tables[-1])
    else:
        table = plan.pick(tables)
    if len(table) > 100 and plan.rows > ROW_BUDGET:
        table = sparse_table(plan)
    tables.append(table)
    write_table(plan, name, table)


def do_bad_publish(plan):
    """Publishes what will most likely be refused."""
    name = any_name(plan)
    way = plan.rng.random()
    if way < 0.7:
        write_table(plan, name, bad_table(plan))
    elif way < 0.85:
        write_rows(plan, sparse_table(plan))
        plan.write("publish", name, *plan.pick([
            (ERA[0], ERA[1] - 1), (ERA[0], ERA[1] + 1), (ERA[0] + 1, ERA[1]),
            (ERA[0] - 1, ERA[1]), I64, (ERA[1], ERA[0]), plan.span]))
    else:
        write_table(plan, plan.pick(BAD_NAMES), sparse_table(plan))


def do_fetch(plan):
    """Begins and collects, perhaps more than once; perhaps gives up."""
    name, interval = any_name(plan), any_interval(plan)
    plan.write("begin", name, *interval)
    for _ in range(plan.pick([1, 1, 1, 1, 2, 2, 3])):
        plan.write("collect", name)
    if plan.chance(0.4):
        plan.write("abandon", name)
    while plan.chance(0.4):
        plan.write("query", name, any_instant(plan, name, interval))


def do_fetch_again(plan):
    """Forgets what is held, if so, and fetches again."""
    name, interval = any_name(plan), any_interval(plan)
    if plan.chance(0.5):
        plan.write("abandon", name)
    plan.write("forget", name)
    plan.write("begin", name, *interval)
    plan.write("collect", name)


def fetch_over(plan, name, interval):
    """Begins and collects, once or more; gives up at times."""
    plan.write("begin", name, *interval)
    for _ in range(plan.pick([1, 2, 2])):
        plan.write("collect", name)
    if plan.chance(0.5):
        plan.write("abandon", name)


def narrower(plan, interval):
    """Mostly an interval inside the given one."""
    shapes = [shape for shape in plan.intervals if inside(shape, interval)]
    if shapes and plan.chance(0.75):
        return plan.pick(shapes)
    return any_interval(plan)


def do_leapfrog(plan):
    """Fetches one zone, publishes, fetches another, then the first again.

    Where the last fetch is lost on the uplink, the relay's page is stale.
    """
    first, second = any_name(plan), any_name(plan)
    wide = plan.pick([plan.intervals[0], plan.pick(plan.intervals)])
    if plan.chance(0.7):
        fetch_over(plan, first, wide)
    if second in loud_names(plan) and plan.chance(0.6):
        publish_name(plan, second)
    else:
        do_publish(plan)
    fetch_over(plan, second, wide if plan.chance(0.5) else any_interval(plan))
    if plan.chance(0.2):
        plan.write("forget", first)
    interval = narrower(plan, wide)
    fetch_over(plan, first, interval)
    if plan.chance(0.4):
        plan.write("query", first, any_instant(plan, first, interval))


def do_thicken(plan):
    """Fetches by a thin table, then by one with many rows."""
    loud = loud_names(plan)
    if not loud or plan.rows > ROW_BUDGET:
        return
    name, interval = plan.pick(loud), plan.pick(plan.intervals)
    for table in (sparse_table(plan), dense_table(plan)):
        plan.tables.setdefault(name, []).append(table)
        write_table(plan, name, table)
        fetch_over(plan, name, interval)
        interval = narrower(plan, interval)


def do_sidestep(plan):
    """Fetches an interval, one that sticks out of it, one inside the first,
    and one inside the second.

    Where the second reply is lost on the downlink, the relay keeps another
    window than the client holds, and the third fetch is for the client's
    tag. Where the fourth is lost on the uplink, it shows what is kept. A
    word of SLIP_MARKS loses just these.
    """
    name = any_name(plan)
    start, end = plan.pick(plan.intervals)
    middle = (start + end) // 2
    beyond, within = plan.pick([
        ((middle, plan.span[1]), (start, middle)),
        ((plan.span[0], middle), (middle, end)),
        (plan.pick(plan.intervals), (start, end))])
    for step, interval in enumerate([(start, end), beyond, within, beyond]):
        plan.write("begin", name, *interval)
        plan.write("collect", name)
        plan.write("abandon", name)
        if plan.chance(0.4 if step == 1 else 0.1):
            do_publish(plan)


def do_begin(plan):
    """Begins and leaves it at that."""
    plan.write("begin", any_name(plan), *any_interval(plan))


def do_collect(plan):
    """Collects what may be pending."""
    plan.write("collect", any_name(plan))


def do_abandon(plan):
    """Abandons what may be pending."""
    plan.write("abandon", any_name(plan))


def do_forget(plan):
    """Forgets what may be held."""
    plan.write("forget", any_name(plan))


def do_query(plan):
    """Queries what may be held."""
    name = any_name(plan)
    interval = plan.pick(plan.intervals)
    plan.write("query", name, any_instant(plan, name, interval))


def do_bad_name(plan):
    """A call with a bad name."""
    name = plan.pick(BAD_NAMES)
    call = plan.pick(["begin", "collect", "abandon", "forget", "query"])
    if call == "begin":
        plan.write(call, name, *any_interval(plan))
        plan.write("collect", name)
    elif call == "query":
        plan.write(call, name, plan.pick(plan.anchors))
    else:
        plan.write(call, name)


def do_round(plan):
    """Begins with every name, and collects some of them."""
    names = plan.rng.sample(plan.names, len(plan.names))
    for name in names:
        plan.write("begin", name, *any_interval(plan))
    for name in plan.rng.sample(names, plan.rng.randint(0, len(names))):
        plan.write(plan.pick(["collect", "collect", "abandon"]), name)


def do_sweep(plan):
    """Fetches every name, mostly over the first interval."""
    for name in plan.rng.sample(plan.names, len(plan.names)):
        wide = plan.chance(0.7)
        fetched = plan.intervals[0] if wide else any_interval(plan)
        plan.write("begin", name, *fetched)
        plan.write("collect", name)


# By kind of script: what is done how often.
DEEDS = {
    "stale": {do_publish: 10, do_fetch: 20, do_fetch_again: 10,
              do_leapfrog: 36, do_sidestep: 10, do_query: 8, do_begin: 1,
              do_collect: 3, do_abandon: 3, do_forget: 3, do_bad_name: 1,
              do_bad_publish: 1},
    "slip": {do_publish: 8, do_leapfrog: 1, do_sidestep: 40, do_query: 8,
             do_forget: 1},
    "crowd": {do_publish: 14, do_fetch: 30, do_fetch_again: 8, do_leapfrog: 6,
              do_sidestep: 2, do_query: 10, do_begin: 5, do_collect: 8,
              do_abandon: 3, do_forget: 3, do_bad_name: 1, do_round: 3,
              do_sweep: 4},
    "dense": {do_publish: 8, do_fetch: 30, do_fetch_again: 8, do_leapfrog: 8,
              do_thicken: 8, do_sidestep: 2, do_query: 12, do_collect: 3,
              do_abandon: 2, do_forget: 2, do_bad_publish: 1},
    "storage": {do_publish: 24, do_fetch: 20, do_fetch_again: 6,
                do_leapfrog: 4, do_query: 8, do_forget: 2,
                do_bad_publish: 6},
    "mixed": {do_publish: 12, do_fetch: 16, do_fetch_again: 6, do_leapfrog: 5,
              do_sidestep: 3, do_query: 12, do_begin: 8, do_collect: 8,
              do_abandon: 6, do_forget: 6, do_bad_name: 5, do_bad_publish: 6,
              do_round: 1, do_sweep: 1},
}

KINDS = {"stale": 42, "slip": 8, "crowd": 15, "dense": 13, "storage": 7,
         "mixed": 15}


def pick_weighted(rng, weights):
    """One of the keys, by its weight."""
    return rng.choices(list(weights), list(weights.values()))[0]


def call_count(rng):
    """How many calls a script should have, about."""
    way = rng.random()
    if way < 0.05:
        return rng.randint(0, 19)
    if way < 0.97:
        return rng.randint(20, 180)
    return rng.randint(200, 500)


def write_calls(plan):
    """Writes all calls, the first ones so that there is something."""
    wanted = call_count(plan.rng)
    for name in loud_names(plan):
        if plan.chance(0.8):
            publish_name(plan, name)
    if plan.kind == "crowd" and plan.chance(0.8):
        plan.pick([do_round, do_sweep, do_sweep])(plan)
    while plan.calls < wanted:
        pick_weighted(plan.rng, DEEDS[plan.kind])(plan)


# ------------------------------------------------------------------ settings

def marks(rng, losses, lost):
    """A word of marks, in runs, often with some that pass at first.

    `losses` is how likely a run is lost, by one of the marks in `lost`.
    """
    length = rng.choice([1, 10, 20, 30, 40, 50, 63, 64, 64, 64, 64, 64, 65,
                         rng.randint(1, 80)])
    runs = rng.choice([[1], [1, 1, 2], [1, 1, 2], [1, 2, 3, 8]])
    word = "p" * rng.choice([0, 0, 1, 3, 6, 9, 18])
    while len(word) < length:
        run = rng.choice(runs)
        mark = rng.choice(lost) if rng.random() < losses else "p"
        word += mark * run
    word = word[:length]
    if rng.random() < 0.04:
        place = rng.randrange(length)
        word = word[:place] + rng.choice("PQsx.0-") + word[place + 1:]
    return word


# How likely a run of marks is lost on the uplink and on the downlink; None
# is a line without marks.
LOSSES = [(0.4, None), (0.5, None), (0.6, None), (0.8, None), (0.5, 0.1),
          (0.6, 0.2), (0.4, 0.2), (0.4, 0.4), (0.1, 0.6), (None, 0.6),
          (None, None)]

# What a sidestep wants of the uplink and of the downlink.
SLIP_MARKS = ("pppq" * 16, "prpp" * 16)


def draw_marks(plan):
    """The marks of the uplink and of the downlink, or None."""
    rng = plan.rng
    if plan.kind == "slip" and plan.chance(0.7):
        return SLIP_MARKS
    up, down = rng.choice(LOSSES)
    return (None if up is None else marks(rng, up, "qqr"),
            None if down is None else marks(rng, down, "qrr"))


def bad_span(rng):
    """A span that the truncation refuses."""
    return rng.choice([(0, 0), (5, 4), (ERA[0] - 1, 0), (0, ERA[1] + 1), I64,
                       (I64[1], I64[0]), (ERA[0] - 10, ERA[0]),
                       (ERA[1], ERA[1] + 10)])


def storage(plan):
    """The words of root."""
    rng = plan.rng
    if plan.kind == "storage":
        return rng.choice([(rng.randint(0, 8), 1000),
                           (50, rng.randint(0, 30)),
                           (rng.randint(0, 8), rng.randint(0, 30))])
    if plan.kind == "dense":
        return rng.choice([(100, 20000), (100, 1024), (50, 512)])
    return rng.choice([(200, 5000), (300, 20000), (200, 600)])


def settings(plan):
    """The lines of the settings: root first, the others in any order."""
    rng = plan.rng
    others = []
    if plan.span != ERA or plan.chance(0.1):
        others.append(("span", *plan.span))
    elif plan.chance(0.1):
        others.append(("span", *bad_span(rng)))
    up, down = draw_marks(plan)
    if up is not None:
        others.append(("uplink", up))
    if down is not None:
        others.append(("downlink", down))
    rng.shuffle(others)
    lines = [("root", *storage(plan)), *others]
    return [[to_word(word) for word in line] for line in lines]


# ----------------------------------------------------------- lines gone wrong

# Where the numbers stand in a line: i64, i32, u64 or an observance.
NUMBERS = {
    b"root": {1: "u64", 2: "u64"},
    b"span": {1: "i64", 2: "i64"},
    b"row": {1: "i64", 2: "i32", 3: "i32", 4: "day"},
    b"publish": {2: "i64", 3: "i64"},
    b"begin": {2: "i64", 3: "i64"},
    b"query": {2: "i64"},
}

BAD_NUMBERS = {
    "u64": [b"18446744073709551616", b"-1", b"-0", b"9" * 40],
    "i64": [b"9223372036854775808", b"-9223372036854775809", b"9" * 40],
    "i32": [b"2147483648", b"-2147483649", b"4294967296",
            b"9223372036854775808"],
    "day": [b"2", b"-1", b"10", b"00", b"-0", b"S"],
}

NO_NUMBERS = [b"+1", b"+0", b"-", b"--1", b"1-", b"1.5", b"1e3", b"0x10",
              b"x", b"1_000", b"\xd9\xa1", b"1,", b"5\r", b"5\t", b"-+1"]

UNKNOWN_WORDS = [b"Root", b"QUERY", b"fetch", b"rows", b"publishes",
                 b"uplink:", b"snapshot", b"\xff", b"query\t", b"0"]


def spoil_number(rng, lines):
    """Puts what is no number, or is out of range, in a number's place."""
    places = {}
    for line in lines:
        for place, form in NUMBERS.get(line[0], {}).items():
            places.setdefault(form, []).append((line, place))
    form = rng.choice(sorted(places))
    line, place = rng.choice(places[form])
    bad = BAD_NUMBERS[form] if rng.random() < 0.6 else NO_NUMBERS
    line[place] = rng.choice(bad)


def spoil_count(rng, lines):
    """A word too few or too many."""
    line = rng.choice(lines)
    if rng.random() < 0.5:
        line.pop()
    else:
        line.append(rng.choice([b"0", b"A", b"#", b"p"]))


def spoil_word(rng, lines):
    """An unknown first word."""
    line = rng.choice(lines)
    line[0] = rng.choice(UNKNOWN_WORDS)


def spoil_root(rng, lines):
    """No root, or root not in the first place, or twice."""
    way = rng.choice(["none", "late", "twice"])
    if way == "twice":
        lines.insert(rng.randint(1, len(lines)), list(lines[0]))
        return
    root = lines.pop(0)
    if way == "late" and lines:
        lines.insert(rng.randint(1, len(lines)), root)
    if rng.random() < 0.4:
        lines.insert(0, [b"# comment"])


def spoil_order(rng, lines):
    """A setting twice, or after a call."""
    setting = rng.choice([[b"span", b"0", b"100"], [b"uplink", b"pq"],
                          [b"downlink", b"rp"]])
    if rng.random() < 0.3:
        lines[1:1] = [list(setting), list(setting)]
        return
    calls = [place for place, line in enumerate(lines)
             if line[0] not in (b"root", b"span", b"uplink", b"downlink")]
    if calls:
        lines.insert(rng.randint(calls[0] + 1, len(lines)), setting)
    else:
        lines[1:1] = [list(setting), list(setting)]


def spoil_blank(rng, lines):
    """A tab for a space, or a comment that does not begin the line."""
    if rng.random() < 0.5:
        line = rng.choice(lines)
        line[0:2] = [b"\t".join(line[0:2])]
    else:
        lines.insert(rng.randint(1, len(lines)), [b"", b"#", b"comment"])


SPOILERS = {spoil_number: 6, spoil_count: 3, spoil_word: 2, spoil_root: 3,
            spoil_order: 3, spoil_blank: 2}


# --------------------------------------------------------------------- looks

def odd_number(rng, word, form):
    """The same number, written otherwise."""
    if form == "day" or not word.lstrip(b"-").isdigit():
        return word
    if word == b"0" and form != "u64" and rng.random() < 0.5:
        return b"-0"
    zeros = b"0" * rng.choice([1, 2, 20, 40])
    if word.startswith(b"-"):
        return b"-" + zeros + word[1:]
    return zeros + word


def odd_line(rng, line):
    """A line with odd numbers and spaces."""
    words = list(line)
    for place, form in NUMBERS.get(line[0], {}).items():
        if place < len(words) and rng.random() < 0.05:
            words[place] = odd_number(rng, words[place], form)
    text = words[0]
    for word in words[1:]:
        text += b" " * rng.choice([1, 1, 1, 2, 5]) + word
    before = b" " * rng.choice([0, 0, 0, 1, 3])
    return before + text + b" " * rng.choice([0, 0, 0, 1, 3])


SKIPPED = [b"", b"", b" ", b"     ", b"#", b"# comment", b"#root 1 1",
           b"#\xff\x00", b"# query A 0"]


def odd_text(rng, lines):
    """The script with odd spacing, and lines that are skipped."""
    texts = []
    for line in lines:
        while rng.random() < 0.08:
            texts.append(rng.choice(SKIPPED))
        texts.append(odd_line(rng, line))
    while rng.random() < 0.3:
        texts.append(rng.choice(SKIPPED))
    return b"\n".join(texts) + rng.choice([b"", b"\n", b"\n\n", b"\n  "])


def script(rng: random.Random) -> bytes:
    """One random script."""
    plan = Plan(rng, pick_weighted(rng, KINDS))
    write_calls(plan)
    lines = settings(plan) + plan.lines
    if rng.random() < SPOILED:
        pick_weighted(rng, SPOILERS)(rng, lines)
    if rng.random() < ODDLY_DRESSED:
        return odd_text(rng, lines)
    return b"".join(b" ".join(line) + b"\n" for line in lines)


def main():
    """Writes scripts to a folder."""
    if len(sys.argv) != 4:
        sys.exit("usage: random_scripts.py COUNT SEED DIR")
    count, seed, folder = int(sys.argv[1]), int(sys.argv[2]), Path(sys.argv[3])
    folder.mkdir(parents=True, exist_ok=True)
    for number in range(count):
        text = script(random.Random(seed + number))
        (folder / f"{number:04}.txt").write_bytes(text)


if __name__ == "__main__":
    main()
