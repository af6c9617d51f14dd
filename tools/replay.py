#!/usr/bin/env python3
"""Replays a script of calls against a small model of a time zone depot.

The stack is client over line (downlink) over relay over line (uplink) over
truncation over root. The script is read from standard input, and one line is
printed for each of its calls:

    python3 tools/replay.py < script.txt

A script that is not understood prints `line N: not understood` and the
program ends with status 1. The program's own examples are run by

    python3 tools/replay.py --self-check

which stand in replay_checks.py. As a module: `replay(text)` gives what is
printed and the exit status.
"""

import re
import sys
from collections import Counter
from datetime import datetime, timedelta
from typing import NamedTuple

MAX_NAME_BYTES = 48
MAX_OFFSET = 86_399
MAX_TABLE_ROWS = 512
MAX_WINDOW_ROWS = 64
MAX_EDITION = 65_535
MAX_FATES = 64
RELAY_PLACES = 8
CLIENT_SLOTS = 16

BAD_NAME = 1
BAD_INTERVAL = 2
OUTSIDE_SPAN = 3
SILENT = 4
NO_PAGE = 5
TOO_MANY_ROWS = 6
BELOW_FLOOR = 7
ALREADY_PENDING = 8
NO_FREE_SLOT = 9
NOT_PENDING = 10
NOT_HELD = 11
OUTSIDE_WINDOW = 12
NOT_A_TABLE = 13
DOES_NOT_FIT = 14


# ---------------------------------------------------------------- time, rows

class Interval(NamedTuple):
    """The instants from start on and before end."""
    start: int
    end: int


ERA = Interval(-2_208_988_800, 4_102_444_800)


class Row(NamedTuple):
    """From its onset on, `after` is in force instead of `before`."""
    onset: int
    before: int
    after: int
    day: int


class Window(NamedTuple):
    """1 to 64 rows that cover an interval, and the interval's end."""
    end: int
    rows: tuple

    def interval(self):
        """The interval that the rows cover."""
        return Interval(self.rows[0].onset, self.end)


def lies_within(inner, outer):
    """Whether `inner` rises and sticks out of `outer` at neither end."""
    return (inner.start < inner.end
            and outer.start <= inner.start
            and inner.end <= outer.end)


def offset_in_range(offset):
    """Whether local time can be ahead of UTC by `offset` seconds."""
    return -MAX_OFFSET <= offset <= MAX_OFFSET


def rows_cover(rows, interval):
    """Whether the rows cover the interval."""
    if not rows or rows[0].onset != interval.start:
        return False
    if rows[-1].onset >= interval.end:
        return False
    for row in rows:
        if not (offset_in_range(row.before) and offset_in_range(row.after)):
            return False
    for earlier, later in zip(rows, rows[1:]):
        if earlier.onset >= later.onset or earlier.after != later.before:
            return False
    return True


def is_table_over_era(rows, interval):
    """Whether the rows are a table over the whole era."""
    return (interval == ERA
            and 1 <= len(rows) <= MAX_TABLE_ROWS
            and rows_cover(rows, interval))


def row_in_force(rows, instant):
    """The last row whose onset is not later than the instant."""
    found = None
    for row in rows:
        if row.onset > instant:
            break
        found = row
    return found


def cut(rows, interval):
    """The cut of rows to an interval inside theirs."""
    force = row_in_force(rows, interval.start)
    before = force.before if force.onset == interval.start else force.after
    first = Row(interval.start, before, force.after, force.day)
    rest = [row for row in rows if interval.start < row.onset < interval.end]
    return (first, *rest)


def cut_window(window, interval):
    """The cut of a window to an interval that it contains."""
    return Window(interval.end, cut(window.rows, interval))


# --------------------------------------------------------------------- names

NAME_FORM = re.compile(rb"[A-Za-z0-9/_+-]+")


def is_zone_name(name):
    """Whether the bytes are a zone name."""
    return (1 <= len(name) <= MAX_NAME_BYTES
            and NAME_FORM.fullmatch(name) is not None)


# ------------------------------------------------------------------- answers

class Refusal(NamedTuple):
    """A refused call: its number and, for 5, 6 and 7, the edition."""
    number: int
    edition: int | None = None


class Unchanged(NamedTuple):
    """The answer of a fetch whose known tag is the page's."""
    edition: int


class Fresh(NamedTuple):
    """The answer of a fetch that filled a window."""
    edition: int
    tag: int
    window: Window


def is_silent(answer):
    """Whether no answer came."""
    return isinstance(answer, Refusal) and answer.number == SILENT


def check_span(interval, span):
    """Refusals 2 and 3, in this order, or None."""
    if not lies_within(interval, ERA):
        return Refusal(BAD_INTERVAL)
    if not lies_within(interval, span):
        return Refusal(OUTSIDE_SPAN)
    return None


def check_request(name, interval, span):
    """Refusals 1, 2 and 3, in this order, or None."""
    if not is_zone_name(name):
        return Refusal(BAD_NAME)
    return check_span(interval, span)


# ----------------------------------------------------------------- providers

class Page(NamedTuple):
    """What the root has of a name: a tag and a table over the era."""
    tag: int
    rows: tuple


class Root:
    """A log of the accepted publications, in storage of a given size.

    The turn is always the count, so that only the latest page of each name
    is ever asked for; earlier ones are not kept.
    """

    span = ERA

    def __init__(self, entries, rows):
        """Storage for so many publications, with so many rows in all."""
        self.entries = entries
        self.rows = rows
        self.count = 0
        self.rows_used = 0
        self.pages = {}

    def fits(self, row_count):
        """Whether an entry and enough rows are unused."""
        return (self.count < self.entries
                and self.rows_used + row_count <= self.rows)

    def publish(self, name, rows, interval):
        """Accepts a table; answers the new edition or a refusal."""
        if not is_zone_name(name):
            return Refusal(BAD_NAME)
        if not is_table_over_era(rows, interval):
            return Refusal(NOT_A_TABLE)
        if not self.fits(len(rows)) or self.count == MAX_EDITION:
            return Refusal(DOES_NOT_FIT)
        self.count += 1
        self.rows_used += len(rows)
        self.pages[name] = Page(self.tag_of(name, rows), rows)
        return self.count

    def tag_of(self, name, rows):
        """The tag of a table just published as the edition `count`."""
        last = self.pages.get(name)
        if last is not None and last.rows == rows:
            return last.tag
        return self.count

    def fetch(self, name, interval, known):
        """Answers from the latest edition."""
        refusal = check_request(name, interval, self.span)
        if refusal is not None:
            return refusal
        if self.count == 0:
            return Refusal(SILENT)
        page = self.pages.get(name)
        if page is None:
            return Refusal(NO_PAGE, self.count)
        rows = cut(page.rows, interval)
        if len(rows) > MAX_WINDOW_ROWS:
            return Refusal(TOO_MANY_ROWS, self.count)
        if page.tag == known:
            return Unchanged(self.count)
        return Fresh(self.count, page.tag, Window(interval.end, rows))


class Layer:
    """What all layers share: the span below, and publications passed down."""

    def __init__(self, below):
        """Stands on the provider `below`."""
        self.below = below
        self.span = below.span

    def publish(self, name, rows, interval):
        """Passed down."""
        return self.below.publish(name, rows, interval)


class Truncation(Layer):
    """A layer with a span inside the one below."""

    def __init__(self, below, span):
        """Takes the span, or the one below if the span is refused."""
        super().__init__(below)
        if check_span(span, below.span) is None:
            self.span = span

    def fetch(self, name, interval, known):
        """Checks by its own span and asks below.

        The pages are cuts of those below, and the cut of a cut is the cut.
        """
        refusal = check_request(name, interval, self.span)
        if refusal is not None:
            return refusal
        return self.below.fetch(name, interval, known)


class Line(Layer):
    """A layer that loses requests and replies by a list of fates."""

    def __init__(self, below, marks):
        """Takes up to 64 marks `p`, `q`, `r`; of anything else, none."""
        super().__init__(below)
        good = len(marks) <= MAX_FATES and all(m in b"pqr" for m in marks)
        self.fates = marks if good else b""
        self.used = 0

    def next_fate(self):
        """The next fate; without fates left, `p`."""
        if self.used == len(self.fates):
            return b"p"
        fate = self.fates[self.used:self.used + 1]
        self.used += 1
        return fate

    def fetch(self, name, interval, known):
        """Uses a fate once the checks 1 to 3 are passed."""
        refusal = check_request(name, interval, self.span)
        if refusal is not None:
            return refusal
        fate = self.next_fate()
        if fate == b"q":
            return Refusal(SILENT)
        answer = self.below.fetch(name, interval, known)
        if fate == b"r":
            return Refusal(SILENT)
        return answer


class Kept(NamedTuple):
    """What the relay keeps of a name."""
    edition: int
    tag: int
    window: Window


class Relay(Layer):
    """A layer that keeps up to 8 pages, one a name.

    `met` counts the cases that fetches met; nothing depends on it.
    """

    def __init__(self, below):
        """Keeps nothing at first."""
        super().__init__(below)
        self.places = {}
        self.met = Counter()

    def fetch(self, name, interval, known):
        """Asks below, always, and answers by the kept page or not."""
        refusal = check_request(name, interval, self.span)
        if refusal is not None:
            return refusal
        kept = self.places.get(name)
        if kept is not None and lies_within(interval, kept.window.interval()):
            answer = self.below.fetch(name, interval, kept.tag)
            return self.answer_by_kept(name, interval, known, kept, answer)
        answer = self.below.fetch(name, interval, known)
        self.keep_passed(name, kept, answer)
        return answer

    def keep_passed(self, name, kept, answer):
        """Keeps a fresh window that is passed on, if it may be kept."""
        if kept is None:
            case = "nothing kept"
            may_keep = len(self.places) < RELAY_PLACES
        else:
            case = "not contained"
            may_keep = (isinstance(answer, Fresh)
                        and answer.edition >= kept.edition)
        if isinstance(answer, Fresh) and may_keep:
            self.places[name] = Kept(*answer)
            self.meet(case, answer, "kept")
        else:
            self.meet(case, answer, "not kept")

    def answer_by_kept(self, name, interval, known, kept, answer):
        """The answer where the kept window contains the interval."""
        if isinstance(answer, Unchanged):
            edition = max(kept.edition, answer.edition)
            raised = "raised" if edition > kept.edition else "same edition"
            self.meet("contained", answer, raised)
            self.places[name] = kept._replace(edition=edition)
            return self.from_kept(interval, known, self.places[name])
        if is_silent(answer) or answer.edition < kept.edition:
            self.meet("contained", answer, "served from kept")
            return self.from_kept(interval, known, kept)
        if isinstance(answer, Refusal):
            self.meet("contained", answer, "passed on")
            return answer
        self.meet("contained", answer, "kept")
        self.places[name] = Kept(*answer)
        if answer.tag == known:
            return Unchanged(answer.edition)
        return answer

    def from_kept(self, interval, known, kept):
        """The answer from the kept page, as of its edition."""
        if known == kept.tag:
            return Unchanged(kept.edition)
        window = cut_window(kept.window, interval)
        return Fresh(kept.edition, kept.tag, window)

    def meet(self, case, answer, outcome):
        """Counts a case."""
        if isinstance(answer, Refusal):
            below = f"refused {answer.number}"
        else:
            below = type(answer).__name__.lower()
        self.met[f"{case}, below {below}: {outcome}"] += 1


# -------------------------------------------------------------------- client

class Held(NamedTuple):
    """What a slot holds."""
    edition: int
    tag: int
    window: Window


class Slot:
    """A slot that is taken: reserved (nothing held) or held, or both held
    and pending. `pending` is the interval of the pending fetch or None."""

    def __init__(self, name):
        """Reserved for a name."""
        self.name = name
        self.held = None
        self.pending = None


class PendingFetch(NamedTuple):
    """What a begin answers."""
    slot: int
    interval: Interval


class Result(NamedTuple):
    """What a query answers."""
    edition: int
    local: int
    offset: int
    day: int


class Client:
    """16 slots over one provider, and a floor."""

    def __init__(self, provider):
        """All slots free, floor 0."""
        self.provider = provider
        self.slots = [None] * CLIENT_SLOTS
        self.floor = 0

    def number_of(self, name):
        """The number of the name's slot or None."""
        for number, slot in enumerate(self.slots):
            if slot is not None and slot.name == name:
                return number
        return None

    def slot_holding(self, name):
        """The name's slot if it holds something, else None."""
        number = self.number_of(name)
        if number is None or self.slots[number].held is None:
            return None
        return self.slots[number]

    def publish(self, name, rows, interval):
        """Passed down."""
        return self.provider.publish(name, rows, interval)

    def begin(self, name, interval):
        """Marks or reserves a slot; answers a pending fetch or a refusal."""
        refusal = check_request(name, interval, self.provider.span)
        if refusal is not None:
            return refusal
        number = self.number_of(name)
        if number is not None and self.slots[number].pending is not None:
            return Refusal(ALREADY_PENDING)
        if number is None:
            if None not in self.slots:
                return Refusal(NO_FREE_SLOT)
            number = self.slots.index(None)
            self.slots[number] = Slot(name)
        self.slots[number].pending = interval
        return PendingFetch(number, interval)

    def is_pending(self, fetch):
        """Whether the slot is pending with the fetch's interval."""
        slot = self.slots[fetch.slot]
        return slot is not None and slot.pending == fetch.interval

    def collect(self, fetch):
        """Fetches; answers the accepted edition or a refusal."""
        if not self.is_pending(fetch):
            return Refusal(NOT_PENDING)
        slot = self.slots[fetch.slot]
        interval = fetch.interval
        answer = self.provider.fetch(slot.name, interval,
                                     known_tag(slot.held, interval))
        if is_silent(answer):
            return answer
        if answer.edition < self.floor:
            return Refusal(BELOW_FLOOR, answer.edition)
        if isinstance(answer, Refusal):
            return answer
        slot.held = accepted(slot.held, interval, answer)
        slot.pending = None
        self.floor = answer.edition
        return answer.edition

    def abandon(self, fetch):
        """Removes the mark; answers None or a refusal."""
        if not self.is_pending(fetch):
            return Refusal(NOT_PENDING)
        slot = self.slots[fetch.slot]
        slot.pending = None
        if slot.held is None:
            self.slots[fetch.slot] = None
        return None

    def forget(self, name):
        """Frees the name's slot; answers None or a refusal."""
        if not is_zone_name(name):
            return Refusal(BAD_NAME)
        slot = self.slot_holding(name)
        if slot is None:
            return Refusal(NOT_HELD)
        if slot.pending is not None:
            return Refusal(ALREADY_PENDING)
        self.slots[self.slots.index(slot)] = None
        return None

    def query(self, name, instant):
        """Local time by what is held; answers a result or a refusal."""
        if not is_zone_name(name):
            return Refusal(BAD_NAME)
        slot = self.slot_holding(name)
        if slot is None:
            return Refusal(NOT_HELD)
        window = slot.held.window
        if not window.interval().start <= instant < window.end:
            return Refusal(OUTSIDE_WINDOW)
        row = row_in_force(window.rows, instant)
        return Result(slot.held.edition, instant + row.after, row.after,
                      row.day)


def known_tag(held, interval):
    """The held tag if what is held contains the interval, else 0."""
    if held is not None and lies_within(interval, held.window.interval()):
        return held.tag
    return 0


def accepted(held, interval, answer):
    """What a slot holds once the answer is accepted."""
    if isinstance(answer, Unchanged):
        window = cut_window(held.window, interval)
        return Held(answer.edition, held.tag, window)
    return Held(*answer)


# -------------------------------------------------------- reading the script

class NotUnderstood(Exception):
    """A script line is not of the script's form."""

    def __init__(self, line):
        """The line's number, from 1."""
        super().__init__(line)
        self.line = line


class BadWords(Exception):
    """The words of a line are not of the script's form."""


class Script(NamedTuple):
    """A script that was read: the settings and the calls, in order."""
    settings: dict
    calls: list


SIGNED = re.compile(rb"-?[0-9]+")
UNSIGNED = re.compile(rb"[0-9]+")


def number_in(word, form, low, high):
    """The number that the word says, if it has the form and the range."""
    if form.fullmatch(word) is None:
        raise BadWords
    digits = word.lstrip(b"-").lstrip(b"0") or b"0"
    if len(digits) > 20:
        raise BadWords
    number = -int(digits) if word.startswith(b"-") else int(digits)
    if not low <= number <= high:
        raise BadWords
    return number


def instant(word):
    """A number of signed 64 bits."""
    return number_in(word, SIGNED, -2 ** 63, 2 ** 63 - 1)


def offset(word):
    """A number of signed 32 bits."""
    return number_in(word, SIGNED, -2 ** 31, 2 ** 31 - 1)


def size(word):
    """A number of unsigned 64 bits, without a sign."""
    return number_in(word, UNSIGNED, 0, 2 ** 64 - 1)


def observance(word):
    """`0` or `1`."""
    if word not in (b"0", b"1"):
        raise BadWords
    return int(word)


def any_bytes(word):
    """A name or marks: any word will do."""
    return word


SETTING_FORMS = {
    b"root": (size, size),
    b"span": (instant, instant),
    b"uplink": (any_bytes,),
    b"downlink": (any_bytes,),
}

CALL_FORMS = {
    b"row": (instant, offset, offset, observance),
    b"publish": (any_bytes, instant, instant),
    b"begin": (any_bytes, instant, instant),
    b"collect": (any_bytes,),
    b"abandon": (any_bytes,),
    b"forget": (any_bytes,),
    b"query": (any_bytes, instant),
}

FORMS = SETTING_FORMS | CALL_FORMS


def words_of(line):
    """The words of a line; none if it is skipped."""
    if line.startswith(b"#"):
        return []
    return [word for word in line.split(b" ") if word]


def values_of(words):
    """The values of the words after the first."""
    forms = FORMS.get(words[0])
    if forms is None or len(forms) != len(words) - 1:
        raise BadWords
    return tuple(form(word) for form, word in zip(forms, words[1:]))


def add_line(words, script):
    """Adds a line's setting or call to the script."""
    word, values = words[0], values_of(words)
    if word != b"root" and b"root" not in script.settings:
        raise BadWords
    if word in CALL_FORMS:
        script.calls.append((word, *values))
        return
    if word in script.settings or script.calls:
        raise BadWords
    script.settings[word] = values


def read_script(text):
    """Reads a whole script, or raises NotUnderstood.

    A line before `root` fails at its own number, and a script that says
    nothing at all at line 1.
    """
    lines = [words_of(line) for line in text.split(b"\n")]
    script = Script({}, [])
    for number, words in enumerate(lines, 1):
        if not words:
            continue
        try:
            add_line(words, script)
        except BadWords:
            raise NotUnderstood(number) from None
    if b"root" not in script.settings:
        raise NotUnderstood(1)
    return script


# -------------------------------------------------------- running the script

def number_text(number):
    """A number in decimal."""
    return b"%d" % number


def refusal_text(refusal):
    """How a refusal is printed."""
    text = b"refused %d" % refusal.number
    if refusal.edition is not None:
        text += b" edition %d" % refusal.edition
    return text


def date_text(local):
    """The date and time of a count of seconds since 1970."""
    date = datetime(1970, 1, 1) + timedelta(seconds=local)
    return date.isoformat().encode()


def result_text(result):
    """How the result of a query is printed."""
    return b"edition %d local %d offset %d day %d at %s" % (
        *result, date_text(result.local))


def outcome_text(outcome):
    """How what a call came to is printed."""
    if outcome is None:
        return b"done"
    if isinstance(outcome, Refusal):
        return refusal_text(outcome)
    if isinstance(outcome, PendingFetch):
        return b"slot %d" % outcome.slot
    if isinstance(outcome, Result):
        return result_text(outcome)
    return b"edition %d" % outcome


class Run:
    """The stack that a script asks for, and the script's own state."""

    def __init__(self, settings):
        """Builds the stack."""
        span = Interval(*settings.get(b"span", ERA))
        root = Root(*settings[b"root"])
        truncation = Truncation(root, span)
        uplink = Line(truncation, *settings.get(b"uplink", (b"",)))
        self.relay = Relay(uplink)
        downlink = Line(self.relay, *settings.get(b"downlink", (b"",)))
        self.client = Client(downlink)
        self.gathered = []
        self.pending = {}
        self.calls = {
            b"publish": self.publish,
            b"begin": self.begin,
            b"collect": self.collect,
            b"abandon": self.abandon,
            b"forget": self.forget,
            b"query": self.query,
        }

    def run(self, calls):
        """Makes the calls; gives the printed lines."""
        lines = []
        for word, *values in calls:
            if word == b"row":
                self.gathered.append(Row(*values))
            else:
                lines.append(word + b" " + self.calls[word](*values) + b"\n")
        return b"".join(lines)

    def publish(self, name, start, end):
        """Publishes the gathered rows and clears them."""
        rows = tuple(self.gathered)
        self.gathered = []
        outcome = self.client.publish(name, rows, Interval(start, end))
        return name + b": " + outcome_text(outcome)

    def begin(self, name, start, end):
        """Begins a fetch, and remembers it by its name."""
        outcome = self.client.begin(name, Interval(start, end))
        if isinstance(outcome, PendingFetch):
            self.pending[name] = outcome
        return name + b": " + outcome_text(outcome)

    def collect(self, name):
        """Collects the name's pending fetch, if there is one."""
        return self.end_pending(name, self.client.collect)

    def abandon(self, name):
        """Abandons the name's pending fetch, if there is one."""
        return self.end_pending(name, self.client.abandon)

    def end_pending(self, name, call):
        """Gives the pending fetch to the call; a refusal hands it back."""
        if name not in self.pending:
            return name + b": no pending fetch"
        outcome = call(self.pending[name])
        if not isinstance(outcome, Refusal):
            del self.pending[name]
        return name + b": " + outcome_text(outcome)

    def forget(self, name):
        """Forgets a name."""
        return name + b": " + outcome_text(self.client.forget(name))

    def query(self, name, at):
        """Queries a name."""
        outcome = outcome_text(self.client.query(name, at))
        return name + b" " + number_text(at) + b": " + outcome


def replay_and_count(text):
    """What is printed, the exit status, and the relay's cases counted."""
    try:
        script = read_script(text)
    except NotUnderstood as bad:
        return b"line %d: not understood\n" % bad.line, 1, Counter()
    run = Run(script.settings)
    printed = run.run(script.calls)
    return printed, 0, run.relay.met


def replay(text: bytes) -> tuple[bytes, int]:
    """What is printed, and the exit status."""
    printed, status, _ = replay_and_count(text)
    return printed, status


def main():
    """Replays standard input, or runs the self-checks."""
    if sys.argv[1:] == ["--self-check"]:
        import replay_checks
        sys.exit(replay_checks.run_all())
    if len(sys.argv) > 1:
        sys.exit("usage: replay.py [--self-check] < script")
    printed, status = replay(sys.stdin.buffer.read())
    sys.stdout.buffer.write(printed)
    sys.stdout.buffer.flush()
    sys.exit(status)


if __name__ == "__main__":
    main()
