"""Examples for replay.py, with results that were worked out by hand.

Run by `python3 tools/replay.py --self-check`. There are scripts with the lines that
they must print; fetches at a relay over a provider that answers what it is
told, for each row of the relay's case table; and a few small checks of what
no script can reach.
"""

from replay import (ERA, Client, Fresh, Interval, Kept, Line, Refusal, Relay,
                    Root, Row, Truncation, Unchanged, Window, cut, replay)

# ------------------------------------------------------------------- scripts

ERA_WORDS = "-2208988800 4102444800"
DAY_A = "row -2208988800 0 3600 0\n"
DAY_B = "row -2208988800 0 7200 1\n"
NAME_48 = "n" * 48
NAME_49 = "n" * 49


def publish(name, rows=DAY_A):
    """The lines that publish rows over the era."""
    return f"{rows}publish {name} {ERA_WORDS}\n"


def fetch(name, start, end):
    """The lines that begin a fetch and collect it."""
    return f"begin {name} {start} {end}\ncollect {name}\n"


def many_rows(count):
    """A row at the era's start and `count` more, at 0, 10, 20 and so on."""
    lines = ["row -2208988800 0 0 0\n"]
    for index in range(count):
        lines.append(f"row {index * 10} 0 0 {index % 2}\n")
    return "".join(lines)


# Title, script, what it prints. `not understood` ends with status 1.
SCRIPTS = [
    ("the example of a query",
     "root 10 100\n"
     "row -2208988800 1172 1172 0\nrow 1711846800 1172 7200 1\n"
     f"publish Europe/Amsterdam {ERA_WORDS}\n"
     + fetch("Europe/Amsterdam", 1704067200, 1735689600)
     + "query Europe/Amsterdam 1711846800\n"
     "query Europe/Amsterdam 1711846799\n",
     "publish Europe/Amsterdam: edition 1\n"
     "begin Europe/Amsterdam: slot 0\n"
     "collect Europe/Amsterdam: edition 1\n"
     "query Europe/Amsterdam 1711846800: edition 1 local 1711854000"
     " offset 7200 day 1 at 2024-03-31T03:00:00\n"
     "query Europe/Amsterdam 1711846799: edition 1 local 1711847971"
     " offset 1172 day 0 at 2024-03-31T01:19:31\n"),

    # The script's form.
    ("an empty script", "", "line 1: not understood\n"),
    ("comments alone", "# a\n\n#b\n", "line 1: not understood\n"),
    ("a call before root", "\n\nforget A\n", "line 3: not understood\n"),
    ("nothing at all", "\n# x\n", "line 1: not understood\n"),
    ("a call before root", "# a\n\nforget A\nroot 1 1\n",
     "line 3: not understood\n"),
    ("root twice", "root 1 1\nroot 1 1\n", "line 2: not understood\n"),
    ("a setting twice", "root 1 1\nuplink p\nuplink p\n",
     "line 3: not understood\n"),
    ("a setting after a row", "root 1 1\nrow 0 0 0 0\nuplink p\n",
     "line 3: not understood\n"),
    ("a setting after a call", "root 1 1\nforget A\nspan 0 1\n",
     "line 3: not understood\n"),
    ("nothing is printed before a bad line", "root 1 1\nforget A\nforgot A",
     "line 3: not understood\n"),
    ("the first of two bad lines", "root 1 1\nforget\nforgot A",
     "line 2: not understood\n"),
    ("a word too many", "root 1 1\nquery A 1 2\n",
     "line 2: not understood\n"),
    ("a plus sign", "root 1 1\nquery A +1\n", "line 2: not understood\n"),
    ("a sign at root", "root -0 1\n", "line 1: not understood\n"),
    ("65 bits at root", "root 1 18446744073709551616\n",
     "line 1: not understood\n"),
    ("65 bits in an instant", "root 1 1\nquery A 9223372036854775808\n",
     "line 2: not understood\n"),
    ("33 bits in an offset", "root 1 1\nrow 0 0 -2147483649 0\n",
     "line 2: not understood\n"),
    ("another observance", "root 1 1\nrow 0 0 0 2\n",
     "line 2: not understood\n"),
    ("a tab is part of a word", "root 1 1\nforget\tA\n",
     "line 2: not understood\n"),
    ("a comment's first byte is the line's", "root 1 1\n # a\n",
     "line 2: not understood\n"),
    ("odd spacing and numbers",
     "#root\n  root  0003 09  \n\n   \nuplink   p\n"
     "  query A  -9223372036854775808\nquery A -0\nquery A 007",
     "query A -9223372036854775808: refused 11\nquery A 0: refused 11\n"
     "query A 7: refused 11\n"),

    # Names, intervals, spans, tables.
    ("names",
     "root 9 9\n" + publish(NAME_48) + publish(NAME_49) + publish("a.b")
     + fetch(NAME_48, 0, 1) + fetch(NAME_49, 0, 1)
     + "forget a\tb\nquery \xff 0\nabandon a.b\nforget a\0\n",
     f"publish {NAME_48}: edition 1\npublish {NAME_49}: refused 1\n"
     f"publish a.b: refused 1\nbegin {NAME_48}: slot 0\n"
     f"collect {NAME_48}: edition 1\nbegin {NAME_49}: refused 1\n"
     f"collect {NAME_49}: no pending fetch\nforget a\tb: refused 1\n"
     "query \xff 0: refused 1\nabandon a.b: no pending fetch\n"
     "forget a\0: refused 1\n"),
    ("the intervals of a begin, with a span",
     "root 9 9\nspan 0 100\nbegin A 5 5\nbegin A 6 5\n"
     "begin A -2208988801 5\nbegin A 5 4102444801\nbegin A -1 5\n"
     "begin A 5 101\nbegin . 5 5\n"
     "begin A -9223372036854775808 9223372036854775807\nbegin A 0 100\n",
     "begin A: refused 2\nbegin A: refused 2\nbegin A: refused 2\n"
     "begin A: refused 2\nbegin A: refused 3\nbegin A: refused 3\n"
     "begin .: refused 1\nbegin A: refused 2\nbegin A: slot 0\n"),
    ("a refused span is the era",
     f"root 9 9\nspan -2208988801 100\nbegin A {ERA_WORDS}\n",
     "begin A: slot 0\n"),
    ("the checks of a publication",
     "root 1 2\n" + publish("a.b", "") + publish("A", "")
     + "row -2208988800 0 0 0\npublish A -2208988800 4102444799\n"
     + publish("A", "row -2208988799 0 0 0\n")
     + publish("A", DAY_A + "row -2208988800 3600 0 0\n")
     + publish("A", DAY_A + "row 0 3601 0 0\n")
     + publish("A", DAY_A + "row 4102444800 3600 0 0\n")
     + publish("A", "row -2208988800 86400 0 0\n")
     + publish("A", "row -2208988800 0 -86400 0\n")
     + publish("A", many_rows(2))
     + publish("A", "row -2208988800 86399 -86399 0\n")
     + publish("B"),
     "publish a.b: refused 1\n" + "publish A: refused 13\n" * 8
     + "publish A: refused 14\npublish A: edition 1\n"
     "publish B: refused 14\n"),
    ("tables of 513 and of 512 rows",
     "root 9 512\n" + publish("A", many_rows(512))
     + publish("A", many_rows(511)) + publish("A"),
     "publish A: refused 13\npublish A: edition 1\npublish A: refused 14\n"),
    ("windows of 64 and of 65 rows",
     "root 9 900\n" + publish("A", many_rows(100))
     + fetch("A", 0, 640) + fetch("A", 0, 641) + "abandon A\n"
     + fetch("A", 5, 641) + "abandon A\n" + fetch("A", 5, 640)
     + "query A 639\n",
     "publish A: edition 1\nbegin A: slot 0\ncollect A: edition 1\n"
     "begin A: slot 0\ncollect A: refused 6 edition 1\nabandon A: done\n"
     "begin A: slot 0\ncollect A: refused 6 edition 1\nabandon A: done\n"
     "begin A: slot 0\ncollect A: edition 1\n"
     "query A 639: edition 1 local 639 offset 0 day 1"
     " at 1970-01-01T00:10:39\n"),
    ("local times outside the era",
     "root 9 9\n" + publish("A", "row -2208988800 86399 -86399 0\n")
     + publish("B", "row -2208988800 -86399 86399 1\n")
     + fetch("A", "-2208988800", "4102444800") + fetch("B", 0, 4102444800)
     + "query A -2208988800\nquery B 4102444799\n"
     "query A -2208988801\nquery B 4102444800\nquery B -1\n"
     "query B 9223372036854775807\n",
     "publish A: edition 1\npublish B: edition 2\nbegin A: slot 0\n"
     "collect A: edition 2\nbegin B: slot 1\ncollect B: edition 2\n"
     "query A -2208988800: edition 2 local -2209075199 offset -86399 day 0"
     " at 1899-12-31T00:00:01\n"
     "query B 4102444799: edition 2 local 4102531198 offset 86399 day 1"
     " at 2100-01-01T23:59:58\n"
     "query A -2208988801: refused 12\nquery B 4102444800: refused 12\n"
     "query B -1: refused 12\nquery B 9223372036854775807: refused 12\n"),

    # The client.
    ("no edition, no page, then a page",
     "root 9 9\n" + fetch("A", 0, 9) + publish("B") + "collect A\n"
     + publish("A") + "collect A\ncollect A\n",
     "begin A: slot 0\ncollect A: refused 4\npublish B: edition 1\n"
     "collect A: refused 5 edition 1\npublish A: edition 2\n"
     "collect A: edition 2\ncollect A: no pending fetch\n"),
    ("reserved, held, pending, forgotten",
     "root 9 9\n" + publish("A")
     + "forget A\nbegin A 0 9\nbegin A 1 2\nforget A\nquery A 0\ncollect A\n"
     "begin A 20 30\nforget A\nquery A 8\nabandon A\nabandon A\n"
     "query A 0\nforget A\nquery A 0\nforget A\n",
     "publish A: edition 1\nforget A: refused 11\nbegin A: slot 0\n"
     "begin A: refused 8\nforget A: refused 11\nquery A 0: refused 11\n"
     "collect A: edition 1\nbegin A: slot 0\nforget A: refused 8\n"
     "query A 8: edition 1 local 3608 offset 3600 day 0"
     " at 1970-01-01T01:00:08\n"
     "abandon A: done\nabandon A: no pending fetch\n"
     "query A 0: edition 1 local 3600 offset 3600 day 0"
     " at 1970-01-01T01:00:00\n"
     "forget A: done\nquery A 0: refused 11\nforget A: refused 11\n"),
    ("sixteen slots",
     "root 9 9\n" + "".join(f"begin n{i} 0 9\n" for i in range(17))
     + "begin n0 0 9\nabandon n3\nbegin n16 0 9\nabandon n16\nabandon n1\n"
     "begin n3 0 9\n",
     "".join(f"begin n{i}: slot {i}\n" for i in range(16))
     + "begin n16: refused 9\nbegin n0: refused 8\nabandon n3: done\n"
     "begin n16: slot 3\nabandon n16: done\nabandon n1: done\n"
     "begin n3: slot 1\n"),

    # The lines.
    ("a line with 64 marks",
     f"root 9 9\ndownlink {'q' * 64}\n" + publish("A") + "begin A 0 9\n"
     + "collect A\n" * 65,
     "publish A: edition 1\nbegin A: slot 0\n" + "collect A: refused 4\n" * 64
     + "collect A: edition 1\n"),
    ("a line with 65 marks",
     f"root 9 9\nuplink {'q' * 65}\n" + publish("A") + fetch("A", 0, 9),
     "publish A: edition 1\nbegin A: slot 0\ncollect A: edition 1\n"),
    ("a line with another mark",
     "root 9 9\nuplink qqQ\n" + publish("A") + fetch("A", 0, 9),
     "publish A: edition 1\nbegin A: slot 0\ncollect A: edition 1\n"),
    ("a lost request asks nothing below, a lost reply does",
     "root 9 9\nuplink q\ndownlink qr\n" + publish("A") + fetch("A", 0, 9)
     + "collect A\ncollect A\n",
     "publish A: edition 1\nbegin A: slot 0\ncollect A: refused 4\n"
     "collect A: refused 4\ncollect A: edition 1\n"),
    ("a reply lost on the way to the client is kept by the relay",
     "root 9 9\nuplink pq\ndownlink r\n" + publish("A") + fetch("A", 0, 9)
     + "collect A\n",
     "publish A: edition 1\nbegin A: slot 0\ncollect A: refused 4\n"
     "collect A: edition 1\n"),

    # The relay.
    ("the relay answers while the uplink loses",
     "root 9 9\nuplink pqr\n" + publish("A") + fetch("A", 0, 100)
     + publish("B") + fetch("A", 10, 20) + "query A 9\nquery A 10\n"
     + fetch("A", 0, 50) + fetch("A", 0, 101),
     "publish A: edition 1\nbegin A: slot 0\ncollect A: edition 1\n"
     "publish B: edition 2\nbegin A: slot 0\ncollect A: edition 1\n"
     "query A 9: refused 12\nquery A 10: edition 1 local 3610 offset 3600"
     " day 0 at 1970-01-01T01:00:10\nbegin A: slot 0\n"
     "collect A: edition 1\nbegin A: slot 0\ncollect A: edition 2\n"),
    ("a stale page is below the floor",
     "root 9 9\nuplink ppq\n" + publish("A") + fetch("A", 0, 100)
     + publish("B") + fetch("B", 0, 100) + fetch("A", 0, 100) + "collect A\n",
     "publish A: edition 1\nbegin A: slot 0\ncollect A: edition 1\n"
     "publish B: edition 2\nbegin B: slot 1\ncollect B: edition 2\n"
     "begin A: slot 0\ncollect A: refused 7 edition 1\n"
     "collect A: edition 2\n"),
    ("unchanged raises the kept edition",
     "root 9 9\nuplink pppq\n" + publish("A") + fetch("A", 0, 100)
     + publish("B") + fetch("B", 0, 100) + fetch("A", 0, 100) + "forget A\n"
     + fetch("A", 10, 20),
     "publish A: edition 1\nbegin A: slot 0\ncollect A: edition 1\n"
     "publish B: edition 2\nbegin B: slot 1\ncollect B: edition 2\n"
     "begin A: slot 0\ncollect A: edition 2\nforget A: done\n"
     "begin A: slot 0\ncollect A: edition 2\n"),
    ("unchanged to the client's tag raises no kept edition",
     "root 9 9\nuplink pppq\ndownlink pr\n" + publish("A")
     + fetch("A", 0, 100) + fetch("A", 50, 150) + "abandon A\n"
     + publish("B") + fetch("A", 0, 50) + fetch("A", 60, 70),
     "publish A: edition 1\nbegin A: slot 0\ncollect A: edition 1\n"
     "begin A: slot 0\ncollect A: refused 4\nabandon A: done\n"
     "publish B: edition 2\nbegin A: slot 0\ncollect A: edition 2\n"
     "begin A: slot 0\ncollect A: refused 7 edition 1\n"),
    ("too many rows now, though a page is kept",
     "root 9 900\nuplink ppq\n" + publish("A") + fetch("A", 0, 1000)
     + publish("A", many_rows(100)) + fetch("A", 0, 1000) + "collect A\n",
     "publish A: edition 1\nbegin A: slot 0\ncollect A: edition 1\n"
     "publish A: edition 2\nbegin A: slot 0\n"
     "collect A: refused 6 edition 2\ncollect A: edition 1\n"),
    ("a fresh, narrower window replaces the kept page",
     "root 9 9\nuplink ppq\n" + publish("A") + fetch("A", 0, 100)
     + publish("A", DAY_B) + fetch("A", 10, 20) + "query A 15\n"
     + fetch("A", 0, 100),
     "publish A: edition 1\nbegin A: slot 0\ncollect A: edition 1\n"
     "publish A: edition 2\nbegin A: slot 0\ncollect A: edition 2\n"
     "query A 15: edition 2 local 7215 offset 7200 day 1"
     " at 1970-01-01T02:00:15\nbegin A: slot 0\ncollect A: refused 4\n"),
    ("the same table again keeps its tag, so the wide page stays",
     "root 9 9\nuplink ppq\n" + publish("A") + fetch("A", 0, 100)
     + publish("A") + fetch("A", 10, 20) + fetch("A", 0, 100),
     "publish A: edition 1\nbegin A: slot 0\ncollect A: edition 1\n"
     "publish A: edition 2\nbegin A: slot 0\ncollect A: edition 2\n"
     "begin A: slot 0\ncollect A: edition 2\n"),
    ("a table back to an earlier one has a new tag",
     "root 9 9\nuplink ppq\n" + publish("A") + fetch("A", 0, 100)
     + publish("A", DAY_B) + publish("A") + fetch("A", 10, 20)
     + fetch("A", 0, 100),
     "publish A: edition 1\nbegin A: slot 0\ncollect A: edition 1\n"
     "publish A: edition 2\npublish A: edition 3\nbegin A: slot 0\n"
     "collect A: edition 3\nbegin A: slot 0\ncollect A: refused 4\n"),
    ("eight places",
     f"root 9 9\nuplink {'p' * 9}qq\n"
     + "".join(publish(f"n{i}") for i in range(9))
     + "".join(fetch(f"n{i}", 0, 9) for i in range(9))
     + fetch("n8", 0, 9) + fetch("n7", 0, 9),
     "".join(f"publish n{i}: edition {i + 1}\n" for i in range(9))
     + "".join(f"begin n{i}: slot {i}\ncollect n{i}: edition 9\n"
               for i in range(9))
     + "begin n8: slot 8\ncollect n8: refused 4\n"
     "begin n7: slot 7\ncollect n7: edition 9\n"),
]


def check_script(script, expected):
    """Whether the script prints what it must; else what it prints."""
    wanted = expected.encode("latin-1")
    status = 1 if wanted.endswith(b": not understood\n") else 0
    found = replay(script.encode("latin-1"))
    return None if found == (wanted, status) else found


# ----------------------------------------------------------------- the relay

class Stub:
    """A provider over the era that gives prepared answers, in order."""

    span = ERA

    def __init__(self, *answers):
        """Answers to give; `asked` has the known tags of the fetches."""
        self.answers = list(answers)
        self.asked = []

    def fetch(self, name, interval, known):
        """The next prepared answer."""
        self.asked.append(known)
        return self.answers.pop(0)


def window(start, end, after=3600):
    """A window with one row."""
    return Window(end, (Row(start, 0, after, 0),))


# A kept page at edition 5 with tag 3, and its cuts.
KEPT = Kept(5, 3, Window(100, (Row(0, 0, 3600, 0), Row(50, 3600, 7200, 1))))
INSIDE = Interval(50, 60)
INSIDE_CUT = Window(60, (Row(50, 3600, 7200, 1),))
ACROSS = Interval(50, 101)
FRESH_INSIDE = window(50, 60)
FRESH_ACROSS = window(50, 101)


def fresh(edition, tag, of=FRESH_INSIDE):
    """A fresh answer, by default to INSIDE."""
    return Fresh(edition, tag, of)


def kept(edition, tag, of=FRESH_INSIDE):
    """A kept page, by default of a fresh answer to INSIDE."""
    return Kept(edition, tag, of)


SERVED = Fresh(5, 3, INSIDE_CUT)

# Kept before, interval, caller's tag, answer below;
# tag that below is asked with, relay's answer, kept afterwards.
RELAY_CASES = [
    # Nothing is kept.
    (None, INSIDE, 0, fresh(2, 1), 0, fresh(2, 1), kept(2, 1)),
    (None, INSIDE, 1, Unchanged(2), 1, Unchanged(2), None),
    (None, INSIDE, 1, Refusal(4), 1, Refusal(4), None),
    (None, INSIDE, 1, Refusal(5, 2), 1, Refusal(5, 2), None),
    (None, INSIDE, 0, Refusal(6, 2), 0, Refusal(6, 2), None),
    # The kept window does not contain the interval.
    (KEPT, ACROSS, 9, fresh(6, 6, FRESH_ACROSS), 9,
     fresh(6, 6, FRESH_ACROSS), kept(6, 6, FRESH_ACROSS)),
    (KEPT, ACROSS, 9, fresh(5, 3, FRESH_ACROSS), 9,
     fresh(5, 3, FRESH_ACROSS), kept(5, 3, FRESH_ACROSS)),
    (KEPT, ACROSS, 9, fresh(4, 3, FRESH_ACROSS), 9,
     fresh(4, 3, FRESH_ACROSS), KEPT),
    (KEPT, ACROSS, 3, Unchanged(8), 3, Unchanged(8), KEPT),
    (KEPT, ACROSS, 3, Refusal(4), 3, Refusal(4), KEPT),
    (KEPT, ACROSS, 3, Refusal(5, 4), 3, Refusal(5, 4), KEPT),
    (KEPT, ACROSS, 3, Refusal(6, 8), 3, Refusal(6, 8), KEPT),
    # It does, and below is silent or of an earlier edition.
    (KEPT, INSIDE, 0, Refusal(4), 3, SERVED, KEPT),
    (KEPT, INSIDE, 9, Refusal(4), 3, SERVED, KEPT),
    (KEPT, INSIDE, 3, Refusal(4), 3, Unchanged(5), KEPT),
    (KEPT, INSIDE, 0, Refusal(5, 4), 3, SERVED, KEPT),
    (KEPT, INSIDE, 3, Refusal(6, 4), 3, Unchanged(5), KEPT),
    (KEPT, INSIDE, 0, fresh(4, 2), 3, SERVED, KEPT),
    (KEPT, INSIDE, 2, fresh(4, 2), 3, SERVED, KEPT),
    (KEPT, INSIDE, 3, fresh(4, 2), 3, Unchanged(5), KEPT),
    # It does, and below refuses at that edition or a later one.
    (KEPT, INSIDE, 0, Refusal(5, 5), 3, Refusal(5, 5), KEPT),
    (KEPT, INSIDE, 3, Refusal(6, 8), 3, Refusal(6, 8), KEPT),
    # It does, and below says that nothing has changed.
    (KEPT, INSIDE, 0, Unchanged(4), 3, SERVED, KEPT),
    (KEPT, INSIDE, 3, Unchanged(5), 3, Unchanged(5), KEPT),
    (KEPT, INSIDE, 0, Unchanged(8), 3, Fresh(8, 3, INSIDE_CUT),
     KEPT._replace(edition=8)),
    (KEPT, INSIDE, 3, Unchanged(8), 3, Unchanged(8),
     KEPT._replace(edition=8)),
    # It does, and there is a fresh window.
    (KEPT, INSIDE, 0, fresh(5, 4), 3, fresh(5, 4), kept(5, 4)),
    (KEPT, INSIDE, 3, fresh(8, 8), 3, fresh(8, 8), kept(8, 8)),
    (KEPT, INSIDE, 8, fresh(8, 8), 3, Unchanged(8), kept(8, 8)),
]


def check_relay(before, interval, known, below, asked, answer, after):
    """Whether a fetch at the relay goes as told; else how it went."""
    stub = Stub(below)
    relay = Relay(stub)
    if before is not None:
        relay.places[b"A"] = before
    given = relay.fetch(b"A", interval, known)
    found = (stub.asked, given, relay.places.get(b"A"))
    return None if found == ([asked], answer, after) else found


# -------------------------------------------------------------- small checks

def full_relay_keeps_nothing():
    """Eight other names take the places."""
    relay = Relay(Stub(fresh(9, 9)))
    others = {b"%d" % place: KEPT for place in range(8)}
    relay.places = dict(others)
    given = relay.fetch(b"A", INSIDE, 0)
    return (given, relay.places) == (fresh(9, 9), others)


def checks_use_no_fate():
    """A fetch that fails the checks 1 to 3 uses no fate."""
    line = Line(Truncation(Root(1, 1), Interval(0, 100)), b"q")
    given = [line.fetch(b".", INSIDE, 0).number,
             line.fetch(b"A", Interval(5, 5), 0).number,
             line.fetch(b"A", ACROSS, 0).number,
             line.used,
             line.fetch(b"A", INSIDE, 0).number,
             line.used]
    return given == [1, 2, 3, 0, 4, 1]


def floor_comes_before_page_and_rows():
    """A collect refuses with 7 even if 5 or 6 also applies."""
    client = Client(Stub(fresh(2, 1), Refusal(5, 1), Refusal(6, 1),
                         Unchanged(1), fresh(1, 1), Refusal(6, 2)))
    client.collect(client.begin(b"A", INSIDE))
    pending = client.begin(b"A", INSIDE)
    given = [client.collect(pending) for _ in range(5)]
    return given == [Refusal(7, 1)] * 4 + [Refusal(6, 2)]


def only_a_pending_fetch_ends():
    """A pending fetch that was accepted is not pending any more."""
    client = Client(Stub(fresh(2, 1)))
    pending = client.begin(b"A", INSIDE)
    client.collect(pending)
    given = [client.collect(pending), client.abandon(pending)]
    client.begin(b"A", ACROSS)
    given += [client.collect(pending), client.abandon(pending)]
    return given == [Refusal(10)] * 4


def cuts_are_right():
    """At an onset, between onsets, and up to an onset."""
    rows = KEPT.window.rows
    return (cut(rows, INSIDE) == INSIDE_CUT.rows
            and cut(rows, Interval(49, 51)) == (Row(49, 3600, 3600, 0),
                                                Row(50, 3600, 7200, 1))
            and cut(rows, Interval(0, 50)) == (Row(0, 0, 3600, 0),)
            and cut(rows, Interval(51, 52)) == (Row(51, 7200, 7200, 1),))


def last_edition_is_given():
    """There are 65,535 editions."""
    root = Root(100_000, 100_000)
    rows = (Row(ERA.start, 0, 0, 0),)
    given = [root.publish(b"A", rows, ERA) for _ in range(65_536)]
    return given[-2:] == [65_535, Refusal(14)]


SMALL_CHECKS = [full_relay_keeps_nothing, checks_use_no_fate,
                floor_comes_before_page_and_rows, only_a_pending_fetch_ends,
                cuts_are_right, last_edition_is_given]


def all_checks():
    """Each check's title, and None or what it found instead."""
    for title, script, expected in SCRIPTS:
        yield title, check_script(script, expected)
    for number, case in enumerate(RELAY_CASES, 1):
        yield f"relay case {number}", check_relay(*case)
    for check in SMALL_CHECKS:
        yield check.__doc__, None if check() else "something else"


def run_all():
    """Runs the checks; prints what fails; gives the exit status."""
    results = list(all_checks())
    failed = [result for result in results if result[1] is not None]
    for title, found in failed:
        print(f"failed: {title}\n  found {found}")
    print(f"{len(results) - len(failed)} of {len(results)} checks passed")
    return 1 if failed else 0
