#!/usr/bin/env python3
"""Compares a program that replays scripts with replay.py.

    python3 tools/compare_replays.py PROGRAM [COUNT [SEED]]

gives COUNT random scripts (2000), made of the seeds SEED (1), SEED + 1 and
so on, to PROGRAM on its standard input, and compares what it prints and its
exit status with what replay.py makes of them. At the first difference the
script is written to `difference.txt` in the current folder, and the run
stops. At the end it prints how many scripts agreed and how often each
outcome came. The exit status is 1 if there was a difference.
"""

import random
import subprocess
import sys
from collections import Counter
from pathlib import Path

from random_scripts import script
from replay import replay_and_count

TIME_LIMIT = 60
LINES_SHOWN = 5


def run_program(program, text):
    """What the program prints, and its exit status."""
    try:
        done = subprocess.run([program], input=text, stdout=subprocess.PIPE, stderr=subprocess.DEVNULL,
                              timeout=TIME_LIMIT)
    except subprocess.TimeoutExpired:
        return b"", f"none within {TIME_LIMIT} seconds"
    return done.stdout, done.returncode


def outcome_of(line):
    """The call and its outcome, without names and other numbers."""
    head, _, outcome = line.rpartition(b": ")
    words = outcome.decode("ascii", "replace").split(" ")
    call = head.split(b" ")[0].decode("ascii", "replace")
    if words[0] == "refused":
        return call, " ".join(words[:2])
    if words[0] in ("edition", "slot", "done"):
        return call, words[0]
    return call, " ".join(words)


def outcomes_of(printed):
    """How often each outcome stands in what was printed."""
    return Counter(outcome_of(line) for line in printed.split(b"\n") if line)


def show_difference(seed, text, expected, found):
    """Writes the script to a file and prints the first differing lines."""
    Path("difference.txt").write_bytes(text)
    print(f"seed {seed} differs; its script is in difference.txt")
    wanted, given = expected[0].split(b"\n"), found[0].split(b"\n")
    place = 0
    while (place < min(len(wanted), len(given))
           and wanted[place] == given[place]):
        place += 1
    if wanted != given:
        print(f"from line {place + 1} of what is printed:")
        for title, lines in (("replay.py", wanted), ("program", given)):
            for line in lines[place:place + LINES_SHOWN]:
                print(f"  {title:9} {line!r}")
    print(f"exit status: replay.py {expected[1]}, program {found[1]}")


def show_counts(title, counts):
    """Prints a table of counts."""
    print(title)
    for key, count in sorted(counts.items()):
        name = key if isinstance(key, str) else f"{key[0]:8} {key[1]}"
        print(f"  {count:8}  {name}")


def compare(program, count, seed):
    """Compares on the scripts; gives the exit status."""
    outcomes, cases = Counter(), Counter()
    agreed = 0
    for number in range(seed, seed + count):
        text = script(random.Random(number))
        printed, status, met = replay_and_count(text)
        found = run_program(program, text)
        if found != (printed, status):
            show_difference(number, text, (printed, status), found)
            break
        agreed += 1
        outcomes.update(outcomes_of(printed))
        cases.update(met)
    print(f"{agreed} of {count} scripts agreed")
    show_counts("outcomes of the calls:", outcomes)
    show_counts("cases at the relay, by replay.py:", cases)
    return 0 if agreed == count else 1


def main():
    """Reads the arguments."""
    if not 2 <= len(sys.argv) <= 4:
        sys.exit("usage: compare_replays.py PROGRAM [COUNT [SEED]]")
    count = int(sys.argv[2]) if len(sys.argv) > 2 else 2000
    seed = int(sys.argv[3]) if len(sys.argv) > 3 else 1
    sys.exit(compare(sys.argv[1], count, seed))


if __name__ == "__main__":
    main()
