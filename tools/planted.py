#!/usr/bin/env python3
"""Plants bugs in the code, and tells which of them the check refuses.

    python3 tools/planted.py [CRATE ..]            plants the bugs of these crates (of all, where none is named)
    python3 tools/planted.py --write [CRATE ..]    and writes what came of it into docs/PLANTED.md

tools/planted/CRATE.edits has the bugs of a crate, each a block of lines parted from the next by a
blank line: what it turns (a line that begins with '#'), 'file:', 'old:' (which stands once in that
file) and 'new:'.

The check proves each function by itself, from the contracts of what it calls. So the bugs of
different functions are planted together, as many as have functions of their own, and each is judged
by what the check says of its own function: refused, where a fact of that function is no longer
proved, or survived. A bug outside of every function is planted alone. It all happens in a copy of the
repository; needs `rt`, and an earlier `rt check`, whose target/ is taken over.
"""
import re
import shutil
import subprocess
import sys
import tempfile
from collections import defaultdict
from pathlib import Path
from typing import NamedTuple

ROOT = Path(__file__).resolve().parent.parent
EDITS = ROOT / "tools" / "planted"
REPORT = ROOT / "docs" / "PLANTED.md"


class Bug(NamedTuple):
    """One bug: what it turns, the file, the text and what stands for it, and its function."""

    crate: str
    title: str
    file: str
    old: str
    new: str
    function: str


class Verdict(NamedTuple):
    """Whether the bug was refused, and where that was said or why not."""

    refused: bool
    words: str


def function_at(text, place):
    """The function around a place of a source, as the check names it, from its impl or module on."""
    impl = name = None
    for line in text[:place].splitlines():
        if re.match(r"(pub )?impl\b", line):
            alias = re.search(r"\bas (\w+)", line)
            impl = alias.group(1) if alias else re.match(r"impl(?:<[^>]*>)? (\w+)", line).group(1)
        elif re.match(r"\}", line):
            impl = name = None
        found = re.match(r"\s*(?:pub(?:\(crate\))? )?(?:const )?(?:extern \"C\" )?fn (\w+)", line)
        if found:
            name = found.group(1)
    last = text[place:].splitlines()[0]
    found = re.match(r"\s*(?:pub(?:\(crate\))? )?fn (\w+)", last)
    name = found.group(1) if found else name
    return None if name is None else (f"{impl}::{name}" if impl else name)


def bugs_of(crate):
    """The bugs of a crate."""
    bugs = []
    for block in (EDITS / f"{crate}.edits").read_text().split("\n\n"):
        lines = block.strip("\n").splitlines()
        parts = {key: line[len(key) + 1 :].removeprefix(" ") for line in lines for key in ("file", "old", "new") if line.startswith(f"{key}:")}
        title = next((line[1:].strip() for line in lines if line.startswith("#")), "")
        if not parts:
            continue
        text = (ROOT / "crates" / crate / parts["file"]).read_text()
        if text.count(parts["old"]) != 1:
            sys.exit(f"{crate}: '{parts['old']}' stands {text.count(parts['old'])} times in {parts['file']}")
        module = Path(parts["file"]).stem
        function = function_at(text, text.index(parts["old"]))
        if function and "::" not in function:
            function = f"{module}::{function}"
        bugs.append(Bug(crate, title, parts["file"], parts["old"], parts["new"], function))
    return bugs


def rounds_of(bugs):
    """The bugs in rounds, in each of which no function has two."""
    rounds = []
    for bug in bugs:
        for group in rounds:
            if bug.function and all(other.function and other.function != bug.function for other in group):
                group.append(bug)
                break
        else:
            rounds.append([bug])
    return rounds


def copy_of(crate, folder):
    """Copies the repository with what an earlier check left of the crate and of what it needs."""
    shutil.copytree(ROOT / "crates", folder / "crates")
    shutil.copy(ROOT / "crates.txt", folder / "crates.txt")
    subprocess.run(["git", "init", "-q", str(folder)], check=True)
    target = ROOT / "target"
    for part in ("rlib", "stamp"):
        if (target / part).exists():
            shutil.copytree(target / part, folder / "target" / part)
    (folder / "target" / "log").mkdir(parents=True, exist_ok=True)


def plant(folder, group):
    """Plants the bugs of a round into a fresh copy of their crate's source, and checks it."""
    crate = group[0].crate
    source = folder / "crates" / crate
    shutil.rmtree(source / "src")
    shutil.copytree(ROOT / "crates" / crate / "src", source / "src")
    for bug in group:
        path = source / bug.file
        text = path.read_text()
        if text.count(bug.old) != 1:
            raise ValueError(f"{crate}: bugs in one line: {bug.old}")
        path.write_text(text.replace(bug.old, bug.new))
    inc = folder / "target" / "inc" / crate
    shutil.rmtree(inc, ignore_errors=True)
    if (ROOT / "target" / "inc" / crate).exists():
        shutil.copytree(ROOT / "target" / "inc" / crate, inc)
    ran = subprocess.run(["rt", "dev", crate], cwd=folder, capture_output=True, text=True)
    return ran.stdout + ran.stderr


def verdict_of(bug, said):
    """What the check said of the bug's function; None where it did not come so far."""
    lines = [line for line in said.splitlines() if line.startswith(f"fn {bug.crate}::")]
    if not lines:
        return None
    if bug.function is None:
        failed = [line for line in lines if "not close" in line or line.endswith("not proved")]
        return Verdict(bool(failed), failed[0].split(":")[-3] if failed else "")
    mine = [line for line in lines if re.match(rf"fn [\w:+]*::{re.escape(bug.function)}: ", line)]
    if not mine:
        return None
    words = mine[0].split(": ", 1)[1]
    if words == "proved" or words.startswith("no proof: it calls"):
        return Verdict(False, "survived")
    facts = re.findall(r"`([\w·-]+)`", words.split("does not close", 1)[1].split(";")[0]) if "does not close" in words else []
    if facts:
        return Verdict(True, "fact " + ", ".join(f"`{fact}`" for fact in facts[:2]))
    path = bug.function.replace("::", "/")
    first = re.search(rf"proofs/\S*{re.escape(path.split('/')[-1])}/\w+\.antt:\d+:\d+: error: `([\w·-]+)`", said)
    return Verdict(True, f"answer to `{first.group(1)}`" if first else "in the proof file")


def try_round(folder, group):
    """The verdicts of a round; one by one, where the code of the round does not compile."""
    said = plant(folder, group)
    verdicts = [verdict_of(bug, said) for bug in group]
    if None in verdicts:
        if len(group) == 1:
            error = next((line for line in said.splitlines() if "error" in line), "no verdict")
            return [Verdict(False, f"NO VERDICT: {error[:160]}")]
        return [try_round(folder, [bug])[0] for bug in group]
    return verdicts


def try_crate(crate):
    """Plants all bugs of a crate, and gives them with their verdicts."""
    results = {}
    with tempfile.TemporaryDirectory() as name:
        folder = Path(name)
        copy_of(crate, folder)
        bugs = bugs_of(crate)
        for group in rounds_of(bugs):
            for bug, verdict in zip(group, try_round(folder, group)):
                results[bug] = verdict
                print(f"{'refused ' if verdict.refused else 'SURVIVED'} {crate} {bug.function}: {bug.title} ({verdict.words})", flush=True)
    return [(bug, results[bug]) for bug in bugs]


def section(crate, results):
    """The table of a crate."""
    lines = [f"## {crate}", "", "| function | bug | from | to | refused by |", "|---|---|---|---|---|"]
    code = lambda text: "`" + text.strip().replace("|", "\\|") + "`"
    for bug, verdict in results:
        words = verdict.words if verdict.refused else f"**{verdict.words}**"
        lines.append(f"| `{bug.function}` | {bug.title} | {code(bug.old)} | {code(bug.new) if bug.new.strip() else '(nothing)'} | {words} |")
    return "\n".join(lines) + "\n"


def write(sections):
    """Puts the tables into the report, each in the place of its crate's."""
    head, *rest = REPORT.read_text().split("\n## ") if REPORT.exists() else ["# Planted bugs\n"]
    tables = {part.splitlines()[0]: "## " + part.rstrip("\n") + "\n" for part in rest}
    tables.update(sections)
    REPORT.write_text(head.rstrip("\n") + "\n\n" + "\n".join(tables[crate] for crate in sorted(tables)))


def main(words):
    """Plants the bugs of the crates that are named."""
    if not EDITS.is_dir():
        sys.exit("no bugs are written down, so nothing was tried: tools/planted/ is not there")
    crates = [word for word in words if word != "--write"] or sorted(path.stem for path in EDITS.glob("*.edits"))
    survived, sections, count = 0, {}, defaultdict(int)
    for crate in crates:
        results = try_crate(crate)
        survived += sum(not verdict.refused for _, verdict in results)
        count[crate] = len(results)
        sections[crate] = section(crate, results)
        if "--write" in words:
            write({crate: sections[crate]})
    print(f"{sum(count.values())} bugs planted, {survived} survived")
    return 1 if survived else 0


if __name__ == "__main__":
    sys.exit(main(sys.argv[1:]))
