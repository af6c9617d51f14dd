#!/usr/bin/env python3
"""Brings the repository's own definitions and lemmas to one spelling: words in snake case, types and facts in camel case.

    python3 tools/respell.py        at the top of the repository, once, after the toolchain's own port

Names are collected where specs/ and proofs/ declare them: `name-byte` becomes `name_byte`, and
`Names-ordered` becomes `NamesOrdered`. Names that the toolchain makes (goals, steps, invariants) and
names of its library keep theirs, as do the names, strings, inputs and outputs of the code. It prints
names that would fall together, and then changes nothing.
"""
import re
import sys
from collections import defaultdict
from pathlib import Path

ROOT = Path(".")
PART = r"[A-Za-z0-9_'≡≢≤<∷]"
NAME = rf"[A-Za-z]{PART}*(?:-{PART}+)+"
DECLARED = re.compile(rf"^\s*(?:abbrev |unfoldable )?(?:pub )?(?:abbrev |unfoldable )?(data |record )?({NAME})(?=[ :]).*? ?: (.*)$")
TOKEN = re.compile(rf"(?<![\w'\-≡≢≤<∷«])({NAME})(?![\w'\-≡≢≤∷])")
GENERATED = ("invariant-", "decreases-")


def antt_files():
    """The files of definitions and proofs."""
    return sorted([*ROOT.glob("crates/*/specs/**/*.antt"), *ROOT.glob("crates/*/proofs/**/*.antt")])


def respelled(name):
    """The name in the new spelling."""
    parts = name.split("-")
    if name[0].isupper():
        return "".join(p[0].upper() + p[1:] for p in parts)
    return "_".join(parts)


def own_names():
    """The names with a dash that the repository declares, each with its files."""
    names = defaultdict(set)
    for path in antt_files():
        for line in path.read_text().splitlines():
            found = DECLARED.match(line)
            if not found or found.group(3).startswith(("goal.", "need.")) or found.group(2).startswith(GENERATED):
                continue
            names[found.group(2)].add(path)
    for path in [*antt_files(), *ROOT.glob("crates/*/src/**/*.rt")]:
        for name in re.findall(rf" (?:as|let) ({NAME})(?=[ ,}}])", path.read_text()):
            names[name].add(path)
    return names


def library_names():
    """Names that are imported from the library."""
    names = set()
    for path in [*antt_files(), *ROOT.glob("crates/*/src/**/*.rt")]:
        for items in re.findall(r"use (?:Rattle\.std|native|borrow|logic|denote|mathlib)\.[^{;\n]*\{([^}]*)\}", path.read_text()):
            names.update(re.split(r" as ", item.strip())[0] for item in items.split(","))
    return names


def step_names(text):
    """The names of steps that an answer cites, after `c.`, `l.` or `w.`."""
    return set(re.findall(rf"(?<![\w.])(?:c|l|w)\.({NAME})", text))


def turned(text, names, keep):
    """The text with its names respelled, but for steps of an answer."""
    def put(match):
        name = match.group(1)
        before = text[max(0, match.start() - 3):match.start()]
        if name not in names or (name in keep and re.search(r"(?<![\w.])[clw]\.$", before)):
            return name
        return respelled(name)
    return TOKEN.sub(put, text)


def turned_code(text, names):
    """A source with the names in its ghost lines, clauses and comments respelled."""
    lines = []
    ghost = False
    for line in text.splitlines(keepends=True):
        bare = line.strip()
        starts = re.match(r"(ghost|ensures|requires|follows|also_|impl\b.*ghost|#\[tactic|//)", bare)
        if starts or ghost:
            line = turned(line, names, set())
        if starts and not bare.startswith("//"):
            ghost = line.count("{") > line.count("}")
        elif ghost:
            ghost = (line.count("}") <= line.count("{"))
        lines.append(line)
    return "".join(lines)


def main():
    names = own_names()
    for name in library_names() & set(names):
        del names[name]
    clashes = []
    for path in antt_files():
        text = path.read_text()
        used = {t for t in TOKEN.findall(text) if t in names}
        words = set(re.findall(r"(?<![\w'\-.])[A-Za-z][\w']*(?![\w'\-.])", text))
        new = defaultdict(set)
        for name in used:
            new[respelled(name)].add(name)
        for name, olds in new.items():
            if len(olds) > 1 or name in words:
                clashes.append(f"{path}: {sorted(olds)} becomes {name}, which is there")
    for clash in clashes:
        print(clash)
    if "--names" in sys.argv:
        for name in sorted(names):
            print(name, respelled(name))
    if clashes and "--anyway" not in sys.argv:
        return 1
    for path in antt_files():
        text = path.read_text()
        path.write_text(turned(text, names, step_names(text)))
    for path in ROOT.glob("crates/*/src/**/*.rt"):
        path.write_text(turned_code(path.read_text(), names))
    for path in ROOT.glob("crates/*/must-fail/*.edit"):
        text = path.read_text()
        if re.search(r"file: (specs|proofs)/", text):
            path.write_text(turned(text, names, set()))
    for path in [*ROOT.glob("*.md"), *ROOT.glob("docs/**/*.md")]:
        text = path.read_text()
        path.write_text(re.sub(r"`[^`\n]*`", lambda m: turned(m.group(0), names, set()), text))
    return 0


if __name__ == "__main__":
    sys.exit(main())
