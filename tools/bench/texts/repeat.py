#!/usr/bin/env python3
"""Repeats the good texts of an input of `texts` up to so many megabytes.

    python3 repeat.py STDIN STDOUT MEGABYTES
"""
import sys


def texts_of(data):
    """The texts of the input, with their head lines."""
    while data:
        head, rest = data.split(b"\n", 1)
        count = int(head.split()[1])
        yield data[: len(head) + 1 + count]
        data = rest[count:]


def main(stdin, stdout, megabytes):
    """Writes the good texts, again and again."""
    with open(stdin, "rb") as data, open(stdout, "rb") as lines:
        told = [line.split()[0] for line in lines if not line.startswith((b"read", b"row"))]
        good = [text for text, word in zip(texts_of(data.read()), told, strict=True) if word == b"written"]
    once = b"".join(good)
    sys.stdout.buffer.write(once * (int(megabytes) * 1_000_000 // len(once) + 1))


if __name__ == "__main__":
    main(*sys.argv[1:])
