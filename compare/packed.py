#!/usr/bin/env python3
"""Shortens recorded answers of C-11: compare/packed.py ANSWERS > compare/smtlib.txt, and the same for smtlib-let.txt

A case is a line, `WORDS TEXT ROOM = REFUSAL BYTES`; the file's own notes say how these are written. None is changed, dropped or doubled:
numbers that come again and again are written once, `(10,2,0)*50`, and bytes as `6e20*50`. But a section that holds until one of these requests
lands is left out, since they have landed: the file of that request has its cases.
"""

import re
import sys

# A part that comes again has at most so many numbers or bytes, and saves at least so many.
LONGEST, LEAST = 24, 16
# The requests that have landed, and how a section begins that holds until one does.
LANDED, UNTIL = {"C-17"}, "# == until "
# How the notes say it.
NOTE = "# - WORDS: the solution's words, `-` for none, else hexadecimal numbers joined by `,`, each perhaps `*N`: N times."
PACKED = NOTE + "\n#   `(A,B)*N` is A and B, N times."


def packed(items):
    """The items as (part, times), a part being a list of items."""
    found, at, alone = [], 0, []
    while at < len(items):
        saved, size, times = 0, 0, 0
        for n in range(1, LONGEST + 1):
            k = 1
            while items[at + k * n : at + (k + 1) * n] == items[at : at + n]:
                k += 1
            if (k - 1) * n >= max(saved + 1, LEAST):
                saved, size, times = (k - 1) * n, n, k
        if saved:
            found += [(alone, 1)] if alone else []
            found.append((items[at : at + size], times))
            alone, at = [], at + size * times
        else:
            alone.append(items[at])
            at += 1
    return found + ([(alone, 1)] if alone else [])


def words_of(field):
    if field == "-":
        return []
    parts = re.findall(r"\(([0-9a-f,]+)\)\*(\d+)|([0-9a-f]+)(?:\*(\d+))?", field)
    return [word for group, n, one, m in parts for word in (group.split(",") * int(n) if group else [one] * int(m or 1))]


def bytes_of(field):
    if field == "-":
        return []
    parts = [(part + "*1").split("*")[:2] for part in field.split(".")]
    return [part[i : i + 2] for part, n in parts for _ in range(int(n)) for i in range(0, len(part), 2)]


def words_field(items):
    def part(part, n):
        return ",".join(part) if n == 1 else f"{part[0]}*{n}" if len(part) == 1 else f"({','.join(part)})*{n}"

    return ",".join(part(*p) for p in packed(items)) or "-"


def bytes_field(items):
    return ".".join("".join(part) + (f"*{n}" if n > 1 else "") for part, n in packed(items)) or "-"


def landed(section):
    """Whether a section's cases are answered otherwise by now."""
    until = section.removeprefix(UNTIL).partition(" lands")[0]
    return section.startswith(UNTIL) and not LANDED.isdisjoint(until.split(" or "))


def main():
    left_out = False
    for line in open(sys.argv[1]).read().splitlines():
        if line.startswith("# == "):
            left_out = landed(line)
        if left_out:
            continue
        if line == "" or line.startswith("#"):
            print(PACKED if line == NOTE else line)
            continue
        words, text, room, _, refusal, written = line.split(" ")
        short = words_field(words_of(words)), bytes_field(bytes_of(text)), bytes_field(bytes_of(written))
        assert [words_of(words), bytes_of(text), bytes_of(written)] == [words_of(short[0]), bytes_of(short[1]), bytes_of(short[2])]
        print(short[0], short[1], room, "=", refusal, short[2])


main()
