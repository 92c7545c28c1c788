#!/usr/bin/env python3
"""Orders recorded answers for the program `replay`: compare/recorded.py ANSWERS > crates/replay/stdin

A case is a line, `OP START TREE DRAFT OUT INPUT = REFUSAL A B COUNT WORDS`, and none is changed, dropped or doubled; a line that begins with `#` is a note, and left out. They are put in
an order in which as many as can be start at the count that the line before leaves, so that they are calls on one reader. Flattening
(F) takes no reader and stands anywhere between them.
"""

import random
import sys
from collections import defaultdict


def components(steps):
    """The counts that are joined by steps, as sets."""
    group = {}
    for start, after, _ in steps:
        a, b = group.setdefault(start, {start}), group.setdefault(after, {after})
        if a is not b:
            a |= b
            group.update((count, a) for count in b)
    return {id(counts): counts for counts in group.values()}.values()


def walk(leaving, first):
    """Every step once, in a round from `first` back to it; a step is (count after, line)."""
    path, found = [(first, None)], []
    while path:
        count, line = path[-1]
        if leaving[count]:
            path.append(leaving[count].pop())
        else:
            found.append(line)
            path.pop()
    return found[::-1][1:]


def sessions(steps):
    """Lists of lines, each line's start the count that the line before leaves, and as few lists as can be."""
    for counts in sorted(components(steps), key=min):
        leaving, surplus = defaultdict(list), defaultdict(int)
        for start, after, line in steps:
            if start in counts:
                leaving[start].append((after, line))
                surplus[start] += 1
                surplus[after] -= 1
        # Steps without a line lead from where sessions end to where others begin; the round is cut at them.
        begins = [count for count in sorted(surplus) for _ in range(surplus[count])]
        ends = [count for count in sorted(surplus) for _ in range(-surplus[count])]
        for end, begin in zip(ends, begins):
            leaving[end].insert(0, (begin, None))
        first = begins[0] if begins else min(counts)
        session = []
        for line in walk(leaving, first) + [None]:
            if line is not None:
                session.append(line)
            elif session:
                yield session
                session = []


def main():
    lines = [line for line in open(sys.argv[1]).read().splitlines() if not line.startswith("#")]
    shuffle = random.Random(1).shuffle
    shuffle(lines)
    steps = [(int(f[1]), int(f[10]), line) for line in lines for f in [line.split(" ")] if f[0] != "F"]
    ordered = [line for session in sessions(steps) for line in session]
    flattenings = [line for line in lines if line.startswith("F ")]
    apart = len(ordered) // (len(flattenings) + 1)
    for i, line in enumerate(flattenings):
        ordered.insert((i + 1) * (apart + 1) - 1, line)
    assert sorted(ordered) == sorted(lines)
    print("\n".join(ordered))


main()
