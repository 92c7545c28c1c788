"""Shows from the machine code of the built library how its functions call one another, and holds the text reader to C-15 of document 02.

    python3 robust/calls ARCHIVE           what each C function of the archive calls; fails if the text reader's functions break a rule
    python3 robust/calls planted ARCHIVE   whether each rule finds what is planted against it, in made objects and sources and in the archive

The rules: below a function of the text reader there is no cycle of calls, no call or jump to a place that is computed, nothing from outside but
what may be needed, and no more frames than its bound. In the sources, no cycle is in the text reader's crates, the cycles are those that
docs/ARCHITECTURE.md lists, and the machine code has no others.
"""

import sys
from pathlib import Path

import graph
import planted
import sources
from machine import Archive

TOP = Path(__file__).resolve().parent.parent.parent
# The functions of the text reader, and how many frames are open at once when one is called, its own the first.
BOUNDS = {"pinhkray_read_one": 3, "pinhkray_read_all": 3}
# What the library may need from outside. None of these calls the library.
OUTSIDE = {"memcpy", "memmove", "memset"}


def calls_of(archive):
    return {name: function.calls for name, function in archive.by_name.items()}


def computed_below(archive, name):
    run = graph.below(calls_of(archive), name) | {name}
    return [place for other in sorted(run & archive.by_name.keys()) for place in archive.by_name[other].computed]


def shown(way):
    return " > ".join(map(str, way))


def complaints(archive):
    """What the text reader's functions do against the rules."""
    calls = calls_of(archive)
    for name, bound in BOUNDS.items():
        if name not in calls:
            yield f"there is no function {name}"
            continue
        for cycle in graph.cycles(calls, name):
            yield f"{name} runs a cycle of calls: {cycle}"
        for place in computed_below(archive, name):
            yield f"{name} runs a computed call or jump: {place}"
        for other in sorted(graph.below(calls, name) - calls.keys() - OUTSIDE):
            yield f"{name} needs {other} from outside"
        way = graph.deepest(calls, name)
        if graph.frames(way) > bound:
            yield f"{name} takes {graph.frames(way)} frames, and the bound is {bound}: {shown(way)}"


def report(archive):
    """A line for each C function, the text reader's first."""
    calls = calls_of(archive)
    others = sorted(f.name for f in archive.functions if f.of_c and f.name not in BOUNDS)
    for name in [n for n in BOUNDS if n in calls] + others:
        way = graph.deepest(calls, name)
        cycles = " ".join(map(str, graph.cycles(calls, name)))
        computed = ", ".join(computed_below(archive, name))
        bound = f"bound {BOUNDS[name]}" if name in BOUNDS else "outside cycles" if cycles else "in all"
        yield f"{name}: cycles: {cycles or 'none'}; computed calls: {computed or 'none'}; frames: {graph.frames(way)}, {bound}: {shown(way)}"


def main(words):
    if len(words) == 1:
        archive = Archive(words[0])
        wrong = list(complaints(archive)) + list(sources.complaints(TOP, calls_of(archive)))
        lines = list(report(archive)) + list(sources.report(TOP)) + wrong
    elif len(words) == 2 and words[0] == "planted":
        answers = list(planted.answers(words[1], lambda made: complaints(Archive(made)), sources.complaints))
        wrong = [f"planted: {name}: the answer is {answer}" for name, answer, right in answers if answer != right]
        lines = wrong + [f"planted: {len(answers) - len(wrong)} of {len(answers)} answered as they should be"]
    else:
        print(__doc__)
        return 2
    for line in lines:
        print("robust: calls:", line)
    return 1 if wrong else 0


if __name__ == "__main__":
    sys.exit(main(sys.argv[1:]))
