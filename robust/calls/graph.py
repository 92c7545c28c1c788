"""Calls as a graph: a dictionary that has for each function the names of those that it calls."""

from dataclasses import dataclass


@dataclass(frozen=True)
class Step:
    """A function that does not call itself, or all the functions of a cycle of calls."""

    names: tuple
    cycle: bool

    def __str__(self):
        return "[" + " ".join(self.names) + "]" if self.cycle else self.names[0]


def below(calls, name):
    """The functions that run when one is called; this one only if it is called again."""
    found, waiting = set(), [name]
    while waiting:
        new = set(calls.get(waiting.pop(), ())) - found
        found |= new
        waiting += new
    return found


def step(calls, name):
    """The step that a function belongs to: its cycle, if it calls itself."""
    cycle = {other for other in below(calls, name) if name in below(calls, other)}
    return Step(tuple(sorted(cycle)), True) if cycle else Step((name,), False)


def cycles(calls, name):
    """The cycles of calls that a function is in, or runs."""
    steps = {step(calls, other) for other in below(calls, name)}
    return sorted((s for s in steps if s.cycle), key=str)


def frames(way):
    """The frames of a way down, those of its cycles not counted."""
    return sum(not s.cycle for s in way)


def deepest(calls, name):
    """The way down from a function that has the most frames outside cycles, step by step."""

    def from_here(here):
        after = {step(calls, callee) for caller in here.names for callee in calls.get(caller, ())} - {here}
        ways = [from_here(s) for s in sorted(after, key=str)]
        return [here] + max(ways, key=frames, default=[])

    return from_here(step(calls, name))
