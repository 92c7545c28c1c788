"""Holds SMT-LIB terms that the library writes against solvers: python3 compare/solver SEED N

N well-sorted solutions are grown at random and written by the library, in compare/target/release/compare. With declarations made from their
names, z3 and cvc5 read them without error; and what z3's own parser makes of each has the solution's shape. The last needs z3's module for
Python, which Debian has for /usr/bin/python3 (python3-z3). What a machine lacks is skipped, and said so.
"""

import random
import shutil
import subprocess
import sys
from pathlib import Path

sys.dont_write_bytecode = True
import script
import shape
import words
from grower import Grower

try:
    import view
except ImportError:
    view = None

COMPARE = Path(__file__).resolve().parent.parent / "target/release/compare"
BATCH = 500
# cvc5 1.0.3 does not read a test of a constructor whose name stands in bars.
PROGRAMS = {"z3": (["z3", "-in"], ""), "cvc5": (["cvc5", "--lang", "smt2", "-"], "(set-logic ALL)\n")}
NOT_READ = {"z3": None, "cvc5": "(_ is "}


class Case:
    """A solution, its words and text, and what a solver is told of it."""

    def __init__(self, source):
        grown = Grower(source)
        self.parameters, self.body = grown.solution()
        self.words, self.text = words.solution(self.parameters, self.body)
        self.declared = script.declarations(grown)

    def asked(self):
        return ",".join(f"{w:x}" for w in self.words) + " " + self.text.hex()

    def answered(self, line):
        refusal, _, self.written = line.partition(" ")
        if refusal != "0":
            raise SystemExit(f"solver: refused with {refusal}: {self.asked()}")

    def script(self, form):
        return "\n".join([*self.declared, form(self.written)])


def write(cases):
    """Lets the library write a batch."""
    told = "".join(case.asked() + "\n" for case in cases)
    lines = subprocess.run([COMPARE, "write"], input=told, capture_output=True, text=True, check=True).stdout.splitlines()
    assert len(lines) == len(cases), "an answer for each solution"
    for case, line in zip(cases, lines):
        case.answered(line)


def seen(case):
    """z3's view of a solution is its shape."""
    text = case.script(script.claim)
    try:
        found = view.claim(text)
    except view.z3.Z3Exception as error:
        raise SystemExit(f"solver: z3's module: {error}\n{text}")
    good = view.sorted_text(shape.solution(case.parameters, case.body))
    if found != good:
        raise SystemExit(f"solver: z3 sees {found}\nand not {good}\n{text}")


def read(program, cases):
    """A program reads all scripts and says nothing of them."""
    command, before = PROGRAMS[program]
    told = "".join(f"{before}{case.script(script.definition)}\n(reset)\n" for case in cases)
    done = subprocess.run(command, input=told, capture_output=True, text=True)
    if done.returncode or done.stdout.strip():
        for case in cases[: len(cases) if len(cases) > 1 else 0]:
            read(program, [case])
        raise SystemExit(f"solver: {program} says {done.stdout}{done.stderr}\n{told}")


def main():
    seed, n = int(sys.argv[1]), int(sys.argv[2])
    programs = {program: 0 for program in PROGRAMS if shutil.which(program)}
    for program in PROGRAMS:
        if program not in programs:
            print(f"solver: {program} skipped, for want of it")
    if view is None:
        print("solver: z3's view skipped, for want of its module for Python")
    if not programs and view is None:
        return
    source = random.Random(seed)
    nodes = 0
    for first in range(0, n, BATCH):
        cases = [Case(source) for _ in range(min(BATCH, n - first))]
        write(cases)
        nodes += sum(len(case.words) for case in cases)
        for program in programs:
            readable = [case for case in cases if NOT_READ[program] is None or NOT_READ[program] not in case.written]
            read(program, readable)
            programs[program] += len(readable)
        if view is not None:
            for case in cases:
                seen(case)
    for program, scripts in programs.items():
        print(f"solver: {program} reads {scripts} scripts without error")
    if view is not None:
        print(f"solver: z3's own view of {n} solutions, {nodes} words: the same shape")


main()
