#!/usr/bin/env python3
"""Counts lines anew in the tables of docs/TRUST.md (definitions) and docs/ARCHITECTURE.md (crates): docs/counts.py [LOG]

LOG is what .ci/run printed, if rt said there how long each crate took, as `rt: NAME proved (N s)`; the seconds are then taken from it. Today's rt says no
seconds, so those of the table stay as they are. A crate that no log has named yet has a dash.
"""

import re
import sys
from pathlib import Path

TOP = Path(__file__).resolve().parent.parent
IMPORTS = ("use ", "mod ", "pub mod ")
# What is written of the proof of a function, or of a cycle of them; what stands in a folder Proof belongs to it, too.
OF_FUNCTIONS = {"Invariants.antt", "Answers.antt", "Proof.antt"}
SECONDS = dict(re.findall(r"^rt: (\w+) proved \((\d+) s\)", Path(sys.argv[1]).read_text(), re.M)) if len(sys.argv) > 1 else {}


def lines(files, imports):
    """Lines that hold more than a comment or a setting of the crate; imports count where they are asked for."""
    rows = (line.strip() for file in files for line in file.read_text().splitlines())
    return sum(1 for row in rows if row and not row.startswith(("--", "//", "#![")) and (imports or not row.startswith(IMPORTS)))


def definition(row):
    return f"{row[1]}{lines([(TOP / 'docs' / row[2]).resolve()], False)}{row[3]}"


def crate(row):
    folder = TOP / "crates" / row[1]
    proofs = list((folder / "proofs").rglob("*.antt"))
    functions = [file for file in proofs if file.name in OF_FUNCTIONS or file.parent.name == "Proof"]
    laws = [file for file in proofs if file not in functions]
    parts = [list((folder / "src").rglob("*.rt")), list((folder / "specs").rglob("*.antt")), laws, functions]
    counts = " | ".join(str(lines(files, True)) for files in parts)
    return f"| `{row[1]}` |{row[2]}| {counts} | {SECONDS.get(row[1], row[3])} |"


def main():
    trust = TOP / "docs/TRUST.md"
    text = re.sub(r"^(\| \[\w+/\w+\]\((\S+)\) \| )\d+( \|)", definition, trust.read_text(), flags=re.M)
    total = sum(map(int, re.findall(r"^\| \[\w+/\w+\]\(\S+\) \| (\d+) \|", text, re.M)))
    trust.write_text(re.sub(r"(\| all of them \| )\d+", rf"\g<1>{total}", text))
    architecture = TOP / "docs/ARCHITECTURE.md"
    architecture.write_text(re.sub(r"^\| `(\w+)` \|(.*?\|.*?)\| \d+ \| \d+ \| \d+ \| \d+ \| (\d+|-) \|$", crate, architecture.read_text(), flags=re.M))


main()
