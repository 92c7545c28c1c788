#!/usr/bin/env python3
"""Brings the names of definitions, lemmas, constructors and fields in specs/ and proofs/ to today's spelling.

usage: python3 tools/respell.py [--check] [FOLDER]

Run once, at the top of the repository (or of FOLDER), right after the toolchain's port.py.
--check prints the table of names and writes nothing.

Words are in snake case, types and modules in camel case. Dashes join names, each of which is declared here or
imported from a library; a plain word is added with an underscore. So `leadingDigits` is `leading_digits`, `used-append`
stays, as `used` and `append` are names, and `literals-read` is `literals_read`.
Where a lemma and a definition would fall together, the definition has the name, and the lemma takes `_lem` behind it.

Turned are the files of specs/ and proofs/, the clauses of src/, the texts of must-fail edits, and, for names in camel case and for what
stands in backticks, comments and pages. What rattle makes of the source (goals, steps) and what libraries declare keeps its name.
"""
import os
import re
import sys
from collections import defaultdict

CHECK = "--check" in sys.argv
ROOT = next((a for a in sys.argv[1:] if not a.startswith("--")), ".")
CRATES = os.path.join(ROOT, "crates")
WORD = re.compile(r"[^\s(){}\[\].,;\"`@]+")
FIELD = r"[^\s(){}\[\].,;:λ→×\"]+"
OWN_FOLDER = {"Proof.antt", "Answers.antt", "Invariants.antt"}
# Where a dash would stay by the rule but the name is one word of the papers, or where a name would hide another.
BY_HAND = {}


def read(path):
    with open(path, encoding="utf-8") as f:
        return f.read()


def walk(top, ends):
    for folder, dirs, files in os.walk(top):
        dirs[:] = sorted(d for d in dirs if d not in ("out", "target", ".git", "node_modules"))
        for name in sorted(files):
            if name.endswith(ends):
                yield os.path.join(folder, name)


def own_crates():
    return {d for d in os.listdir(CRATES) if os.path.isdir(os.path.join(CRATES, d))}


def declarations(path):
    """The names that a file declares, with the text of their types."""
    lines = read(path).split("\n")
    for i, line in enumerate(lines):
        text = line.strip()
        if not text or text.startswith("--"):
            continue
        indent = len(line) - len(line.lstrip())
        m = re.match(r"^(?:unfoldable |abbrev )?(?:pub )?(?:data|record) (%s)" % FIELD, text)
        if m:
            yield m.group(1), "Type 0"
            continue
        if re.match(r"^(use|pub use|mod|pub mod|open|elim|let|in|module|ghost)\b", text):
            continue
        m = re.match(r"^(?:(?:unfoldable|abbrev|pub|mutual) )*((?:%s )*%s) :(?: (.*))?$" % (FIELD, FIELD), text)
        if not m:
            continue
        kind = m.group(2) or ""
        j = i + 1
        while j < len(lines) and lines[j].strip() and len(lines[j]) - len(lines[j].lstrip()) > indent and not lines[j].strip().startswith("--"):
            kind += " " + lines[j].strip()
            j += 1
        for name in m.group(1).split():
            if name not in ("pub", "abbrev", "unfoldable", "mutual"):
                yield name, kind


def imported(crates):
    """Names that files import from other libraries than the repository's own."""
    found = set()
    for path in list(walk(CRATES, ".antt")) + list(walk(CRATES, ".rt")):
        for m in re.finditer(r"use ([A-Za-z][\w·.\-+']*)\.\{([^}]*)\}", read(path)):
            parts = m.group(1).split(".")
            own = parts[0] == "Rattle" and len(parts) > 1 and parts[1] in crates
            if not own:
                found |= {n.strip().split(" as ")[0].strip() for n in m.group(2).split(",")}
    return found


def snake(part):
    return re.sub(r"(?<=[a-z0-9'])([A-Z])", lambda m: "_" + m.group(1).lower(), part) if re.match(r"^[a-zκμ]", part) else part


def spelled(name, names):
    """A name by the rule, where names are all that a dash can join."""
    parts = [snake(p) for p in name.split("-")]
    return ("-" if all(p in names for p in parts) else "_").join(parts)


def main():
    crates = own_crates()
    libraries = imported(crates)
    declared, types = defaultdict(set), set()
    for path in walk(CRATES, ".antt"):
        if "/+" in path:
            continue
        made = os.path.basename(path) in OWN_FOLDER
        for name, kind in declarations(path):
            if made and re.search(r"\b(tie|goal|statement|\w*-?lts)\b\.|\bstatement\b|Need-|Measures|In \d", kind):
                continue
            if re.search(r"\bType\b[^→]*$", kind.split("→")[-1]):
                types.add(name)
            declared[name].add(path)
    kept = set(libraries)
    # What rattle makes: steps and goals.
    made = {"returns", "same_length", "same-length"}
    # A name that a dash can join: a definition, a constructor, a field, a type; none that is itself joined.
    plain = {snake(n) for n in declared if "-" not in n} | {n for n in libraries if "-" not in n}
    table = {}
    for name in sorted(declared):
        if name in kept or name in made or name in types or not re.match(r"^[a-zA-Zκμ]", name):
            continue
        if "-" not in name and not re.search(r"[a-z0-9'][A-Z]", name):
            continue
        if "-" not in name and re.match(r"^[A-Z]", name):
            continue
        new = BY_HAND.get(name) or spelled(name, plain)
        if new != name:
            table[name] = new
    taken = defaultdict(set)
    for name in declared:
        taken[table.get(name, name)].add(name)
    for name in libraries:
        taken[name].add(name)
    # A lemma whose name is no word of the source is turned in the files that declare or import it alone.
    beside = {}
    for new, olds in sorted(taken.items()):
        if len(olds) < 2:
            continue
        stated = [o for o in olds if any("/specs/" in p for p in declared.get(o, ()))]
        firm = [o for o in olds if o in libraries] or [o for o in stated if "-" not in o] or [o for o in olds if "-" not in o]
        if len(firm) != 1:
            sys.exit(f"respell: {new} is {sorted(olds)}, of which {firm} could keep the name")
        for old in sorted(olds):
            if old == firm[0]:
                continue
            (beside if old == new else table)[old] = new + "_lem"
            if new + "_lem" in taken:
                sys.exit(f"respell: {old}: {new}_lem is taken, too")
            if CHECK:
                print("together:", new, "of", firm[0], "and", old)
    # A name that a variable, a parameter or a part of the source has would be hidden by it.
    words = defaultdict(set)
    for path in walk(CRATES, (".antt", ".rt")):
        text = read(path)
        for w in set(WORD.findall(text)):
            words[w].add(path)
    for old, new in sorted(table.items()):
        if new in words and new not in declared and new not in libraries:
            if CHECK:
                print("seen:", old, "->", new, sorted(words[new])[:3])
    if CHECK:
        for old, new in sorted(table.items()):
            print(f"{old}\t{new}")
        for old, new in sorted(beside.items()):
            print(f"{old}\t{new}\tin the files that declare or import it")
        print(f"respell: {len(table) + len(beside)} names")
        return
    camel = {o: n for o, n in table.items() if "-" not in o}
    left = re.compile(r"(?<![\w'\-◌])(" + "|".join(sorted(map(re.escape, table), key=len, reverse=True)) + r")(?![\w'\-◌])")
    left_camel = re.compile(r"(?<![\w'\-◌])(" + "|".join(sorted(map(re.escape, camel), key=len, reverse=True)) + r")(?![\w'\-◌])")

    def turned(text):
        return left.sub(lambda m: table[m.group(1)], text)

    def turned_prose(text):
        text = re.sub(r"`[^`\n]+`", lambda m: turned(m.group(0)), text)
        text = camels.sub(lambda m: snake(m.group(1)) if m.group(1) not in camel and snake(m.group(1)) in snakes else m.group(1), text)
        return left_camel.sub(lambda m: camel[m.group(1)], text)

    modules = {(os.path.splitext(os.path.basename(p))[0], o) for o in beside for p in declared[o]}
    of_module = re.compile(r"(?<![\w'\-◌.])(" + "|".join(re.escape(f"{m}.{o}") for m, o in sorted(modules)) + r")(?![\w'\-◌])")
    # What port.py turned in crates/ alone.
    snakes = {n for n in list(declared) + list(table.values()) if "_" in n}
    camels = re.compile(r"(?<![\w'\-◌.])([a-z][a-z0-9]*(?:[A-Z][A-Za-z0-9]*)+)(?![\w'\-◌(])")

    def turned_beside(text):
        text = of_module.sub(lambda m: m.group(1).split(".")[0] + "." + beside[m.group(1).split(".")[1]], text)
        here = {o for o in beside if re.search(r"(?m)^ *(?:pub )?%s :|use [^\n]*[{, ]%s[,}]" % (re.escape(o), re.escape(o)), text)}
        if not here:
            return text
        return re.sub(r"(?<![\w'\-◌.])(" + "|".join(map(re.escape, here)) + r")(?![\w'\-◌])", lambda m: beside[m.group(1)], text)

    count = 0
    paths = list(walk(CRATES, (".antt", ".rt", ".edit"))) + list(walk(ROOT, ".md")) + list(walk(os.path.join(ROOT, "compare"), (".py", ".rs", ".md")))
    for path in paths:
        text = read(path)
        if path.endswith(".antt"):
            text = turned_beside(text)
            new = "\n".join(turned_prose(l) if l.lstrip().startswith("--") else turned(l) for l in text.split("\n"))
        elif path.endswith(".rt"):
            new = "\n".join(turned_prose(l) if l.lstrip().startswith("//") else turned(l) for l in text.split("\n"))
        elif path.endswith(".edit"):
            new = "\n".join(turned_prose(turned(l)) if re.match(r"^(old|new):", l) else turned_prose(l) for l in text.split("\n"))
        else:
            new = turned_prose(text)
        if new != read(path):
            count += 1
            with open(path, "w", encoding="utf-8") as f:
                f.write(new)
    print(f"respell: {len(table)} names, {count} files")


main()
