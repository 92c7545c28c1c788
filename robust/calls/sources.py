"""Which functions call themselves, by the sources. Functions that call one another have a mark each, `#[cycle(NAME)]`, with one name for all of
them, and the prover refuses them without it. One that calls itself alone has its proof in a folder named +F after it, unless it goes down a list or a
tree and needs none; so its text is looked at, too: whether it calls its own name."""

import re

import graph

NOTE = "docs/ARCHITECTURE.md"
HEADING = "Functions that call themselves"

COMMENT = re.compile(r"//[^\n]*")
MARK = re.compile(r"#\[cycle\((\w+)\)\]")
# What a mark stands on.
ITEM = re.compile(r"\b(fn|struct|enum|impl)\s+(\w+)")
FUNCTION = re.compile(r"\bfn\s+(\w+)")


def files(folder):
    """The source files of a crate: the names of a file's modules, and its text without comments."""
    for file in sorted((folder / "src").rglob("*.rt")):
        modules = [name for name in file.relative_to(folder / "src").with_suffix("").parts if name not in ("lib", "main", "mod")]
        yield modules, COMMENT.sub("", file.read_text())


def marked(text):
    """The functions under a mark, each with the name of its cycle."""
    for mark in MARK.finditer(text):
        item = ITEM.search(text, mark.end())
        if item and item[1] == "fn":
            yield mark[1], item[2]


def alone(text):
    """The functions that name themselves where a call is written."""
    heads = list(FUNCTION.finditer(text))
    for head, end in zip(heads, [head.start() for head in heads[1:]] + [len(text)]):
        if re.search(rf"(?<![\w.:])(?:self\.|Self::)?{head[1]}\(", text[head.end() + 1 : end]):
            yield head[1]


def cycles_of(folder):
    """Each cycle of a crate, the names of its functions."""
    crate, named, single = folder.name, {}, set()
    for modules, text in files(folder):
        for cycle, function in marked(text):
            named.setdefault(cycle, set()).add("::".join([crate, *modules, function]))
        single |= {"::".join([crate, *modules, function]) for function in alone(text)}
    for proof in (folder / "proofs").rglob("+*"):
        *modules, cycle = proof.relative_to(folder / "proofs").parts
        if cycle[1:] not in named:
            single.add("::".join([crate, *modules, cycle[1:]]))
    known = set().union(*named.values())
    yield from named.values()
    yield from ({name} for name in sorted(single - known))


def cycles(top):
    """Each cycle of calls: its crate, and the names of its functions."""
    for folder in sorted((top / "crates").iterdir()):
        for names in cycles_of(folder):
            yield folder.name, names


def text_reader(top):
    """The crates of the text reader: `text`, and those that it stands over."""
    for line in (top / "crates.txt").read_text().splitlines():
        crate, _, over = line.partition(":")
        if crate == "text":
            return {"text", *over.split()}
    raise ValueError("crates.txt has no text")


def listed(top):
    """The cycles that the note lists, each a row of its table: the crate, and the functions without their modules."""
    section = (top / NOTE).read_text().partition(f"## {HEADING}\n")[2].partition("\n## ")[0]
    for crate, names in re.findall(r"^\| `(\w+)` \| ([`\w, ]+) \|", section, re.M):
        yield crate, sorted(re.findall(r"\w+", names))


def complaints(top, calls):
    """What is against the rules, given the calls in the machine code."""
    found = list(cycles(top))
    for crate, names in found:
        if crate in text_reader(top):
            yield f"a cycle of calls in a crate of the text reader: {' '.join(sorted(names))}"
    if sorted(listed(top)) != sorted((crate, sorted(name.split("::")[-1] for name in names)) for crate, names in found):
        yield f"{NOTE}, {HEADING}, lists other cycles than the sources have"
    members = set().union(*(names for _, names in found))
    for name in sorted(calls):
        if graph.step(calls, name).cycle and name not in members:
            yield f"{name} calls itself in the machine code, and is in no cycle of the sources"


def report(top):
    with_cycles = set()
    for crate, names in cycles(top):
        with_cycles.add(crate)
        yield f"sources: a cycle in {crate}: {' '.join(sorted(names))}"
    yield f"sources: no cycle in {' '.join(sorted(text_reader(top) - with_cycles))}"
