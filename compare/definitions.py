#!/usr/bin/env python3
"""Computes the definitions on recorded answers: compare/definitions.py [short] [ANSWERS [TERMS ..]]

ANSWERS is crates/replay/stdin and TERMS compare/smtlib.txt and compare/smtlib-let.txt unless other files are named. With `short`, as the gate runs it, texts of more than 1,000 bytes are left out
unless they are too long to be read at all, and words and terms of more than 1,000: each takes the prover some seconds. The prover evaluates `final`, of which `outcome` is made
(crates/session/specs/Session.antt), `flatten_final` (crates/flattening/specs/Operations.antt) and `smtlib_final` (crates/smt/specs/Operation.antt) on each case, and
has to find the recorded refusal or numbers, the count and the words or bytes; no code of the library runs. The cases go into crates of their own, beside copies of the
crates that they stand on, in a folder outside the checkout: rt ci refuses a file of definitions that lies elsewhere than in a listed crate. What they stand
on is proved in the checkout first, so that it is proved once.
"""

import re
import shutil
import subprocess
import sys
import tempfile
from pathlib import Path

TOP = Path(__file__).resolve().parent.parent
OPERATIONS = {"R": "read_one", "A": "read_all", "S": "sort", "E": "expression", "B": "bind", "L": "solution"}
# More words than these take the prover too many steps.
MOST_WORDS = 8000
# A text that is left out by `short` has more bytes than the first number, and at most the second, the limit of document 01.
SHORT, LIMIT = 1000, 32768
# The largest width of a bit-vector value of which the prover computes 2^width.
WIDEST = 100000
# Bytes and words of the cases that are one claim, and claims of one module.
CLAIM = 1500
CLAIMS = 16
# The crates that the cases make, each with the libraries that it names.
OVER = {"computed": ["session", "vectors", "flattening", "reading"], "termed": ["smt", "judging", "grammar", "writing", "reading"]}

HEAD = """-- Recorded answers, computed.
use Rattle.std.specs.Prelude.{ℕ, ◌≡◌, refl, List, [], ◌∷◌}
use Rattle.reading.specs.Answer.{accepted, refused}
use Rattle.session.specs.Session.{read_one, read_all, sort, expression, bind, solution}
use Rattle.vectors.specs.Shown.{lending, refusal, words}
use Rattle.computed.specs.Case.{Case, case, Flat, flat, Words, plain, times, spread, answers, recorded, flattens, flattened}
"""

SPREAD = """
-- Words or bytes: some, and some that are repeated.
pub data Words : Type 0 where
  plain : List ℕ → Words
  times : ℕ → List ℕ → Words

unfoldable pub again : ℕ → List ℕ → List ℕ
again n [] = []
again n (x ∷ []) = replicate n x
again n (x ∷ y ∷ l) = []

unfoldable pub spread : List Words → List ℕ
unfolding again
spread [] = []
spread (plain l ∷ ws) = l ++ spread ws
spread (times n l ∷ ws) = again n l ++ spread ws
"""

CASE = """-- A call on a reader at a count, and what was recorded of it.
use Rattle.std.specs.Prelude.{ℕ, List, [], ◌∷◌, ◌++◌, map, replicate}
use Rattle.reading.specs.Answer.{Final, accepts, refuses, Said, said_of, count_of}
use Rattle.session.specs.Session.{Call, Term, term_words, report, final}
use Rattle.vectors.specs.Shown.{Shown, shown}
use Rattle.session.specs.Compute.{reader_computes}
use Rattle.flattening.specs.Operations.{expr_words, flatten_final}
SPREAD
pub record Case : Type 0 where
  pub call : Call
  pub start : ℕ
  pub said : Said
  pub count : ℕ
  pub answer : Shown

abbrev pub case : Call → ℕ → Said → ℕ → Shown → Case
case call start said count answer = record { call = call; start = start; said = said; count = count; answer = answer }

pub record Answer : Type 0 where
  pub said : Said
  pub count : ℕ
  pub answer : Shown

-- What `outcome` says and counts, and the words, by what is decided; by cases, so that this is evaluated once.
abbrev by : ℕ → Final Term → Answer
by c f = record { said = said_of report f; count = count_of c f; answer = shown (term_words c) f }

unfoldable pub answer_by : ℕ → Final Term → Answer
unfolding reader_computes
answer_by c (accepts m n) = by c (accepts m n)
answer_by c (refuses r) = by c (refuses r)

unfoldable pub answers : List Case → List Answer
unfolding reader_computes spread answer_by
answers cases = map (λ c. answer_by c.start (final c.call c.start)) cases

unfoldable pub recorded : List Case → List Answer
unfolding spread
recorded cases = map (λ c. record { said = c.said; count = c.count; answer = c.answer }) cases

pub record Flat : Type 0 where
  pub input : List ℕ
  pub out : ℕ
  pub answer : Shown

abbrev pub flat : List ℕ → ℕ → Shown → Flat
flat input out answer = record { input = input; out = out; answer = answer }

unfoldable pub flattens : List Flat → List Shown
unfolding reader_computes spread
flattens cases = map (λ c. shown expr_words (flatten_final c.input (replicate c.out 0))) cases

unfoldable pub flattened : List Flat → List Shown
unfolding spread
flattened cases = map (λ c. c.answer) cases
"""

TERMS_HEAD = """-- Recorded terms, computed.
use Rattle.std.specs.Prelude.{ℕ, ◌≡◌, refl, List, [], ◌∷◌}
use Rattle.termed.specs.Case.{Case, case, Shown, refusal, words, Words, plain, times, spread, writes, recorded}
"""

TERMS_CASE = """-- Words, the text that is lent with them, the length of the output, and what was recorded of it.
use Rattle.std.specs.Prelude.{ℕ, List, [], ◌∷◌, ◌++◌, map, replicate}
use Rattle.reading.specs.Answer.{Final, accepts, refuses}
use Rattle.smt.specs.Operation.{smtlib_final}
use Rattle.smt.specs.Compute.{smt_computes}

-- A refusal's number, or the bytes written.
pub data Shown : Type 0 where
  refusal : ℕ → Shown
  words : List ℕ → Shown

abbrev shown : Final (List ℕ) → Shown
shown (accepts bytes n) = words bytes
shown (refuses r) = refusal r
SPREAD
pub record Case : Type 0 where
  pub input : List ℕ
  pub text : List ℕ
  pub out : ℕ
  pub answer : Shown

abbrev pub case : List ℕ → List ℕ → ℕ → Shown → Case
case input text out answer = record { input = input; text = text; out = out; answer = answer }

unfoldable pub writes : List Case → List Shown
unfolding smt_computes spread
writes cases = map (λ c. shown (smtlib_final c.input c.text (replicate c.out 0))) cases

unfoldable pub recorded : List Case → List Shown
unfolding spread
recorded cases = map (λ c. c.answer) cases
"""


def listed(numbers):
    return " ∷ ".join(map(str, numbers)) + " ∷ []" if numbers else "[]"


def spread(parts):
    """Parts, each a list of numbers and how often it stands there, as one list."""
    if all(times == 1 for _, times in parts):
        return f"({listed([n for numbers, _ in parts for n in numbers])})"
    words = " ∷ ".join(f"times {times} ({listed(numbers)})" if times > 1 else f"plain ({listed(numbers)})" for numbers, times in parts)
    return f"(spread ({words} ∷ []))"


def parts_of(text, joined, numbers):
    parts = []
    for part in [] if text == "-" else text.split(joined):
        one, _, times = part.partition("*")
        some, times = numbers(one), int(times or 1)
        if times > 1 and len(some) > 1:
            some, times = some * times, 1
        parts.append((some, times))
    return parts


def words_of(text):
    return parts_of(text, ",", lambda one: [int(one, 16)])


def grouped(text):
    """Words among which `(A,B)*N` is A and B, N times."""
    parts = []
    for group, times, one in re.findall(r"\(([0-9a-f,]+)\)\*(\d+)|([0-9a-f]+(?:\*\d+)?)", text):
        parts += [([int(word, 16) for word in group.split(",")] * int(times), 1)] if group else words_of(one)
    return parts


def bytes_of(text):
    return parts_of(text, ".", lambda one: list(bytes.fromhex(one)))


def length(parts):
    return sum(len(part) * times for part, times in parts)


def row(line, short):
    """A case: which kind of call, how long it is, and its text; None if it is left out."""
    asked, answer = line.split(" = ")
    op, start, tree, draft, out, given = asked.split()
    number, a, b, count, words = answer.split()
    given = words_of(given) if op == "F" else bytes_of(given)
    words = words_of(words)
    if length(words) > MOST_WORDS or (op == "F" and length(given) > MOST_WORDS):
        return None
    if short and op != "F" and SHORT < length(given) <= LIMIT:
        return None
    shown = f"(refusal {number})" if number != "0" else f"(words {spread(words)})"
    if op == "F":
        return "F", length(given), f"flat {spread(given)} {out} {shown}"
    said = f"(refused {number})" if number != "0" else f"(accepted {a} {b})"
    return "T", length(given), f"case (lending {tree} {draft} {out} {OPERATIONS[op]} {spread(given)}) {start} {said} {count} {shown}"


def wide(words):
    """Whether they may have a bit-vector value of a large width, so that 2^width has too many digits to be computed."""
    words = [word for part, times in words for word in part * times]
    return any(kind == 35 and width > WIDEST for kind, width in zip(words, words[5:]))


def term_row(line, short):
    """A case of words and a text, which have a term or a refusal: how long it is, and its text; None if it is left out."""
    given, text, out, _, number, written = line.split(" ")
    given, text, written = grouped(given), bytes_of(text), bytes_of(written)
    if max(map(length, (given, text, written))) > (SHORT if short else MOST_WORDS) or wide(given):
        return None
    shown = f"(refusal {number})" if number != "0" else f"(words {spread(written)})"
    return length(given) + length(text) + length(written), f"case {spread(given)} {spread(text)} {out} {shown}"


def claims(rows):
    """Cases in groups, each short enough for one claim."""
    groups, room = [], -1
    for size, text in sorted(rows):
        if size > room:
            groups.append([])
            room = CLAIM
        groups[-1].append(text)
        room -= size + 20
    return groups


def claim(kind, number, rows):
    of, made, kept = {"T": ("Case", "answers", "recorded"), "F": ("Flat", "flattens", "flattened"), "W": ("Case", "writes", "recorded")}[kind]
    table = "\n    ∷ ".join(rows)
    return f"""
abbrev cases{number} : List {of}
cases{number} =
    {table}
    ∷ []

pub hold{number} : {made} cases{number} ≡ {kept} cases{number}
unfolding {made} {kept}
hold{number} = refl
"""


def modules(kind, head, rows):
    """Cases as the modules of a crate: names and texts."""
    groups = claims(rows)
    for at in range(0, len(groups), CLAIMS):
        yield f"{kind}{at // CLAIMS}", head + "".join(claim(kind, n, group) for n, group in enumerate(groups[at:at + CLAIMS]))


def crates():
    """The crates of the checkout, each with the libraries that it names in crates.txt."""
    rows = [line.partition("#")[0].partition(":") for line in (TOP / "crates.txt").read_text().splitlines()]
    return {name.split()[0]: over.split() for name, _, over in rows if name.strip()}


def below(names):
    """The crates of the checkout among these libraries and those that they stand on."""
    of, found, waiting = crates(), set(), list(names)
    while waiting:
        name = waiting.pop()
        if name in of and name not in found:
            found.add(name)
            waiting += of[name]
    return {name: of[name] for name in sorted(found)}


def copy(folder, name):
    """What the prover reads of a crate."""
    for part in ("src", "specs", "proofs"):
        if (TOP / "crates" / name / part).is_dir():
            shutil.copytree(TOP / "crates" / name / part, folder / "crates" / name / part)


def crate(folder, name, case, made):
    """A crate of definitions only."""
    specs = folder / "crates" / name / "specs"
    specs.mkdir(parents=True)
    (specs.parent / "src").mkdir()
    (specs.parent / "src/lib.rt").write_text("// Recorded answers, computed: definitions only.\n#![tactic(auto)]\n")
    files = {"Case": case.replace("SPREAD\n", SPREAD), **dict(made)}
    for module, text in files.items():
        (specs / f"{module}.antt").write_text(text)
    (specs / "Lib.antt").write_text("".join(f"pub mod {module}\n" for module in files))


def prove(words, folder, wrong):
    """Runs rt, and ends with what it said and what that means if it fails."""
    done = subprocess.run(["rt", *words], cwd=folder, capture_output=True, text=True)
    if done.returncode != 0:
        print(done.stdout[-8000:] + done.stderr[-2000:], flush=True)
        sys.exit(f"definitions: {wrong}")


def main():
    arguments = sys.argv[1:]
    short = arguments[:1] == ["short"]
    named = [Path(name) for name in (arguments[1:] if short else arguments)]
    answers = named[0] if named else TOP / "crates/replay/stdin"
    terms = named[1:] or [TOP / "compare/smtlib.txt", TOP / "compare/smtlib-let.txt"]
    lines = answers.read_text().splitlines()
    rows = [made for made in (row(line, short) for line in lines) if made]
    made = [module for kind in "TF" for module in modules(kind, HEAD, [(size, text) for of, size, text in rows if of == kind])]
    term_lines = [line for file in terms for line in file.read_text().splitlines() if line and not line.startswith("#")]
    term_rows = [made for made in (term_row(line, short) for line in term_lines) if made]
    for name in sorted({name for names in OVER.values() for name in names}):
        prove(["lib"], TOP / "crates" / name, f"crates/{name} is not proved")
    with tempfile.TemporaryDirectory(prefix="definitions-") as temporary:
        folder = Path(temporary)
        over = {**below(name for names in OVER.values() for name in names), **OVER}
        for name in over.keys() - OVER.keys():
            copy(folder, name)
        (folder / "crates.txt").write_text("".join(f"{name}: {' '.join(names)}\n" for name, names in over.items()))
        crate(folder, "computed", CASE, made)
        crate(folder, "termed", TERMS_CASE, modules("W", TERMS_HEAD, term_rows))
        prove(["all", "check"], folder, "not every recorded answer is what the definitions compute")
    left = len(lines) - len(rows) + len(term_lines) - len(term_rows)
    print(f"definitions: {len(rows)} recorded answers and {len(term_rows)} recorded terms computed, all as recorded; {left} left out that are too long, or too wide")


main()
