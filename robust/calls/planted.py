"""What is planted against the rules, and what must be said of each: small objects, small source trees, and the archive with one object more."""

import shutil
import subprocess
import tempfile
from pathlib import Path


def function(name, *body):
    """A function as assembly, in a section of its own."""
    return "\n".join([f'.section .text.{name},"ax",@progbits', f".globl {name}", f".type {name},@function", f"{name}:", *body, ""])


def reading(*body):
    """Both functions of the text reader, the second of which does nothing."""
    return function("pinhkray_read_one", *body) + function("pinhkray_read_all", "ret")


def switch(*places, between="mov 8(%rsp),%rcx"):
    """The end of a `match`, as the compiler makes it: a jump by a table of places."""
    jump = ["lea table(%rip),%rcx", "movslq (%rcx,%rax,4),%rax", "add %rcx,%rax", between, "jmp *%rax"]
    return [*jump, '.section .rodata.table,"a",@progbits', "table:", *(f".long {place}-table" for place in places)]


# Objects: a name, the assembly, and the complaint that it must meet, "" for none.
OBJECTS = [
    (
        "calls that end",
        reading("call scan", "ret") + function("scan", "call memset", "ret"),
        "",
    ),
    (
        "a loop",
        reading("again: dec %rax", "jne again", "jmp pinhkray_read_one"),
        "",
    ),
    (
        "a call of itself",
        reading("call pinhkray_read_one", "ret"),
        "pinhkray_read_one runs a cycle of calls: [pinhkray_read_one]",
    ),
    (
        "a call of itself that the assembler has resolved",
        reading("call inner", "ret", ".type inner,@function", "inner: call inner", "ret"),
        "pinhkray_read_one runs a cycle of calls: [inner]",
    ),
    (
        "a call of itself through others",
        reading("call list", "ret") + function("list", "call item", "ret") + function("item", "call list", "ret"),
        "pinhkray_read_one runs a cycle of calls: [item list]",
    ),
    (
        "a cycle of jumps",
        reading("jmp list") + function("list", "jmp item") + function("item", "je list", "ret"),
        "pinhkray_read_one runs a cycle of calls: [item list]",
    ),
    (
        "a cycle below the second function",
        function("pinhkray_read_one", "ret") + function("pinhkray_read_all", "call list", "ret") + function("list", "call list", "ret"),
        "pinhkray_read_all runs a cycle of calls: [list]",
    ),
    (
        "a call by a pointer",
        reading("call *%rdi", "ret"),
        "pinhkray_read_one runs a computed call or jump: call *%rdi at 0x0 of pinhkray_read_one",
    ),
    (
        "a call by a pointer in memory",
        reading("call scan", "ret") + function("scan", "call *8(%rdi)", "ret"),
        "pinhkray_read_one runs a computed call or jump: call *0x8(%rdi) at 0x0 of scan",
    ),
    (
        "a jump by a pointer",
        reading("jmp *%rax"),
        "pinhkray_read_one runs a computed call or jump: jmp *%rax at 0x0 of pinhkray_read_one",
    ),
    (
        "a match",
        reading("first: nop", "second: ret", *switch("first", "second")),
        "",
    ),
    (
        "a match that goes to a function",
        reading("first: nop", "second: ret", *switch("first", "pinhkray_read_all")),
        "pinhkray_read_one runs a computed call or jump: jmp *%rax at 0x15 of pinhkray_read_one",
    ),
    (
        "a match that goes to another function of its section",
        reading("call inner", "first: ret", ".type inner,@function", "inner:", *switch("first")),
        "pinhkray_read_one runs a computed call or jump: jmp *%rax at 0x19 of inner",
    ),
    (
        "a match whose place is changed",
        reading("first: ret", *switch("first", between="mov 8(%rsp),%rax")),
        "pinhkray_read_one runs a computed call or jump: jmp *%rax at 0x14 of pinhkray_read_one",
    ),
    (
        "a frame too many",
        reading("call scan", "ret") + function("scan", "call token", "ret") + function("token", "call digit", "ret") + function("digit", "ret"),
        "pinhkray_read_one takes 4 frames, and the bound is 3: pinhkray_read_one > scan > token > digit",
    ),
    (
        "something from outside",
        reading("call malloc", "ret"),
        "pinhkray_read_one needs malloc from outside",
    ),
    (
        "no function to look at",
        function("pinhkray_read_one", "ret"),
        "there is no function pinhkray_read_all",
    ),
]



def cycle(name, *functions):
    """Functions under the mark of one cycle, as a source file has them."""
    return "\n".join(f"#[cycle({name})]\npub fn {function}(n: u32) {{\n    {other}(n)\n}}\n" for function, other in zip(functions, functions[1:] + functions[:1]))


# Source trees: a name, files beside those of `sorts`, rows of the note beside that of `sorts`, a function that calls itself in the machine code, or
# "", and the complaint.
SOURCES = [
    (
        "cycles as they are listed",
        {"exprs/src/expr.rt": cycle("expr_operands", "expr", "operands"), "exprs/proofs/expr/+expr_operands/Answers.antt": "", "heads/proofs/head/+head/Answers.antt": ""},
        ["`exprs` | `operands`, `expr`", "`heads` | `head`"],
        "exprs::expr::expr",
        "",
    ),
    (
        "calls that end",
        {"lexing/src/number.rt": "fn digits(n: u32) {\n    // digits(n) is no call here\n    self::long::digits(n);\n    n.digits();\n    short_digits(n)\n}\n"},
        [],
        "",
        "",
    ),
    (
        "a cycle in the text reader, by its mark",
        {"lexing/src/number.rt": cycle("digits_figures", "digits", "figures")},
        ["`lexing` | `digits`, `figures`"],
        "",
        "a cycle of calls in a crate of the text reader: lexing::number::digits lexing::number::figures",
    ),
    (
        "a cycle in the text reader, by its proof",
        {"lexing/proofs/number/+digits/Invariants.antt": ""},
        ["`lexing` | `digits`"],
        "",
        "a cycle of calls in a crate of the text reader: lexing::number::digits",
    ),
    (
        "a cycle in the text reader, by its text",
        {"text/src/lib.rt": "pub fn scan(n: u32) -> u32 {\n    scan(n - 1)\n}\n\nfn run(n: u32) -> u32 {\n    scan(n)\n}\n"},
        ["`text` | `scan`"],
        "",
        "a cycle of calls in a crate of the text reader: text::scan",
    ),
    (
        "a cycle that is not listed",
        {"judge/proofs/+judge/Answers.antt": ""},
        [],
        "",
        "docs/ARCHITECTURE.md, Functions that call themselves, lists other cycles than the sources have",
    ),
    (
        "a cycle that is listed, and is none",
        {},
        ["`judge` | `judge`"],
        "",
        "docs/ARCHITECTURE.md, Functions that call themselves, lists other cycles than the sources have",
    ),
    (
        "a cycle of the compiler's",
        {},
        [],
        "sorts::names",
        "sorts::names calls itself in the machine code, and is in no cycle of the sources",
    ),
]

# With this object in it the archive's own code calls itself wherever it clears a slice.
CLEARS = function("memset", "call pinhkray_read_one", "ret")
CLEARED = "pinhkray_read_one runs a cycle of calls: [memset pinhkray_read_one text::operation::run]"


def make_object(path, assembly):
    subprocess.run(["as", "-o", path, "-"], input=assembly, text=True, check=True)


def make_sources(top, files, rows):
    table = [f"| {row} | lists |" for row in ["`sorts` | `sort`, `list_sort`", *rows]]
    (top / "docs").mkdir(parents=True)
    (top / "docs/ARCHITECTURE.md").write_text("\n".join(["## Functions that call themselves", *table, "", "## More", "| `text` | `run` | |"]))
    (top / "crates.txt").write_text("lexing:\ntext: lexing\nsorts: lexing\n")
    for file, text in {"sorts/src/lib.rt": cycle("list_sort_sort", "list_sort", "sort"), **files}.items():
        (top / "crates" / file).parent.mkdir(parents=True, exist_ok=True)
        (top / "crates" / file).write_text(text)


def answers(archive, of_archive, of_sources):
    """For all that is planted a name, the complaints that it meets, and those that it must meet; given what finds them, of an archive and of sources with calls."""
    with tempfile.TemporaryDirectory() as made:
        folder = Path(made)
        for name, assembly, said in OBJECTS:
            make_object(folder / "made.o", assembly)
            yield name, list(of_archive(folder / "made.o")), [said] if said else []
        for name, files, rows, again, said in SOURCES:
            make_sources(folder / name, files, rows)
            yield name, list(of_sources(folder / name, {again: {again}} if again else {})), [said] if said else []
        make_object(folder / "made.o", CLEARS)
        shutil.copy(archive, folder / "both.a")
        subprocess.run(["ar", "r", folder / "both.a", folder / "made.o"], check=True)
        found = [line for line in of_archive(folder / "both.a") if line.startswith("pinhkray_read_one runs a cycle")]
        yield "the archive with a recursion in it", found, [CLEARED]
