"""The functions of an archive and what each of them calls, read from its machine code (x86-64) by objdump."""

import os
import re
import subprocess
from dataclasses import dataclass, field

# Lines that objdump prints.
MEMBER = re.compile(r"(\S.*):\s+file format \S+$")
SYMBOL = re.compile(r"([0-9a-f]{16}) (.)(.{6}) (\S+)\t[0-9a-f]+ (?:\.hidden )?(.+)$")
RECORDS = re.compile(r"RELOCATION RECORDS FOR \[(.+)\]:$")
RECORD = re.compile(r"[0-9a-f]{16} R_\w+\s+(.+)$")
SECTION = re.compile(r"Disassembly of section (.+):$")
INSTRUCTION = re.compile(r"\s+([0-9a-f]+):\t((?:(?:bnd|notrack|lock|rep\w*|data16|addr32|[c-gs]s|rex\S*) +)*)(\S+)\s*([^#]*)")
RELOCATION = re.compile(r"\s+[0-9a-f]+: R_\w+\t(.+)$")
# A place that a relocation names: a symbol or a section, and a distance from it.
PLACE = re.compile(r"(.+?)([+-]0x[0-9a-f]+)?$")
# A call or jump names its goal from its own end, and the relocation stands so many bytes before that.
OPERAND = 4


@dataclass
class Instruction:
    at: int
    verb: str
    operands: str
    names: list = field(default_factory=list)  # the places that its relocations name

    def calls(self):
        return re.match(r"l?call", self.verb) is not None

    def goes(self):
        """Whether it is a call or a jump."""
        return self.calls() or re.match(r"j|ljmp|loop", self.verb) is not None

    def computed(self):
        """Whether its goal is computed. (A far call or jump counts as such.)"""
        return self.operands.startswith("*") or re.match(r"lcall|ljmp", self.verb) is not None


@dataclass
class Function:
    name: str
    member: str
    section: str
    start: int
    of_c: bool  # whether C can call it
    code: list = field(default_factory=list)
    calls: set = field(default_factory=set)  # the names of functions, also of some from outside the archive
    computed: list = field(default_factory=list)  # its calls and jumps to places that are computed


def objdump(flag, path):
    """Its lines, each with the member of the archive that it is about."""
    command = ["objdump", flag, "--no-show-raw-insn", path]
    member = ""
    for line in subprocess.run(command, check=True, capture_output=True, text=True, env={**os.environ, "LC_ALL": "C"}).stdout.splitlines():
        found = MEMBER.match(line)
        member = found[1] if found else member
        yield member, line


class Archive:
    """An archive, or one object."""

    def __init__(self, path):
        self.functions = []
        self.sections = {}  # the section of each symbol, by member and name
        self.noted = {}  # the symbols and sections whose places a section holds, by member and section
        self.read_symbols(path)
        self.read_relocations(path)
        self.read_code(path)
        self.by_name = {function.name: function for function in self.functions}
        if len(self.by_name) < len(self.functions):
            raise ValueError("two functions have one name")
        for function in self.functions:
            self.follow(function)

    def read_symbols(self, path):
        for member, line in objdump("-t", path):
            if found := SYMBOL.match(line):
                start, binding, flags, section, name = found.groups()
                self.sections[member, name] = section
                if flags.endswith("F") and section != "*UND*":
                    self.functions.append(Function(name, member, section, int(start, 16), binding != "l"))

    def read_relocations(self, path):
        section = ""
        for member, line in objdump("-r", path):
            if found := RECORDS.match(line):
                section = found[1]
            elif found := RECORD.match(line):
                self.noted.setdefault((member, section), set()).add(PLACE.match(found[1])[1])

    def read_code(self, path):
        section, last = "", None
        for member, line in objdump("-dr", path):
            if found := SECTION.match(line):
                section = found[1]
            elif found := RELOCATION.match(line):
                last.names.append(found[1])
            elif found := INSTRUCTION.match(line):
                # Older versions print `callq` and `jmpq`.
                verb = re.sub(r"^(call|jmp)q$", r"\1", found[3])
                last = Instruction(int(found[1], 16), verb, found[4].strip())
                self.at(member, section, last.at).code.append(last)

    def at(self, member, section, offset):
        """The function at a place of a section."""
        before = [f for f in self.functions if (f.member, f.section) == (member, section) and f.start <= offset]
        if not before:
            raise ValueError(f"code in {section} belongs to no function")
        return max(before, key=lambda f: f.start)

    def goal(self, function, instruction):
        """The name of the function that a call or jump goes to."""
        if not instruction.names:
            return self.at(function.member, function.section, int(instruction.operands.split()[0], 16)).name
        symbol, distance = PLACE.match(instruction.names[0]).groups()
        if symbol.startswith("."):
            return self.at(function.member, symbol, int(distance or "0", 16) + OPERAND).name
        return symbol

    def follow(self, function):
        """Finds what a function calls. A jump into another function counts as a call; one inside the function is a loop or a branch."""
        for number, instruction in enumerate(function.code):
            if not instruction.goes():
                continue
            if instruction.computed():
                if not self.is_match(function, number):
                    function.computed.append(f"{instruction.verb} {instruction.operands} at {instruction.at:#x} of {function.name}")
                continue
            goal = self.goal(function, instruction)
            if instruction.calls() or goal != function.name:
                function.calls.add(goal)

    def is_match(self, function, number):
        """Whether a computed jump is that of a `match`: it goes by a table, and all places in the tables that the function names are its own."""
        alone = [f for f in self.functions if (f.member, f.section) == (function.member, function.section)] == [function]
        jump = function.code[number]
        register = re.fullmatch(r"\*%(\w+)", jump.operands)
        if not alone or jump.verb != "jmp" or not register or not from_table(function.code[:number], register[1]):
            return False
        places = set()
        for instruction in function.code:
            for symbol in [PLACE.match(name)[1] for name in instruction.names if not instruction.goes()]:
                section = self.sections.get((function.member, symbol), symbol)
                places |= self.noted.get((function.member, section), set())
        return places == {function.section}


def from_table(code, register):
    """Whether the last instructions load a register R by `movslq (TABLE,INDEX,4),R` and `add TABLE,R`, and do nothing else but moves to memory and to other whole registers."""
    code = list(code)

    def last(kept):
        while code and code[-1].verb == "mov":
            into = re.search(r",%(\w+)$", code[-1].operands)
            if into and (into[1] in kept or not into[1].startswith("r")):
                break
            code.pop()
        return code.pop() if code else Instruction(0, "", "")

    add = last({register})
    table = re.fullmatch(rf"%(\w+),%{register}", add.operands)
    if add.verb != "add" or not table:
        return False
    load = last({register, table[1]})
    return load.verb == "movslq" and re.fullmatch(rf"\(%{table[1]},%r\w+,4\),%{register}", load.operands) is not None
