"""Well-sorted solutions, grown at random.

A sort is a tuple: ("Int",), ("Bool",), ("Real",), ("Str",), ("BitVec", width), ("Map", key, value), ("Data", name, sorts).
An expression is a tuple that begins with its kind, as document 01 names it; names are strings, fresh numbers are numbers:
("Fresh", 3), ("Named", "x"), ("App", arguments, output sort or None, head), ("Exists", [(number, sort)], body) and so on. A let has its variable,
("Let", ("Fresh", 3) or ("Named", "x"), binding, body).
"""

INT, BOOL, REAL, STR = ("Int",), ("Bool",), ("Real",), ("Str",)

# Bytes of names and strings: all that C-11 takes.
BYTES = [chr(b) for b in range(32, 127) if chr(b) not in '|"\\']
NAMES = ["", "x", "y", "f", "true", "and", "let", "v 3", "n x", "Int", "a;b", "(", ")", "_", "solution", "!", " "]

# Number, operands, and whether the answer is Bool and not a bit-vector.
BIT_VECTOR = [(n, 2, True) for n in range(9, 17)] + [(n, 1 if n in (26, 28) else 2, False) for n in range(17, 32)]


class Grower:
    def __init__(self, random):
        self.random = random
        # What is bound where the growing is, innermost last, and what is declared: variables and their sorts.
        self.bound, self.free = [], {}
        # Declared functions: operands' sorts and the answer's.
        self.functions = {}
        # Sorts that are declared, by their number of sorts; and those with constructors: name, then the sorts of its fields.
        self.sorts, self.data = {}, {}
        self.room = random.randrange(1, 60)

    def one_in(self, n):
        return self.random.randrange(n) == 0

    def name(self):
        if self.one_in(2):
            return self.random.choice(NAMES)
        return "".join(self.random.choice(BYTES) for _ in range(self.random.randrange(8)))

    def number(self):
        return self.random.choice([self.random.randrange(12), self.random.randrange(2**32), self.random.randrange(2**64), 2**32, 2**64 - 1])

    def taken(self, name):
        """Whether a name is a function's or a constructor's, and so cannot be a variable's."""
        constructors = {("Named", c) for of in self.data.values() for c in of}
        return name in self.functions or name in constructors

    def new(self):
        """A variable that is nothing yet."""
        while True:
            name = ("Named", self.name()) if self.one_in(2) else ("Fresh", self.number())
            if not self.taken(name) and name not in self.free and name not in [b for b, _ in self.bound]:
                return name

    # Sorts.

    def data_sort(self, depth):
        if self.sorts and not self.one_in(3):
            name = self.random.choice(sorted(self.sorts))
        else:
            name = self.name()
            if name not in self.data:
                self.sorts.setdefault(name, self.random.choice([0, 0, 1, 2]))
            if name in self.data:
                return ("Data", name, ())
        return ("Data", name, tuple(self.sort(depth) for _ in range(self.sorts[name])))

    def constructed(self):
        """A sort with constructors."""
        if self.data and not self.one_in(3):
            return ("Data", self.random.choice(sorted(self.data)), ())
        name = self.name()
        if name in self.sorts or name in self.data:
            return INT
        constructors = {}
        for _ in range(self.random.randrange(1, 4)):
            constructor = self.name()
            variable = ("Named", constructor)
            if not self.taken(variable) and variable not in self.free and variable not in [b for b, _ in self.bound]:
                constructors[constructor] = [self.random.choice([INT, BOOL, STR]) for _ in range(self.random.randrange(3))]
        if not constructors:
            return INT
        self.data[name] = constructors
        return ("Data", name, ())

    def sort(self, depth):
        at = self.random.randrange(8 if depth else 6)
        if at < 4:
            return [INT, BOOL, REAL, STR][at]
        if at == 4:
            return ("BitVec", self.random.choice([1, 2, 3, 8, 32, 64, 127, 128, 129, 300]))
        if at == 5:
            return self.constructed()
        if at == 6:
            return ("Map", self.sort(depth - 1), self.sort(depth - 1))
        return self.data_sort(depth - 1)

    # Expressions.

    def visible(self, sort):
        """The variables of a sort: what is bound innermost hides the rest."""
        found = dict(self.free)
        found.update(self.bound)
        return sorted(v for v, of in found.items() if of == sort)

    def variable(self, sort):
        known = self.visible(sort)
        if known and not self.one_in(5):
            # Often what is bound innermost.
            inner = [v for v, _ in self.bound if v in known][-1:]
            return self.random.choice(inner if inner and self.one_in(2) else known)
        name = self.new()
        self.free[name] = sort
        return name

    def leaf(self, sort):
        constructors = [c for c, fields in self.data.get(sort[1], {}).items() if not fields] if sort[0] == "Data" else []
        if constructors and self.one_in(2):
            return ("Named", self.random.choice(constructors))
        if self.one_in(2):
            return self.variable(sort)
        if sort == INT:
            return ("Numeral", self.random.getrandbits(self.random.choice([1, 4, 8, 33, 64, 65, 128])))
        if sort == BOOL:
            return ("Boolean", self.one_in(2))
        if sort == STR:
            return ("String", self.name())
        if sort[0] == "BitVec":
            return ("BitVec", self.random.getrandbits(min(sort[1], 128)), sort[1])
        return self.variable(sort)

    def expr(self, sort, depth):
        if depth == 0 or self.room == 0 or self.one_in(6):
            return self.leaf(sort)
        self.room -= 1
        depth -= 1
        if self.one_in(2):
            return self.anywhere(sort, depth)
        if sort == BOOL:
            return self.claim(depth)
        if sort in (INT, REAL):
            if self.one_in(4):
                return ("Neg", self.expr(sort, depth))
            return ("BinaryOp", self.random.randrange(5 if sort == INT else 3), self.expr(sort, depth), self.expr(sort, depth))
        if sort[0] == "BitVec":
            return self.bit_vector(False, sort, depth)
        if sort[0] == "Data" and sort[1] in self.data:
            constructor, fields = self.random.choice(sorted(self.data[sort[1]].items()))
            return self.applied(("Named", constructor), fields, depth)
        return self.anywhere(sort, depth)

    def anywhere(self, sort, depth):
        """What has any sort."""
        at = self.random.randrange(5)
        if at == 0:
            return ("IfThenElse", self.expr(BOOL, depth), self.expr(sort, depth), self.expr(sort, depth))
        if at == 1:
            return self.let(sort, depth)
        if at == 2:
            output = self.sort(1) if self.one_in(2) else None
            return ("App", [], output, self.expr(sort, depth))
        return self.application(sort, depth)

    def applied(self, head, sorts, depth):
        if not sorts and self.one_in(2):
            return head
        output = self.sort(1) if self.one_in(3) else None
        return ("App", [self.expr(s, depth) for s in sorts], output, head)

    def application(self, sort, depth):
        known = sorted(f for f, (_, answer) in self.functions.items() if answer == sort)
        if known and not self.one_in(3):
            head = self.random.choice(known)
        else:
            sorts = [self.sort(1) for _ in range(self.random.randrange(1, 4))]
            head = self.new()
            self.functions[head] = (sorts, sort)
        return self.applied(head, self.functions[head][0], depth)

    def let(self, sort, depth):
        name = ("Named", self.name()) if self.one_in(3) else ("Fresh", self.number())
        if self.bound and self.one_in(3):
            name = self.random.choice(self.bound)[0]
        if self.taken(name):
            return self.leaf(sort)
        of = sort if self.one_in(2) else self.sort(1)
        binding = self.expr(of, depth)
        if self.taken(name):
            return binding if of == sort else self.leaf(sort)
        self.bound.append((name, of))
        body = self.expr(sort, depth)
        self.bound.pop()
        return ("Let", name, binding, body)

    def bit_vector(self, claim, sort, depth):
        function, operands, _ = self.random.choice([f for f in BIT_VECTOR if f[2] == claim])
        output = self.sort(1) if self.one_in(3) else None
        return ("App", [self.expr(sort, depth) for _ in range(operands)], output, ("ThyFunc", function))

    def claim(self, depth):
        at = self.random.randrange(12)
        if at < 2:
            return (self.random.choice(["And", "Or"]), [self.expr(BOOL, depth) for _ in range(self.random.randrange(5))])
        if at == 2:
            return ("Not", self.expr(BOOL, depth))
        if at == 3:
            return (self.random.choice(["Imp", "Iff"]), self.expr(BOOL, depth), self.expr(BOOL, depth))
        if at < 6:
            sort = self.random.choice([INT, INT, REAL])
            return ("Atom", self.random.randrange(6), self.expr(sort, depth), self.expr(sort, depth))
        if at == 6:
            sort = self.sort(1)
            return ("Atom", self.random.randrange(2), self.expr(sort, depth), self.expr(sort, depth))
        if at == 7:
            return self.bit_vector(True, ("BitVec", self.random.choice([3, 8, 128])), depth)
        if at == 8:
            sort = self.constructed()
            if sort == INT:
                return self.leaf(BOOL)
            return ("IsCtor", self.random.choice(sorted(self.data[sort[1]])), self.expr(sort, depth))
        return self.exists(depth)

    def binders(self, most):
        """Numbers that differ, some of them bound already or free elsewhere."""
        binders = {}
        for _ in range(self.random.randrange(most)):
            variable = ("Fresh", self.number())
            if not self.taken(variable):
                binders[variable] = self.sort(2)
        return list(binders.items())

    def exists(self, depth):
        binders = self.binders(4)
        before = len(self.bound)
        self.bound += binders
        body = self.expr(BOOL, depth)
        del self.bound[before:]
        return ("Exists", [(variable[1], sort) for variable, sort in binders], body)

    def solution(self):
        """The parameters and the body."""
        parameters = self.binders(5)
        self.bound = list(parameters)
        body = self.expr(BOOL, self.random.randrange(8))
        return [(variable[1], sort) for variable, sort in parameters], body
