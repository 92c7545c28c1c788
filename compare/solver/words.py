"""A solution as document 01's words, with a text that has its names and strings."""

SORTS = {"Int": 1, "Bool": 2, "Real": 3, "Str": 4}
KINDS = {"Neg": 39, "IfThenElse": 41, "Not": 44, "Imp": 45, "Iff": 46}


class Words:
    def __init__(self):
        self.words, self.text = [], b"~"

    def put(self, *words):
        self.words += words

    def span(self, name):
        """Behind what the text has already, with something between."""
        self.put(len(self.text), len(name))
        self.text += name.encode() + b"~"

    def number(self, n, words):
        self.put(*(n >> 32 * i & 0xFFFFFFFF for i in range(words)))

    def sort(self, sort):
        kind, *parts = sort
        if kind in SORTS:
            self.put(SORTS[kind])
        elif kind == "BitVec":
            self.put(5, 6, parts[0])
        elif kind == "Map":
            self.put(10, 1, 2)
            self.sorts(parts)
        else:
            self.put(10, 2)
            self.span(parts[0])
            self.put(len(parts[1]))
            self.sorts(parts[1])

    def sorts(self, sorts):
        for sort in sorts:
            self.sort(sort)

    def binders(self, binders):
        self.put(len(binders))
        for number, sort in binders:
            self.number(number, 2)
            self.sort(sort)

    def exprs(self, exprs):
        for expr in exprs:
            self.expr(expr)

    def expr(self, expr):
        kind, *parts = expr
        if kind == "Numeral":
            self.put(32)
            self.number(parts[0], 4)
        elif kind == "Boolean":
            self.put(33, int(parts[0]))
        elif kind == "String":
            self.put(34)
            self.span(parts[0])
        elif kind == "BitVec":
            self.put(35)
            self.number(parts[0], 4)
            self.put(parts[1])
        elif kind == "Fresh":
            self.put(36)
            self.number(parts[0], 2)
        elif kind == "Named":
            self.put(37)
            self.span(parts[0])
        elif kind == "App":
            arguments, output, head = parts
            self.put(38, int(output is not None), len(arguments))
            self.exprs(arguments)
            self.sorts([] if output is None else [output])
            self.expr(head)
        elif kind in ("BinaryOp", "Atom"):
            self.put({"BinaryOp": 40, "Atom": 47}[kind], parts[0])
            self.exprs(parts[1:])
        elif kind in ("And", "Or"):
            self.put({"And": 42, "Or": 43}[kind], len(parts[0]))
            self.exprs(parts[0])
        elif kind == "Let":
            (of, name), *inside = parts
            if of == "Named":
                self.put(48)
                self.span(name)
            else:
                self.put(52)
                self.number(name, 2)
            self.exprs(inside)
        elif kind == "ThyFunc":
            self.put(49, parts[0])
        elif kind == "IsCtor":
            self.put(50)
            self.span(parts[0])
            self.expr(parts[1])
        elif kind == "Exists":
            self.put(51)
            self.binders(parts[0])
            self.expr(parts[1])
        else:
            self.put(KINDS[kind])
            self.exprs(parts)


def solution(parameters, body):
    """Its words and its text."""
    w = Words()
    w.binders(parameters)
    w.expr(body)
    return w.words, w.text
