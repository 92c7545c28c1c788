"""The shape of a solution: names as they are, and C-11's foldings and no others.

A let stands for its binding in its body, since a solver takes it so; what an exists binds is told by how many bind outside it, which in a
binding is counted where it is used.
"""

from functools import cache

OPERATORS = ["Add", "Sub", "Mul", "Div", "Mod"]
RELATIONS = ["Eq", "Ne", "Gt", "Ge", "Lt", "Le"]
FUNCTIONS = (
    "bvule bvsle bvuge bvsge bvugt bvsgt bvult bvslt bvudiv bvsdiv bvurem bvsrem bvlshr bvashr bvand bvor bvxor bvnot bvadd bvneg "
    "bvsub bvmul bvshl"
).split()


def constant(bound):
    """What an exists binds is the same wherever it is used."""
    return lambda used: bound


def shape(expr, scope, depth):
    """Of an expression inside so many that bind; the scope has the shape of each bound variable, by how many bind where it is used."""
    kind, *parts = expr

    def inside(*exprs):
        return tuple(shape(e, scope, depth) for e in exprs)

    if kind in ("Numeral", "Boolean", "String", "BitVec"):
        return expr
    if kind in ("Fresh", "Named"):
        return scope[expr](depth) if expr in scope else ("Free", *expr)
    if kind == "App":
        arguments, _, head = parts
        if not arguments:
            return shape(head, scope, depth)
        if head[0] == "ThyFunc":
            return (FUNCTIONS[head[1] - 9], *inside(*arguments))
        return ("Applied", *head, *inside(*arguments))
    if kind == "BinaryOp":
        return (OPERATORS[parts[0]], *inside(*parts[1:]))
    if kind == "Atom":
        return (RELATIONS[parts[0]], *inside(*parts[1:]))
    if kind == "Iff":
        return ("Eq", *inside(*parts))
    if kind in ("And", "Or"):
        operands = inside(*parts[0])
        if not operands:
            return ("Boolean", kind == "And")
        return operands[0] if len(operands) == 1 else (kind, *operands)
    if kind == "Let":
        name, binding, body = parts
        return shape(body, {**scope, name: cache(lambda used: shape(binding, scope, used))}, depth)
    if kind == "IsCtor":
        return ("IsCtor", parts[0], *inside(parts[1]))
    if kind == "Exists":
        binders, body = parts
        if not binders:
            return shape(body, scope, depth)
        bound = {("Fresh", number): constant(("Bound", depth, i)) for i, (number, _) in enumerate(binders)}
        return ("Exists", tuple(binders), shape(body, {**scope, **bound}, depth + 1))
    return (kind, *inside(*parts))


def solution(parameters, body):
    """Its parameters are those of an exists."""
    return shape(("Exists", parameters, body), {}, 0)
