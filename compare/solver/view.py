"""What z3 sees in a script, by its own parser, in the form of shape.py."""

import re

import z3

from script import sort_text
from shape import FUNCTIONS

NODES = {
    z3.Z3_OP_UMINUS: "Neg",
    z3.Z3_OP_ADD: "Add",
    z3.Z3_OP_SUB: "Sub",
    z3.Z3_OP_MUL: "Mul",
    z3.Z3_OP_IDIV: "Div",
    z3.Z3_OP_MOD: "Mod",
    z3.Z3_OP_ITE: "IfThenElse",
    z3.Z3_OP_AND: "And",
    z3.Z3_OP_OR: "Or",
    z3.Z3_OP_NOT: "Not",
    z3.Z3_OP_IMPLIES: "Imp",
    z3.Z3_OP_EQ: "Eq",
    z3.Z3_OP_DISTINCT: "Ne",
    z3.Z3_OP_GT: "Gt",
    z3.Z3_OP_GE: "Ge",
    z3.Z3_OP_LT: "Lt",
    z3.Z3_OP_LE: "Le",
}
KINDS = (
    "ULEQ SLEQ UGEQ SGEQ UGT SGT ULT SLT BUDIV BSDIV BUREM BSREM BLSHR BASHR BAND BOR BXOR BNOT BADD BNEG BSUB BMUL BSHL"
).split()
NODES.update({getattr(z3, "Z3_OP_" + kind): name for kind, name in zip(KINDS, FUNCTIONS)})


def sort_view(sort):
    """A sort in one line; no name has a line's end in it."""
    return re.sub(r"\n *", " ", sort.sexpr())


def variable(symbol):
    """A symbol `n NAME` or `v 3` as a variable."""
    if symbol.startswith("n "):
        return "Named", symbol[2:]
    return "Fresh", int(symbol.removeprefix("v "))


def view(term, scopes):
    """Of a term inside these scopes, the innermost last: how many variables each binds."""
    if z3.is_quantifier(term):
        assert term.is_exists()
        binders = [(variable(term.var_name(i))[1], sort_view(term.var_sort(i))) for i in range(term.num_vars())]
        return ("Exists", tuple(binders), view(term.body(), scopes + [len(binders)]))
    if z3.is_var(term):
        return bound(z3.get_var_index(term), scopes)
    kind, inside = term.decl().kind(), tuple(view(child, scopes) for child in term.children())
    if z3.is_int_value(term):
        return ("Numeral", term.as_long())
    if z3.is_bv_value(term):
        return ("BitVec", term.as_long(), term.size())
    if z3.is_string_value(term):
        return ("String", term.as_string())
    if kind in (z3.Z3_OP_TRUE, z3.Z3_OP_FALSE):
        return ("Boolean", kind == z3.Z3_OP_TRUE)
    if kind in NODES:
        return (NODES[kind], *inside)
    if kind == z3.Z3_OP_DT_IS:
        return ("IsCtor", variable(term.decl().params()[0].name())[1], *inside)
    assert kind in (z3.Z3_OP_UNINTERPRETED, z3.Z3_OP_DT_CONSTRUCTOR), term.decl()
    name = variable(term.decl().name())
    return ("Applied", *name, *inside) if inside else ("Free", *name)


def bound(index, scopes):
    """z3 counts from the innermost binder's last variable outwards."""
    for depth in reversed(range(len(scopes))):
        if index < scopes[depth]:
            return ("Bound", depth, scopes[depth] - 1 - index)
        index -= scopes[depth]
    raise ValueError("a variable that nothing binds")


def sorted_text(shape):
    """A shape with the sorts of an exists as z3 spells them."""
    if shape and shape[0] == "Exists":
        return ("Exists", tuple((number, sort_text(sort)) for number, sort in shape[1]), sorted_text(shape[2]))
    return tuple(sorted_text(part) if isinstance(part, tuple) else part for part in shape)


def claim(script):
    """The view of the one claim of a script."""
    (term,) = z3.parse_smt2_string(script, ctx=z3.Context())
    return view(term, [])
