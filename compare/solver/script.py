"""What a solver is told before a term: declarations of the sorts and names that a solution leaves to its reader."""


def sort_text(sort):
    kind, *parts = sort
    if kind == "Str":
        return "String"
    if kind == "BitVec":
        return f"(_ BitVec {parts[0]})"
    if kind == "Map":
        return f"(Array {sort_text(parts[0])} {sort_text(parts[1])})"
    if kind == "Data":
        name = f"|s {parts[0]}|"
        return f"({' '.join([name, *map(sort_text, parts[1])])})" if parts[1] else name
    return kind


def variable_text(variable):
    return f"|n {variable[1]}|" if variable[0] == "Named" else f"|v {variable[1]}|"


def declared_sort(i, name, n):
    """A sort of n sorts that nothing is known of. z3 shows the sorts inside another only where this is a datatype."""
    if n == 0:
        return f"(declare-sort |s {name}| 0)"
    inside = [f"X{k}" for k in range(n)]
    fields = " ".join(f"(|c {i} {k}| {sort})" for k, sort in enumerate(inside))
    return f"(declare-datatypes ((|s {name}| {n})) ((par ({' '.join(inside)}) ((|c {i}| {fields})))))"


def declarations(grown):
    """Of all that a grower has declared."""
    lines = [declared_sort(i, name, n) for i, (name, n) in enumerate(grown.sorts.items())]
    for i, (name, constructors) in enumerate(grown.data.items()):
        forms = []
        for j, (constructor, fields) in enumerate(constructors.items()):
            selectors = [f"(|d {i} {j} {k}| {sort_text(sort)})" for k, sort in enumerate(fields)]
            forms.append(f"({' '.join([f'|n {constructor}|', *selectors])})")
        lines.append(f"(declare-datatypes ((|s {name}| 0)) (({' '.join(forms)})))")
    for function, (sorts, answer) in grown.functions.items():
        lines.append(f"(declare-fun {variable_text(function)} ({' '.join(map(sort_text, sorts))}) {sort_text(answer)})")
    lines += [f"(declare-const {variable_text(v)} {sort_text(sort)})" for v, sort in grown.free.items()]
    return lines


def parts(written):
    """The list and the term that are written, with a space between."""
    depth, quoted = 0, False
    for at, sign in enumerate(written):
        quoted ^= sign == "|"
        depth += 0 if quoted else {"(": 1, ")": -1}.get(sign, 0)
        if depth == 0:
            return written[: at + 1], written[at + 2 :]
    raise ValueError(f"no list of variables: {written}")


def definition(written):
    """The line that the program `solsmt` prints."""
    variables, term = parts(written)
    return f"(define-fun solution {variables} Bool {term})"


def claim(written):
    """The same as a claim that can be looked at: the variables are those of an exists."""
    variables, term = parts(written)
    return f"(assert {term if variables == '()' else f'(exists {variables} {term})'})"
