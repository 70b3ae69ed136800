"""The rows of conditions over working memory, as docs/LANGUAGE.md defines them.

The conditions are those of a production as `print NAME` writes it: each has one attribute and one value."""

from typing import NamedTuple

from .productions import Braces, Variable

MOST_ROWS = 200_000


class TooManyRows(Exception):
    """A prefix of the conditions has more rows than the shell goes through."""


class Row(NamedTuple):
    """The tags of the elements that match, and what the variables stand for."""

    tags: tuple
    bindings: dict


EMPTY = Row((), {})


class Pattern(NamedTuple):
    """A single condition: whether its identifier is that of a state, its three fields, and the mark of a candidate."""

    state: bool
    id: tuple
    attr: tuple
    value: tuple
    accepts: bool

    def fields(self, element):
        """Returns the name, the tests and the symbol of each field."""
        return (("identifier", self.id, element.id), ("attribute", self.attr, element.attr), ("value", self.value, element.value))


class Condition(NamedTuple):
    """A condition with its text; a conjunctive negation has conditions inside, and any other has a pattern."""

    negated: bool
    pattern: object
    inside: tuple
    text: str


def conditions_of(production, text):
    """Returns the conditions of a printed production, in match order."""
    return tuple(condition_of(part, text) for part in production.parts)


def condition_of(part, text):
    said = text[part.start:part.end]
    if isinstance(part, Braces):
        return Condition(True, None, tuple(condition_of(inner, text) for inner in part.parts), said)
    attribute, = part.attributes
    value, = attribute.values
    pattern = Pattern(part.state, part.field.tests, attribute.field.tests, value.field.tests, value.accepts)
    return Condition(part.negated, pattern, (), said)


# ---- tests

def symbol_at(operand, bindings):
    """Returns the symbol of a constant or a variable; None for a variable that nothing binds."""
    return bindings.get(operand.name) if isinstance(operand, Variable) else operand


def stands(relation, left, right):
    """Returns whether two symbols stand in a relation; an order holds between integers alone."""
    if relation == "<>":
        return left != right
    if relation == "<=>":
        return left.kind == right.kind
    if left.kind != "integer" or right.kind != "integer":
        return False
    a, b = left.value, right.value
    return {"<": a < b, ">": a > b, "<=": a <= b, ">=": a >= b}[relation]


def holds(test, symbol, bindings):
    """Returns whether a symbol passes a test; a variable that nothing binds takes any symbol."""
    if test.relation == "<<":
        return symbol in test.operands
    other = symbol_at(test.operands[0], bindings)
    if test.relation == "":
        return other is None or other == symbol
    return other is not None and stands(test.relation, symbol, other)


def bind(tests, symbol, bindings):
    """Returns the bindings with those that the plain tests of a field add."""
    for test in tests:
        if test.relation == "" and isinstance(test.operands[0], Variable) and test.operands[0].name not in bindings:
            bindings = {**bindings, test.operands[0].name: symbol}
    return bindings


def passes(tests, symbol, bindings):
    """Returns the bindings after a field, or None if a test fails."""
    bindings = bind(tests, symbol, bindings)
    return bindings if all(holds(test, symbol, bindings) for test in tests) else None


# ---- rows

def takes(pattern, element, bindings, memory):
    """Returns the bindings after an element that the pattern takes, or None."""
    if pattern.accepts != element.accepts or pattern.state and element.id not in memory.states:
        return None
    for _, tests, symbol in pattern.fields(element):
        bindings = passes(tests, symbol, bindings)
        if bindings is None:
            return None
    return bindings


def known(tests, bindings):
    """Returns the one symbol that a field can have, or None if it is open."""
    for test in tests:
        if test.relation == "":
            symbol = symbol_at(test.operands[0], bindings)
            if symbol is not None:
                return symbol
    return None


def extend(pattern, row, memory):
    """Yields the rows with one element more."""
    for element in memory.select(known(pattern.id, row.bindings), known(pattern.attr, row.bindings)):
        bindings = takes(pattern, element, row.bindings, memory)
        if bindings is not None:
            yield Row(row.tags + (element.tag,), bindings)


def rows_with(condition, row, memory):
    """Yields the rows that a condition makes of a row."""
    found = rows_from(condition.inside, (row,), memory) if condition.pattern is None else extend(condition.pattern, row, memory)
    if not condition.negated:
        yield from found
    elif next(iter(found), None) is None:
        yield row


def rows_from(conditions, rows, memory):
    """Yields the rows of conditions in turn, from given rows."""
    if not conditions:
        yield from rows
        return
    for row in rows:
        yield from rows_from(conditions[1:], rows_with(conditions[0], row, memory), memory)


def rows_after(condition, rows, memory, most=MOST_ROWS):
    """Returns the list of rows after a condition."""
    found = []
    for row in rows:
        for longer in rows_with(condition, row, memory):
            found.append(longer)
            if len(found) > most:
                raise TooManyRows(most)
    return found


def rows_of(conditions, memory):
    """Returns all rows of conditions."""
    rows = [EMPTY]
    for condition in conditions:
        rows = rows_after(condition, rows, memory)
    return rows
