"""The nearest elements of a condition: those that fail exactly one of its tests."""

from difflib import SequenceMatcher
from typing import NamedTuple

from .matcher import bind, holds, known, symbol_at
from .productions import Variable

# An element with the right attribute and another value is closer than one whose attribute differs much.
LEAST_OF_VALUES = 0.6
MOST_TESTED = 100_000


class Failure(NamedTuple):
    """A failed test in words, and how close the element comes to passing it, from 0 to 1."""

    text: str
    closeness: float


class Near(NamedTuple):
    element: object
    failure: Failure


def article(kind):
    return "an" if kind in ("identifier", "integer") else "a"


def closeness_of(wanted, got):
    """Compares the texts of two symbols; letter case and bars count little."""
    if str(wanted.value).lower() == str(got.value).lower():
        return 1.0
    if wanted.kind != got.kind:
        return 0.0
    return SequenceMatcher(None, str(wanted.value).lower(), str(got.value).lower()).ratio()


def plain_failure(name, operand, symbol, bindings):
    wanted = symbol_at(operand, bindings)
    asked = f"{operand} is {wanted}" if isinstance(operand, Variable) else f"{wanted} is asked for"
    text = f"the {name} is {symbol}, and {asked}"
    if wanted.kind != symbol.kind and str(wanted.value) == str(symbol.value):
        text += f": {article(symbol.kind)} {symbol.kind} is not {article(wanted.kind)} {wanted.kind}"
    if isinstance(operand, Variable):
        return Failure(text, 0.8)
    return Failure(text, max(LEAST_OF_VALUES if name == "value" else 0.0, closeness_of(wanted, symbol)))


def relation_failure(name, test, symbol, bindings):
    other = symbol_at(test.operands[0], bindings)
    asked = f"{test.relation} {test.operands[0]}" + (f" with {other}" if isinstance(test.operands[0], Variable) else "")
    text = f"the {name} is {symbol}, and {asked} is asked for"
    if test.relation in ("<", ">", "<=", ">="):
        words = [one for one in (symbol, other) if one is not None and one.kind != "integer"]
        text += "".join(f": {one} is no integer" for one in words[:1])
    return Failure(text, 0.9)


def choice_failure(name, test, symbol):
    asked = " ".join(str(one) for one in test.operands)
    return Failure(f"the {name} is {symbol}, and one of << {asked} >> is asked for",
                   max((closeness_of(one, symbol) for one in test.operands), default=0.0))


def test_failure(name, test, symbol, bindings):
    if test.relation == "<<":
        return choice_failure(name, test, symbol)
    if test.relation:
        return relation_failure(name, test, symbol, bindings)
    return plain_failure(name, test.operands[0], symbol, bindings)


def mark_failure(pattern):
    if pattern.accepts:
        return Failure("it has no mark, and a candidate (+) is asked for", 1.0)
    return Failure("it has the mark + of a candidate, and the selected operator is asked for", 1.0)


def failures(pattern, element, bindings, memory):
    """Returns each test of a pattern that an element fails."""
    found = []
    if pattern.state and element.id not in memory.states:
        found.append(Failure(f"{element.id} is no state", 0.9))
    for name, tests, symbol in pattern.fields(element):
        bindings = bind(tests, symbol, bindings)
        found += [test_failure(name, test, symbol, bindings) for test in tests if not holds(test, symbol, bindings)]
    if pattern.accepts != element.accepts:
        found.append(mark_failure(pattern))
    return found


def candidates(pattern, bindings, memory):
    """Returns elements among which are all that fail exactly one test: such an element passes the identifier or the attribute."""
    attr = known(pattern.attr, bindings)
    id = known(pattern.id, bindings)
    if attr is None or id is None and not pattern.state:
        return memory.elements
    ids = memory.goals if id is None else [id]
    return [element for one in ids for element in memory.select(one)] + memory.select(attr=attr)


def nearest(pattern, rows, memory):
    """Returns the elements that fail exactly one test of a pattern after one of the rows, the closest first."""
    best, tested = {}, 0
    for row in rows:
        for element in candidates(pattern, row.bindings, memory):
            failed = failures(pattern, element, row.bindings, memory)
            if len(failed) == 1 and (element.tag not in best or best[element.tag].failure.closeness < failed[0].closeness):
                best[element.tag] = Near(element, failed[0])
            tested += 1
            if tested > MOST_TESTED:
                return in_order(best)
    return in_order(best)


def in_order(best):
    return sorted(best.values(), key=lambda near: (-near.failure.closeness, near.element.tag))
