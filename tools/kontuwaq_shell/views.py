"""Views of working memory: an identifier with what it leads to, elements by attribute, the stack of goals."""

from .memory import order
from .tokens import identifier


def depth_lines(memory, top, depth):
    """Returns a line for each identifier within `depth` steps, indented by its distance below the one that leads to it first."""
    children, waiting = {top: []}, [(top, 1)]
    for id, distance in waiting:
        values = {one.value: None for one in memory.select(id) if one.value.kind == "identifier"} if distance < depth else {}
        for value in values:
            if value not in children and memory.select(value):
                children[id].append(value)
                children[value] = []
                waiting.append((value, distance + 1))
    lines, left = [], [(top, 0)]
    while left:
        id, distance = left.pop()
        lines.append("  " * distance + identifier_line(memory, id))
        left += [(child, distance + 1) for child in reversed(children[id])]
    return lines if memory.select(top) else ["no elements"]


def identifier_line(memory, id):
    """Returns an identifier with its attributes and values in one pair of brackets."""
    pairs = " ".join(f"^{one.attr} {one.value}{' +' if one.accepts else ''}" for one in memory.select(id))
    return f"({id} {pairs})"


def find_lines(memory, id, attr, value):
    """Returns the elements with an identifier, an attribute and a value, each of which may be None."""
    found = [one for one in memory.select(id, attr) if value is None or one.value == value]
    return [one.line() for one in found] or ["no elements"]


def identifier_named(text):
    """Returns the identifier of a word such as s1 or S1."""
    return identifier(text[:1].upper() + text[1:])


def impasse_of(memory, state):
    """Returns the kind of a substate's impasse, as the trace has it."""
    kind = " ".join(str(value) for value in memory.values(state, "impasse"))
    return " ".join(str(value) for value in memory.values(state, "attribute")) + f" {kind}" if kind == "no-change" else kind


def goal_lines(memory):
    """Returns the stack of goals in the form of the trace, each with its items and the operator that is selected."""
    lines = []
    for depth, state in enumerate(memory.goals):
        indent = "  " * depth
        kind = f" ({impasse_of(memory, state)})" if depth else ""
        items = " ".join(str(item) for item in sorted(memory.values(state, "item"), key=order))
        lines.append(f"{indent}==>S: {state}{kind}{' of ' + items if items else ''}")
        lines += [f"{indent}O: {operator}{memory.name_of(operator)}" for operator in memory.values(state, "operator")]
    return lines
