"""Working memory as the program lists it, and its stack of goals."""

from typing import NamedTuple

from .tokens import ELEMENT, identifier, symbol, word


class Element(NamedTuple):
    tag: int
    id: object
    attr: object
    value: object
    accepts: bool

    def __str__(self):
        return f"({self.id} ^{self.attr} {self.value}{' +' if self.accepts else ''})"

    def line(self):
        """Returns the line by which the program lists the element."""
        return f"{self.tag}: {self}"


class Memory:
    """Elements in order of tags, found by identifier and attribute."""

    def __init__(self, elements):
        self.elements = list(elements)
        self.of_id, self.of_attr, self.of_both = {}, {}, {}
        for element in self.elements:
            self.of_id.setdefault(element.id, []).append(element)
            self.of_attr.setdefault(element.attr, []).append(element)
            self.of_both.setdefault((element.id, element.attr), []).append(element)
        self.goals = self.stack_of_goals()
        self.states = set(self.goals)

    def select(self, id=None, attr=None):
        """Returns the elements with an identifier and an attribute, each of which may be left open."""
        if id is None:
            return self.elements if attr is None else self.of_attr.get(attr, [])
        return self.of_id.get(id, []) if attr is None else self.of_both.get((id, attr), [])

    def values(self, id, attr, accepts=False):
        """Returns the values of an attribute that is given as text."""
        return [element.value for element in self.select(id, word(attr)) if element.accepts == accepts]

    def stack_of_goals(self):
        """Returns the states of the goals, from the top one down."""
        goals, state = [], identifier("S1")
        while state is not None:
            goals.append(state)
            state = next((element.id for element in self.of_attr.get(word("superstate"), [])
                          if element.value == goals[-1] and element.id not in goals
                          and self.values(element.id, "quiescence")), None)
        return goals

    def name_of(self, operator):
        """Returns the least `^name` of an operator in brackets after a blank, as the trace has it, or nothing."""
        names = self.values(operator, "name")
        return f" ({min(names, key=order)})" if names else ""


def order(one):
    """Returns the key that orders symbols as the program does: identifiers, integers, words."""
    if one.kind == "identifier":
        return 0, one.value[0], int(one.value[1:])
    return (1, one.value, 0) if one.kind == "integer" else (2, one.value.encode("utf-8", "surrogateescape"), 0)


def elements_of(text):
    """Yields the elements of a list as `print --wm` writes it."""
    for tag, id, attr, value, mark in ELEMENT.findall(text):
        yield Element(int(tag), symbol(id), symbol(attr), symbol(value), bool(mark))


def memory_of(text):
    return Memory(elements_of(text))
