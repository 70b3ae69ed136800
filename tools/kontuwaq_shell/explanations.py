"""The explanation of a learned rule, as `explain NAME` writes it."""

import re
from typing import NamedTuple

from .matcher import takes
from .memory import Element, elements_of
from .tokens import ELEMENT, SYMBOL, symbol

MOST_ROWS = 1000
STEP = re.compile(r"^(ground|architecture|item|select) (.*?)(?: by (\d+))?$", re.S)
FIRE = re.compile(rf"^fire (\d+) ({SYMBOL}):((?: \d+)*)$", re.S)
WISH = re.compile(rf"^(  |result )(\(({SYMBOL}) \^({SYMBOL}) ({SYMBOL}) (.*)\))$", re.S)


class Leaf(NamedTuple):
    """An element with which the explanation begins or goes on: a ground, one of the substate's own, an item or a selection."""

    kind: str
    element: Element
    by: object


class Firing(NamedTuple):
    number: int
    name: str
    tags: tuple
    made: list


class Wish(NamedTuple):
    """A preference: its text, and the element that it makes if it is acceptable; its tag is 0 as long as none is known."""

    text: str
    element: object


class Explanation:
    """Leaves, firings in order, and results."""

    def __init__(self, text):
        self.leaves, self.firings, self.results = [], [], []
        for line in text.splitlines():
            step, fire, wish = STEP.match(line), FIRE.match(line), WISH.match(line)
            if step and ELEMENT.match(step[2]):
                self.leaves.append(Leaf(step[1], next(elements_of(step[2])), int(step[3]) if step[3] else None))
            elif fire:
                self.firings.append(Firing(int(fire[1]), fire[2], tuple(int(tag) for tag in fire[3].split()), []))
            elif wish and wish[1] == "  ":
                self.firings[-1].made.append(wish_of(wish))
            elif wish:
                self.results.append(wish[2])

    def elements(self, conditions):
        """Returns the elements by tag: the leaves, and what firings made, as far as the conditions of the rules show."""
        known = {leaf.element.tag: leaf.element for leaf in self.leaves}
        made = []
        for firing in self.firings:
            known.update(matched(firing, conditions.get(firing.name, ()), known, made))
            made += [wish.element for wish in firing.made if wish.element is not None]
        return known


def wish_of(found):
    id, attr, value = symbol(found[3]), symbol(found[4]), symbol(found[5])
    return Wish(found[2], Element(0, id, attr, value, str(attr) == "operator") if found[6] == "+" else None)


def matched(firing, conditions, known, made):
    """Returns elements for the tags of a firing: the known ones, and for other tags made ones that its conditions take."""
    positive = [condition.pattern._replace(state=False) for condition in conditions if not condition.negated]
    rows = [({}, {})]
    for tag, pattern in zip(firing.tags, positive):
        candidates = [known[tag]] if tag in known else [element._replace(tag=tag) for element in made]
        rows = [({**tags, tag: element}, after) for tags, bindings in rows for element in candidates
                for after in [takes(pattern, element, bindings, None)] if after is not None][:MOST_ROWS]
    return rows[0][0] if rows else {}
