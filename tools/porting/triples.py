"""Triples: the conditions and the actions of a production, one attribute and one value each."""
from dataclasses import dataclass, replace
from itertools import count

from .production import Action, Braces, Call, Group, Test


@dataclass(frozen=True)
class Condition:
    """A condition as a triple. Identifier and attribute are texts; `tests` are those of its value."""

    identifier: str
    attribute: str
    tests: tuple
    offset: int
    candidate: bool = False

    @property
    def equals(self):
        """The texts that the value has to equal."""
        return {test.tokens[0].text for test in self.tests if test.relation == "="}

    @property
    def texts(self):
        """The texts of all tokens in its tests."""
        return {token.text for test in self.tests for token in test.tokens}


@dataclass(frozen=True)
class Make:
    """A value that an action makes or rejects. `value` is its token, or None if it is computed.

    `parts` are the attributes that the rule gives to a new identifier, and None for any other value."""

    identifier: str
    attribute: str
    value: object
    rejected: bool
    offset: int
    parts: frozenset = None

    @property
    def is_constant(self):
        return self.value is not None and self.value.is_constant


class Triples:
    """The triples of a production. `positive` and `negative` are conditions, `makes` what the actions make."""

    def __init__(self, rule):
        self.fresh = (f"<${number}>" for number in count(1))
        self.positive, self.negative, self.states = [], [], set()
        for condition in rule.conditions:
            self.take_condition(condition)
        made = [make for action in rule.actions if isinstance(action, Action) for make in self.makes_of(action)]
        self.makes = [self.with_parts(make, made) for make in made]

    def take_condition(self, condition):
        if isinstance(condition, Braces):
            if not condition.negated:
                for inner in condition.conditions:
                    self.take_condition(inner)
            return
        identifier = text_of(condition.identifier) or next(self.fresh)
        if condition.mark:
            self.states.add(identifier)
        for attribute in condition.attributes:
            self.take_attribute(identifier, attribute, condition)

    def take_attribute(self, identifier, attribute, group):
        """Puts the triples of one attribute into the list of its sign. Only negations of one triple are kept."""
        found = list(self.triples_of(identifier, attribute))
        if attribute.negated or group.negated:
            if len(found) == 1 and (attribute.negated or len(group.attributes) == 1):
                self.negative.append(found[0])
        else:
            self.positive += found

    def triples_of(self, identifier, attribute):
        offset = attribute.token.offset
        for step in attribute.path[:-1]:
            after = next(self.fresh)
            yield Condition(identifier, text_of(step), (equal_to(after),), offset)
            identifier = after
        last = text_of(attribute.path[-1])
        if not attribute.values:
            yield Condition(identifier, last, (), offset)
        for value in attribute.values:
            yield Condition(identifier, last, tuple(value.tests), offset, value.acceptable)

    @property
    def bound(self):
        """The variables that positive conditions bind."""
        return {text for condition in self.positive for text in condition.equals | {condition.identifier}}

    def makes_of(self, action):
        """Yields what an action makes and rejects; of a path its first step, a new identifier."""
        for path, values in action.attributes:
            if any(isinstance(step, (Call, Group)) for step in path):
                continue
            first, *rest = [step.text for step in path]
            if rest:
                yield Make(action.token.text, first, None, False, path[0].offset, frozenset(rest[:1]))
                continue
            for made in values:
                yield from makes_of_value(action.token.text, first, made)

    def with_parts(self, make, made):
        """Returns `make` with the attributes of its value, if that is a new identifier."""
        if make.value is None or make.value.kind != "variable" or make.value.text in self.bound:
            return make
        return replace(make, parts=frozenset(other.attribute for other in made if other.identifier == make.value.text))


def makes_of_value(identifier, attribute, made):
    """Yields what the preferences of one value make and reject."""
    signs = {sign.text for sign, _ in made.preferences} or {"+"}
    is_token = not isinstance(made.value, (Call, Group))
    token = made.value if is_token else made.value.token
    if "-" in signs:
        yield Make(identifier, attribute, made.value if is_token else None, True, token.offset)
    if signs - {"-", "~"}:
        yield Make(identifier, attribute, made.value if is_token else None, False, token.offset)


@dataclass(frozen=True)
class Name:
    """A variable that stands for a step of a path."""

    text: str
    kind: str = "variable"


def equal_to(text):
    return Test("=", [Name(text)])


def text_of(tests):
    """Returns the text that a field has to equal, or an empty one."""
    return next((test.tokens[0].text for test in tests if test.relation == "="), "")
