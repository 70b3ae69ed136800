"""Productions: the tree of a rule, as far as the checks need it.

The reader takes more than the language has, so that what Soar has besides can be named: values that are conditions
themselves, `impasse` in place of `state`, and any flag."""
from dataclasses import dataclass, field

SKIPPED = (",", ";", "@", "comment", "bad")
RELATIONS = ("<", ">", "<=", ">=", "<>", "<=>", "=")
PREFERENCES = ("+", "-", "!", "~", ">", "<", "=", "&")


class Unread(Exception):
    """The token with which a production cannot go on; None if its text ends too early."""

    def __init__(self, token):
        super().__init__(token)
        self.token = token


@dataclass
class Test:
    """A test of a field: a relation, and the tokens to which it compares. `<<` has several."""

    relation: str
    tokens: list


@dataclass
class Value:
    """A value of a condition: its tests, whether it has the mark of a candidate, or the group in its place."""

    tests: list
    acceptable: bool = False
    group: object = None


@dataclass
class Attribute:
    """An attribute of a condition: its path, each step a list of tests, and its values."""

    token: object
    negated: bool
    path: list
    values: list


@dataclass
class Group:
    """A condition in round brackets. `mark` is the word `state` or `impasse` at its front."""

    token: object
    negated: bool
    mark: object
    identifier: list
    attributes: list


@dataclass
class Braces:
    """Conditions in braces."""

    negated: bool
    conditions: list


@dataclass
class Call:
    """A call of a function: its name, its arguments, and whether it stands in place of a value."""

    token: object
    arguments: list
    inside: bool


@dataclass
class Made:
    """A value that an action makes: a token, a call or a group, and its preferences."""

    value: object
    preferences: list


@dataclass
class Action:
    """An action on an identifier: each attribute's path of tokens and calls, with the values made."""

    token: object
    attributes: list


@dataclass
class Production:
    """A production: its name, its flags, its conditions and its actions."""

    name: object
    flags: list = field(default_factory=list)
    conditions: list = field(default_factory=list)
    actions: list = field(default_factory=list)


class Reader:
    """Reads the tokens of one production."""

    def __init__(self, tokens):
        self.tokens = [token for token in tokens if token.kind not in SKIPPED]
        self.place = 0

    def peek(self, ahead=0):
        """Returns the kind of a token to come; a sign is its own kind."""
        if self.place + ahead >= len(self.tokens):
            return ""
        token = self.tokens[self.place + ahead]
        return token.text if token.kind == "sign" else token.kind

    def take(self, *kinds):
        """Takes the next token, which has to be of one of `kinds`, if some are given."""
        if self.place >= len(self.tokens) or (kinds and self.peek() not in kinds):
            raise Unread(self.tokens[self.place] if self.place < len(self.tokens) else None)
        self.place += 1
        return self.tokens[self.place - 1]

    def takes(self, kind):
        """Takes the next token if it is of `kind`, and returns whether it is."""
        if self.peek() == kind:
            self.place += 1
            return True
        return False

    def production(self):
        """Returns the production of all tokens."""
        rule = Production(self.take("word", "integer", "bar"))
        while self.peek() == "text" or self.is_flag():
            token = self.take()
            if token.kind == "word":
                rule.flags.append(token)
        while self.peek() != "arrow":
            rule.conditions.append(self.condition())
        self.take("arrow")
        while self.peek():
            rule.actions.append(self.action())
        return rule

    def is_flag(self):
        return self.peek() == "word" and self.tokens[self.place].text.startswith(":")

    def condition(self):
        negated = self.takes("-")
        if self.takes("{"):
            inside = []
            while not self.takes("}"):
                inside.append(self.condition())
            return Braces(negated, inside)
        return self.group(negated)

    def group(self, negated):
        token, mark = self.take("("), None
        if self.peek() == "word" and self.tokens[self.place].text in ("state", "impasse"):
            mark = self.take()
        identifier = [] if self.peek() in ("^", "-", ")") else self.tests()
        attributes = []
        while not self.takes(")"):
            attributes.append(self.attribute())
        return Group(token, negated, mark, identifier, attributes)

    def attribute(self):
        negated = self.takes("-")
        token = self.take("^")
        path = [self.tests()]
        while self.takes("."):
            path.append(self.tests())
        values = []
        while self.peek() not in ("^", ")", "") and not (self.peek() == "-" and self.peek(1) == "^"):
            values.append(self.value())
        return Attribute(token, negated, path, values)

    def value(self):
        if self.peek() == "(":
            return Value([], group=self.group(False))
        tests = self.tests()
        return Value(tests, self.takes("+"))

    def tests(self):
        """Returns the tests of one field."""
        if not self.takes("{"):
            return [self.test()]
        found = []
        while not self.takes("}"):
            found.append(self.test())
        return found

    def test(self):
        if self.takes("one-of"):
            found = []
            while not self.takes("end-of"):
                found.append(self.atom())
            return Test("<<", found)
        relation = self.take().text if self.peek() in RELATIONS else "="
        return Test(relation, [self.atom()])

    def atom(self):
        return self.take("word", "integer", "float", "bar", "variable")

    def action(self):
        """Returns an action on an identifier, or a call that stands as an action."""
        token = self.take("(")
        if self.peek() != "variable":
            return self.call(False)
        identifier, attributes = self.take(), []
        while not self.takes(")"):
            attributes.append(self.made_attribute())
        return Action(identifier, attributes)

    def call(self, inside):
        """Returns the call whose opening bracket was taken."""
        name, arguments = self.take("word", "bar", *RELATIONS, "+", "-", "&"), []
        while not self.takes(")"):
            arguments.append(self.made_value())
        return Call(name, arguments, inside)

    def made_attribute(self):
        self.take("^")
        path = [self.made_value()]
        while self.takes("."):
            path.append(self.made_value())
        values = []
        while self.peek() not in ("^", ")"):
            values.append(Made(self.made_value(), self.preferences()))
        return path, values

    def made_value(self):
        if self.peek() != "(":
            return self.atom()
        if self.peek(1) in ("^", "variable"):
            return self.group(False)
        self.take("(")
        return self.call(True)

    def preferences(self):
        """Returns the preferences of a value, each with what it compares to, or None."""
        found = []
        while self.peek() in PREFERENCES:
            sign = self.take()
            compares = sign.text in (">", "<", "=", "&") and (self.peek() == "(" or self.is_atom())
            found.append((sign, self.made_value() if compares else None))
        return found

    def is_atom(self):
        return self.place < len(self.tokens) and self.tokens[self.place].is_value
