"""Productions as trees whose parts know their places in the text."""

from typing import NamedTuple

from .tokens import Symbol, constant, tokens

RELATIONS = ("<", ">", "<=", ">=", "<>", "<=>", "=")


class Variable(NamedTuple):
    name: str

    def __str__(self):
        return self.name


class Test(NamedTuple):
    """A test of a field. `relation` is a sign, `<<` for one of several constants, or empty; `operands` has what follows."""

    relation: str
    operands: tuple
    start: int
    end: int


class Field(NamedTuple):
    tests: tuple
    braced: bool
    start: int
    end: int


class Value(NamedTuple):
    """A value of a condition, with the mark of a candidate or without."""

    field: Field
    accepts: bool


class Attribute(NamedTuple):
    """`^A.B V W`: an attribute, the path after it, and the values; `negated` after a minus."""

    negated: bool
    field: Field
    path: tuple
    values: tuple
    start: int
    end: int


class Group(NamedTuple):
    """`(state <s> ^a <x>)`, with a minus before it if it is negated."""

    negated: bool
    state: bool
    field: object
    attributes: tuple
    start: int
    end: int


class Braces(NamedTuple):
    """`{ .. }` around conditions, with a minus before it if it is negated."""

    negated: bool
    parts: tuple
    start: int
    end: int


class Item(NamedTuple):
    """A value of an action with its preferences: pairs of a sign and what follows it, or None."""

    value: object
    preferences: tuple
    start: int
    end: int


class Make(NamedTuple):
    """`^A.B V W` of an action."""

    attribute: object
    path: tuple
    items: tuple


class Action(NamedTuple):
    """An action: `makes` for an identifier, or the values that it writes, or neither for a halt."""

    makes: tuple
    written: tuple


class Call(NamedTuple):
    function: str
    arguments: tuple


class Production(NamedTuple):
    name: Symbol
    parts: tuple
    actions: tuple


class NoProduction(ValueError):
    """The text is no production."""


class Reader:
    """Reads a production from the tokens of a text."""

    def __init__(self, text):
        self.tokens = list(tokens(text))
        self.place = 0

    def peek(self, ahead=0):
        place = self.place + ahead
        if place >= len(self.tokens):
            raise NoProduction("the text ends too early")
        return self.tokens[place]

    def take(self):
        token = self.peek()
        self.place += 1
        return token

    def expect(self, text):
        token = self.take()
        if not token.is_mark(text):
            raise NoProduction(f"{text} is missing at {token.start}")
        return token

    def sees(self, text):
        return self.peek().is_mark(text)

    def sees_minus(self, text):
        return self.peek().is_sign("-") and self.peek(1).is_mark(text)

    def many(self, read, *closing):
        """Reads with `read` as long as none of the closing marks follows."""
        found = []
        while not any(self.sees(mark) for mark in closing):
            found.append(read())
        return tuple(found)

    def production(self):
        if self.take().text != "sp":
            raise NoProduction("sp is missing")
        self.expect("{")
        name = constant(self.take())
        while self.peek().kind == "documentation" or self.peek().text.startswith(":"):
            self.take()
        parts = self.many(self.part, "-->")
        self.expect("-->")
        return Production(name, parts, self.many(self.action, "}"))

    # ---- conditions

    def part(self):
        start = self.peek().start
        negated = self.peek().is_sign("-")
        if negated:
            self.take()
        if self.sees("{"):
            self.take()
            parts = self.many(self.part, "}")
            return Braces(negated, parts, start, self.take().end)
        self.expect("(")
        state = self.peek().kind == "bare" and self.peek().text == "state"
        if state:
            self.take()
        bare = self.sees("^") or self.sees_minus("^") or self.sees(")")
        field = None if bare else self.field()
        attributes = self.many(self.attribute, ")")
        return Group(negated, state, field, attributes, start, self.take().end)

    def attribute(self):
        start = self.peek().start
        negated = self.sees_minus("^")
        if negated:
            self.take()
        self.expect("^")
        field = self.field()
        path = []
        while self.sees("."):
            self.take()
            path.append(self.field())
        values = []
        while not (self.sees("^") or self.sees_minus("^") or self.sees(")")):
            value = self.field()
            accepts = self.peek().is_sign("+")
            if accepts:
                self.take()
            values.append(Value(value, accepts))
        return Attribute(negated, field, tuple(path), tuple(values), start, self.tokens[self.place - 1].end)

    def field(self):
        start = self.peek().start
        braced = self.sees("{")
        if not braced:
            test = self.test()
            return Field((test,), False, start, test.end)
        self.take()
        tests = self.many(self.test, "}")
        return Field(tests, True, start, self.take().end)

    def test(self):
        first = self.take()
        if first.is_mark("<<"):
            operands = self.many(self.atom, ">>")
            return Test("<<", operands, first.start, self.take().end)
        if first.kind == "sign" and first.text in RELATIONS:
            operand = self.peek()
            return Test("" if first.text == "=" else first.text, (self.atom(),), first.start, operand.end)
        self.place -= 1
        return Test("", (self.atom(),), first.start, first.end)

    def atom(self):
        token = self.take()
        if token.kind == "variable":
            return Variable(token.text)
        if token.is_constant():
            return constant(token)
        raise NoProduction(f"no variable and no constant at {token.start}")

    # ---- actions

    def action(self):
        self.expect("(")
        first = self.take()
        if first.kind == "bare" and first.text == "write":
            written = self.many(self.term, ")")
            self.take()
            return Action((), written)
        makes = self.many(self.make, ")")
        self.take()
        return Action(makes, ())

    def make(self):
        self.expect("^")
        attribute = self.term()
        path = []
        while self.sees("."):
            self.take()
            path.append(self.term())
        return Make(attribute, tuple(path), self.many(self.item, "^", ")"))

    def item(self):
        start = self.peek().start
        value = self.term()
        preferences = []
        while self.peek().kind == "sign" or self.sees("!") or self.sees("~"):
            sign = self.take().text
            compares = sign in "<>=" and (self.peek().is_constant() or self.peek().kind == "variable" or self.sees("("))
            preferences.append((sign, self.term() if compares else None))
        return Item(value, tuple(preferences), start, self.tokens[self.place - 1].end)

    def term(self):
        if not self.sees("("):
            return self.atom()
        self.take()
        function = self.take().text
        arguments = self.many(self.term, ")")
        self.take()
        return Call(function, arguments)


def read_production(text):
    """Returns the tree of a production; raises NoProduction for any other text."""
    return Reader(text).production()
