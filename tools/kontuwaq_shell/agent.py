"""What the program says of the agent, asked when it is needed."""

import re

from .matcher import conditions_of
from .memory import elements_of, memory_of
from .productions import NoProduction, read_production
from .tokens import SYMBOL, barred, unquoted, word


def meaning(name):
    """Returns the text of a rule's name as it was typed or printed, in bars or bare."""
    return unquoted(name) if name.startswith("|") and name.endswith("|") and len(name) > 1 else name


class Agent:
    """Questions to the program, none of which changes anything."""

    def __init__(self, program):
        self.program = program

    def memory(self):
        return memory_of(self.program.ask("print --wm").text)

    def names(self):
        """Returns the names of all rules, as the program prints them."""
        return re.findall(rf"^{SYMBOL}$", self.program.ask("print --rules").text, re.M | re.S)

    def chunks(self):
        """Returns the names of the chunks."""
        return re.findall(rf"^sp {{({SYMBOL})$", self.program.ask("print --chunks").text, re.M | re.S)

    def printed(self, name):
        """Returns the answer to `print` of a rule."""
        return self.program.ask("print " + barred(meaning(name)))

    def has_rule(self, name):
        return self.printed(name).text.startswith("sp {")

    def conditions(self, name):
        """Returns the conditions of a rule in match order; none if it is not loaded."""
        text = self.printed(name).text
        try:
            return conditions_of(read_production(text), text)
        except NoProduction:
            return ()

    def identifier(self, label):
        """Returns the identifier for which a label stands; a word, which no element has, if it has no elements."""
        element = next(elements_of(self.program.ask("print " + label).text), None)
        return element.id if element else word(label)

    def counts(self):
        """Returns the counts of `stats` by name."""
        return {name: int(count) for name, count in re.findall(r"([a-z]+) (\d+)", self.program.ask("stats").text)}
