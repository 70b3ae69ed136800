"""Checks of one production: what Soar takes, and this language refuses or reads in another way."""
import re

from . import recipes
from .production import Action, Attribute, Braces, Call, Group, Reader, Unread, Value
from .tokens import tokens_of


class RuleChecks:
    """Collects the findings of one production. `rule` is its tree, or None if it could not be read."""

    def __init__(self, source, word):
        self.source = source
        self.characters = list(word.characters())
        self.tokens = tokens_of(self.characters)
        self.findings = []
        self.rule = None
        if word.is_quoted:
            self.check_substitutions()
        self.read(word)
        self.check_tokens()

    def add(self, offset, kind, why, recipe):
        self.findings.append(self.source.finding(offset, kind, why, recipe))

    def comments(self):
        """Returns the texts of the comments in the production."""
        return [token.text for token in self.tokens if token.kind == "comment"]

    def check_substitutions(self):
        """Names what a script language would put into a quoted production."""
        text = "".join(character for character, _ in self.characters)
        for found in re.finditer(r"\$\{?[A-Za-z_]\w*|\[[A-Za-z]", text):
            self.add(self.characters[found.start()][1], "script",
                     f"`{found[0]}` in a quoted production is of a script language", "Write out what it stands for")

    def check_tokens(self):
        """Names what is no token here, and numbers with a fraction."""
        numeric = {token.offset for token in numeric_preferences(self.rule.actions)} if self.rule else set()
        for token in self.tokens:
            if token.kind == "float" and token.offset in numeric:
                self.add(token.offset, "numeric", f"{token.text} is no integer, as a numeric preference has to be",
                         "Scale all numeric preferences of this operator by the same factor, up to 1,000,000,000")
            elif token.kind == "float":
                self.add(token.offset, "float", f"{token.text} is no integer", scaled(token.text))
            elif token.kind == "word" and set("<>") & set(token.text):
                self.add(token.offset, "blank", f"`{token.text}` is no token",
                         "Put a blank between a variable and a sign")
            elif token.kind == ",":
                self.add(token.offset, "comma", "preferences stand without commas", "Write `+ =`")
            elif token.kind == ";":
                self.add(token.offset, "semicolon", "a semicolon is no token", "Take it out; `#` begins a comment")
            elif token.kind == "@":
                self.add(token.offset, "long-term", "there are no long-term identifiers", recipes.MEMORY)
            elif token.kind == "bad":
                self.add(token.offset, "byte", f"no token has `{token.text}`", "Put the word in bars, `|..|`")

    def read(self, word):
        try:
            self.rule = Reader(self.tokens).production()
        except Unread as unread:
            if not any(token.kind in ("@", "bad") for token in self.tokens):
                self.add_unread(word, unread.token)
            return
        self.check_flags()
        self.check_state()
        for condition in self.rule.conditions:
            self.check_condition(condition)
        for action in self.rule.actions:
            self.check_action(action)
        self.check_rewards()

    def add_unread(self, word, token):
        if token:
            self.add(token.offset, "unread", f"no production goes on with `{token.text}`", "Look at what stands before it")
        else:
            self.add(word.offset, "unread", "the production ends too early", "Look for a bracket or the arrow")

    def check_flags(self):
        for flag in self.rule.flags:
            if flag.text not in recipes.FLAGS:
                recipe = recipes.FLAG_RECIPES.get(flag.text, recipes.OTHER_FLAG)
                self.add(flag.offset, "flag", f"there is no flag `{flag.text}`", recipe)

    def check_state(self):
        """Names a rule without a positive condition on a state."""
        if not any(group.mark and group.mark.text == "state" for group in positive_groups(self.rule.conditions)):
            self.add(self.rule.name.offset, "state", "no condition is marked `state`",
                     "Begin with a condition `(state <s> ..)`")

    def check_condition(self, condition):
        if isinstance(condition, Braces):
            for inner in condition.conditions:
                self.check_condition(inner)
            return
        if condition.mark and condition.mark.text == "impasse":
            self.add(condition.mark.offset, "impasse", "`impasse` marks no condition",
                     "Write `(state <s> ^impasse <kind> ..)`")
        for attribute in condition.attributes:
            self.check_attribute(attribute)

    def check_attribute(self, attribute: Attribute):
        for step in attribute.path:
            for test in step:
                self.check_words(test.tokens)
        for value in attribute.values:
            if value.group:
                self.check_structured(value.group)

    def check_words(self, tokens):
        """Names attributes that belong to memories which are not there."""
        for token in tokens:
            if token.kind == "word" and token.text in recipes.ATTRIBUTES:
                why, recipe = recipes.ATTRIBUTES[token.text]
                self.add(token.offset, "memory", f"`^{token.text}`: {why}", recipe)

    def check_structured(self, group):
        self.add(group.token.offset, "structured", "a value is one symbol",
                 "Write a variable, and a condition or an action of its own for it: `^block <b>) (<b> ^colour red)`")
        for attribute in group.attributes:
            self.check_attribute(attribute)

    def check_action(self, action):
        if isinstance(action, Call):
            self.check_call(action)
            return
        for path, values in action.attributes:
            for step in path:
                self.check_made(step)
            self.check_words([step for step in path if not isinstance(step, (Call, Group))])
            for made in values:
                self.check_made(made.value)
                self.check_preferences(path, made.preferences)

    def check_made(self, value):
        if isinstance(value, Call):
            self.check_call(value)
        elif isinstance(value, Group):
            self.check_structured(value)

    def check_call(self, call):
        known = recipes.FUNCTIONS if call.inside else recipes.ACTIONS
        if call.token.text not in known:
            what = "function" if call.inside else "action"
            recipe = recipes.FUNCTION_RECIPES.get(call.token.text, recipes.OTHER_FUNCTION)
            self.add(call.token.offset, what, f"there is no {what} `{call.token.text}`", recipe)
        for argument in call.arguments:
            self.check_made(argument)

    def check_preferences(self, path, preferences):
        """Names preferences that only operators have, and `&`."""
        last = path[-1]
        is_ordinary = not isinstance(last, (Call, Group)) and last.is_constant and last.text != "operator"
        for sign, other in preferences:
            if sign.text == "&":
                self.add(sign.offset, "preference", "`&` is a word, and would be one more value", "Take it out")
            elif is_ordinary and sign.text not in ("+", "-"):
                self.add(sign.offset, "preference", f"`{sign.text}` is for operators alone", "Take it out")
            if other is not None:
                self.check_made(other)

    def check_rewards(self):
        """Names a rule whose numeric preference Soar would change by rewards, by its name."""
        if self.rule.name.text.startswith("rl*") and any(numeric_preferences(self.rule.actions)):
            self.add(self.rule.name.offset, "reinforcement", "no number is learned by rewards",
                     "Keep the rule with a fixed number, under another name, or take it out")


PARTS = {1: "tenths", 2: "hundredths", 3: "thousandths"}


def scaled(text):
    """Returns the recipe for a number with a fraction or an exponent."""
    found = re.fullmatch(r"([+-]?\d*)\.(\d+)", text)
    if not found or len(found[2]) not in PARTS:
        return "Scale to whole numbers"
    return f"Scale to whole numbers: {int(found[1] + found[2])}, if all is counted in {PARTS[len(found[2])]}"


def positive_groups(conditions):
    """Yields the conditions outside of negations."""
    for condition in conditions:
        if isinstance(condition, Braces):
            if not condition.negated:
                yield from positive_groups(condition.conditions)
        elif not condition.negated:
            yield condition


def numeric_preferences(actions):
    """Yields the numbers to which `=` compares an operator."""
    for action in actions:
        if isinstance(action, Action):
            for _, values in action.attributes:
                for made in values:
                    for sign, other in made.preferences:
                        if sign.text == "=" and getattr(other, "kind", "") in ("integer", "float"):
                            yield other
