"""Values: whether what an action makes may pass the tests of a condition."""

OUTCOMES = {
    "<>": lambda a, b: a != b, "<": lambda a, b: a < b, ">": lambda a, b: a > b,
    "<=": lambda a, b: a <= b, ">=": lambda a, b: a >= b, "=": lambda a, b: a == b,
}
SAME_FAILS = ("<>", "<", ">")
NUMBERS = ("integer", "float")


def passes(rule, condition, make):
    """Whether what is made may match a condition of a rule, and what the rule asks of its value."""
    if make.parts is not None:
        asked = {other.attribute for other in rule.triples.positive if other.identifier in condition.equals}
        return asked <= make.parts
    return make.value is None or all(passes_test(test, make.value) for test in condition.tests)


def passes_test(test, value):
    """Whether a value may pass a test."""
    texts = [token.text for token in test.tokens]
    if test.relation == "<<":
        return value.text in texts or not value.is_constant
    if test.relation in SAME_FAILS and texts == [value.text]:
        return False
    return not (value.is_constant and test.tokens[0].is_constant) or holds(test.relation, value, test.tokens[0])


def holds(relation, value, token):
    """Whether a constant is in a relation to another. Words are neither less nor greater than anything."""
    if relation in OUTCOMES and value.kind in NUMBERS and token.kind in NUMBERS:
        return OUTCOMES[relation](float(value.text), float(token.text))
    return OUTCOMES[relation](value.text, token.text) if relation in ("<>", "=") else relation not in OUTCOMES
