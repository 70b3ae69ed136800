"""Applications that fire again by what they make.

In Soar an operator's proposal is retracted before its applications can fire again. Here elaborations, retractions and
applications share a wave. So a rule that applies an operator matches a value that comes in the place of one it tests,
while its operator is still there. The rule fires once if one value that it tests and that goes is guarded: by the operator,
which has the old value, by a test that the new value fails, or by a negation that its own action blocks."""
import re
from dataclasses import dataclass, replace
from functools import cached_property

from .production import Call
from .triples import Triples
from .values import passes

LOOKED_AT = re.compile(r"#\s*fires once\b")
TIE = "Let the proposal give the operator the old value, `(<o> ^from {value})`, and ask for it here"
OTHER_THAN_NEW = "; or ask that the value is not the new one, `{{ {value} <> <new> }}`"
SAY_WHY = "; or, if it cannot fire again, say why in a comment `# fires once: ..` in the rule"


@dataclass
class Change:
    """A tested value that goes when the operator is applied: its condition, what comes, and why a finding is made."""

    condition: object
    offset: int
    makes: list
    why: str


class Application:
    """A rule that has the selected operator among its conditions: its triples, and the variables of operators in it."""

    def __init__(self, checks):
        self.checks = checks
        self.triples = Triples(checks.rule)
        selected = [c for c in self.triples.positive if c.attribute == "operator" and not c.candidate]
        self.operators = {text for condition in selected for text in condition.equals}
        self.states = self.triples.states | {condition.identifier for condition in selected}
        self.makes = [make for make in self.triples.makes if make.attribute != "operator"
                      and make.identifier in self.triples.bound - self.operators]

    @property
    def name(self):
        return self.checks.rule.name.text

    @property
    def acts(self):
        """Whether the rule applies its operator, or writes of it."""
        writes = any(isinstance(action, Call) and action.token.text == "write" for action in self.checks.rule.actions)
        flags = {flag.text for flag in self.checks.rule.flags}
        return bool(self.operators) and bool(self.makes or writes) and ":i-support" not in flags

    @cached_property
    def names(self):
        """The names that its operators may have; none if any."""
        return {token.text for condition in self.triples.positive
                if condition.identifier in self.operators and condition.attribute == "name"
                for test in condition.tests if test.relation in ("=", "<<")
                for token in test.tokens if token.kind != "variable"}

    def meets(self, other):
        """Whether `other` is another rule that may fire for the same operator."""
        return other is not self and (not self.names or not other.names or bool(self.names & other.names))

    def origins(self, identifier):
        """Returns the attributes that lead to an identifier."""
        return {condition.attribute for condition in self.triples.positive if identifier in condition.equals}

    def removals(self):
        """Yields each value that the rule tests and rejects, with the condition on it."""
        for make in self.makes:
            for condition in self.triples.positive:
                if (condition.identifier, condition.attribute) == (make.identifier, make.attribute):
                    if make.rejected and make.value is not None and make.value.text in condition.equals:
                        yield make, condition

    def replacements(self, removed):
        """Returns what this rule makes in the place of a removed value.

        A constant that is removed does not come again by the same firing, since a rejected value stays away."""
        return [make for make in self.makes if not make.rejected and not removed.is_constant
                and (make.identifier, make.attribute) == (removed.identifier, removed.attribute)]

    def is_tied(self, condition):
        """Whether another condition, on what the operator has, asks for the value of this one."""
        others = [other for other in self.triples.positive
                  if (other.identifier, other.attribute) != (condition.identifier, condition.attribute)]
        reached, before = set(self.operators), set()
        while reached != before:
            before = set(reached)
            reached |= {text for other in others if other.identifier in before for text in other.equals}
        return any(other.identifier in reached and condition.equals & other.equals for other in others)

    def blocks_itself(self):
        """Whether an action makes what a negation of the rule asks to be missing."""
        return any((make.identifier, make.attribute) == (absent.identifier, absent.attribute) and not make.rejected
                   and (not absent.tests or make.value is not None and make.value.text in absent.equals)
                   for absent in self.triples.negative for make in self.makes)

    def says_more(self, condition):
        """Whether other tests than one variable are on the value of a condition."""
        uses = [other for other in self.triples.positive if condition.equals & ({other.identifier} | other.texts)]
        return len(uses) > 1 or len(condition.tests) > 1

    def is_looked_at(self):
        """Whether a comment in the rule says why it fires once."""
        return any(map(LOOKED_AT.match, self.checks.comments()))


def same_thing(rule, identifier, other, its):
    """Whether identifiers of two rules may be the same: both states, or things to which the same attribute leads."""
    if identifier in rule.states or its in other.states:
        return identifier in rule.states and its in other.states
    ways, others = rule.origins(identifier), other.origins(its)
    return not ways or not others or bool(ways & others)


def seen_from_outside(make):
    """Returns what is made, as another rule knows it: only constants and new identifiers."""
    return make if make.is_constant else replace(make, value=None)


def own_changes(rule, others):
    """Yields the changes of what the rule itself takes away."""
    for removed, condition in rule.removals():
        makes = rule.replacements(removed)
        verb = "may fire again" if rule.says_more(condition) else "fires again"
        why = f"{rule.name} {verb} by the new ^{removed.attribute}"
        if not makes:
            why = f"{rule.name} may fire by the ^{removed.attribute} that another application makes"
            makes = [seen_from_outside(make) for other in others if rule.meets(other) for make in other.makes
                     if not make.rejected and make.attribute == removed.attribute
                     and (make.is_constant or not removed.is_constant)
                     and same_thing(rule, removed.identifier, other, make.identifier)]
        yield Change(condition, removed.offset, makes, why)


def changes_by_others(rule, others):
    """Yields the changes of what the rule only tests, and another rule of its operator replaces."""
    taken = [condition for _, condition in rule.removals()]
    for other in filter(rule.meets, others):
        for removed, _ in other.removals():
            makes = [seen_from_outside(make) for make in other.makes if not make.rejected
                     and (make.identifier, make.attribute) == (removed.identifier, removed.attribute)]
            for condition in rule.triples.positive:
                if (makes and condition.attribute == removed.attribute and condition.equals and condition not in taken
                        and same_thing(rule, condition.identifier, other, removed.identifier)):
                    why = f"{rule.name} may fire again by the new ^{removed.attribute} of {other.name}"
                    yield Change(condition, condition.offset, makes, why)


def is_guarded(rule, change):
    """Whether the rule cannot match by what comes in the place of a value."""
    return rule.is_tied(change.condition) or not any(passes(rule, change.condition, make) for make in change.makes)


def refiring(checked):
    """Returns the findings over the checked productions of an agent."""
    rules = [rule for rule in map(Application, checked) if rule.acts]
    findings = []
    for rule in rules:
        if rule.is_looked_at() or rule.blocks_itself():
            continue
        changes = [*own_changes(rule, rules), *changes_by_others(rule, rules)]
        if changes and not any(is_guarded(rule, change) for change in changes):
            findings.append(finding(rule, changes[0]))
    return findings


def finding(rule, change):
    """Returns the finding on a rule that may fire again."""
    value = sorted(change.condition.equals)[0]
    recipe = TIE + (OTHER_THAN_NEW if value.startswith("<") else "") + SAY_WHY
    return rule.checks.source.finding(change.offset, "again", f"{change.why}, before the proposal retracts",
                                      recipe.format(value=value))
