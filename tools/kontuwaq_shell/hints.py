"""Hints: lines about what passes without a refusal and is probably a mistake."""

import re
from dataclasses import replace
from typing import NamedTuple

from porting.command import commands_of
from porting.command_checks import check_command
from porting.finding import Source
from porting.refiring import refiring

from .cuts import words_of
from .productions import Braces, Call, NoProduction, Variable, read_production
from .tokens import Symbol, tokens

# A production without any of these has no hint: a relation, a plus before a value, a word of signs. Most are skipped so.
SUSPECT = re.compile(r"(?<=\s)(?:<>|<=>|<=|>=|<|>)(?=\s)|(?<!\()\+\s+[<+\-0-9]|(?<=\s)(?:[-+*/=]{2,}|[*/])(?=[\s)])")
# What means something in Soar, and here loads as an ordinary word.
OF_SOAR = re.compile(r"\b(?:epmem|smem|svs|reward-link)\b|\s&")
LOADED_KINDS = {"memory", "preference"}
# A check for productions that fire again looks at so many.
MOST_PRODUCTIONS, MOST_HINTS = 500, 5
REMEDY = "carry the old value in the operator, as docs/FROM-SOAR.md shows; `tools/port FILE` lists all such rules"


class Hint(NamedTuple):
    """A hint on a place of a command."""

    place: int
    text: str

    def line(self, command, first, source):
        """Returns the hint as a line, with the line and the column in the source of the command."""
        before = command[:self.place]
        line, column = first + before.count("\n"), len(before) - before.rfind("\n")
        return f"hint: {'' if source == '-' else source + ', '}line {line}, column {column}: {self.text}"


def hints_on_production(command):
    """Returns the hints on a production that loads."""
    of_soar = hints_of_soar(command) if OF_SOAR.search(command) else []
    if not SUSPECT.search(command):
        return of_soar
    try:
        production = read_production(command)
    except NoProduction:
        return of_soar
    found = of_soar + [hint for part in production.parts for hint in hints_on_part(part, command)]
    found += [hint for action in production.actions for make in action.makes for hint in hints_on_make(make)]
    return found + hints_on_words(command)


def findings_of(command):
    """Returns what tools/port finds in a production."""
    first = next(commands_of(command), None)
    return sorted(set(check_command(Source("-", command), first)[0])) if first else []


def hints_of_soar(command):
    """Returns hints on what Soar has, and what is an ordinary word here."""
    lines = command.split("\n")
    return [Hint(sum(len(line) + 1 for line in lines[:one.line - 1]) + one.column - 1, f"{one.why}. {one.recipe}")
            for one in findings_of(command) if one.kind in LOADED_KINDS]


class Typed(Source):
    """A command of a file or of the prompt, which gives findings the line in its source."""

    def __init__(self, name, cut):
        super().__init__(name, cut.text)
        self.line = cut.line

    def finding(self, *words):
        found = super().finding(*words)
        return replace(found, line=found.line + self.line - 1)


def refiring_hints(commands):
    """Returns hints on productions that fire again by what they make, as lines.

    `commands` are the productions of a file or of the prompt, each with its source."""
    found = []
    for source, cut in [one for one in commands if "operator" in one[1].text][:MOST_PRODUCTIONS]:
        checks = check_command(Typed(source, cut), next(commands_of(cut.text)))[1]
        found += [checks] if checks and checks.rule else []
    findings = sorted(set(refiring(found)))
    lines = [f"hint: {'' if one.file == '-' else one.file + ', '}line {one.line}, column {one.column}: {one.why}" for one in findings]
    return lines[:MOST_HINTS] + [f"hint: {REMEDY}"] * bool(lines)


# ---- conditions

def hints_on_part(part, command):
    if isinstance(part, Braces):
        return [hint for inner in part.parts for hint in hints_on_part(inner, command)]
    return [hint for attribute in part.attributes for hint in hints_on_attribute(attribute, command)]


def hints_on_attribute(attribute, command):
    """Returns the hint on several values if one is a relation, or has a mark that looks like a sum."""
    if len(attribute.values) < 2:
        return []
    said = command[attribute.start:attribute.end]
    place, count = attribute.values[1].field.start, len(attribute.values)
    if any(is_bare_relation(value.field) for value in attribute.values):
        together = command[attribute.values[0].field.start:attribute.end]
        return [Hint(place, f"{said} asks for {count} elements; for one value that passes all tests write {{ {together} }}")]
    if any(value.accepts for value in attribute.values[:-1]) and "operator" not in said:
        return [Hint(place, f"{said} asks for {count} elements, and + is the mark of a candidate; an action computes")]
    return []


def is_bare_relation(field):
    return not field.braced and field.tests[0].relation not in ("", "<<")


# ---- actions

def hints_on_make(make):
    """Returns hints on `^y <x> + 1`, which makes two values."""
    return [Hint(left.start, f"this makes two values, {left.value} and {right.value}; a sum is (+ {left.value} {right.value})")
            for left, right in zip(make.items, make.items[1:]) if looks_like_sum(left, right)]


def looks_like_sum(left, right):
    if isinstance(left.value, Call) or left.preferences != (("+", None),) or right.preferences:
        return False
    return isinstance(right.value, Variable) or isinstance(right.value, Symbol) and right.value.kind == "integer"


# ---- words

def hints_on_words(command):
    """Returns hints on bare words of signs, such as `+=`, but for functions and for what is written."""
    found, brackets, before = [], [], None
    for token in tokens(command):
        if token.is_mark("("):
            brackets.append("")
        elif token.is_mark(")") and brackets:
            brackets.pop()
        elif before is not None and before.is_mark("("):
            brackets[-1] = token.text
        elif token.kind == "bare" and re.fullmatch(r"[-+*/=]+", token.text) and "write" not in brackets:
            found.append(Hint(token.start, f"{token.text} is one word here" + remedy(token.text)))
        before = token
    return found


def remedy(signs):
    """Returns what to write in the place of a word of signs."""
    if len(signs) == 1:
        return f"; a computed value stands in brackets, as ({'div' if signs == '/' else signs} <x> 2)"
    return f"; put a blank between: {signs[0]} {signs[1]}" if len(signs) == 2 else ""


# ---- commands

def hint_on_print(command, labels, has_rule):
    """Returns the hint on `print` of a label that is new, or of a rule whose name reads as an identifier; or None."""
    words = words_of(command)
    if len(words) != 2:
        return None
    if words[1].startswith("<"):
        return None if words[1] in labels else f"hint: {words[1]} is a new label, which no command has given an element"
    if re.fullmatch(r"[A-Za-z][1-9][0-9]*", words[1]) and has_rule(words[1]):
        return f"hint: {words[1]} reads as an identifier; `print |{words[1]}|` prints the rule of this name"
    return None


def labels_of(command):
    """Returns the labels that a command of the prompt uses."""
    return {token.text for token in tokens(command) if token.kind == "variable"}
