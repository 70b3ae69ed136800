"""Refusals: where in the source each one points, shown by a line and a caret."""

import re
import unicodedata
from typing import NamedTuple

from .cuts import extent
from .productions import Braces, NoProduction, read_production
from .tokens import Symbol, tokens, word

REFUSAL = re.compile(r"^error ([1-4][0-9]) (.+):([0-9]+): (.+)$")
UNFINISHED, UNCONNECTED = 11, 22
NAMING = re.compile("(?:unbound variable|unknown identifier|no production|not a learned rule|no element|not an input element|no file) (.+)")
WITH_BYTE = re.compile(r" at byte ([0-9]+)$")


class Refusal(NamedTuple):
    number: int
    source: str
    line: int
    text: str

    def __str__(self):
        return f"error {self.number} {self.source}:{self.line}: {self.text}"


def refusal_of(line):
    """Returns the refusal that a line is, or None."""
    found = REFUSAL.match(line)
    return Refusal(int(found[1]), found[2], int(found[3]), found[4]) if found else None


# ---- the place in a command

def character_at(command, byte):
    """Returns the place of the character that begins at a byte, or has it inside."""
    return len(command.encode("utf-8", "surrogateescape")[:byte].decode("utf-8", "ignore"))


def place_in(command, refusal):
    """Returns the character of a command to which a refusal points: a byte, a word that it names, or the beginning."""
    byte = WITH_BYTE.search(refusal.text)
    if byte:
        return min(character_at(command, int(byte[1])), len(command))
    if refusal.number == UNFINISHED:
        opened = extent(command)[1]
        return opened[-1] if opened else 0
    if refusal.number in PLACES_IN_PRODUCTIONS:
        return place_in_production(command, refusal)
    return place_of_name(command, refusal.text)


def place_of_name(command, text):
    """Returns the place of what a refusal's text names; 0 if there is none."""
    named = NAMING.match(text)
    if not named:
        return 0
    for token in tokens(command):
        said = command[token.start:token.end]
        if token.start > 0 and named[1] in (said, said[:1].upper() + said[1:]):
            return token.start
    return max(0, command.find(named[1]))


def place_in_production(command, refusal):
    """Returns the place of the condition or action that a refusal speaks of."""
    try:
        places = list(PLACES_IN_PRODUCTIONS[refusal.number](read_production(command)))
    except NoProduction:
        return 0
    number = int(refusal.text.split()[-1]) if refusal.number == UNCONNECTED else 1
    return places[number - 1] if 0 < number <= len(places) else 0


def places_of_conditions(production):
    """Yields the place of each single condition that a production stands for."""
    for part in production.parts:
        yield from places_of(part)


def places_of(part):
    """Yields the place of each single condition that a part of a production stands for."""
    if part.negated:
        yield part.start
    elif isinstance(part, Braces):
        for inner in part.parts:
            yield from places_of(inner)
    else:
        places = [place for attribute in part.attributes for place in places_of_attribute(attribute)]
        yield from [part.start] + places[1:]


def places_of_attribute(attribute):
    if attribute.negated:
        yield attribute.start
        return
    for _ in attribute.path:
        yield attribute.start
    if len(attribute.values) < 2:
        yield attribute.start
    else:
        for value in attribute.values:
            yield value.field.start


def places_of_comparisons(production):
    """Yields the place of each value of an ordinary attribute with a preference that operators alone have."""
    for make in (make for action in production.actions for make in action.makes):
        for item in make.items:
            last = (make.attribute, *make.path)[-1]
            compares = any(sign not in "+-" for sign, _ in item.preferences)
            if compares and isinstance(last, Symbol) and last != word("operator"):
                yield item.start


PLACES_IN_PRODUCTIONS = {20: places_of_conditions, UNCONNECTED: places_of_conditions, 25: places_of_comparisons}


# ---- the lines that show it

def width_of(character):
    """Returns how many columns of a terminal a character takes."""
    if unicodedata.combining(character):
        return 0
    return 2 if unicodedata.east_asian_width(character) in "WF" else 1


def padding(text):
    """Returns blanks as wide as a text, with its tabs."""
    return "".join("\t" if character == "\t" else " " * width_of(character) for character in text)


def caret_lines(line, text, place):
    """Returns the line of a text around a place, and a caret below the place; `line` is the number of the first line."""
    start = text.rfind("\n", 0, place) + 1
    end = text.find("\n", place)
    number = str(line + text.count("\n", 0, place))
    source = text[start:len(text) if end < 0 else end].rstrip("\r")
    return [f"  {number} | {source}", f"  {' ' * len(number)} | {padding(text[start:place])}^ column {place - start + 1}"]


def shown(refusal, command):
    """Returns the caret below the place of a refusal in its command, which begins on the refusal's line."""
    return caret_lines(refusal.line, command, place_in(command, refusal))
