"""Commands of a text: where each ends, and what is still open."""

import re
from typing import NamedTuple

BLANKS = " \t\r\f\n"
# Where it changes what a newline means.
TURN = re.compile(r'[\n|"#{}]')
QUOTED = re.compile(r'\|(?:[^\\|]|\\.)*\||"(?:[^\\"]|\\.)*"', re.S)


class Cut(NamedTuple):
    """A command: the line of its first character, from 1, and its text without the newline that ends it."""

    line: int
    text: str


def cuts(text):
    """Yields the commands of a text; the last one may be unfinished."""
    place, line = 0, 1
    while place < len(text):
        if text[place] in BLANKS:
            line += text[place] == "\n"
            place += 1
        elif text[place] == "#":
            place = end_of_line(text, place)
        else:
            end = extent(text, place)[0]
            yield Cut(line, text[place:end])
            line += text.count("\n", place, end)
            place = end


def end_of_line(text, place):
    end = text.find("\n", place)
    return len(text) if end < 0 else end


def extent(text, place=0):
    """Returns where the command at `place` ends, and the places of the braces, the bar or the quote that stay open."""
    braces = []
    while True:
        found = TURN.search(text, place)
        if found is None:
            return len(text), braces
        place, here = found.start(), found.group()
        if here == "\n" and not braces:
            return place, braces
        if here in "|\"":
            end = end_of_quoted(text, place)
            if end is None:
                return len(text), braces + [place]
            place = end
        elif here == "#":
            place = end_of_line(text, place) - 1
        elif here == "{":
            braces.append(place)
        elif here == "}" and braces:
            braces.pop()
        place += 1


def end_of_quoted(text, start):
    """Returns the place of the bar or quote that closes the one at `start`, or None."""
    found = QUOTED.match(text, start)
    return found.end() - 1 if found else None


def first_word(command):
    """Returns what says which command it is: all up to the first blank or brace."""
    for place, here in enumerate(command):
        if here in BLANKS or here == "{":
            return command[:place]
    return command


def rest_of(command):
    """Returns what follows the first word on a command's line, without a comment and without blanks around it."""
    return command[len(first_word(command)):].split("#")[0].strip(BLANKS)


def words_of(command):
    """Returns the words of a command without its comment; what stands in bars or quotes is one word."""
    found = re.finditer(r'#[^\n]*|(?:\|(?:[^\\|]|\\.)*\||"(?:[^\\"]|\\.)*"|[^\s|"#])+', command, re.S)
    return [word.group() for word in found if not word.group().startswith("#")]
