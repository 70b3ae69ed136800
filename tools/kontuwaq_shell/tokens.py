"""Tokens of the language, and symbols: the identifiers, integers and words of working memory."""

import re
from functools import lru_cache
from typing import NamedTuple

RUN = r"[A-Za-z0-9$%&*+\-/:<=>?_]+"
SIGNS = {"<", ">", "<=", ">=", "<>", "<=>", "=", "+", "-"}
PIECE = re.compile(
    rf'(?P<blank>[ \t\r\n\f]+|#[^\n]*)|(?P<run>{RUN})|(?P<mark>[(){{}}^.!~])'
    r'|(?P<barred>\|(?:[^\\|]|\\.)*\|)|(?P<quoted>"(?:[^\\"]|\\.)*")', re.S)
IDENTIFIER = re.compile(r"[A-Z][1-9][0-9]*")
HIGHEST = 2 ** 32 - 1


class Symbol(NamedTuple):
    """An identifier, an integer or a word; prints as the program prints it."""

    kind: str
    value: object

    def __str__(self):
        if self.kind != "word" or stands_bare(self.value):
            return str(self.value)
        return barred(self.value)


class Token(NamedTuple):
    """A token: its kind, its meaning, and the characters that it takes, `start` to `end`.

    The kinds are bare and barred (words), integer, variable, documentation, sign and mark."""

    kind: str
    text: str
    start: int
    end: int

    def is_mark(self, text):
        return self.kind == "mark" and self.text == text

    def is_sign(self, text):
        return self.kind == "sign" and self.text == text

    def is_constant(self):
        return self.kind in ("bare", "barred", "integer")


def word(text):
    return Symbol("word", text)


def identifier(text):
    return Symbol("identifier", text)


def integer(value):
    return Symbol("integer", value)


def barred(text):
    """Returns a word between bars, which reads as a word whatever its text is."""
    return "|" + re.sub(r"([\\|])", r"\\\1", text) + "|"


def has_identifier_form(text):
    return bool(IDENTIFIER.fullmatch(text)) and int(text[1:]) <= HIGHEST


def stands_bare(text):
    """Returns whether a word needs no bars."""
    return bool(re.fullmatch(RUN, text)) and run_kind(text) == "bare" and not has_identifier_form(text)


def run_kind(run):
    """Returns the kind of a longest run of letters, digits and signs."""
    if run in ("-->", "<<", ">>"):
        return "mark"
    if run in SIGNS:
        return "sign"
    if re.fullmatch(r"<[^<>]+>", run):
        return "variable"
    if re.fullmatch(r"[+-]?[0-9]+", run):
        return "integer"
    return "bare"


def unquoted(text):
    """Returns the meaning of what stands in bars or quotes."""
    return re.sub(r"\\(.)", r"\1", text[1:-1], flags=re.S)


def tokens(text):
    """Yields the tokens of a text, up to the first piece that is none."""
    place = 0
    while place < len(text):
        piece = PIECE.match(text, place)
        if piece is None:
            return
        said = piece.group()
        kind = piece.lastgroup
        if kind == "run":
            yield Token(run_kind(said), said, place, piece.end())
        elif kind == "mark":
            yield Token("mark", said, place, piece.end())
        elif kind != "blank":
            yield Token("barred" if kind == "barred" else "documentation", unquoted(said), place, piece.end())
        place = piece.end()


def constant(token):
    """Returns the symbol of a constant in a production, in which S1 is a word."""
    return integer(int(token.text)) if token.kind == "integer" else word(token.text)


@lru_cache(1 << 16)
def symbol(text):
    """Returns the symbol that the program prints as `text`."""
    if text.startswith("|"):
        return word(unquoted(text))
    if has_identifier_form(text):
        return identifier(text)
    return integer(int(text)) if run_kind(text) == "integer" else word(text)


SYMBOL = rf"(?:\|(?:[^\\|]|\\.)*\||{RUN})"
ELEMENT = re.compile(rf"^(\d+): \(({SYMBOL}) \^({SYMBOL}) ({SYMBOL})( \+)?\)$", re.S | re.M)
