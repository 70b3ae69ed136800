"""Tokens of a production, each with its offset in the file."""
import re
from dataclasses import dataclass

RUN = r"A-Za-z0-9$%&*+\-/:<=>?_"
PATTERN = re.compile(
    rf"""(?P<blank>\s+)
    | (?P<comment>\#[^\n]*)
    | (?P<bar>\|(?:\\.|[^|\\])*\|)
    | (?P<text>"(?:\\.|[^"\\])*")
    | (?P<float>(?<![{RUN}|.])[+-]?(?:\d+\.\d+(?:[eE][+-]?\d+)?|\d+[eE][+-]?\d+|\.\d+(?:[eE][+-]?\d+)?|\d+\.(?=[\s)]))(?![{RUN}]))
    | (?P<run>[{RUN}]+)
    | (?P<mark>[(){{}}^.!~,;@])
    | (?P<bad>.)""",
    re.VERBOSE | re.DOTALL,
)
SIGNS = {"<", ">", "<=", ">=", "<>", "<=>", "=", "+", "-", "&"}
ARROWS = {"-->": "arrow", "<<": "one-of", ">>": "end-of"}


@dataclass(frozen=True)
class Token:
    """A token: its kind, its text as it is written, and its offset."""

    kind: str
    text: str
    offset: int

    @property
    def is_value(self):
        return self.kind in ("word", "integer", "float", "bar", "variable")

    @property
    def is_constant(self):
        return self.is_value and self.kind != "variable"


def kind_of_run(text):
    """Returns the kind of a run of letters, digits and signs."""
    if text in ARROWS:
        return ARROWS[text]
    if text in SIGNS:
        return "sign"
    if re.fullmatch(r"<[^<>]+>", text):
        return "variable"
    return "integer" if re.fullmatch(r"[+-]?\d+", text) else "word"


def tokens_of(characters):
    """Returns the tokens of a list of characters with their offsets, comments among them."""
    text = "".join(character for character, _ in characters)
    found = []
    for match in PATTERN.finditer(text):
        kind = match.lastgroup
        if kind == "run":
            kind = kind_of_run(match[0])
        elif kind == "mark":
            kind = match[0]
        if kind != "blank":
            found.append(Token(kind, match[0], characters[match.start()][1]))
    return found
