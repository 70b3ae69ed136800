"""Commands: how a text is cut into them, by the rules of Soar's command line.

A command ends with its line or with a semicolon; braces, quotes and bars hold it together. `#` begins a comment."""
import re
from dataclasses import dataclass, field

BAR = re.compile(r"\|(?:\\.|[^|\\])*\|", re.DOTALL)
QUOTE = re.compile(r'"(?:\\.|[^"\\])*"', re.DOTALL)
COMMENT = re.compile(r"#[^\n]*")
ESCAPES = {"n": "\n", "t": "\t", "r": "\r", "f": "\f", "\n": " "}


@dataclass
class Word:
    """A word of a command as it is written, with its offset in the file."""

    offset: int
    written: str

    @property
    def is_braced(self):
        return self.written.startswith("{")

    @property
    def is_quoted(self):
        return self.written.startswith('"')

    @property
    def text(self):
        """The word without its braces or quotes."""
        return "".join(character for character, _ in self.characters())

    def characters(self):
        """Yields each character of the word without braces and quotes, with its offset in the file."""
        if self.is_quoted:
            yield from self.unescaped()
        elif self.is_braced:
            end = -1 if self.written.endswith("}") else None
            yield from ((character, self.offset + 1 + place) for place, character in enumerate(self.written[1:end]))
        else:
            yield from ((character, self.offset + place) for place, character in enumerate(self.written))

    def unescaped(self):
        """Yields the characters of a quoted word, each backslash with what follows as one character."""
        for found in re.finditer(r"\\(.)|([^\\])", self.written[1:-1], re.DOTALL):
            escaped, plain = found.groups()
            character = plain if escaped is None else ESCAPES.get(escaped, escaped)
            yield character, self.offset + 1 + found.start()


@dataclass
class Command:
    """A command: where it begins and ends in the file, and its words. `open` names what was never closed."""

    start: int
    end: int = 0
    words: list = field(default_factory=list)
    open: str = ""

    @property
    def name(self):
        return self.words[0].text

    @property
    def arguments(self):
        return [word.text for word in self.words[1:]]


def end_of_braces(text, start):
    """Returns the offset after the brace that closes the one at `start`, or None."""
    depth, place = 0, start
    while place < len(text):
        found = BAR.match(text, place) or QUOTE.match(text, place) or COMMENT.match(text, place)
        if found:
            place = found.end()
            continue
        depth += {"{": 1, "}": -1}.get(text[place], 0)
        place += 1
        if depth == 0:
            return place
    return None


def end_of_plain(text, start):
    """Returns the offset after a word without braces and quotes; the name before `{` is a word of its own."""
    place = start
    while place < len(text) and text[place] not in " \t\r\f\n;":
        if text[place] == "{" and text[start:place] in ("sp", "gp"):
            return place
        found = BAR.match(text, place)
        place = found.end() if found else place + 1
    return place


def word_at(text, start):
    """Returns the word that begins at `start`, and what it leaves open."""
    if text[start] == "{":
        end = end_of_braces(text, start)
        return Word(start, text[start:end]), "" if end else "brace"
    if text[start] == '"':
        found = QUOTE.match(text, start)
        return Word(start, found[0] if found else text[start:]), "" if found else "quote"
    return Word(start, text[start:end_of_plain(text, start)]), ""


def command_at(text, start):
    """Returns the command that begins at `start`."""
    command, place = Command(start), start
    while place < len(text) and text[place] not in "\n;":
        if text.startswith("\\\n", place):
            place += 2
        elif text[place] in " \t\r\f":
            place += 1
        elif text[place] == "#" and command.words:
            break
        else:
            word, command.open = word_at(text, place)
            command.words.append(word)
            place += len(word.written)
            command.end = place
    return command


def commands_of(text):
    """Yields the commands of a text in order."""
    place = 0
    while place < len(text):
        found = COMMENT.match(text, place)
        if found:
            place = found.end()
        elif text[place] in " \t\r\f\n;":
            place += 1
        else:
            command = command_at(text, place)
            yield command
            place = command.end
