"""`help`: what the pages of docs/ say of each command and of each refusal."""

import re
import shutil
import textwrap
from pathlib import Path
from typing import NamedTuple

from .aliases import BRACKETS, WORDS, canonical
from .cuts import first_word

DOCS = Path(__file__).resolve().parents[2] / "docs"
PAGES = (("the program", "COMMANDS.md"), ("the shell", "SHELL.md"))
WIDEST = 100
# Where `help` begins to say what a command does.
COLUMN = 36


class Entry(NamedTuple):
    """A command: its forms as a page writes them, and what it does."""

    forms: tuple
    text: str

    def word(self):
        """Returns the word of the command, which its first form begins with."""
        return first_word(self.forms[0])


def rows_of(page, heading):
    """Yields the cells of each row of the tables whose first column has this heading."""
    path, inside = DOCS / page, False
    if not path.is_file():
        return
    for line in path.read_text(encoding="utf-8").splitlines():
        if not line.startswith("|"):
            inside = False
            continue
        cells = [cell.strip().replace("\\|", "|") for cell in re.split(r"(?<!\\)\|", line)[1:-1]]
        if cells[0] == heading:
            inside = True
        elif inside and not set(cells[0]) <= set("-: "):
            yield cells


def plain(text):
    """Returns a text of a page without links and emphasis."""
    return re.sub(r"\[([^]]*)\]\([^)]*\)", r"\1", text).replace("**", "")


def entries_of(page):
    """Returns the commands that a page describes."""
    rows = [(tuple(re.findall(r"`([^`]+)`", cells[0])), plain(cells[1])) for cells in rows_of(page, "Command")]
    return [Entry(forms, text) for forms, text in rows if forms]


def entries():
    return [entry for _, page in PAGES for entry in entries_of(page)]


def command_words():
    """Returns the first word of each command that the pages describe."""
    return {entry.word() for entry in entries()}


def width():
    """Returns the columns that a line of help may take."""
    return max(2 * COLUMN, min(WIDEST, shutil.get_terminal_size((WIDEST, 0)).columns))


def paragraph(text, indent="  "):
    return textwrap.wrap(text, width(), initial_indent=indent, subsequent_indent=indent, break_on_hyphens=False)


def overview_lines():
    lines = []
    for whose, page in PAGES:
        lines.append(f"commands of {whose}, docs/{page}:")
        for entry in entries_of(page):
            lines += overview_of(entry)
    return lines + ["`help COMMAND` says what a command does, `help NUMBER` what a refusal means"]


def brief(text):
    """Returns the beginning of what a command does, as short as the text allows."""
    whole = re.match(r"(?:`[^`]*`|[^`;:.]|[.:](?! |$))*", text)[0].replace(", see below", "")
    return re.match(rf"(.{{1,{width() - COLUMN}}})(?:,|$)|.*", whole)[1] or whole


def overview_of(entry):
    """Returns the forms of a command, each with the beginning of what it does."""
    forms = "  " + ", ".join(entry.forms)
    first, *more = paragraph(brief(entry.text), " " * COLUMN)
    return [f"{forms:<{COLUMN}}{first.strip()}", *more] if len(forms) < COLUMN - 1 else [forms, first, *more]


def topic_lines(topic):
    """Returns what the pages say of a command, an alias or the number of a refusal."""
    if topic.isdigit():
        return refusal_lines(topic)
    alias = alias_text(topic)
    if alias:
        return [f"{topic} stands for {alias}"] + topic_lines(first_word(alias))
    lines = []
    for entry in entries():
        if topic == entry.word():
            lines += [", ".join(entry.forms), *paragraph(entry.text)]
    if not lines and " " in topic:
        return topic_lines(topic.split()[0])
    return lines or [f"no help on {topic}; `help` lists the commands"]


def alias_text(topic):
    """Returns what an alias stands for, or None."""
    if topic in WORDS:
        return canonical(topic)
    name = topic.strip("()")
    return BRACKETS[name].replace("{}", "..") if topic.startswith("(") and name in BRACKETS else None


def refusal_lines(number):
    for cells in rows_of("REFUSALS.md", "Number"):
        if cells[0] == number:
            return [f"{number} {plain(cells[1])}", *paragraph("why: " + plain(cells[2])), *paragraph("what to do: " + plain(cells[3]))]
    return [f"no refusal has the number {number}"]
