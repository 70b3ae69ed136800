"""Findings: what is left to do by hand, each with its place and its recipe."""
from dataclasses import dataclass


@dataclass(frozen=True, order=True)
class Finding:
    """One change that is left: its place, a word for its kind, why it is needed, and what to write."""

    file: str
    line: int
    column: int
    kind: str
    why: str
    recipe: str

    def __str__(self):
        return f"{self.file}:{self.line}:{self.column}: {self.kind}: {self.why}. {self.recipe}."


class Source:
    """A file that was read. It gives findings the line and the column of an offset, both counted from 1."""

    def __init__(self, name, text):
        self.name, self.text = name, text

    def finding(self, offset, kind, why, recipe):
        """Returns the finding at `offset`."""
        line = self.text.count("\n", 0, offset) + 1
        column = offset - self.text.rfind("\n", 0, offset)
        return Finding(self.name, line, column, kind, why, recipe)
