"""The trace of runs: the event that each line reports, and the lines that a watch level shows.

The shell runs the program at watch level 3 or above, so that it sees each firing, and shows the level that the user asked for."""

import re
from typing import NamedTuple

from .tokens import SYMBOL

SEEN = 3
PART = re.compile(r"-- (input|proposal|decision|application|output)")
FIRING = re.compile(rf"(fire|learn|justify) (\d+) ({SYMBOL})(?::| from )", re.S)
SELECTION = re.compile(rf"(\d+): +O: ({SYMBOL})(?: \((.*)\))?", re.S)
IMPASSE = re.compile(r"(\d+): +==>S: (\S+) \((.*)\)")
CHANGES = [(2, re.compile(r"remove [A-Z]\d+$")), (4, re.compile(r"[-+] \d+: \("))]
WAVE = CHANGES + [
    (3, re.compile(rf"(?:fire|retract) \d+ {SYMBOL}:[ 0-9]*$|(?:learn|justify|reuse) |stale \d+ (?:lost|blocked) ", re.S)),
    (5, re.compile(r"  \(.*\) [ior]$|  drop \d+ ")),
    (1, re.compile(r"cut (?:proposal|application)$")),
    (2, PART),
]
# The lines of each part of a cycle, with their levels. Only in a wave may a line be a text that a rule writes.
LINES = {
    "input": CHANGES, "proposal": WAVE, "application": WAVE,
    "decision": CHANGES + [(1, SELECTION), (1, IMPASSE), (1, re.compile(r"goal depth 100$"))],
    "output": [(1, re.compile(r"out [-+] \(|halt$"))],
}


class Event(NamedTuple):
    """What a line of the trace reports: a `fire` of a rule, a `select` of an operator, an `impasse`, a `halt`.

    `subject` is the rule, the operator or the substate. `name` is the operator's name or the impasse's kind. `number` is that of
    the firing or of the cycle."""

    kind: str
    subject: str = ""
    name: str = ""
    number: int = 0


class Shown(NamedTuple):
    """A line to show; `fresh` if it begins a line of its own, `ends` if its line ends with it."""

    text: str
    fresh: bool
    ends: bool


class Trace:
    """Reads the trace of one run, piece by piece.

    `ends_line` returns whether what a rule writes ends its line. If not, the program began a new line only for a line of the
    trace. The level of the user may leave that line out, and then the text goes on."""

    def __init__(self, ends_line):
        self.ends_line = ends_line
        self.part = "input"
        self.writer = None

    def read(self, text, watch):
        """Returns the events of a piece, and the lines that a watch level shows."""
        events, shown = [], []
        lines = text.split("\n")
        if lines[-1] == "":
            lines.pop()
        for line, following in zip(lines, lines[1:] + [None]):
            level = self.level_of(line)
            if level is None:
                last = following is None or self.level_of(following) is not None
                shown.append(Shown(line, False, not last or self.writer is None or self.ends_line(self.writer)))
            elif level <= watch:
                shown.append(Shown(line, True, True))
            event = self.event_of(line) if level is not None else None
            if event is not None:
                events.append(event)
        return events, shown

    def level_of(self, line):
        """Returns the watch level of a line; None for a text of a rule, and for a refusal."""
        if PART.fullmatch(line):
            return 2
        return next((level for level, form in LINES[self.part] if form.match(line)), None)

    def event_of(self, line):
        """Returns the event that a line of the trace reports, or None; follows the parts of the cycle."""
        part = PART.fullmatch(line)
        if part:
            self.part, self.writer = part[1], None
        elif self.part in ("proposal", "application"):
            return self.firing_of(line)
        elif self.part == "decision":
            return decision_of(line)
        elif line == "halt":
            return Event("halt")
        return None

    def firing_of(self, line):
        firing = FIRING.match(line)
        if firing is None:
            return None
        self.writer = firing[3]
        return Event("justify" if firing[1] == "justify" else "fire", firing[3], "", int(firing[2]))


def decision_of(line):
    """Returns the event of a line of the decision: an operator is selected, or an impasse makes a substate."""
    selection, impasse = SELECTION.fullmatch(line), IMPASSE.fullmatch(line)
    if selection:
        return Event("select", selection[2], selection[3] or "", int(selection[1]))
    if impasse:
        return Event("impasse", impasse[2], impasse[3], int(impasse[1]))
    return None
