"""Files of commands. The shell hands them to the program in pieces, so each run in a file is like a run at the prompt."""

import os
from typing import NamedTuple

from .commands import NotHere, Refused
from .cuts import cuts, extent, first_word, rest_of, words_of
from .refusals import UNFINISHED

NO_FILE, TOO_DEEP = 40, 41
MOST_DEEP = 16
# Characters. The program stops reading while nobody reads what it writes, so a piece has to fit into a pipe.
LARGEST_PIECE = 1 << 13
ALONE = {"run", "source", "quit"}


class Piece(NamedTuple):
    """Commands that are sent together: the line of the first one, the text to send, and the commands."""

    line: int
    text: str
    commands: tuple


def piece_of(commands):
    """Returns a piece in which each command has its distance from the first one in lines."""
    text, line = "", commands[0].line
    for cut in commands:
        text += "\n" * (cut.line - line) + cut.text
        line = cut.line + cut.text.count("\n")
    return Piece(commands[0].line, text, tuple(commands))


def pieces(text):
    """Yields the commands of a file in pieces. A run, a file and an unfinished command stand alone."""
    held, size = [], 0
    for cut in cuts(text):
        alone = first_word(cut.text) in ALONE or bool(extent(cut.text)[1])
        if held and (alone or size + len(cut.text) + cut.line - held[0].line > LARGEST_PIECE):
            yield piece_of(held)
            held, size = [], 0
        held.append(cut)
        size += len(cut.text)
        if alone:
            yield piece_of(held)
            held, size = [], 0
    if held:
        yield piece_of(held)


def text_of(name):
    """Returns the text of a file, or None if it cannot be read."""
    try:
        with open(name, encoding="utf-8", errors="surrogateescape", newline="") as file:
            return file.read()
    except OSError:
        return None


def fault_of(name):
    """Returns a hint on a file that would end the program, or None; a file that is not there is only refused."""
    what = "is a folder" if os.path.isdir(name) else "cannot be read" if os.path.exists(name) and not os.access(name, os.R_OK) else None
    return what and f"hint: {name} {what}, and the program would end with status 6"


class Feeder:
    """Feeds one file and the files that it asks for."""

    def __init__(self, session):
        self.session = session
        self.productions = []
        self.stopped = False

    def feed(self, name, cut, source="-", deep=1):
        """Runs the commands of a file; `cut` is the command that asks for it, and `source` says where that stands."""
        text = text_of(name)
        if deep > MOST_DEEP:
            self.session.refuse(TOO_DEEP, "sources too deep", cut, source)
        elif fault_of(name):
            self.session.fault(fault_of(name))
        elif text is None:
            self.session.refuse(NO_FILE, f"no file {name}", cut, source)
        else:
            self.feed_text(text, name, deep)

    def feed_text(self, text, name, deep):
        for piece in pieces(text):
            if self.stopped:
                self.session.screen.line(f"left out: {name} from line {piece.line} on")
                return
            if self.session.program.ended:
                return
            self.carry_out(piece, name, deep)
            self.stopped = self.stopped or bool(self.session.runner.interrupts.count)

    def carry_out(self, piece, name, deep):
        cut = piece.commands[0]
        words = words_of(cut.text)
        if extent(piece.commands[-1].text)[1]:
            self.session.refuse(UNFINISHED, "unfinished command", cut, name)
        elif first_word(cut.text) == "source" and rest_of(cut.text):
            self.feed(rest_of(cut.text), cut, name, deep + 1)
        elif words[0] == "run" and len(words) == 2:
            self.run(piece, name)
        else:
            self.send(piece, name)

    def run(self, piece, name):
        """Runs the agent; a breakpoint or Ctrl-C lets the rest of the files be left out."""
        cut, = piece.commands
        try:
            self.session.commands.carry_out("run", cut.text)
            self.stopped = self.session.runner.stopped
        except NotHere:
            self.send(piece, name)
        except Refused as refused:
            self.session.show(refused.args[0], piece, name)

    def send(self, piece, name):
        """Sends a piece, shows the answer, and follows what the commands changed."""
        answer = self.session.program.ask(piece.text)
        refused = self.session.show(answer, piece, name)
        for cut in piece.commands:
            if cut not in refused:
                self.productions += [(name, cut)] if first_word(cut.text) == "sp" else []
                self.session.learn(cut, name)
