"""The keyboard: prompts, history and completion; or commands from a pipe."""

import os
import re
import sys

from .cuts import BLANKS, QUOTED, Cut, extent, first_word

try:
    import readline
except ImportError:
    readline = None

PROMPT = "soar> "
LONGEST_HISTORY = 5000
# A text in bars or quotes; or blanks and comments.
PIECE = re.compile(rf"({QUOTED.pattern})|(?:#[^\n]*|\s)+", re.S)


class Terminal:
    """Reads commands from standard input; a prompt shows what is still open."""

    def __init__(self, screen, completer, echo):
        self.screen, self.completer, self.echo = screen, completer, echo
        self.keyboard = sys.stdin.isatty()
        self.line = 0
        self.matches = []
        self.history = os.environ.get("KONTUWAQ_HISTORY") or os.path.expanduser("~/.kontuwaq_history")
        self.within = False
        sys.stdin.reconfigure(errors="surrogateescape")
        if self.keyboard and readline:
            self.prepare()

    # ---- commands

    def command(self):
        """Returns the next command, with its line; an unfinished one at the end of the input, and then None."""
        text, first = "", self.line + 1
        kept = self.history_length()
        while True:
            opened = extent(text)[1]
            self.within = bool(opened)
            try:
                said = self.read("".join(text[place] for place in opened)[-4:].rjust(4) + "> " if opened else PROMPT)
            except KeyboardInterrupt:
                if not self.keyboard:
                    raise
                self.screen.write("\n")
                text, first = "", self.line + 1
                continue
            if said is None:
                return cut(first, text) if text else None
            self.line += 1
            if opened and text[opened[-1]] == "{" and first_word(said) in self.completer.commands():
                self.screen.line(swallowed(first_word(said), first + text.count("\n", 0, opened[-1])))
            text = f"{text}\n{said}" if text else said
            if not text.strip(BLANKS) or re.fullmatch(r"\s*#[^\n]*", text):
                text, first = "", self.line + 1
            elif not extent(text)[1]:
                self.join_history(kept, text)
                return cut(first, text)

    def read(self, prompt):
        """Returns a line without its newline, or None at the end."""
        if self.keyboard:
            try:
                said = input(prompt)
            except EOFError:
                self.screen.write("\n")
                return None
            self.screen.record(f"{prompt}{said}\n")
            return said
        said = sys.stdin.readline()
        if self.echo and said:
            self.screen.write(prompt + said.rstrip("\n") + "\n")
        return said.rstrip("\n") if said else None

    # ---- readline

    def prepare(self):
        readline.set_completer_delims(" \t\n(){}^")
        readline.set_completer(self.complete)
        readline.parse_and_bind("bind ^I rl_complete" if "libedit" in (readline.__doc__ or "") else "tab: complete")
        readline.set_history_length(LONGEST_HISTORY)
        try:
            readline.read_history_file(self.history)
        except OSError:
            pass

    def complete(self, begun, number):
        if number == 0:
            self.matches = self.completer.candidates(readline.get_line_buffer()[:readline.get_begidx()], begun, self.within)
        return self.matches[number] if number < len(self.matches) else None

    def history_length(self):
        return readline.get_current_history_length() if self.keyboard and readline else 0

    def join_history(self, kept, text):
        """Puts one line into the history for a command of several, after the first `kept` entries."""
        line = one_line(text)
        if not (self.keyboard and readline and "\n" in text and line):
            return
        for place in range(self.history_length() - 1, kept - 1, -1):
            readline.remove_history_item(place)
        readline.add_history(line)

    def close(self):
        """Keeps the history for the next session."""
        if self.keyboard and readline:
            try:
                readline.write_history_file(self.history)
            except OSError:
                pass


def one_line(text):
    """Returns a command on one line, without comments; None if a newline stands in bars or quotes."""
    if any("\n" in (found[1] or "") for found in PIECE.finditer(text)):
        return None
    return PIECE.sub(lambda found: found[1] or " ", text).strip()


def swallowed(word, line):
    """Returns the hint on a command inside a brace that a line opened."""
    return f"hint: {word} is inside the {{ that line {line} opens; close it, or leave the command by Ctrl-C"


def cut(first, text):
    """Returns the command in a text that was typed from the line `first` on."""
    blanks = len(text) - len(text.lstrip(BLANKS))
    return Cut(first + text.count("\n", 0, blanks), text[blanks:])
