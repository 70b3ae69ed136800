"""The screen: what the shell writes, with a log of it."""

import sys


class Screen:
    """Writes lines, and pieces of lines that rules write, to standard output and to the log."""

    def __init__(self, out=None):
        self.out = out or sys.stdout
        self.log = None
        self.open_line = False

    def write(self, text):
        self.out.write(text)
        self.out.flush()
        self.record(text)

    def record(self, text):
        """Writes to the log alone what the terminal shows by itself, as a line that is typed."""
        if self.log:
            self.log.write(text)
            self.log.flush()

    def end_line(self):
        """Ends a line that a text of a rule left open."""
        if self.open_line:
            self.write("\n")
        self.open_line = False

    def line(self, text):
        self.end_line()
        self.write(text + "\n")

    def lines(self, texts):
        for text in texts:
            self.line(text)

    def show(self, shown):
        """Writes a line of the trace, or a text as far as it goes."""
        if shown.fresh:
            self.end_line()
        self.write(shown.text + ("\n" if shown.ends else ""))
        self.open_line = not shown.ends

    def open_log(self, name):
        self.close_log()
        self.log = open(name, "w", encoding="utf-8", errors="surrogateescape")

    def close_log(self):
        if self.log:
            self.log.close()
        self.log = None
