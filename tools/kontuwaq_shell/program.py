"""The program as a process, with a pipe to it and a pipe from it."""

import os
import re
import signal
import subprocess
from typing import NamedTuple

STATUSES = {
    2: "the words of the command line are of no form", 3: "memory was refused", 4: "standard input could not be read",
    5: "output could not be written", 6: "a file is there and cannot be read", 7: "a command, a file or the input is too long",
    8: "a limit was passed",
}
# A lone dot is no command, so the program refuses it and changes nothing: the line number in the refusal makes the end
# of an answer unmistakable, even if a file of commands has `stats` in it.
MARKER = "."


class Answer(NamedTuple):
    """What the program wrote to a command, and the line of its input on which the command began."""

    text: str
    line: int


class Program:
    """The running program. A command is answered once the refusal of the marker after it arrives."""

    def __init__(self, words, interrupts):
        # A session of its own keeps Ctrl-C of the terminal away from the program.
        self.process = subprocess.Popen(words, stdin=subprocess.PIPE, stdout=subprocess.PIPE, start_new_session=True)
        self.interrupts = interrupts
        self.line = 1
        self.ended = False

    def ask(self, command=None):
        """Sends a command, or the marker alone, and returns the whole answer."""
        first = self.line
        sent = ("" if command is None else command + "\n") + MARKER + "\n"
        self.line += sent.count("\n")
        with self.interrupts:
            try:
                self.process.stdin.write(sent.encode("utf-8", "surrogateescape"))
                self.process.stdin.flush()
            except BrokenPipeError:
                pass
            return Answer(self.read_to_marker(self.line - 1), first)

    def read_to_marker(self, line):
        """Returns what the program writes before it refuses the marker of a line; all that is left if it has ended."""
        marker = b"error 10 -:%d: unknown command\n" % line
        said = bytearray()
        while not (said.endswith(marker) and said[-len(marker) - 1:-len(marker)] in (b"", b"\n")):
            piece = self.process.stdout.read1(1 << 16)
            if not piece:
                self.ended = True
                break
            said += piece
        else:
            del said[-len(marker):]
        return said.decode("utf-8", "surrogateescape")

    def close(self):
        """Ends the input, waits for the program and returns its status."""
        try:
            self.process.stdin.close()
        except BrokenPipeError:
            pass
        while self.process.stdout.read1(1 << 16):
            pass
        self.ended = True
        return self.process.wait()

    def kill(self):
        """Ends the program, also while `./soar_app` still builds it."""
        if self.process.poll() is None:
            os.killpg(self.process.pid, signal.SIGTERM)


def end_message(status):
    """Returns why the program ended by itself, as a line, or None for a regular end."""
    if status in (0, 1):
        return None
    return f"the program has ended with status {status}: {STATUSES.get(status, 'it was stopped from outside')}"
