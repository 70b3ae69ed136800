"""Ctrl-C while the program works."""

import os
import signal


class Interrupts:
    """Holds Ctrl-C back while the program works: the first asks a run to stop, the third ends the program.

    A `with` around work holds them back; at any other time Ctrl-C raises KeyboardInterrupt."""

    def __init__(self):
        self.kill = None
        self.depth = self.count = 0

    def install(self, kill):
        """Handles Ctrl-C from now on; `kill` ends the program."""
        self.kill = kill
        signal.signal(signal.SIGINT, self.note)

    def __enter__(self):
        if self.depth == 0:
            self.count = 0
        self.depth += 1

    def __exit__(self, *_):
        self.depth -= 1

    def note(self, *_):
        if self.depth == 0:
            raise KeyboardInterrupt
        self.count += 1
        if self.count == 2:
            os.write(2, b"\nthe program still works; Ctrl-C once more ends it, and the agent is lost\n")
        elif self.count > 2:
            self.kill()
