"""The loop of the shell, from the words of the command line to its status."""

import os
import re
import sys
from pathlib import Path

from .feeding import fault_of
from .interrupts import Interrupts
from .screen import Screen
from .session import Session
from .terminal import Terminal

TOP = Path(__file__).resolve().parents[2]
WELCOME = "`help` lists the commands, Tab completes a word, Ctrl-C ends a run, Ctrl-D ends the shell"
USAGE = "usage: tools/shell [--echo] [--watch N] [FILE]..."
STATUS_USAGE, STATUS_NO_PROGRAM, STATUS_INTERRUPTED = 2, 127, 130


class Options:
    """The words of the command line: whether the shell echoes, the files, and the words for the program with the watch level."""

    def __init__(self, words):
        self.echo = False
        self.watch, self.files, self.words = 1, [], []
        rest = iter(words)
        for word in rest:
            if word == "--":
                self.files += list(rest)
            elif word == "--echo":
                self.echo = True
            elif not word.startswith("-") or word == "-":
                self.files.append(word)
            else:
                self.words += [word, *([next(rest, "")] if word in ("--watch", "--generate") else [])]
        level = re.search(r"--watch[ =]([0-5])(?: |$)", " ".join(self.words))
        self.watch = int(level[1]) if level else self.watch


def program_words():
    return [os.environ.get("SOAR_APP") or str(TOP / "soar_app")]


def main(words):
    """Runs a session and returns its status: 0, 1 if something was refused, else that of the program."""
    if {"-h", "--help"} & set(words):
        print(USAGE)
        return 0
    options = Options(words)
    ends = [fault for fault in map(fault_of, options.files) if fault]
    if ends:
        print("\n".join(ends))
        return STATUS_USAGE
    sys.stdout.reconfigure(errors="surrogateescape")
    interrupts, screen = Interrupts(), Screen()
    try:
        session = Session(program_words() + options.words, screen, interrupts)
    except OSError as fault:
        print(f"{fault.filename}: {fault.strerror}", file=sys.stderr)
        return STATUS_NO_PROGRAM
    return hold(session, options, interrupts)


def hold(session, options, interrupts):
    """Holds a session from the files of the command line to the end of the input, and returns its status."""
    terminal = Terminal(session.screen, session.completer, options.echo)
    if terminal.keyboard:
        interrupts.install(session.program.kill)
        session.screen.line(WELCOME)
    try:
        session.start(options.watch, options.files)
        talk(session, terminal)
    except (KeyboardInterrupt, BrokenPipeError):
        session.program.kill()
        return STATUS_INTERRUPTED
    finally:
        terminal.close()
    return session.close()


def talk(session, terminal):
    """Obeys commands until the input or the program ends."""
    while not session.program.ended:
        try:
            cut = terminal.command()
            if cut is None:
                return
            session.obey(cut)
        except KeyboardInterrupt:
            if not terminal.keyboard:
                raise
            session.screen.line("interrupted")
