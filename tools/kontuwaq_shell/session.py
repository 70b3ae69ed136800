"""A session: hands each command to the shell or to the program, and shows the answer with carets and hints."""

import re

from . import hints
from .agent import Agent
from .aliases import canonical
from .commands import Commands, NotHere, Refused, WrongWords
from .completion import Completer
from .cuts import Cut, extent, first_word, rest_of
from .feeding import Feeder, piece_of
from .program import Program, end_message
from .refusals import UNFINISHED, Refusal, refusal_of, shown
from .remedies import WRONG_WORDS, remedies
from .runs import Runner

LABELLING = {"add-wme", "input"}


class Session:
    """The program, what the shell knows about it, and the screen."""

    def __init__(self, words, screen, interrupts):
        self.screen = screen
        self.program = Program(words, interrupts)
        self.agent = Agent(self.program)
        self.runner = Runner(self.program, screen, interrupts)
        self.commands = Commands(self.agent, self.runner, screen)
        self.completer = Completer(self.agent.names, self.agent.memory)
        self.labels = set()
        self.refused = self.named_help = False

    def start(self, watch, files):
        """Shows what the program writes by itself, and runs the files of the command line."""
        self.runner.watch = watch
        self.screen.lines(self.program.ask().text.split("\n")[:-1])
        for name in files:
            if not self.program.ended:
                self.feed(name, Cut(0, ""))

    # ---- a command

    def obey(self, cut):
        """Carries out a command."""
        if extent(cut.text)[1]:
            self.refuse(UNFINISHED, "unfinished command", cut)
            return
        cut = Cut(cut.line, canonical(cut.text))
        try:
            self.carry_out(cut)
        except WrongWords:
            self.refuse(WRONG_WORDS, "wrong words", cut)
        except Refused as refused:
            self.show(refused.args[0], piece_of([cut]))
        except OSError as fault:
            self.screen.line(f"{fault.filename}: {fault.strerror}")
        self.completer.forget()
        self.screen.end_line()

    def carry_out(self, cut):
        """Carries out a command of the shell, or hands it to the program."""
        word, rest = first_word(cut.text), rest_of(cut.text)
        if word == "source" and rest:
            self.feed(rest, cut)
            return
        try:
            self.screen.lines(self.commands.carry_out(word, cut.text))
        except NotHere:
            self.pass_on(cut)

    def feed(self, name, cut):
        """Runs a file, and says how many productions it loads."""
        feeder = Feeder(self)
        with self.runner.interrupts:
            feeder.feed(name, cut)
        count = len(feeder.productions)
        if count:
            self.screen.line(f"{name}: {count} production{'' if count == 1 else 's'}")
        self.screen.lines(hints.refiring_hints(feeder.productions))

    def pass_on(self, cut):
        """Hands a command to the program."""
        if not self.show(self.program.ask(cut.text), piece_of([cut])):
            self.learn(cut)
            self.screen.lines(self.print_hints(cut.text))
            if first_word(cut.text) == "sp":
                self.screen.lines(hints.refiring_hints([("-", cut)]))

    def print_hints(self, command):
        """Returns the hint on a `print` of a label or of a rule whose name reads as an identifier, if there is one."""
        hint = hints.hint_on_print(command, self.labels, self.agent.has_rule) if first_word(command) == "print" else None
        return [hint] if hint else []

    # ---- answers

    def show(self, answer, piece, source="-"):
        """Shows the answer to the commands of a piece, and returns those that were refused."""
        sent = {answer.line + cut.line - piece.line: cut for cut in piece.commands}
        refused = []
        for line in answer.text.split("\n")[:-1]:
            refusal = refusal_of(line)
            cut = sent.get(refusal.line) if refusal and refusal.source == "-" else None
            if cut is None:
                self.screen.line(line)
            else:
                refused.append(cut)
                self.refuse(refusal.number, refusal.text, cut, source)
        return refused

    def refuse(self, number, text, cut, source="-"):
        """Shows a refusal of a command, with a caret below its place, and a hint on what to write."""
        self.refused = True
        refusal = Refusal(number, source, cut.line, text)
        self.screen.line(str(refusal))
        if cut.text:
            self.screen.lines(shown(refusal, cut.text))
            self.screen.lines(self.remedies(refusal, cut.text))

    def remedies(self, refusal, command):
        """Returns hints on a refusal; the first refusal without any names `help`."""
        lines = remedies(refusal, command, self.completer) or self.print_hints(command)
        if not lines and not self.named_help:
            self.named_help = True
            return [f"hint: `help {refusal.number}` says what to do about refusal {refusal.number}"]
        return lines

    def fault(self, hint):
        """Shows a hint in the place of a command that is not carried out."""
        self.refused = True
        self.screen.line(hint)

    # ---- what commands change

    def learn(self, cut, source="-"):
        """Follows a command that was carried out: levels, labels, counts; and gives hints on a production."""
        word = first_word(cut.text)
        if word == "sp":
            self.runner.endings.clear()
            self.completer.learn(cut.text)
            for hint in hints.hints_on_production(cut.text):
                self.screen.line(hint.line(cut.text, cut.line, source))
        elif word == "watch" and re.fullmatch(r"[0-5]", rest_of(cut.text)):
            self.runner.watch = int(rest_of(cut.text))
        elif word == "init-soar":
            self.labels.clear()
            self.runner.clear()
        elif word in LABELLING:
            self.labels |= hints.labels_of(cut.text)

    # ---- the end

    def close(self):
        """Ends the program and returns the status of the session."""
        status = self.program.close()
        message = end_message(status)
        if message:
            self.screen.line(message)
        return status if message else int(self.refused)
