"""The commands that the shell itself carries out."""

import os
import random
import re
import secrets
import subprocess

from . import drawing, help as pages, views
from .agent import meaning
from .cuts import rest_of, words_of
from .explanations import Explanation
from .runs import HALT_GOAL, impasse_goal, operator_goal
from .tokens import barred, symbol, word
from .why import why_lines

MOST_CYCLES = 1_000_000
RANDOM_WORDS = 1000


class WrongWords(Exception):
    """The words of a command are of none of its forms."""


class NotHere(Exception):
    """The command is one of the program in this form."""


class Refused(Exception):
    """The program refused a part of the command; carries its answer."""


class Commands:
    """The shell's commands: each takes the words after the first and returns lines to show."""

    def __init__(self, agent, runner, screen):
        self.agent, self.runner, self.screen = agent, runner, screen
        self.folders = []
        self.by_word = {
            "help": self.help, "why": self.why, "print": self.print, "find": self.find, "goals": self.goals, "run": self.run,
            "until": self.until, "break": self.set_break, "unbreak": self.unset_break, "counts": self.counts,
            "draw": self.draw, "log": self.log, "excise": self.excise, "srand": self.srand,
            "cd": self.cd, "pushd": self.pushd, "popd": self.popd, "echo": self.echo,
        }

    def carry_out(self, name, command):
        """Returns the lines that a command shows; raises NotHere if it is one of the program."""
        if command.startswith("!"):
            return self.system(command[1:])
        if name not in self.by_word:
            raise NotHere
        return self.by_word[name](words_of(command)[1:], command)

    # ---- looking

    def help(self, words, _):
        return pages.topic_lines(" ".join(words)) if words else pages.overview_lines()

    def why(self, words, _):
        name, = exactly(words, 1)
        return why_lines(self.production(name), self.agent.memory())

    def production(self, name):
        answer = self.agent.printed(name)
        if not answer.text.startswith("sp {"):
            raise Refused(answer)
        return answer.text

    def print(self, words, _):
        if words[:1] != ["-d"]:
            raise NotHere
        _, depth, id = exactly(words, 3)
        return views.depth_lines(self.agent.memory(), self.identifier(id), number(depth))

    def identifier(self, text):
        """Returns the identifier that a word such as s1 or a label stands for."""
        return self.agent.identifier(text) if text.startswith("<") else views.identifier_named(text)

    def find(self, words, _):
        id = words.pop(0) if words and not words[0].startswith("^") else "*"
        if not 1 <= len(words) <= 2 or not words[0].startswith("^"):
            raise WrongWords
        attr, value = [words[0][1:], *words[1:], "*"][:2]
        return views.find_lines(self.agent.memory(), self.wanted(id, self.identifier), self.wanted(attr, symbol), self.wanted(value, symbol))

    def wanted(self, text, read):
        """Returns the symbol that a word of a `find` asks for, or None for `*`."""
        return None if text == "*" else self.identifier(text) if text.startswith("<") else read(text)

    def goals(self, words, _):
        exactly(words, 0)
        return views.goal_lines(self.agent.memory())

    def counts(self, words, _):
        if words == ["clear"]:
            self.runner.counts.clear()
            return []
        names = self.agent.names()
        counts = {name: self.runner.counts.get(name, 0) for name in names}
        if words == ["never"]:
            return [name for name in names if not counts[name]] or ["each rule has fired"]
        if words:
            name = str(word(meaning(exactly(words, 1)[0])))
            self.production(name)
            return [f"{counts[name]:6d}  {name}"]
        return [f"{counts[name]:6d}  {name}" for name in sorted(names, key=lambda name: -counts[name])] or ["no rules"]

    # ---- running

    def run(self, words, _):
        if len(words) > 1 or words and not (words[0].isdigit() and 1 <= int(words[0]) <= MOST_CYCLES):
            raise NotHere
        self.run_agent(int(words[0]) if words else None)
        return []

    def run_agent(self, limit, goal=None):
        refused = self.runner.run(limit, goal)
        if refused:
            raise Refused(refused)

    def until(self, words, _):
        what, *rest = words or [""]
        limit = int(rest.pop()) if rest and rest[-1].isdigit() and what != "cycle" else None
        if what == "operator" and len(rest) == 1:
            self.run_agent(limit, operator_goal(str(symbol(rest[0]))))
        elif what == "impasse":
            self.run_agent(limit, impasse_goal(" ".join(rest)))
        elif what == "halt" and not rest:
            self.run_agent(limit, HALT_GOAL)
        elif what == "cycle" and len(rest) == 1:
            self.run_to_cycle(number(rest[0]))
        else:
            raise WrongWords
        return []

    def run_to_cycle(self, cycle):
        done = self.agent.counts()["cycles"]
        if done >= cycle:
            self.screen.line(f"cycle {done} is over")
        else:
            self.run_agent(cycle - done)

    def srand(self, words, _):
        """Gives the program random words for draws, made from a number; without one, from a number by chance."""
        seed = number(exactly(words, 1)[0]) if words else secrets.randbelow(1_000_000)
        chance = random.Random(seed)
        self.agent.program.ask("random " + " ".join(str(chance.getrandbits(64)) for _ in range(RANDOM_WORDS)))
        return [] if words else [f"the seed is {seed}"]

    def set_break(self, words, _):
        if not words:
            return list(self.runner.breaks) or ["no breakpoints"]
        name = str(word(meaning(exactly(words, 1)[0])))
        self.production(name)
        if name not in self.runner.breaks:
            self.runner.breaks.append(name)
        return []

    def unset_break(self, words, _):
        names = [str(word(meaning(name))) for name in words] or list(self.runner.breaks)
        for name in names:
            if name not in self.runner.breaks:
                return [f"no breakpoint {name}"]
            self.runner.breaks.remove(name)
        return []

    # ---- changing

    def excise(self, words, _):
        """Several rules, all, or all chunks; one name goes to the program."""
        if len(words) == 1 and words[0] in ("-a", "--all"):
            names = self.agent.names()
        elif len(words) == 1 and words[0] in ("-c", "--chunks"):
            names = self.agent.chunks()
        elif len(words) > 1:
            names = words
        else:
            raise NotHere
        for name in names:
            answer = self.agent.program.ask("excise " + barred(meaning(name)))
            if answer.text:
                raise Refused(answer)
        return ["1 rule is gone" if len(names) == 1 else f"{len(names)} rules are gone"]

    # ---- files

    def draw(self, words, _):
        what, *name = words or [""]
        if not what or len(name) > 1:
            raise WrongWords
        if what == "wm":
            text = drawing.memory_graph(self.agent.memory())
        elif what == "goals":
            text = drawing.goals_graph(self.agent.memory())
        else:
            text = self.drawn_chunk(what)
        return drawing.written(text, name[0] if name else drawing.file_name(meaning(what)))

    def drawn_chunk(self, name):
        production = self.production(name)
        answer = self.agent.program.ask("explain " + barred(meaning(name)))
        if not answer.text.startswith("explain "):
            raise Refused(answer)
        explanation = Explanation(answer.text)
        conditions = {firing.name: self.agent.conditions(firing.name) for firing in explanation.firings}
        return drawing.chunk_graph(production, explanation, conditions)

    def log(self, _, command):
        name = rest_of(command)
        if not name:
            return [self.screen.log.name if self.screen.log else "no log"]
        self.screen.close_log()
        if name != "off":
            self.screen.open_log(name)
        return []

    # ---- folders

    def cd(self, _, command):
        os.chdir(os.path.expanduser(rest_of(command) or "~"))
        return [os.getcwd()]

    def pushd(self, _, command):
        """Goes to a folder; `popd` goes back."""
        before = os.getcwd()
        lines = self.cd([], command)
        self.folders.append(before)
        return lines

    def popd(self, words, _):
        exactly(words, 0)
        return self.cd([], f"cd {self.folders.pop()}") if self.folders else ["no folder to go back to"]

    def echo(self, _, command):
        return [rest_of(command)]

    def system(self, command):
        """Runs a command of the system's shell at the same terminal."""
        subprocess.run(command, shell=True)
        return []


def exactly(words, count):
    if len(words) != count:
        raise WrongWords
    return words


def number(text):
    if not re.fullmatch(r"[0-9]{1,9}", text):
        raise WrongWords
    return int(text)
