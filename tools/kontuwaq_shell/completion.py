"""Completion by the tabulator: commands, names of rules, identifiers, attributes, files."""

import glob
import os
import re

from .aliases import WORDS
from .cuts import first_word
from .help import command_words

OPTIONS = {
    "print": ("-d", "--wm", "--rules", "--chunks"), "chunk": ("always", "never", "allow-local-negations"),
    "indifferent-selection": ("first", "last", "softmax", "epsilon-greedy"), "input": ("add", "remove"),
    "excise": ("-a", "-c"), "until": ("operator", "impasse", "halt", "cycle"), "counts": ("never", "clear"), "draw": ("wm", "goals"),
    "log": ("off",),
}
RULES = {"print", "matches", "why", "excise", "explain", "break", "unbreak", "draw", "counts"}
IDENTIFIERS = {"print", "preferences", "add-wme", "input", "find"}
FILES = {"source", "log", "draw"}
FLAGS = (":o-support", ":i-support", ":default", ":chunk")


class Completer:
    """Completes the last word of a line; `names` and `memory` ask the program, and each answer is kept until something changes."""

    def __init__(self, names, memory):
        self.names, self.memory = names, memory
        self.known, self.words = {}, set()
        self.attributes, self.operators = set(), set()

    def learn(self, production):
        """Keeps the attributes of a production, and what it names by `^name`."""
        self.attributes |= {attr for path in re.findall(r"\^([A-Za-z0-9*.-]+)", production) for attr in path.split(".") if attr}
        self.operators |= set(re.findall(r"\^(?:[^\s()^]+\.)?name\s+([A-Za-z0-9*-]+)", production))

    def forget(self):
        self.known = {}

    def commands(self):
        if not self.words:
            self.words = command_words()
        return self.words

    def get(self, what):
        if what not in self.known:
            self.known[what] = self.names() if what == "names" else self.memory()
        return self.known[what]

    def candidates(self, before, begun, within):
        """Returns the words that go on with `begun` after the text `before` on the line; `within` if a command is still open."""
        if within or first_word(before.strip()) == "sp":
            return self.in_production(before, begun)
        if not before.strip():
            return starting(begun, self.commands())
        command = first_word(WORDS.get(first_word(before.strip()), before.strip()))
        if command == "help":
            return starting(begun, self.commands())
        if command in FILES and (begun or command == "source"):
            files = [name + ("/" if os.path.isdir(name) else "") for name in glob.glob(glob.escape(begun) + "*")]
        else:
            files = []
        words = set(OPTIONS.get(command, ()))
        words |= set(self.get("names")) if command in RULES else set()
        if before.split()[1:] == ["operator"]:
            words = self.operators
        if command in IDENTIFIERS:
            words |= self.fields(command, before)
        return starting(begun, words) + sorted(files)

    def fields(self, command, before):
        memory = self.get("memory")
        if before.endswith("^") or command == "preferences" and len(before.split()) > 1:
            return self.attributes | {str(attr) for attr in memory.of_attr}
        return {str(id) for id in memory.of_id}

    def in_production(self, before, begun):
        if before.endswith("^"):
            path = begun[:begun.rfind(".") + 1]
            return starting(begun, {path + str(attr) for attr in self.attributes | {str(attr) for attr in self.get("memory").of_attr}})
        return starting(begun, FLAGS) if begun.startswith(":") else []


def starting(begun, words):
    return sorted(word for word in words if word.startswith(begun))
