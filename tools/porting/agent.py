"""Agents: the files of an agent, read as Soar reads them from a first file on, and written anew."""
import os
import re
from pathlib import Path

from .command import commands_of
from .command_checks import check_command
from .finding import Source
from .folders import Folders
from .refiring import refiring

FILES, DEPTH = 1000, 16
TAKE_OUT = "Take the command out"


class Agent:
    """An agent that is read. Without `target` its files become one text; else each goes to a file below that folder.

    `texts` has the new text of each file, by its path; that of the first file of a flattened agent is the whole."""

    def __init__(self, first, target=None):
        self.first, self.target = Path(os.path.normpath(first)), target
        self.texts, self.findings, self.checked = {}, [], []
        self.folders, self.asked = Folders(self.first.parent), 0
        self.read(self.first, [])
        self.findings += refiring([checks for checks in self.checked if checks.rule])
        if target and self.asked > FILES:
            why = f"{self.asked} files are asked for, and {FILES} at most are read in a run"
            self.findings.append(Source(str(self.first), "").finding(0, "files", why, "Write one file, with --output"))
        self.findings = sorted(set(self.findings))

    @property
    def text(self):
        """The new text of the first file, which is the whole of a flattened agent."""
        return self.texts[self.first]

    def read(self, path, outer):
        """Returns the new text of a file, and keeps it; `outer` are the files that are being read."""
        source = Source(str(path), path.read_text(encoding="utf-8", errors="replace"))
        pieces, place = [], 0
        for command in commands_of(source.text):
            pieces.append(gap(source.text[place:command.start], place > 0))
            pieces.append(self.rewritten(source, command, [*outer, path]))
            place = command.end
        text = "".join(pieces) + gap(source.text[place:], False)
        if self.target and self.texts.get(path, text) != text:
            why = "the file asks for other files where it is read from elsewhere"
            self.findings.append(source.finding(0, "files", why, "Write one file, with --output"))
        self.texts[path] = text
        return text

    def rewritten(self, source, command, reading):
        """Returns the text that takes the place of a command."""
        written = source.text[command.start:command.end]
        if command.name in ("cd", "pushd", "popd"):
            why = self.folders.obey(command)
            if why:
                self.findings.append(source.finding(command.start, "folder", why, TAKE_OUT))
            return f"# {' '.join(written.split())}"
        if command.name == "source" or (command.name == "load" and command.arguments[:1] == ["file"]):
            return self.sourced(source, command, reading) or written
        findings, checks = check_command(source, command)
        self.findings += findings
        if checks:
            self.checked.append(checks)
            if command.words[1].is_quoted:
                return "sp {" + command.words[1].text + "}"
        return written

    def sourced(self, source, command, reading):
        """Returns the text of a file that is asked for, or the command that asks for its new file; else nothing."""
        words = [word for word in command.arguments if not word.startswith("-")]
        name = " ".join(words[1:] if command.name == "load" else words)
        path = self.folders.find(name)
        wrong = self.wrong_file(name, path, reading)
        if wrong:
            self.findings.append(source.finding(command.start, "source", *wrong))
            return ""
        self.asked += 1
        with self.folders.of(path, name):
            text = self.read(path, reading)
        return f"source {self.new_path(path)}" if self.target else f"# {path} begins\n{text.strip(chr(10))}\n# {path} ends"

    def wrong_file(self, name, path, reading):
        """Returns why a file cannot be read here, and what to write; nothing if it can."""
        if re.search(r"\$|\[", name):
            return f"`{name}` is of a script language", "Name the file"
        if not path.is_file():
            return f"there is no file {path}", "Name a file that is there, or take the command out"
        if path in reading:
            return "the file reads itself", TAKE_OUT
        if self.target and len(reading) == DEPTH:
            return f"more than {DEPTH} files are inside one another", "Write one file, with --output"
        return None

    def new_path(self, path):
        """Returns the path of the new file for an old one: below the target, as the old one is below the first file."""
        parts = Path(os.path.relpath(path, self.first.parent)).parts
        return Path(self.target, *("parent" if part == ".." else part for part in parts))

    def new_texts(self):
        """Returns the new files of an agent of several files, by their paths."""
        return {self.new_path(path): text for path, text in self.texts.items()}


def gap(text, follows):
    """Returns what stands between two commands without its semicolons, each of which ends a line."""
    if follows and "\n" not in text:
        return "\n"
    return re.sub(r"(#[^\n]*)|;", lambda found: found[1] or "", text)
