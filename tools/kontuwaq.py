"""Drives agents from Python 3. Each Agent is a process of its own behind two pipes; docs/EMBEDDING.md explains the use.

    with Agent() as agent:
        agent.load("guard.soar")
        agent.add("I2", "sees", "thief")
        print(agent.run().changes)
"""
import collections
import contextlib
import os
import pathlib
import re
import signal
import subprocess
import threading

TOP = pathlib.Path(__file__).resolve().parent.parent
STATUSES = dict(enumerate("Done Refusals Usage NoMemory ReadFault WriteFault FileFault TooLong Limit".split()))
SYMBOL = r"\|(?:[^|\\]|\\.)*\||[^\s|()]+"
CHANGE = re.compile(rf"^out ([+-]) \((\S+) \^({SYMBOL}) ({SYMBOL})\)$", re.M | re.S)
REFUSAL = re.compile(r"^error (\d+) (.+?):(\d+): (.*)$", re.M)
OPENING = re.compile(r'#[^\n]*|\|(?:[^|\\]|\\.)*\||"(?:[^"\\]|\\.)*"|[{}|"]', re.S)

# A triple that the output link now shows, or no longer shows.
Change = collections.namedtuple("Change", "shown identifier attribute value")
# A refused command. Where the source is "-", line 1 is the first line that the call sent.
Refusal = collections.namedtuple("Refusal", "number source line text")


class Identifier(str):
    """An identifier, as Identifier("C1"). A label, as Identifier("<thief>"), stands for a new one."""


def symbol_of(text):
    """Returns a printed symbol as a value: a word as str, an int or an Identifier."""
    if text.startswith("|"):
        return re.sub(r"\\(.)", r"\1", text[1:-1], flags=re.S)
    if re.fullmatch(r"[+-]?[0-9]+", text):
        return int(text)
    return Identifier(text) if re.fullmatch(r"[A-Z][0-9]+", text) else text


def text_of(symbol):
    """Returns a value as the program reads it; a word that is not plain stands between bars."""
    if isinstance(symbol, int):
        return str(int(symbol))
    if isinstance(symbol, Identifier) or re.fullmatch(r"[a-z][a-z0-9-]*", symbol):
        return str(symbol)
    return "|" + re.sub(r"[|\\]", r"\\\g<0>", symbol) + "|"


def is_whole(commands):
    """Checks that commands leave no brace, bar or quote open: the program would wait for its end."""
    depth = 0
    for piece in OPENING.findall(commands):
        if piece in ("|", '"'):
            return False
        depth = max(0, depth + (piece == "{") - (piece == "}"))
    return depth == 0


class Refused(Exception):
    """Some commands of a call were refused; the others ran, and `answer` has all that was written."""
    def __init__(self, refusals, answer):
        super().__init__("; ".join("error {} {}:{}: {}".format(*refusal) for refusal in refusals))
        self.number, self.source, self.line, self.text = refusals[0]
        self.refusals, self.answer = refusals, answer


class Ended(Exception):
    """The program ended with this `status`; `answer` has what it wrote last, as the line of a limit."""
    def __init__(self, status, answer):
        name = signal.Signals(-status).name if status < 0 else STATUSES.get(status, "unknown")
        super().__init__(f"status {status} ({name}) after {answer.lines[-1:]}")
        self.status, self.name, self.answer = status, name, answer


class Answer:
    """What commands wrote: the `text`, its `lines`, the `changes` of the output link, whether the agent `halted`."""
    def __init__(self, text):
        self.text, self.lines = text, text.removesuffix("\n").split("\n") if text else []
        self.changes = [Change(sign == "+", *map(symbol_of, triple)) for sign, *triple in CHANGE.findall(text)]
        self.halted = self.lines[-1:] == ["halt"]

    def shown(self, identifier="I3"):
        """Returns the attributes of an identifier that are newly shown, each with its last value."""
        return {each.attribute: each.value for each in self.changes if each.shown and each.identifier == identifier}


class Agent(contextlib.AbstractContextManager):
    """An agent without rules. To `log`, a text file, goes all that it is sent, but for the markers.

    The program reads 64 MiB in its life, and `bytes_sent` counts what it was sent."""
    def __init__(self, watch=1, program=None, log=None):
        program = program or os.environ.get("SOAR_APP") or TOP / "soar_app"
        self.process = subprocess.Popen([program, f"--watch={watch}"], stdin=subprocess.PIPE, stdout=subprocess.PIPE)
        self.log, self.queued, self.lines_sent, self.bytes_sent = log, "", 0, 0

    def add(self, identifier, attribute, value, how="add"):
        """Queues that a triple joins the inputs in the next input phase."""
        self.queued += f"input {how} {identifier} ^{text_of(attribute)} {text_of(value)}\n"

    def remove(self, identifier, attribute, value):
        """Queues that a triple leaves the inputs in the next input phase."""
        self.add(identifier, attribute, value, "remove")

    def run(self, cycles=1):
        """Runs the agent for `cycles`, or until it halts."""
        return self.command(f"run {cycles}")

    def load(self, path):
        """Runs the commands of a file, by its path from the folder in which the program started."""
        return self.command(f"source {path}")

    def command(self, text):
        """Sends the queued inputs, then commands of any number of lines, and returns the Answer."""
        commands, self.queued, before = self.queued + text + "\n" * (text != ""), "", self.lines_sent
        if not is_whole(commands):
            raise ValueError("a brace, a bar or a quote is open")
        answer = Answer(self.exchange(commands))
        found = [Refusal(int(number), source, int(line) - before * (source == "-"), why)
                 for number, source, line, why in REFUSAL.findall(answer.text)]
        if found:
            raise Refused(found, answer)
        return answer

    def exchange(self, commands):
        """Sends commands and a marker, and returns what is written before the answer to the marker."""
        if self.log:
            self.log.write(commands)
        # The marker: a dot is no command, so it is refused and changes nothing, and no other refusal names its line.
        self.lines_sent += commands.count("\n") + 1
        marker = f"error 10 -:{self.lines_sent}: unknown command\n".encode()
        sent = f"{commands}.\n".encode()
        self.bytes_sent += len(sent)
        threading.Thread(target=self.send, args=(sent,), daemon=True).start()
        written = []
        for line in iter(self.process.stdout.readline, marker):
            if not line:
                raise Ended(self.process.wait(), Answer("".join(written)))
            written.append(line.decode(errors="replace"))
        return "".join(written)

    def send(self, commands):
        """Hands commands over. That this is a thread of its own lets the program write much before it has read all."""
        with contextlib.suppress(BrokenPipeError, ValueError):
            self.process.stdin.write(commands)
            self.process.stdin.flush()

    def close(self, *_):
        """Ends the agent."""
        self.process.communicate()

    __exit__ = close
