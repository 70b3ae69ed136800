#!/usr/bin/env python3
"""Feeds a program random inputs and compares what it writes. It is no part of the gate.

    fuzz/fuzz.py PROGRAM [--against OTHER] [--runs N] [--minutes N] [--seed N] [--kinds KIND,..] [--keep FOLDER]

PROGRAM is the built program. Each input is run whole, and byte by byte, where each read gives one byte; with --against
also by OTHER, as fuzz/direct.sh makes it, which matches by enumeration. All have to write the same bytes and to end with
the same status; that has to be 0, 1, 7 or 8, and nothing may stand on standard error. Inputs for which that is not so
are kept in FOLDER; a run that takes more than 20 s of the processor is given up. The kinds: bytes, scripts, broken.

bytes    random bytes, of all, or of those that commands have
scripts  random commands: productions with negations, relations and preferences, inputs, runs, learning, lists
broken   the same with some bytes changed, taken out or doubled
"""
import argparse
import collections
import os
import random
import resource
import signal
import socket
import subprocess
import sys
import threading
import time

# Seconds of the processor, after which a run is given up: a script may ask for more than anyone can wait for.
LONGEST = 20
GIVEN_UP = -signal.SIGXCPU
ATTRIBUTES = ["a", "b", "c", "next", "name"]
CONSTANTS = ["0", "1", "2", "3", "-1", "x", "y", "|x y|"]
NAMES = ["p", "q", "r", "t"]
IDENTIFIERS = ["S1", "S1", "S1", "<l>", "<m>", "I3", "S2", "O1", "Q9"]


class Script:
    """A random script."""

    def __init__(self, rng):
        self.rng = rng
        self.bound = []

    def pick(self, *choices):
        return self.rng.choice(choices)

    def variable(self):
        name = self.rng.choice("vwxyz")
        self.bound.append(name)
        return f"<{name}>"

    def known(self):
        return f"<{self.rng.choice(self.bound)}>" if self.bound else "<s>"

    def test(self):
        """What stands at the place of a value."""
        way = self.rng.random()
        if way < 0.4:
            return self.variable()
        if way < 0.7:
            return self.rng.choice(CONSTANTS)
        if way < 0.8:
            return f"<< {self.rng.choice(CONSTANTS)} {self.rng.choice(CONSTANTS)} >>"
        relation = self.pick("<>", "<", ">", "<=", ">=", "<=>")
        against = self.known() if self.rng.random() < 0.6 else self.rng.choice(CONSTANTS)
        return f"{{ {self.variable()} {relation} {against} }}" if self.rng.random() < 0.7 else f"{relation} {against}"

    def pairs(self, most):
        return " ".join(f"^{self.rng.choice(ATTRIBUTES)} {self.test()}" for _ in range(self.rng.randint(1, most)))

    def condition(self, depth=0):
        way = self.rng.random()
        identifier = "<s>" if self.rng.random() < 0.6 else self.known()
        if way < 0.65 or depth > 2:
            return f"({identifier} {self.pairs(2)})"
        if way < 0.85:
            return f"-({identifier} {self.pairs(2)})"
        inside = " ".join(self.condition(depth + 1) for _ in range(self.rng.randint(1, 2)))
        return f"-{{{inside}}}"

    def first(self):
        """The condition on the state."""
        way = self.rng.random()
        if way < 0.35:
            return f"(state <s> {self.pairs(2)})"
        if way < 0.5:
            return "(state <s> ^superstate nil)"
        if way < 0.65:
            return "(state <s> ^operator <o>) (<o> ^name " + self.rng.choice(NAMES) + ")"
        if way < 0.75:
            return "(state <s> ^operator <o> +)"
        if way < 0.9:
            return "(state <s> ^superstate <t> ^impasse <i>) (<t> " + self.pairs(2) + ")"
        return "(state <s> ^impasse tie ^item <o> ^superstate <t>)"

    def value(self):
        way = self.rng.random()
        if way < 0.5:
            return self.rng.choice(CONSTANTS)
        if way < 0.8:
            return self.known()
        call = self.pick("+", "-", "*", "div", "mod", "min", "concat", "strlen", "abs")
        return f"({call} {self.value()} {self.value() if self.rng.random() < 0.7 else ''})"

    def action(self):
        way = self.rng.random()
        state = "<s>" if self.rng.random() < 0.7 else "<t>"
        if way < 0.45:
            sign = self.pick("", "", "", "+", "-")
            return f"({state} ^{self.rng.choice(ATTRIBUTES)} {self.value()} {sign})"
        if way < 0.65:
            sign = self.pick("", "", "=", "= 2", "= -1", ">", "<", "!", "~")
            return f"({state} ^operator <o> + {sign}) (<o> ^name {self.rng.choice(NAMES)} ^a {self.value()})"
        if way < 0.75:
            sign = self.pick("> <n>", "= <n>", "< <n>", "-", "= 3", "!")
            return f"({state} ^operator <o> {sign})"
        if way < 0.85:
            return f"(<s> ^{self.rng.choice(ATTRIBUTES)} <n>) (<n> ^{self.rng.choice(ATTRIBUTES)} {self.value()})"
        if way < 0.9:
            return "(<i3> ^told " + self.value() + ")"
        if way < 0.98:
            return f"(write |{self.rng.choice('uvw')} | {self.value()}{' (crlf)' if self.rng.random() < 0.7 else ''})"
        return "(halt)"

    def production(self):
        self.bound = ["s"]
        flag = self.pick("", "", "", ":o-support ", ":i-support ", ":chunk ", '"told" ')
        parts = [self.first()] + [self.condition() for _ in range(self.rng.randint(0, 3))]
        actions = [self.action() for _ in range(self.rng.randint(1, 2))]
        if any("<i3>" in it for it in actions):
            parts.append("(<s> ^io.output-link <i3>)")
        return f"sp {{{self.pick('p1', 'p2', 'p3', 'p4', 'p5', 'p6', 'p7')} {flag}" + " ".join(parts) + " --> " + " ".join(actions) + "}"

    def triple(self):
        rng = self.rng
        value = rng.choice(CONSTANTS + ["<l>", "<m>", "<k>"])
        return f"{rng.choice(IDENTIFIERS)} ^{rng.choice(ATTRIBUTES)} {value}"

    def command(self):
        rng = self.rng
        name = self.pick("p1", "p2", "p3", "p5", "chunk*1", "chunk*2", "justification*1", "none")
        ways = [
            (20, self.production),
            (22, lambda: "add-wme " + self.triple()),
            (4, lambda: f"remove-wme {rng.randint(1, 25)}"),
            (6, lambda: f"input {self.pick('add', 'add', 'remove')} {self.triple()}"),
            (14, lambda: f"run {rng.randint(1, 4)}"),
            (6, lambda: self.pick("matches", f"matches {name}")),
            (6, lambda: self.pick("print --wm", "print S1", "print --rules", "print --chunks", f"print {name}", "print s2")),
            (3, lambda: self.pick("preferences S1 operator", "preferences S1 a", "preferences S2 operator")),
            (3, lambda: f"watch {rng.randint(0, 5)}"),
            (3, lambda: self.pick("chunk always", "chunk always", "chunk never", "chunk allow-local-negations on")),
            (2, lambda: f"excise {name}"),
            (2, lambda: f"explain {name}"),
            (2, lambda: "stats"),
            (1, lambda: "init-soar"),
            (2, lambda: "indifferent-selection " + self.pick("first", "last", "softmax", "epsilon-greedy 1 3")),
            (2, lambda: "random " + " ".join(str(rng.randint(0, 9)) for _ in range(rng.randint(1, 3)))),
            (1, lambda: f"max-elaborations {rng.randint(1, 12)}"),
            (1, lambda: self.pick("fly", "source none", "# told", "", "quit" if rng.random() < 0.2 else "stats")),
        ]
        return rng.choices([it for _, it in ways], [it for it, _ in ways])[0]()

    def text(self):
        lines = [f"max-elaborations {self.rng.randint(2, 12)}"]
        lines += ["watch 5"] if self.rng.random() < 0.5 else []
        lines += ["chunk always"] if self.rng.random() < 0.6 else []
        lines += [self.production() for _ in range(self.rng.randint(1, 5))]
        lines += [self.command() for _ in range(self.rng.randint(5, 40))]
        return "\n".join(lines + ["run 2", "print --wm", "matches", "stats"]) + "\n"


def some_bytes(rng):
    size = rng.randint(0, 300)
    if rng.random() < 0.4:
        return bytes(rng.randrange(256) for _ in range(size))
    pieces = ["sp {", "}", "(", ")", "<s>", "state ", "^a ", "-->", "{", "|", '"', "\\", "#", "\n", " ", "add-wme S1 ^", "1.5", "99999999999999999999", "\xe9", "run 1\n", "matches\n", "<<", ">>", "-", "+", "<x>", "sp{p", "\r", "\0"]
    return "".join(rng.choice(pieces) for _ in range(size // 4)).encode("latin-1")


def broken(rng, data):
    data = bytearray(data)
    for _ in range(rng.randint(1, 4)):
        at = rng.randrange(len(data))
        way = rng.randrange(4)
        if way == 0:
            data[at] = rng.randrange(256)
        elif way == 1:
            del data[at : at + rng.randint(1, 9)]
        elif way == 2:
            data[at:at] = data[at : at + rng.randint(1, 40)]
        else:
            data[at:at] = rng.choice([b"{", b"}", b"|", b'"', b"\n", b"(", b")", b"^", b"-"])
        if not data:
            data = bytearray(b"\n")
    return bytes(data)


def made(rng, kind):
    if kind == "bytes":
        return some_bytes(rng)
    text = Script(rng).text().encode()
    return broken(rng, text) if kind == "broken" else text


def limited():
    resource.setrlimit(resource.RLIMIT_CPU, (LONGEST, LONGEST + 5))


def run_whole(program, data):
    ended = subprocess.run([program], input=data, capture_output=True, preexec_fn=limited)
    return ended.returncode, ended.stdout, ended.stderr


def run_by_bytes(program, data):
    """Over a socket of packets each read gives one packet: here one byte."""
    ours, theirs = socket.socketpair(socket.AF_UNIX, socket.SOCK_SEQPACKET)

    def feed():
        try:
            for byte in data:
                ours.send(bytes([byte]))
        except OSError:
            pass
        ours.close()

    process = subprocess.Popen(
        [program], stdin=theirs, stdout=subprocess.PIPE, stderr=subprocess.PIPE, preexec_fn=limited
    )
    theirs.close()
    feeder = threading.Thread(target=feed)
    feeder.start()
    try:
        out, error = process.communicate()
    finally:
        process.kill()
        feeder.join()
    return process.returncode, out, error


def judged(given, data):
    """What is wrong with the runs of an input, or nothing; and how it ended."""
    status, out, error = run_whole(given.program, data)
    if status == GIVEN_UP:
        return None, "given up", b""
    if status not in (0, 1, 7, 8):
        return f"status {status}", status, out
    if error:
        return f"standard error: {error[:200]}", status, out
    fed = run_by_bytes(given.program, data)
    if fed[0] != GIVEN_UP and fed != (status, out, error):
        return "byte by byte it goes otherwise", status, out
    other = run_whole(given.against, data) if given.against else fed
    if other[0] != GIVEN_UP and other != (status, out, error):
        return "the other program goes otherwise", status, out
    return None, status, out


def main():
    asked = argparse.ArgumentParser(description=__doc__, formatter_class=argparse.RawDescriptionHelpFormatter)
    asked.add_argument("program", type=os.path.abspath)
    asked.add_argument("--against", type=os.path.abspath)
    asked.add_argument("--runs", type=int, default=1000)
    asked.add_argument("--seed", type=int, default=1)
    asked.add_argument("--minutes", type=float, default=0.0, help="no further input after so many; 0 for no end")
    asked.add_argument("--kinds", default="bytes,scripts,scripts,scripts,broken")
    asked.add_argument("--keep", default="fuzz-kept")
    given = asked.parse_args()
    kinds, faults, began = given.kinds.split(","), 0, time.time()
    told, statuses, seen = collections.Counter(), collections.Counter(), collections.Counter()
    for number in range(given.seed, given.seed + given.runs):
        if given.minutes and time.time() - began > 60 * given.minutes:
            break
        rng = random.Random(number)
        kind = kinds[number % len(kinds)]
        data = made(rng, kind)
        why, status, out = judged(given, data)
        told[kind] += 1
        statuses[status] += 1
        for word in (b"==>S:", b"\nlearn ", b"\njustify ", b"\nerror ", b": O: ", b"\nremove "):
            seen[word.decode().strip()] += word in b"\n" + out
        if why:
            faults += 1
            os.makedirs(given.keep, exist_ok=True)
            with open(f"{given.keep}/{number}.soar", "wb") as file:
                file.write(data)
            print(f"{kind} {number}: {why}; kept as {given.keep}/{number}.soar", flush=True)
    print(f"{dict(told)}, statuses {dict(statuses)}; with {dict(seen)}; {faults} wrong; {time.time() - began:.0f} s")
    return 1 if faults else 0


if __name__ == "__main__":
    sys.exit(main())
