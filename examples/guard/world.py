#!/usr/bin/env python3
"""The castle of the guard: drives guard.soar for 200 cycles and prints what it writes.

    examples/guard/world.py [LOG]

LOG is a file for the commands that follow the rules; guard.in is such a file."""
import contextlib
import pathlib
import sys

HERE = pathlib.Path(__file__).resolve().parent
sys.path.insert(0, str(HERE.parent.parent / "tools"))
from kontuwaq import Agent, Identifier  # noqa: E402

CYCLES = 200
ROOMS = ("gate", "hall", "kitchen", "tower", "vault", "yard")
ARCHES = (("gate", "yard"), ("tower", "yard"))
DOORS = (("hall", "kitchen"), ("hall", "vault"), ("hall", "yard"))
STAYS_OPEN = 8

# The cycles that a command takes.
TAKES = {"go": 2, "look": 3, "open": 1, "ring": 1, "seize": 1}

# The plan of the thief: the cycle in which he enters a room.
PLAN = {30: "kitchen", 36: "hall", 39: "vault", 44: "hall", 100: "kitchen", 104: "hall", 107: "vault"}
# Where he runs if the guard stands in his room; None is out of the window. The vault has no other exit.
ESCAPES = {"hall": "kitchen", "kitchen": None}

# The cycle in which a noise begins, its room, and how long it lasts: a window, the treasure twice, a cat.
NOISES = ((30, "kitchen"), (40, "vault"), (112, "vault"), (160, "tower"))
NOISE_LASTS = 3


def label(*names):
    return Identifier("<{}>".format("-".join(names)))


class Castle:
    """The rooms and doors, the thief, and the body of the guard."""

    def __init__(self, agent):
        self.agent = agent
        self.now = 0
        self.guard, self.thief, self.caught = "gate", None, False
        self.shuts = dict.fromkeys(DOORS, 0)
        self.command, self.order, self.due = None, {}, 0
        self.told = set()

    def cycle(self):
        """Lets one cycle pass in the castle and in the agent, and returns the agent's answer."""
        self.now += 1
        self.move_thief()
        self.answer_command()
        self.tell(set(self.percepts()))
        answer = self.agent.run()
        self.take_command(answer)
        return answer

    def is_open(self, room, other):
        pair = tuple(sorted((room, other)))
        return pair in ARCHES or self.shuts.get(pair, 0) > self.now

    # ---- the thief

    def move_thief(self):
        if self.thief == self.guard and self.thief in ESCAPES:
            self.thief = ESCAPES[self.thief]
        elif not self.caught:
            self.thief = PLAN.get(self.now, self.thief)

    # ---- the body of the guard

    def take_command(self, answer):
        """Notes a command that the output link newly shows, and when it is carried out."""
        command = answer.shown().get("command")
        if command:
            self.command, self.order = command, answer.shown(command)
            self.due = self.now + TAKES[self.order["do"]]

    def answer_command(self):
        """Carries the command out when it is due, and tells the agent how that went."""
        if self.command and self.now == self.due:
            well = self.carry_out(self.order["do"], self.order.get("to"))
            self.agent.add(self.command, "status", "complete" if well else "failed")
            self.command = None

    def carry_out(self, action, room):
        if action == "go":
            if not self.is_open(self.guard, room):
                return False
            self.guard = room
        elif action == "open":
            self.shuts[tuple(sorted((self.guard, room)))] = self.now + STAYS_OPEN
        elif action == "seize":
            if self.thief != self.guard:
                return False
            self.thief, self.caught = None, True
        return True

    # ---- what the guard perceives

    def percepts(self):
        """Yields the triples that are true now."""
        yield from self.layout()
        yield "I2", "here", label(self.guard)
        if self.thief and (self.thief == self.guard or self.is_open(self.guard, self.thief)):
            yield "I2", "sees", label(self.thief)
        for start, room in NOISES:
            if start <= self.now < start + NOISE_LASTS:
                yield "I2", "hears", label(room)

    def layout(self):
        for room in ROOMS:
            yield "I2", "room", label(room)
            yield label(room), "name", room
        for pair in ARCHES + DOORS:
            for room, other in (pair, pair[::-1]):
                yield label(room), "exit", label(room, other)
                yield label(room, other), "to", label(other)
                if pair in DOORS:
                    yield label(room, other), "door", label("door", *pair)
        for pair in DOORS:
            yield label("door", *pair), "state", "open" if self.is_open(*pair) else "closed"

    def tell(self, triples):
        """Tells the agent what is no longer true, and then what is newly true."""
        for triple in sorted(self.told - triples):
            self.agent.remove(*triple)
        for triple in sorted(triples - self.told):
            self.agent.add(*triple)
        self.told = triples


def play(cycles, log=None):
    """Yields what the agent writes, cycle by cycle."""
    with Agent() as agent:
        agent.load(HERE / "guard.soar")
        agent.log = log
        castle = Castle(agent)
        for _ in range(cycles):
            yield castle.cycle().text


if __name__ == "__main__":
    with open(sys.argv[1], "w") if sys.argv[1:] else contextlib.nullcontext() as log:
        for text in play(CYCLES, log):
            print(text, end="", flush=True)
