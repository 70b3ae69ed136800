"""Runs in small pieces, which Ctrl-C, a breakpoint or the goal of `until` ends."""

import time
from typing import NamedTuple

from .productions import Call, NoProduction, read_production
from .refusals import refusal_of
from .tokens import barred, symbol
from .trace import SEEN, Trace

HALTED = 37
HALT = "the agent has halted"
# So many cycles in a row without an operator bring a hint.
IDLE_CYCLES = 3
IDLE = "hint: no operator was proposed in %d cycles; `why NAME` shows what keeps a rule from matching" % IDLE_CYCLES
# Pieces grow as long as each takes less time than this, so Ctrl-C waits little longer.
PIECE_SECONDS = 0.1
LARGEST_PIECE = 4096


class Runner:
    """Runs the agent, counts firings by rule, and keeps the watch level of the user."""

    def __init__(self, program, screen, interrupts):
        self.program, self.screen, self.interrupts = program, screen, interrupts
        self.watch = 1
        self.counts = {}
        self.breaks = []
        self.endings = {}
        # Whether a breakpoint or Ctrl-C ended the latest run.
        self.stopped = False
        # The state no-changes since an operator was selected; None after the hint on them.
        self.idle = 0

    def clear(self):
        """Begins anew, as the agent does."""
        self.counts.clear()
        self.idle = 0

    # ---- runs

    def run(self, limit=None, goal=None):
        """Runs at most `limit` cycles, or without an end, until a goal is met.

        Returns the answer with the refusal if the agent is halted."""
        self.stopped = False
        with self.interrupts:
            if self.watch < SEEN:
                self.program.ask(f"watch {SEEN}")
            refused = self.run_pieces(limit, goal)
            if self.watch < SEEN:
                self.program.ask(f"watch {self.watch}")
        if self.idle is not None and self.idle >= IDLE_CYCLES and goal is None:
            self.screen.line(IDLE)
            self.idle = None
        return refused

    def run_pieces(self, limit, goal):
        trace, done, size = Trace(self.ends_line), 0, 1
        while limit is None or done < limit:
            size = size if limit is None else min(size, limit - done)
            began = time.monotonic()
            answer = self.program.ask(f"run {size}")
            if is_halted(answer):
                return None if done else answer
            events = self.shown_events(trace, answer)
            done += size
            reason = self.reason(events, goal)
            if reason or self.program.ended:
                if reason and (goal or reason != HALT):
                    self.screen.line(f"stopped after {cycles(done)}: {reason}")
                    self.stopped = reason != HALT
                return None
            if not (goal and goal.stepwise or self.breaks) and time.monotonic() - began < PIECE_SECONDS:
                size = min(2 * size, LARGEST_PIECE)
        if goal:
            self.screen.line(f"not met in {cycles(done)}")
        return None

    def shown_events(self, trace, answer):
        """Shows what a piece of a run wrote, counts its firings and returns its events."""
        events, shown = trace.read(answer.text, self.watch)
        for line in shown:
            self.screen.show(line)
        for event in events:
            if event.kind == "fire":
                self.counts[event.subject] = self.counts.get(event.subject, 0) + 1
            elif self.idle is not None and event.kind in ("select", "impasse"):
                self.idle = self.idle + 1 if event.name == "state no-change" and event.kind == "impasse" else 0
        return events

    def reason(self, events, goal):
        """Returns why a run stops after these events, or None."""
        for event in events:
            met = goal.met(event) if goal else None
            if met:
                return met
            if event.kind == "fire" and event.subject in self.breaks:
                return f"{event.subject} fired (firing {event.number})"
        if any(event.kind == "halt" for event in events):
            return HALT
        return "Ctrl-C" if self.interrupts.count else None

    # ---- texts of rules

    def ends_line(self, name):
        """Returns whether the last text that a rule writes ends its line, as far as its production shows."""
        if name not in self.endings:
            self.endings[name] = ends_line(self.program.ask("print " + barred(str(symbol(name).value))).text)
        return self.endings[name]


def cycles(count):
    return f"{count} cycle{'' if count == 1 else 's'}"


def is_halted(answer):
    refusal = refusal_of(answer.text.rstrip("\n"))
    return refusal is not None and refusal.number == HALTED


def ends_line(text):
    """Returns whether the last value that a printed production writes ends with a newline."""
    try:
        actions = read_production(text).actions
    except NoProduction:
        return True
    written = [action.written[-1] for action in actions if action.written]
    if not written:
        return True
    last = written[-1]
    return last.function == "crlf" if isinstance(last, Call) else str(getattr(last, "value", "")).endswith("\n")


# ---- goals of `until`

class Goal(NamedTuple):
    """What ends a run: `met` returns a text for an event that meets it, and None for any other.

    A stepwise goal is looked at after each cycle; any other ends the run by itself."""

    met: object
    stepwise: bool


HALT_GOAL = Goal(lambda event: None, False)


def operator_goal(name):
    """Returns the goal that an operator of this name, or this identifier, is selected."""
    def met(event):
        if event.kind == "select" and name in (event.name, event.subject):
            return f"{event.subject}{f' ({event.name})' if event.name else ''} is selected"
        return None
    return Goal(met, True)


def impasse_goal(kind):
    """Returns the goal that an impasse comes, or one of a kind, as `tie` or `no-change`."""
    def met(event):
        if event.kind == "impasse" and kind in ("", event.name, event.name.split()[-1]):
            return f"{event.subject} is made ({event.name})"
        return None
    return Goal(met, True)
