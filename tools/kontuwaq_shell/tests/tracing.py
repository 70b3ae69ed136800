"""What the trace of level 3 shows at the level of the user, and the events that it reports."""

import unittest

from ..explanations import Explanation
from ..memory import memory_of
from ..runs import ends_line, impasse_goal, operator_goal
from ..screen import Screen
from ..trace import Event, Trace
from ..views import depth_lines, goal_lines, identifier_named

TRACE = """-- input
-- proposal
fire 1 go*propose: 4 6
fire 2 say: 4
one
fire 3 say: 5
halt
-- decision
1: O: O1 (go away)
-- application
fire 4 |go on|: 4
cut application
-- output
out + (I3 ^say hello)
halt
"""


class Shown:
    """A screen that keeps its text."""

    def __init__(self):
        self.text = ""

    def write(self, text):
        self.text += text

    def flush(self):
        pass


def shown(watch, ends):
    out = Shown()
    screen = Screen(out)
    events, lines = Trace(lambda name: ends).read(TRACE, watch)
    for line in lines:
        screen.show(line)
    screen.end_line()
    return out.text, events


class Traces(unittest.TestCase):
    def test_each_level_shows_its_lines(self):
        self.assertEqual(shown(0, True)[0], "one\nhalt\n")
        self.assertEqual(shown(1, True)[0], "one\nhalt\n1: O: O1 (go away)\ncut application\nout + (I3 ^say hello)\nhalt\n")
        self.assertEqual(shown(3, True)[0], TRACE)

    def test_a_text_without_a_newline_goes_on(self):
        self.assertEqual(shown(0, False)[0], "onehalt\n")
        self.assertEqual(shown(2, False)[0].split("\n")[2:4], ["onehalt", "-- decision"])

    def test_events_are_reported(self):
        self.assertEqual(shown(0, True)[1], [
            Event("fire", "go*propose", "", 1), Event("fire", "say", "", 2), Event("fire", "say", "", 3), Event("select", "O1", "go away", 1),
            Event("fire", "|go on|", "", 4), Event("halt")])

    def test_a_production_shows_whether_it_ends_its_line(self):
        rule = "sp {a\n    (state <s> ^a <x>)\n    -->\n    %s\n}\n"
        for action, wanted in (("(write |a| (crlf))", True), ("(write (crlf) |a|)", False), ("(write |a\n|)", True), ("(<s> ^b 1 +)", True),
                               ("(write (crlf))\n    (write <x>)", False)):
            self.assertEqual(ends_line(rule % action), wanted, action)

    def test_goals_of_until(self):
        self.assertEqual(operator_goal("go").met(Event("select", "O1", "go", 3)), "O1 (go) is selected")
        self.assertIsNone(operator_goal("go").met(Event("select", "O1", "stay", 3)))
        self.assertEqual(impasse_goal("no-change").met(Event("impasse", "S2", "state no-change", 3)), "S2 is made (state no-change)")
        self.assertIsNone(impasse_goal("tie").met(Event("impasse", "S2", "state no-change", 3)))


MEMORY = """3: (S1 ^io I1)
4: (S1 ^superstate nil)
1: (I1 ^input-link I2)
6: (S1 ^link A1)
7: (A1 ^link B1)
8: (B1 ^link A1)
9: (B1 ^operator O1)
10: (S2 ^superstate S1)
11: (S2 ^quiescence t)
12: (S2 ^impasse no-change)
13: (S2 ^attribute operator)
14: (S1 ^operator O1)
15: (O1 ^name go)
16: (S1 ^operator O2 +)
"""


class Views(unittest.TestCase):
    def test_depth_follows_the_shortest_way(self):
        self.assertEqual(depth_lines(memory_of(MEMORY), identifier_named("s1"), 2), [
            "(S1 ^io I1 ^superstate nil ^link A1 ^operator O1 ^operator O2 +)", "  (I1 ^input-link I2)", "  (A1 ^link B1)", "  (O1 ^name go)"])

    def test_the_stack_of_goals(self):
        self.assertEqual(goal_lines(memory_of(MEMORY)), ["==>S: S1", "O: O1 (go)", "  ==>S: S2 (operator no-change)"])


EXPLANATION = """explain chunk*1
ground 7: (A1 ^price 0)
item 19: (S2 ^item A1) by 7
fire 3 find: 19 7
  (S2 ^found F1 +)
  (F1 ^worth 0 +)
fire 6 tell: 37 36
  (S1 ^operator A1 = 0)
result (S1 ^operator A1 = 0)
end
"""


class Explanations(unittest.TestCase):
    def test_what_a_firing_made_gets_the_tags_of_the_next(self):
        from ..matcher import conditions_of
        from ..productions import read_production
        text = "sp {tell\n    (state <s> ^found <f>)\n    -(<s> ^x 1)\n    (<f> ^worth <n>)\n    -->\n    (<s> ^x <n> +)\n}\n"
        found = Explanation(EXPLANATION).elements({"tell": conditions_of(read_production(text), text)})
        self.assertEqual([found[tag].line() for tag in (7, 36, 37)], ["7: (A1 ^price 0)", "36: (F1 ^worth 0)", "37: (S2 ^found F1)"])
