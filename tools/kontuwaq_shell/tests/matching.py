"""Rows of conditions, and what `why` says of them."""

import unittest

from ..matcher import TooManyRows, conditions_of, rows_after, rows_of
from ..memory import memory_of
from ..productions import read_production
from ..why import why_lines

MEMORY = """1: (I1 ^input-link I2)
2: (I1 ^output-link I3)
3: (S1 ^io I1)
4: (S1 ^superstate nil)
5: (S1 ^type state)
6: (S1 ^room R1)
7: (R1 ^light Dark)
8: (R1 ^person P1)
9: (P1 ^awake yes)
10: (R2 ^light dark)
11: (S1 ^operator O1 +)
12: (S1 ^operator O2 +)
13: (S1 ^operator O2)
14: (R1 ^size |5|)
15: (R1 ^size 7)
16: (R1 ^size 9)
17: (S1 ^|two words| |a\\|b
c|)
18: (S2 ^superstate S1)
19: (S2 ^quiescence t)
20: (S2 ^item O1)
21: (R1 ^next R1)
22: (R1 ^next R2)
"""

# Conditions, and the tags of their rows.
ROWS = [
    (["(state <s> ^room <r>)"], [(6,)]),
    (["(state <s> ^superstate <x>)"], [(4,), (18,)]),
    (["(state <s> ^superstate nil)"], [(4,)]),
    (["(state <s> ^operator <o>)"], [(13,)]),
    (["(state <s> ^operator <o> +)"], [(11,), (12,)]),
    (["(state <s> ^room <r>)", "(<r> ^size > 6)"], [(6, 15), (6, 16)]),
    (["(state <s> ^room <r>)", "(<r> ^size { <n> >= 7 < 9 })"], [(6, 15)]),
    (["(state <s> ^room <r>)", "(<r> ^size <n>)", "(<r> ^size > <n>)"], [(6, 15, 16)]),
    (["(state <s> ^room <r>)", "(<r> ^size <n>)", "(<r> ^size { <m> <> <n> <=> <n> })"], [(6, 15, 16), (6, 16, 15)]),
    (["(state <s> ^room <r>)", "(<r> ^size << 5 |5| 9 >>)"], [(6, 14), (6, 16)]),
    (["(state <s> ^room <r>)", "(<r> ^next <r>)"], [(6, 21)]),
    (["(state <s> ^room <r>)", "(<r> ^next { <q> <> <r> })", "(<q> ^light dark)"], [(6, 22, 10)]),
    (["(state <s> ^room <r>)", "-(<r> ^light dark)"], [(6,)]),
    (["(state <s> ^room <r>)", "-(<r> ^light <$1>)"], []),
    (["(state <s> ^room <r>)", "-{(<r> ^person <p>) (<p> ^awake no)}"], [(6,)]),
    (["(state <s> ^room <r>)", "-{(<r> ^person <p>) (<p> ^awake yes)}"], []),
    (["(state <s> ^room <r>)", "-{(<r> ^person <p>) -(<p> ^awake yes)}"], [(6,)]),
    (["(state <s> ^room <r>)", "-{(<r> ^next <q>) -{(<q> ^light <c>) (<q> ^light <> dark)}}"], []),
    (["(state <s> ^<a> |a\\|b\nc|)"], [(17,)]),
    (["(state <s> ^|two words| <v>)"], [(17,)]),
    (["(state <s> ^room <r>)", "-(<r> ^next <> <r>)"], []),
    (["(state <s> ^type state)", "-(<s> ^operator <o> +)"], []),
]


def printed(conditions):
    return "sp {rule\n    " + "\n    ".join(conditions) + "\n    -->\n    (<s> ^done yes +)\n}\n"


class Rows(unittest.TestCase):
    def test_rows_are_those_of_the_language(self):
        memory = memory_of(MEMORY)
        for conditions, wanted in ROWS:
            text = printed(conditions)
            with self.subTest(conditions):
                found = rows_of(conditions_of(read_production(text), text), memory)
                self.assertEqual(sorted(row.tags for row in found), wanted)

    def test_goals_are_found_from_the_top_down(self):
        self.assertEqual([str(goal) for goal in memory_of(MEMORY).goals], ["S1", "S2"])

    def test_rows_beyond_the_limit_are_refused(self):
        text = printed(["(state <s> ^operator <o> +)"])
        condition, = conditions_of(read_production(text), text)
        with self.assertRaises(TooManyRows):
            rows_after(condition, rows_of([], memory_of(MEMORY)), memory_of(MEMORY), 1)


class Why(unittest.TestCase):
    def why(self, *conditions):
        return why_lines(printed(conditions), memory_of(MEMORY))

    def test_a_word_in_other_letters(self):
        self.assertEqual(self.why("(state <s> ^room <r>)", "(<r> ^light dark)", "(<r> ^person <p>)"), [
            "     1  (state <s> ^room <r>)",
            "     0  (<r> ^light dark)   <-- none from here on",
            "     0  (<r> ^person <p>)",
            "nearest to (<r> ^light dark), where <r> is R1:",
            "  7: (R1 ^light Dark)   the value is Dark, and dark is asked for",
            "  10: (R2 ^light dark)  the identifier is R2, and <r> is R1"])

    def test_a_number_and_a_word(self):
        self.assertIn("  14: (R1 ^size |5|)  the value is |5|, and 5 is asked for: a word is not an integer",
                      self.why("(state <s> ^room <r>)", "(<r> ^size 5)"))

    def test_a_relation(self):
        self.assertIn("  16: (R1 ^size 9)    the value is 9, and > 10 is asked for", self.why("(state <s> ^room <r>)", "(<r> ^size > 10)"))

    def test_a_slip_in_an_attribute(self):
        self.assertIn("  7: (R1 ^light Dark)  the attribute is light, and lihgt is asked for",
                      self.why("(state <s> ^room <r>)", "(<r> ^lihgt Dark)"))

    def test_a_candidate_that_is_not_selected(self):
        lines = self.why("(state <s> ^room <r>)", "(<s> ^operator { <o> <> <r> })", "(<o> ^name go)")
        self.assertEqual(lines[2], "     0  (<o> ^name go)   <-- none from here on")
        self.assertEqual(lines[3], "no element fails one test alone of (<o> ^name go), where <o> is O2")
        self.assertEqual(lines[4], "  no element has the attribute name")

    def test_a_negation_that_is_in_the_way(self):
        self.assertEqual(self.why("(state <s> ^room <r>)", "-{(<r> ^person <p>) (<p> ^awake yes)}")[-2:], [
            "in the way of -{(<r> ^person <p>) (<p> ^awake yes)}, where <r> is R1:",
            "  8: (R1 ^person P1), 9: (P1 ^awake yes)"])

    def test_a_rule_that_fits(self):
        self.assertEqual(self.why("(state <s> ^room <r>)", "(<r> ^size 7)")[-1], "it fits once: 6 15")
