"""Carets below refusals, hints, and where commands end."""

import unittest

from ..aliases import canonical
from ..completion import Completer
from ..cuts import cuts, extent, words_of
from ..feeding import LARGEST_PIECE, pieces
from ..hints import hints_on_production, refiring_hints
from ..memory import memory_of
from ..refusals import Refusal, refusal_of, shown
from ..remedies import remedies
from ..terminal import one_line

RULE = "sp {a\n   (state <s> ^a <x> ^b <y>)\n   (<x> ^c 1 2)\n   -{(<y> ^d 1)}\n   (<z> ^e 3)\n   -->\n   (<s> ^f (+ <w> 1) ^g <x> >)}"

# A refusal, its command that begins on line 5, and the lines that show its place.
PLACES = [
    ("error 12 -:5: bad byte at byte 8", "sp {b <x>+}", ["  5 | sp {b <x>+}", "    |         ^ column 9"]),
    ("error 16 -:5: unexpected token at byte 44", RULE, ["  7 |    (<x> ^c 1 2)", "    |          ^ column 10"]),
    ("error 16 -:5: unexpected token at byte 13", "sp {ä |界| x}", ["  5 | sp {ä |界| x}", "    |            ^ column 11"]),
    ("error 21 -:5: unbound variable <w>", RULE, ["  11 |    (<s> ^f (+ <w> 1) ^g <x> >)}", "     |               ^ column 15"]),
    ("error 22 -:5: unconnected condition 6", RULE, ["  9 |    (<z> ^e 3)", "    |    ^ column 4"]),
    ("error 22 -:5: unconnected condition 4", RULE, ["  7 |    (<x> ^c 1 2)", "    |              ^ column 14"]),
    ("error 25 -:5: preference for an ordinary attribute", RULE, ["  11 |    (<s> ^f (+ <w> 1) ^g <x> >)}", "     |                         ^ column 25"]),
    ("error 32 -:5: no production B", "matches  B", ["  5 | matches  B", "    |          ^ column 10"]),
    ("error 31 -:5: unknown identifier B1", "print b1", ["  5 | print b1", "    |       ^ column 7"]),
    ("error 37 -:5: halted", "run 1", ["  5 | run 1", "    | ^ column 1"]),
    ("error 11 -:5: unfinished command", "sp {a (state <s>\n ^a |b)", ["  6 |  ^a |b)", "    |     ^ column 5"]),
    ("error 12 -:5: bad byte at byte 5", "sp\t{ @}", ["  5 | sp\t{ @}", "    |   \t  ^ column 6"]),
]


class Carets(unittest.TestCase):
    def test_each_points_at_its_place(self):
        for line, command, wanted in PLACES:
            with self.subTest(line):
                refusal = refusal_of(line)
                self.assertEqual(shown(refusal, command), wanted)

    def test_a_text_of_a_rule_is_no_refusal(self):
        for line in ("error", "error 99 -:1: x", "an error 12 -:1: x", "error 12 of many"):
            self.assertIsNone(refusal_of(line))


# Productions that load, and their hints.
HINTS = [
    ("sp {a (state <s> ^n > 3 < 9) --> (<s> ^b 1)}",
     ["hint: line 1, column 25: ^n > 3 < 9 asks for 2 elements; for one value that passes all tests write { > 3 < 9 }"]),
    ("sp {a (state <s> ^n { > 3 < 9 } ^m <x>) --> (<s> ^b (+ <x> 1))}", []),
    ("sp {a\n (state <s> ^n <x>)\n --> (<s> ^y <x> + 1)}", ["hint: line 3, column 14: this makes two values, <x> and 1; a sum is (+ <x> 1)"]),
    ("sp {a (state <s> ^n <x>) --> (<s> ^n <x> - (+ <x> 1) ^m <x> - 5 ^c red + blue +)}", []),
    ("sp {a (state <s>) --> (<s> ^operator <o> +=)}", ["hint: line 1, column 42: += is one word here; put a blank between: + ="]),
    ("sp {a (state <s> ^n <x>) --> (<s> ^m <x> * 2)}",
     ["hint: line 1, column 42: * is one word here; a computed value stands in brackets, as (* <x> 2)"]),
    ("sp {a (state <s> ^n <x>) --> (<s> ^m (* <x> 2)) (write <x> --- |+=|)}", []),
    ("sp {a (state <s> ^n 1) --> (<s> ^operator <o> + &)}",
     ["hint: line 1, column 49: `&` is a word, and would be one more value. Take it out"]),
    ("sp {a (state <s>\n ^smem.command <c>) --> (<c> ^n 1)}",
     ["hint: line 2, column 3: `^smem`: there is no semantic memory. Keep what is needed in working memory, or give it as input"]),
]


class Hints(unittest.TestCase):
    def test_traps_that_load_are_named(self):
        for command, wanted in HINTS:
            with self.subTest(command):
                self.assertEqual([hint.line(command, 1, "-") for hint in hints_on_production(command)], wanted)

    def test_an_application_that_fires_again_is_named(self):
        commands = [("a.soar", cut) for cut in cuts(
            "\nsp {a (state <s> ^operator <o> ^n <x>) (<o> ^name count ^from <x>) --> (<s> ^n <x> - (+ <x> 1))}\n"
            "sp {b\n (state <s> ^operator <o> ^n <x>) (<o> ^name add) --> (<s> ^n <x> - (+ <x> 1))}\n")]
        first, remedy = refiring_hints(commands)
        self.assertEqual(first, "hint: a.soar, line 4, column 63: b fires again by the new ^n, before the proposal retracts")
        self.assertIn("docs/FROM-SOAR.md", remedy)
        self.assertEqual(refiring_hints(commands[:1]), [])

    def test_a_hint_on_a_file_names_it(self):
        hint, = hints_on_production(HINTS[0][0])
        self.assertTrue(hint.line(HINTS[0][0], 7, "a.soar").startswith("hint: a.soar, line 7, column 25: "))


# Refused productions, and the hints below the refusal, which is of line 1.
REMEDIES = [
    (16, "sp {a\n (state <s> ^a 1\n (<s> ^b 2)\n -->\n (<s> ^c 3)}", 24, ["hint: the ( of line 2, column 2 is still open"]),
    (16, "sp {a\n (state <s> ^a 1)\n -->\n (<s> ^b 2\n (<s> ^c 3)}", 41, ["hint: the ( of line 4, column 2 is still open"]),
    (16, "sp {a\n (state <s> ^a 1))\n -->\n (<s> ^b 2)}", 23, ["hint: no ( is open here"]),
    (16, "sp {a\n (state <s> ^a 1)\n (<s> ^b 2)}", 35, ["hint: the arrow --> is missing"]),
    (16, "sp {a\n (state <s> ^a 1)\n\nsp {b (state <s>) --> (halt)}}", 25, ["hint: line 4 begins another sp, but the { of line 1 is still open"]),
    (16, "sp \"a (state <s>) --> (halt)\"", 3, ['hint: write sp {NAME ..} in the place of sp "NAME .."']),
    (12, "sp {a (state <s> ^a 1) --> (<s> ^operator <o>+)}", 44,
     ["hint: line 1, column 43: `<o>+` is no token. Put a blank between a variable and a sign"]),
]


class Remedies(unittest.TestCase):
    def test_a_refused_production_has_a_hint(self):
        for number, command, byte, wanted in REMEDIES:
            with self.subTest(command):
                self.assertEqual(remedies(Refusal(number, "-", 1, f"unexpected token at byte {byte}"), command, None), wanted)

    def test_a_refused_command_has_a_hint(self):
        completer = Completer(lambda: ["lamp*on", "rest"], lambda: memory_of(""))
        for number, text, command, wanted in (
                (10, "unknown command", "matchs", ["hint: is matches or watch meant?"]),
                (10, "unknown command", "(assert (a))", ["hint: docs/FROM-CLIPS.md says what to write here"]),
                (10, "unknown command", "waitsnc --on", ["hint: a state without operators always gets a substate. "
                                                         "If it was on, propose a `wait` operator that is worst, `+ <`, and a new one in each cycle"]),
                (30, "wrong words", "watch 9", ["hint: its form is watch N: it sets the watch level, 0 to 5"]),
                (32, "no production lamp*no", "print lamp*no", ["hint: is lamp*on meant?"]),
                (10, "unknown command", "zzz", ["hint: `help` lists the commands"]), (37, "halted", "run 1", [])):
            self.assertEqual(remedies(Refusal(number, "-", 1, text), command, completer), wanted, command)


class Commands(unittest.TestCase):
    def test_a_file_goes_out_in_pieces(self):
        text = "# one\nstats\n\nprint S1 # two\nrun 1\nsource a b\nstats\nquit\nsp {a"
        self.assertEqual([(piece.line, piece.text) for piece in pieces(text)],
                         [(2, "stats\n\nprint S1 # two"), (5, "run 1"), (6, "source a b"), (7, "stats"), (8, "quit"), (9, "sp {a")])
        long = [piece.text for piece in pieces("stats\n" * LARGEST_PIECE + "\n" * LARGEST_PIECE + "stats")]
        self.assertLess(max(map(len, long)), LARGEST_PIECE)
        self.assertEqual("\n".join(long).count("stats"), LARGEST_PIECE + 1)

    def test_a_stream_is_cut_as_the_program_cuts_it(self):
        text = "# one\nrun 1 # {\n\nsp {a |}\n{| \"}\" # }\n}\n  print S1\nsp {b"
        self.assertEqual([tuple(cut) for cut in cuts(text)], [(2, "run 1 # {"), (4, "sp {a |}\n{| \"}\" # }\n}"), (7, "print S1"), (8, "sp {b")])

    def test_what_is_open_is_known(self):
        for text, wanted in (("sp {a {b", [3, 6]), ("sp {a |b", [3, 6]), ("print |a\\|", [6]), ("a } {", [4]), ("a # {", [])):
            self.assertEqual(extent(text)[1], wanted, text)

    def test_a_command_of_several_lines_is_recalled_as_one(self):
        for text, wanted in (("sp {a  # c |x\n   (state <s> ^a |b  # c|)\n\t-->\n  (halt) # {\n}", "sp {a (state <s> ^a |b  # c|) --> (halt) }"),
                             ("sp {a |b\nc|}", None), ("stats", "stats")):
            self.assertEqual(one_line(text), wanted)

    def test_words_keep_bars_together(self):
        self.assertEqual(words_of("print |a  b| # c"), ["print", "|a  b|"])

    def test_words_are_completed(self):
        completer = Completer(lambda: ["lamp*on", "lamp*off", "rest"], lambda: memory_of("1: (S1 ^io I1)\n2: (I1 ^input-link I2)\n"))
        completer.learn("sp {a (state <s> ^room.door <d> ^operator.name close) (<d> ^name oak) --> (<d> ^opened no)}")
        for before, begun, within, wanted in (
                ("", "matc", False, ["matches"]), ("why ", "lamp", False, ["lamp*off", "lamp*on"]), ("print ", "--r", False, ["--rules"]),
                ("find ", "S", False, ["S1"]), ("find ^", "inp", False, ["input-link"]), ("   (<s> ^", "io.in", True, ["io.input-link"]),
                ("sp {a ", ":o", True, [":o-support"]), ("source ", "tools/sh", False, []), ("help ", "unb", False, ["unbreak"]),
                ("p ", "lamp*of", False, ["lamp*off"]), ("find ^", "do", False, ["door"]), ("  -(<d> ^", "ope", True, ["opened", "operator"]),
                ("until operator ", "c", False, ["close"])):
            found = completer.candidates(before, begun, within)
            self.assertEqual([name for name in found if not name.startswith("tools/")], wanted, before + begun)

    def test_words_of_soar_and_clips(self):
        for said, wanted in (
                ("d", "run 1"), ("d 5", "run 5"), ("run -d 5", "run 5"), ("run", "run"), ("p s1 -d 2", "print -d 2 s1"), ("p --stack", "goals"),
                ("print (s1 ^a *)", "find s1 ^a *"), ("pref s1", "preferences s1 operator"), ("wm add s1 ^a b", "add-wme s1 ^a b"),
                ("learn --on", "chunk always"), ('sp "a\n (b)" # c', "sp {a\n (b)} # c"), ('sp "a |\\"|"', 'sp "a |\\"|"'), ("matches -w a", "why a"), ("matches a", "matches a"), ("matches", "matches"), ("ps", "goals"),
                ("production break --set a", "break a"), ("pbreak -c a", "unbreak a"), ("(reset)", "init-soar"), ("(run 5)", "run 5"), ("(facts)", "print --wm"),
                ('(load "a b.soar")', "source a b.soar"), ("(watch rules)", "watch 3"), ("(assert (a))", "(assert (a))"),
                ("source a b # c", "source a b # c"), ("print |a  b|", "print |a  b|")):
            self.assertEqual(canonical(said), wanted)
