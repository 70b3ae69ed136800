"""Sessions with the program, and the sessions that docs/SHELL.md shows."""

import os
import re
import subprocess
import sys
import tempfile
import unittest
from pathlib import Path

from ..agent import Agent
from ..interrupts import Interrupts
from ..main import TOP, program_words
from ..matcher import rows_of
from ..program import Program
from ..runs import IDLE

PAGE = TOP / "docs/SHELL.md"
BLOCK = re.compile(r"^```text session( more)?\n(.*?)^```$", re.S | re.M)
TYPED = re.compile(r"^(?:soar> | {0,3}[{|\"]{1,4}> )(.*)$")
SECONDS = 600


def shell(given, *words):
    """Returns what the shell writes to an input, and its status."""
    environment = {**os.environ, "SOAR_APP": program_words()[0]}
    done = subprocess.run([sys.executable, str(TOP / "tools/shell"), *words], input=given, env=environment, cwd=TOP, timeout=SECONDS,
                          stdout=subprocess.PIPE, stderr=subprocess.STDOUT, text=True)
    return done.stdout, done.returncode


def typed(text):
    """Returns the lines of a session that were typed."""
    return "".join(found[1] + "\n" for found in map(TYPED.match, text.split("\n")) if found)


def sessions(page):
    """Returns the sessions of a page, each a list of blocks."""
    found = []
    for more, text in BLOCK.findall(page):
        if more:
            found[-1].append(text)
        else:
            found.append([text])
    return found


def replayed(blocks):
    """Returns what the shell writes in the place of each block of a session."""
    lines = shell("".join(typed(block) for block in blocks), "--echo")[0].split("\n")[:-1]
    prompts = [place for place, line in enumerate(lines) if TYPED.match(line)]
    starts = [sum(typed(block).count("\n") for block in blocks[:count]) for count in range(len(blocks))]
    ends = [prompts[start] for start in starts[1:]] + [len(lines)]
    return ["".join(line + "\n" for line in lines[prompts[start]:end]) for start, end in zip(starts, ends)]


def filled(page):
    """Returns the page with what the shell writes in its sessions."""
    texts = iter([text for blocks in sessions(page) for text in replayed(blocks)])
    return BLOCK.sub(lambda found: f"```text session{found[1] or ''}\n{next(texts)}```", page)


CONDITIONS = [
    "sp {positive (state <s> ^a <x> ^b { <y> > <x> <> 9 } ^c << 1 red |S1| >>) --> (<s> ^done yes)}",
    "sp {missing (state <s> ^a <x>) -(<s> ^b <x> ^c blue) -(<s> ^d) --> (<s> ^done yes)}",
    "sp {inside (state <s> ^a <x>) -{(<s> ^link <n>) -{(<n> ^a <x>) (<n> ^kind <=> <x>)} -(<n> ^off)} --> (<s> ^done yes)}",
    "sp {path (state <s> ^link.link <n> ^type state) (<n> ^<attr> <s>) --> (<s> ^done yes)}",
    "sp {equal (state <s> ^a <x> ^b <x> ^link <n> -^link.a 5) --> (<s> ^done yes)}",
    "sp {any (state <s> ^<attr> { <v> <> <s> <=> word }) --> (<s> ^done yes)}",
    "add-wme S1 ^a 2", "add-wme S1 ^a red", "add-wme S1 ^b 2", "add-wme S1 ^b 3", "add-wme S1 ^b 9", "add-wme S1 ^c red", "add-wme S1 ^c 1",
    "add-wme S1 ^c |S1|", "add-wme S1 ^link <n>", "add-wme <n> ^link <m>", "add-wme <m> ^back S1", "add-wme <n> ^a 2", "add-wme <n> ^kind 7",
    "add-wme <n> ^link S1", "add-wme S1 ^note |a (bar\\|) and +|",
]

JOINED = """sp {first (state <s> ^superstate nil) --> (write |one |)}
sp {second (state <s> ^superstate nil) --> (write |two| (crlf) |three |)}
sp {third (state <s> ^superstate nil ^io <io>) --> (write |four | <io> |
|)}
sp {below (state <s> ^superstate <ss>) --> (write (crlf) |five|) (<s> ^seen 1)}
sp {below*too (state <s> ^seen 1) --> (write |(six)|)}
run 2
stats
watch 0
init-soar
run 2
stats
watch 2
run 1
"""

COUNTER = """sp {init :o-support (state <s> ^superstate nil) --> (<s> ^n 0)}
sp {count*propose (state <s> ^superstate nil ^n <x>) --> (<s> ^operator <o> +) (<o> ^name count ^from <x>)}
sp {count*apply (state <s> ^operator <o> ^n <x>) (<o> ^name count ^from <x>) --> (<s> ^n <x> - (+ <x> 1))}
sp {stop (state <s> ^n 3) --> (halt)}
"""


def has_program():
    return "SOAR_APP" in os.environ


@unittest.skipUnless(has_program(), "no program is given")
class Sessions(unittest.TestCase):
    def test_the_matcher_agrees_with_the_program(self):
        program = Program(program_words(), Interrupts())
        agent = Agent(program)
        for command in CONDITIONS:
            self.assertEqual(program.ask(command).text, "", command)
        memory = agent.memory()
        self.assertEqual(len(memory.elements), 20)
        for name in agent.names():
            said = program.ask("matches " + name).text
            wanted = sorted(tuple(map(int, tags.split())) for tags in re.findall(r": (.*)", said))
            with self.subTest(name):
                self.assertEqual(sorted(row.tags for row in rows_of(agent.conditions(name), memory)), wanted)
                self.assertTrue(wanted or name == "equal", said)
        self.assertEqual(program.close(), 1)

    def test_a_run_in_pieces_writes_what_a_run_writes(self):
        direct = subprocess.run(program_words(), input=JOINED, stdout=subprocess.PIPE, text=True, timeout=SECONDS)
        self.assertEqual(shell(JOINED), (direct.stdout + IDLE + "\n", 0))

    def test_refusals_have_the_lines_of_the_session_and_of_files(self):
        with tempfile.TemporaryDirectory() as folder:
            Path(folder, "a b.soar").write_text("stats\n\nsp {a\n   @}\nwatch 0\n")
            said, status = shell(f"source {folder}/a b.soar\n\n# nothing\nstats\nprint  B7\nsource {folder}\nrun 1\nwhy\n", "--watch", "5")
        lines = said.split("\n")
        counts = "cycles 0 waves 0 firings 0 retractions 0 productions 0 elements 5 preferences 0 live 0 chunks 0"
        self.assertEqual(lines[:11], [
            counts, f"error 12 {folder}/a b.soar:3: bad byte at byte 9", "  4 |    @}", "    |    ^ column 4",
            "hint: line 4, column 4: there are no long-term identifiers. Keep what is needed in working memory, or give it as input", counts,
            "error 31 -:5: unknown identifier B7", "  5 | print  B7", "    |        ^ column 8",
            "hint: `help 31` says what to do about refusal 31",
            f"hint: {folder} is a folder, and the program would end with status 6"])
        self.assertEqual(lines[11:14], ["error 30 -:8: wrong words", "  8 | why", "    | ^ column 1"])
        self.assertEqual(status, 1)

    def test_runs_stop_where_they_should(self):
        said, status = shell(COUNTER + "break count*apply\nrun 9\nunbreak\nuntil operator count 5\nuntil halt\ncounts\ncounts never\nrun 1\n")
        self.assertEqual(said.split("\n"), [
            "1:   ==>S: S2 (state no-change)", "2: O: O1 (count)", "stopped after 2 cycles: count*apply fired (firing 3)",
            "3: O: O2 (count)", "stopped after 1 cycle: O2 (count) is selected",
            "4: O: O3 (count)", "halt", "stopped after 1 cycle: the agent has halted", "     4  count*propose", "     3  count*apply", "     1  init", "     1  stop", "each rule has fired",
            "error 37 -:12: halted", "  12 | run 1", "     | ^ column 1",
            "hint: `help 37` says what to do about refusal 37", ""])
        self.assertEqual(status, 1)

    def test_what_would_end_the_program_is_not_sent(self):
        with tempfile.TemporaryDirectory() as folder:
            Path(folder, "outer.soar").write_text(f"sp {{a (state <s>) --> (<s> ^b 1)}}\nsource {folder}\nstats x\n")
            ends = f"hint: {folder} is a folder, and the program would end with status 6\n"
            self.assertEqual(shell("", folder), (ends, 2))
            said, status = shell(f"source {folder}/outer.soar\n")
            self.assertEqual(said.split("\n")[:2], [ends.rstrip("\n"), f"error 30 {folder}/outer.soar:3: wrong words"])
            self.assertEqual((said.split("\n")[-2], status), (f"{folder}/outer.soar: 1 production", 1))

    def test_a_file_runs_as_the_program_runs_it(self):
        with tempfile.TemporaryDirectory() as folder:
            Path(folder, "inner.soar").write_text("run 1 # one\nsource nowhere\nwatch 3\nprint <n>\n" + "stats\n" * 3000)
            Path(folder, "outer.soar").write_text(f"add-wme S1 ^n <n>\n{COUNTER}source {folder}/inner.soar\nrun 2\nrun x\nsource {folder}/outer.soar\nsp {{open")
            direct = subprocess.run(program_words() + [f"{folder}/outer.soar"], input="", stdout=subprocess.PIPE, text=True, timeout=SECONDS)
            said, status = shell("counts\n", f"{folder}/outer.soar")
            lines = [line for line in said.split("\n") if not re.match(r" +[0-9]* \||hint: |.*: [0-9]+ productions?$| +[0-9]+  ", line)]
            self.assertEqual("\n".join(lines), direct.stdout)
            self.assertEqual(status, 1)
            self.assertIn("    32  count*propose", said)

    def test_a_breakpoint_leaves_the_rest_of_the_files_out(self):
        with tempfile.TemporaryDirectory() as folder:
            Path(folder, "inner.soar").write_text("run 5\n\nstats\n")
            Path(folder, "outer.soar").write_text(f"source {folder}/inner.soar\nstats\n")
            said, status = shell(COUNTER + f"break count*apply\nsource {folder}/outer.soar\n")
            self.assertEqual(said.split("\n"), [
                "1:   ==>S: S2 (state no-change)", "2: O: O1 (count)", "stopped after 2 cycles: count*apply fired (firing 3)",
                f"left out: {folder}/inner.soar from line 3 on", f"left out: {folder}/outer.soar from line 2 on", ""])
            self.assertEqual(status, 0)

    def test_drawings_and_the_log_are_written(self):
        with tempfile.TemporaryDirectory() as folder:
            said, _ = shell(f"log {folder}/log\nadd-wme S1 ^box <b>\nadd-wme <b> ^size 3\ndraw wm {folder}/wm\ndraw goals {folder}/goals.dot\nlog off\n", "--echo")
            self.assertIn(f"written: {folder}/wm.dot", said)
            self.assertIn('  "S1" -> "B1" [label="box"];', Path(folder, "wm.dot").read_text().split("\n"))
            self.assertIn('  "S1" [label="S1\\l", shape=ellipse];', Path(folder, "goals.dot").read_text().split("\n"))
            self.assertIn("soar> add-wme S1 ^box <b>\n", Path(folder, "log").read_text())

    def test_a_folder_is_entered_and_left(self):
        with tempfile.TemporaryDirectory() as folder:
            folder = str(Path(folder).resolve())
            Path(folder, "a.soar").write_text("stats\n")
            said, status = shell(f"pushd {folder}\nsource a.soar\npopd\npopd\ncd {folder}/none\necho a  b # c\n")
        self.assertEqual((said.split("\n")[0], said.split("\n")[2:], status), (
            folder, [str(TOP), "no folder to go back to", f"{folder}/none: No such file or directory", "a  b", ""], 0))

    def test_the_page_shows_what_the_shell_writes(self):
        for blocks in sessions(PAGE.read_text()):
            self.assertEqual(blocks, replayed(blocks))
