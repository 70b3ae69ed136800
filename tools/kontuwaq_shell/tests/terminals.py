"""The shell in a terminal, by tmux."""

import shlex
import shutil
import subprocess
import tempfile
import time
import unittest
from pathlib import Path

from ..main import TOP, program_words
from .sessions import COUNTER, has_program

SECONDS = 120

# Five conditions; the third asks for `colour`, and the elements have `color`.
AGENT = """sp {paint*propose
    (state <s> ^superstate nil ^house <h>)
    (<h> ^wall <w>)
    (<w> ^colour grey)
    (<h> ^owner.name anna)
    -->
    (<s> ^operator <o> +)
    (<o> ^name paint ^wall <w>)
}
add-wme S1 ^house <h>
add-wme <h> ^wall <w>
add-wme <w> ^color grey
add-wme <h> ^owner <p>
add-wme <p> ^name anna
"""


class Pane:
    """A shell in a session of tmux of its own."""

    def __init__(self, folder, history):
        # A folder of its own for each pane, since a server that is ending takes no new session.
        own = tempfile.mkdtemp(dir=folder)
        self.socket, self.ended = f"{own}/tmux", Path(own, "status")
        command = (f"SOAR_APP={shlex.quote(program_words()[0])} KONTUWAQ_HISTORY={shlex.quote(history)} {shlex.quote(str(TOP / 'tools/shell'))}; "
                   f"echo $? >{shlex.quote(str(self.ended))}")
        self.tmux("-f", "/dev/null", "new-session", "-d", "-x", "120", "-y", "50", command)
        self.tmux("set-option", "-g", "remain-on-exit", "on")

    def tmux(self, *words):
        return subprocess.run(["tmux", "-S", self.socket, *words], stdout=subprocess.PIPE, text=True, check=True).stdout

    def type(self, text):
        for line in text.split("\n")[:-1]:
            self.tmux("send-keys", "-l", line)
            self.tmux("send-keys", "Enter")

    def press(self, *keys):
        self.tmux("send-keys", *keys)

    def screen(self):
        return self.tmux("capture-pane", "-p", "-S", "-500")

    def status(self):
        """Returns the status with which the shell ended, or an empty text if it still runs."""
        return self.ended.read_text().strip() if self.ended.exists() else ""

    def wait_for(self, text):
        """Returns the screen once it shows a text, or after a long while."""
        return waited(self.screen, lambda screen: text in screen)

    def kill(self):
        subprocess.run(["tmux", "-S", self.socket, "kill-server"], stderr=subprocess.DEVNULL)


def waited(look, is_enough):
    """Returns what `look` gives once it is enough, or after a long while."""
    end = time.monotonic() + SECONDS
    while not is_enough(look()) and time.monotonic() < end:
        time.sleep(0.1)
    return look()


@unittest.skipUnless(has_program() and shutil.which("tmux"), "no program is given, or tmux is not here")
class Terminal(unittest.TestCase):
    def setUp(self):
        self.folder = tempfile.TemporaryDirectory()
        self.history = str(Path(self.folder.name, "history"))
        self.pane = Pane(self.folder.name, self.history)

    def tearDown(self):
        self.pane.kill()
        self.folder.cleanup()

    def expect(self, text):
        self.assertIn(text, self.pane.wait_for(text))

    def test_a_session(self):
        self.expect("soar>")
        self.pane.type("sp {wrong (state <s> ^a <x>)\n")
        self.expect("soar> sp {wrong (state <s> ^a <x>)\n   {>")
        self.pane.type("   --> (<s> ^b <x>+)}\n")
        self.expect("error 12 -:1: bad byte at byte 44\n  2 |    --> (<s> ^b <x>+)}\n    |                ^ column 16\n"
                    "hint: line 2, column 16: `<x>+` is no token. Put a blank between a variable and a sign\nsoar>")
        self.pane.type(AGENT)
        self.pane.press("-l", "why pai")
        self.pane.press("Tab")
        self.expect("soar> why paint*propose")
        self.pane.press("Enter")
        self.expect("     0  (<w> ^colour grey)   <-- none from here on\n")
        self.expect("nearest to (<w> ^colour grey), where <w> is W1:\n"
                    "  8: (W1 ^color grey)  the attribute is color, and colour is asked for\nsoar>")
        self.interrupt()
        self.recall()

    def interrupt(self):
        """Ctrl-C ends a long run and an open command, and the agent stays."""
        self.pane.type("".join(COUNTER.splitlines(True)[:3]) + "watch 0\nrun 1000000\n")
        self.expect("soar> run 1000000\n")
        time.sleep(1)
        self.pane.press("C-c")
        self.expect(": Ctrl-C\nsoar>")
        Path(self.folder.name, "long.soar").write_text("run 1000000\nstats\n")
        self.pane.type(f"source {self.folder.name}/long.soar\n")
        time.sleep(1)
        self.pane.press("C-c")
        self.expect(f"left out: {self.folder.name}/long.soar from line 2 on\nsoar>")
        self.pane.type("sp {open\n")
        self.pane.press("C-c")
        self.pane.type("find ^color\n")
        self.expect("soar> find ^color\n8: (W1 ^color grey)\nsoar>")

    def recall(self):
        """The history stays between sessions."""
        self.pane.press("C-d")
        self.assertEqual(waited(self.pane.status, bool), "1", self.pane.screen())
        lines = Path(self.history).read_text().split("\n")
        self.assertIn("find ^color", lines)
        self.assertIn("sp {paint*propose (state <s> ^superstate nil ^house <h>) (<h> ^wall <w>) (<w> ^colour grey) (<h> ^owner.name anna) "
                      "--> (<s> ^operator <o> +) (<o> ^name paint ^wall <w>) }", lines)
        self.assertNotIn("    -->", lines)
        self.pane.kill()
        self.pane = Pane(self.folder.name, self.history)
        self.expect("soar>")
        self.pane.press("Up")
        self.expect("soar> find ^color")
