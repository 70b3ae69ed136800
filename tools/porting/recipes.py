"""Recipes: what Soar 9.6 has and this language has not, with what to write in its place."""

FUNCTIONS = {"+", "-", "*", "div", "mod", "abs", "min", "max", "concat", "ifeq", "strlen", "crlf"}
ACTIONS = {"write", "halt"}
FLAGS = {":o-support", ":i-support", ":default", ":chunk"}

OUTSIDE = "Work it out outside of the agent, and give the value as input"
MEMORY = "Keep what is needed in working memory, or give it as input"

FUNCTION_RECIPES = {
    "/": "Use `(div <a> <b>)`, which cuts toward zero; scale first: `(div (* 100 <a>) <b>)`",
    "int": "Leave the call away, since all numbers are integers",
    "float": "Leave the call away, and scale to whole numbers",
    "round": "Leave the call away, and scale to whole numbers",
    "round-off": "Use `div` and `*`: `(* 10 (div <a> 10))`",
    "round-off-heading": "Use `div` and `*`: `(* 10 (div <a> 10))`",
    "sqrt": OUTSIDE,
    "sin": OUTSIDE,
    "cos": OUTSIDE,
    "atan2": OUTSIDE,
    "compute-heading": OUTSIDE,
    "compute-range": OUTSIDE,
    "timestamp": "Give the time as input",
    "accept": "Give the word as input",
    "exec": "Let a program outside read the output link and add inputs",
    "cmd": "Let a program outside read the output link and send commands",
    "tcl": "Let a program outside read the output link and send commands",
    "rand-int": "Propose an indifferent operator for each number, and draw by `random` words; or give it as input",
    "rand-float": "Propose an indifferent operator for each number, and draw by `random` words; or give it as input",
    "make-constant-symbol": "Use `(concat word- <n>)` with a number that the agent counts",
    "capitalize-symbol": "Write the word with its capital, or give it as input",
    "trim": "Give the word as input as it is needed",
    "deep-copy": "Write a rule for each attribute that is copied",
    "link-stm-to-ltm": MEMORY,
    "interrupt": "Use `(halt)`, or let the script use `run N` and look",
    "log": "Use `(write ..)`",
    "dont-learn": "Use the command `chunk never`",
    "force-learn": "Use the command `chunk always`",
    "wait": "Leave the call away",
}
OTHER_FUNCTION = "Use one of + - * div mod abs min max concat ifeq strlen crlf, or give the value as input"

ATTRIBUTES = {
    "epmem": ("there is no episodic memory", MEMORY),
    "smem": ("there is no semantic memory", MEMORY),
    "svs": ("there is no spatial memory", "Give what the agent sees as input"),
    "reward-link": ("there is no reinforcement learning", "Take it out, and give the numeric preferences as constants"),
}

FLAG_RECIPES = {
    ":template": "Write one rule for each case",
    ":interrupt": "Take the flag out; let the script use `run 1` and look",
}
OTHER_FLAG = "Use one of :o-support :i-support :default :chunk, or take the flag out"

ALIASES = {
    "?": "help", "a": "alias", "aw": "add-wme", "ctf": "command-to-file", "ex": "excise", "exit": "quit",
    "fc": "firing-counts", "gds_print": "gds-print", "h": "help", "inds": "indifferent-selection",
    "init": "init-soar", "is": "init-soar", "interrupt": "stop-soar", "l": "learn", "man": "help", "p": "print",
    "pr": "preferences", "pw": "pwatch", "r": "run", "rn": "rete-net", "rw": "remove-wme", "ss": "stop-soar",
    "st": "stats", "stop": "stop-soar", "topd": "pwd", "un": "unalias", "w": "watch",
}

# Commands of this program: the form of their words, and what to write if the words have another form.
FORMS = {
    "excise": (r"[^-\s]\S*", "Use `excise NAME` for each rule; a new run of the program has no rules and no chunks"),
    "add-wme": (r"(?:[A-Za-z]\d+|<[^<>\s]+>) \^\S+ (?![a-z]\d+$|\*$)(?:\|.*\||\S+)",
                "Use `add-wme ID ^ATTRIBUTE VALUE`; as VALUE an identifier has a capital letter, `B1`, "
                "and the word is in bars, `|b1|`"),
    "remove-wme": (r"\d+", "Use `remove-wme TAG`"),
    "input": (r"(?:add|remove) (?:[A-Za-z]\d+|<[^<>\s]+>) \^\S+ .+", "Use `input add ID ^ATTRIBUTE VALUE`"),
    "random": (r"\d+(?: \d+)*", "Use `random N ..`"),
    "run": (r"\d+", "Use `run N`, which counts cycles"),
    "watch": (r"[0-5]", "Use `watch N`, with N from 0 to 5"),
    "matches": (r"(?:[^-\s]\S*)?", "Use `matches` or `matches NAME`; `watch 3` shows what fires and retracts"),
    "preferences": (r"(?:[A-Za-z]\d+|<[^<>\s]+>) [^-^\s]\S*", "Use `preferences ID ATTRIBUTE`"),
    "print": (r"--wm|--rules|--chunks|[^-(\s]\S*", "Use `print ID`, `print NAME`, `print --wm`, `print --rules` or `print --chunks`"),
    "chunk": (r"always|never|allow-local-negations (?:on|off)",
              "Use `chunk always`, `chunk never` or `chunk allow-local-negations on`"),
    "indifferent-selection": (r"first|last|softmax|epsilon-greedy \d+ \d+",
                              "Use `indifferent-selection first`, `last`, `softmax` or `epsilon-greedy P Q`"),
    "max-elaborations": (r"\d+", "Use `max-elaborations N`"),
    "explain": (r"[^-\s]\S*", "Use `explain NAME`, which writes the whole explanation"),
    "stats": (r"", "Use `stats`, without words"),
    "init-soar": (r"", "Use `init-soar`, without words"),
    "quit": (r"", "Use `quit`, without words"),
}

TAKE_OUT = "Take the command out"
NO_MEMORY_HERE = ("there is no semantic, episodic or spatial memory", "Take the command out. " + MEMORY)
NO_REWARDS = ("there is no reinforcement learning", "Take the command out, and give the numeric preferences as constants")

COMMAND_RECIPES = {
    "gp": ("rules are not generated", "Write an `sp` for each rule that it stands for"),
    "learn": ("the command has another name", "Use `chunk always` or `chunk never`"),
    "waitsnc": ("a state without operators always gets a substate", "Take the command out. If it was on, propose a `wait` operator that is worst, `+ <`, and a new one in each cycle"),
    "multi-attributes": ("the matcher orders conditions itself", TAKE_OUT),
    "smem": NO_MEMORY_HERE,
    "epmem": NO_MEMORY_HERE,
    "svs": NO_MEMORY_HERE,
    "wma": ("elements have no activation", TAKE_OUT),
    "rl": NO_REWARDS,
    "select": ("no command selects an operator", "Load a rule that prefers it"),
    "predict": ("no command predicts a draw", "Give the `random` words, and a run can be repeated"),
    "decide": ("the command has another name", "Use `indifferent-selection first`, `last`, `softmax` or `epsilon-greedy P Q`"),
    "numeric-indifferent-mode": ("numeric preferences are added up", TAKE_OUT),
    "srand": ("draws take recorded words", "Use `random N ..` before `run`"),
    "rand": ("draws take recorded words", "Use `random N ..` before `run`"),
    "soar": ("the command has another name", "Use `init-soar`, `max-elaborations N`, or take it out"),
    "trace": ("the command has another name", "Use `watch N`, with N from 0 to 5"),
    "pwatch": ("a single rule has no trace", "Use `watch 3`, or let the rule `write`"),
    "watch-wmes": ("single elements have no trace", "Use `watch 4`"),
    "production": ("the command has another name", "Use `excise NAME`, `matches NAME` or `print --rules`"),
    "firing-counts": ("firings are not counted by rule", "Use `watch 3`"),
    "memories": ("matches are not counted by rule", "Use `matches`, or `stats`"),
    "wm": ("the command has another name", "Use `add-wme ID ^ATTRIBUTE VALUE`, `remove-wme TAG` or `print --wm`"),
    "step": ("the command has another name", "Use `run 1`"),
    "d": ("the command has another name", "Use `run N`, which counts cycles"),
    "e": ("waves are not run one by one", "Use `run N`, which counts cycles"),
    "s": ("the command has another name", "Use `run 1`"),
    "pc": ("the command has another name", "Use `print --chunks`"),
    "ps": ("the command has another name", "Use `print ID` for each state; `watch 1` shows the substates"),
    "wmes": ("the command has another name", "Use `print --wm`"),
    "varprint": ("the command has another name", "Use `print NAME`"),
    "gds-print": ("dependency sets are not listed", "Use `watch 4`, which shows when a substate goes and what went before"),
    "explain-backtraces": ("the command has another name", "Use `explain NAME`"),
    "save-backtraces": ("each chunk keeps its explanation", TAKE_OUT),
    "max-chunks": ("50 chunks are learned in a cycle at most", TAKE_OUT),
    "max-goal-depth": ("100 goals are there at most", TAKE_OUT),
    "stop-soar": ("a run ends by its number of cycles", "Use `(halt)` in a rule"),
    "echo": ("no command writes a text", "Let a rule `write` it, or make it a comment"),
    "puts": ("no command writes a text", "Let a rule `write` it, or make it a comment"),
    "load": ("the command has another name", "Use `source FILE`"),
    "capture-input": ("inputs are commands", "Keep the commands `input add` and `input remove` in a file"),
    "replay-input": ("inputs are commands", "Keep the commands `input add` and `input remove` in a file"),
    "alias": ("commands have no other names", "Write the command itself"),
    "unalias": ("commands have no other names", TAKE_OUT),
}
# Commands that set or show what this program does not have.
WITHOUT = """allocate ask chunk-name-format cli clog command-to-file debug default-wme-depth dirs echo-commands
edit-production help internal-symbols load-library log ls max-dc-time max-memory-usage max-nil-output-cycles
o-support-mode output port pwd rete-net save soarnews tcl time timers verbose version visualize warnings""".split()
SCRIPT = "append array break catch continue error eval expr for foreach global if incr lappend list namespace package "
SCRIPT_WORDS = (SCRIPT + "proc regexp rename return set string switch unset uplevel upvar variable while").split()


def command_finding(name):
    """Returns why a command that is not of this program cannot stay, and what to write."""
    if name in COMMAND_RECIPES:
        return COMMAND_RECIPES[name]
    if name.startswith("set-") or name in WITHOUT:
        return f"there is no command `{name}`", TAKE_OUT
    if name in SCRIPT_WORDS:
        return f"`{name}` is of a script language", "Write out what it stands for"
    return f"there is no command `{name}`", TAKE_OUT
