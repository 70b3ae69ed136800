"""Commands of Soar and of CLIPS in terms of this shell."""

import re

from .cuts import words_of

# Words that stand for others, with what follows them.
WORDS = {
    "?": "help", "h": "help", "man": "help", "exit": "quit",
    "p": "print", "wmes": "print", "pref": "preferences", "ex": "excise", "is": "init-soar", "init": "init-soar",
    "r": "run", "s": "run", "d": "run", "step": "run", "w": "watch", "trace": "watch", "st": "stats",
    "aw": "add-wme", "rw": "remove-wme", "fc": "counts", "firing-counts": "counts", "gs": "goals", "pgs": "goals", "stack": "goals",
    "ms": "matches", "pc": "print --chunks", "ps": "goals", "pbreak": "break", "b": "break", "clog": "log", "learn": "chunk", "ls": "!ls", "pwd": "!pwd",
    "wm add": "add-wme", "wm remove": "remove-wme", "soar init": "init-soar", "soar max-elaborations": "max-elaborations",
    "load file": "source", "output log": "log", "production excise": "excise", "production firing-counts": "counts",
    "production matches": "why", "production break": "break", "explain chunk": "explain",
    "decide indifferent-selection": "indifferent-selection",
}
STEPS = {"s", "d", "step"}
PRINTED = {
    "-a": "--rules", "--all": "--rules", "-u": "--rules", "--user": "--rules", "-c": "--chunks",
    "-s": "goals", "--stack": "goals",
}
IGNORED = {"-i", "--internal", "-f", "--full", "-n", "--names", "--name", "-t", "--tree"}
CHUNKING = {"on": "always", "--on": "always", "-e": "always", "off": "never", "--off": "never", "-d": "never"}

# What stands first in the brackets of CLIPS, and the command that it stands for; {} takes the words after it.
BRACKETS = {
    "reset": "init-soar", "run": "run {}", "step": "run 1", "facts": "print --wm", "agenda": "matches", "rules": "print --rules",
    "list-defrules": "print --rules", "ppdefrule": "print {}", "pprule": "print {}", "undefrule": "excise {}", "excise": "excise {}",
    "matches": "why {}", "load": "source {}", "load*": "source {}", "batch": "source {}", "batch*": "source {}", "exit": "quit",
    "quit": "quit", "clear": "excise -a", "retract": "remove-wme {}", "set-break": "break {}", "remove-break": "unbreak {}",
    "show-breaks": "break", "dribble-on": "log {}", "dribble-off": "log off", "unwatch": "watch 1", "help": "help {}",
}
WATCHED = {"rules": 3, "activations": 3, "facts": 4, "all": 5}
UNKNOWN_IN_CLIPS = ("assert", "defrule", "deftemplate", "deffacts", "defglobal", "deffunction", "modify")


def canonical(command):
    """Returns the command that one of Soar or CLIPS stands for; any other command as it is."""
    if command.startswith("("):
        return bracketed(command)
    quoted = re.fullmatch(r'(sp\s*)"([^"\\]*)"(\s*(?:#[^\n]*)?)', command)
    if quoted:
        return f"{quoted[1]}{{{quoted[2]}}}{quoted[3]}"
    words = words_of(command)
    for count in (2, 1):
        name = " ".join(words[:count])
        if len(words) >= count and name in WORDS:
            return with_options(name, WORDS[name].split() + words[count:])
    if not words or words[0] not in ("run", "print", "preferences", "matches"):
        return command
    changed = with_options(words[0], words)
    return command if changed == " ".join(words) else changed


def with_options(name, words):
    """Returns a command whose options of Soar are put into the form of this shell."""
    form = {"run": run_words, "print": print_words, "preferences": preference_words, "chunk": chunk_words,
            "indifferent-selection": selection_words, "matches": match_words, "break": break_words}.get(words[0])
    return " ".join(form(name, words) if form else words)


def run_words(name, words):
    """`d 5`, `run -d 5` and `run 5 -d` are counted in cycles; `step` alone is one cycle."""
    numbers = [word for word in words[1:] if not re.fullmatch(r"-[deo]|--(decision|elaboration|output)", word)]
    return ["run", *(numbers or (["1"] if name in STEPS or len(words) > 1 else []))]


def print_words(name, words):
    """Leaves out the options that change nothing here; a pattern in brackets is a `find`."""
    rest = [word for word in words[1:] if word not in IGNORED]
    pattern = re.fullmatch(r"\((\S+) \^(\S+)(?: ([^()]+))?\)", " ".join(rest))
    if pattern:
        return ["find", pattern[1], "^" + pattern[2], *([pattern[3].strip()] if pattern[3] else [])]
    if len(rest) == 1 and rest[0] in PRINTED:
        return ["goals"] if PRINTED[rest[0]] == "goals" else ["print", PRINTED[rest[0]]]
    if not rest and name == "wmes":
        return ["print", "--wm"]
    if len(rest) == 3 and rest[1] in ("-d", "--depth"):
        rest = [rest[1], rest[2], rest[0]]
    return ["print", *(["-d"] + rest[1:] if rest[:1] == ["--depth"] else rest)]


def preference_words(name, words):
    """The attribute is `operator` by default."""
    rest = [word for word in words[1:] if word not in IGNORED]
    return ["preferences", *rest[:1], *([word.lstrip("^") for word in rest[1:]] or ["operator"])]


def match_words(name, words):
    """With an option and a name, Soar counts the matches of each condition."""
    rest = [word for word in words[1:] if not word.startswith("-")]
    return ["why", *rest] if len(rest) == 1 and len(words) > 2 else ["matches", *rest]


def break_words(name, words):
    clears = {"-c", "--clear"} & set(words)
    return ["unbreak" if clears else "break", *(word for word in words[1:] if not word.startswith("-"))]


def chunk_words(name, words):
    return ["chunk", *(CHUNKING.get(word, word) for word in words[1:])]


def selection_words(name, words):
    return ["indifferent-selection", *(word.lstrip("-") for word in words[1:])]


def bracketed(command):
    """Returns what a command of CLIPS stands for, such as `(facts)`."""
    found = re.fullmatch(r"\(\s*([a-z*-]+)((?:\s+(?:\"[^\"]*\"|[^\s()\"]+))*)\s*\)\s*", command)
    if not found:
        return command
    name, rest = found[1], [word.strip('"') for word in re.findall(r"\"[^\"]*\"|\S+", found[2])]
    if name == "watch" and rest and rest[0] in WATCHED:
        return f"watch {WATCHED[rest[0]]}"
    if name == "undefrule" and rest == ["*"]:
        return "excise -a"
    if name not in BRACKETS or ("{}" not in BRACKETS[name] and rest and name not in ("unwatch", "facts", "run")):
        return command
    return canonical(BRACKETS[name].format(" ".join(rest)).strip())


def is_of_clips(command):
    """Returns whether a command of CLIPS builds something for which this shell has no command."""
    return bool(re.match(rf"\(\s*(?:{'|'.join(UNKNOWN_IN_CLIPS)})\b", command))
