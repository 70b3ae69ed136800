"""Hints below a refusal: what was probably meant, and what to write."""

import re
from difflib import get_close_matches

from porting import recipes

from .aliases import is_of_clips
from .cuts import first_word
from .help import brief, entries
from .hints import findings_of
from .refusals import UNFINISHED, place_in
from .tokens import tokens

UNKNOWN, UNEXPECTED, WRONG_WORDS, NO_PRODUCTION = 10, 16, 30, 32
MOST_FINDINGS = 2


def remedies(refusal, command, completer):
    """Returns hints on a refused command as lines; `completer` knows the commands and the rules."""
    if first_word(command) == "sp":
        return production_hints(refusal, command)
    if refusal.number == UNKNOWN:
        return command_hints(command, completer.commands())
    if refusal.number == WRONG_WORDS:
        return form_hints(first_word(command))
    if refusal.number == NO_PRODUCTION:
        return nearest_hints(refusal.text.split(" ", 2)[2], completer.get("names"))
    return []


def nearest_hints(word, words):
    """Returns a hint on a word that is like known ones."""
    like = get_close_matches(word, words, 2)
    return [f"hint: is {' or '.join(like)} meant?"] if like else []


# ---- commands

def command_hints(command, words):
    """Returns a hint on a command that is not there: one of CLIPS, of Soar, or one that is spelt in another way."""
    word = first_word(command)
    if is_of_clips(command):
        return ["hint: docs/FROM-CLIPS.md says what to write here"]
    if word in recipes.COMMAND_RECIPES or word in recipes.WITHOUT or word.startswith("set-"):
        why, recipe = recipes.command_finding(word)
        return [f"hint: {why}" + ("" if recipe == recipes.TAKE_OUT else f". {recipe.replace(recipes.TAKE_OUT + '. ', '')}")]
    return nearest_hints(word, words) or ["hint: `help` lists the commands"]


def form_hints(word):
    """Returns a hint with the forms of a command, and with what it does if it has one form."""
    found = [entry for entry in entries() if word == entry.word()]
    forms = [form for entry in found for form in entry.forms]
    if len(forms) == 1:
        return [f"hint: its form is {forms[0]}: it {brief(found[0].text)}"]
    return [f"hint: its forms are {', '.join(forms)}"] if forms else []


# ---- productions

def production_hints(refusal, command):
    """Returns hints on a refused production: what Soar has and this language has not, or a brace or a bracket that is open."""
    if re.match(r'sp\s*"', command):
        return ["hint: write sp {NAME ..} in the place of sp \"NAME ..\""]
    if refusal.number in (UNFINISHED, UNEXPECTED) and swallowed_hints(refusal, command):
        return swallowed_hints(refusal, command)
    found = [finding for finding in findings_of(command) if finding.kind not in ("unread", "unfinished")][:MOST_FINDINGS]
    if found:
        return [f"hint: line {refusal.line + one.line - 1}, column {one.column}: {one.why}. {one.recipe}" for one in found]
    return bracket_hints(refusal, command) if refusal.number == UNEXPECTED else []


def swallowed_hints(refusal, command):
    """Returns a hint if another production begins inside the braces of this one."""
    found = re.search(r"\n\s*sp\s*\{", command)
    line = refusal.line + command.count("\n", 0, found.end()) if found else 0
    return [f"hint: line {line} begins another sp, but the {{ of line {refusal.line} is still open"] if found else []


def bracket_hints(refusal, command):
    """Returns a hint if a bracket is open at the token to which a refusal points, or none is, or there is no arrow."""
    place = place_in(command, refusal)
    opened, before, arrow, here = [], None, False, None
    for token in tokens(command):
        if token.start >= place:
            here = token
            break
        if token.is_mark("("):
            opened.append(token.start)
        elif token.is_mark(")") and opened:
            opened.pop()
        arrow = arrow or token.is_mark("-->")
        before = token
    if here is None:
        return []
    if before is not None and before.is_mark("(") and opened[:-1]:
        opened.pop()
    if opened and (here.is_mark("(") or here.is_mark("-->") or here.is_mark("}") or arrow and here.kind == "variable"):
        start = opened[-1]
        line, column = refusal.line + command.count("\n", 0, start), start - command.rfind("\n", 0, start)
        return [f"hint: the ( of line {line}, column {column} is still open"]
    if here.is_mark(")") and not opened:
        return ["hint: no ( is open here"]
    return [] if arrow or not here.is_mark("}") else ["hint: the arrow --> is missing"]
